"""Exit statuses, what goes to which stream, and the files that a run leaves: what no contract says of the built program."""
import json
import os
import pty
import re
import subprocess
import xml.etree.ElementTree as tree

from .running import TOP, Job, put, room as room_of, run_text as run

HEAD = "PROC main (CHAN OF BYTE keyboard, screen)\n"
LETTER = HEAD + "  screen ! 'A'\n:\n"
SHARED = HEAD + "  INT x:\n  PAR\n    x := 1\n    x := 2\n:\n"
STOPS = HEAD + "  STOP\n:\n"
FAULTS = HEAD + "  INT x:\n  x := 1 / 0\n:\n"
ENDLESS = HEAD + "  WHILE TRUE\n    SKIP\n:\n"
LARGE = HEAD + "  [1048576]INT a:\n  SKIP\n:\n"
ECHO = HEAD + "  SEQ i = 0 FOR 3\n    BYTE b:\n    SEQ\n      keyboard ? b\n      screen ! b\n:\n"
TWO = HEAD + "  CHAN OF INT c:\n  PAR\n    c ! 7\n    INT x:\n    SEQ\n      c ? x\n      screen ! BYTE (x + 48)\n:\n"
WAITS = HEAD + "  CHAN OF INT c, d:\n  PAR\n    SEQ\n      c ! 1\n      c ! 2\n      d ! 3\n    INT x:\n    SEQ\n      c ? x\n      d ? x\n      c ? x\n:\n"
MANY = HEAD + "  CHAN OF INT c:\n  PAR\n    SEQ i = 0 FOR 1200\n      c ! i\n    SEQ i = 0 FOR 1200\n      INT x:\n      c ? x\n:\n"
BESIDE = """PROC main (CHAN OF BYTE keyboard, screen)
  CHAN OF INT a, b:
  INT x, y:
  PAR
    SEQ
      a ! 1
      b ? x
    SEQ
      b ! 1
      a ? y
    WHILE TRUE
      SKIP
:
"""
ENDS = HEAD + """  CHAN OF INT c, d:
  PAR
    ALT
      INT x:
      c ? x
        STOP
      INT x:
      d ? x
        INT y:
        y := x / (x - 1)
    c ! 0
    d ! 1
:
"""
EITHER = HEAD + """  CHAN OF BYTE a, b:
  PAR
    a ! 'a'
    b ! 'b'
    BYTE x:
    SEQ
      ALT
        a ? x
          b ? x
        b ? x
          a ? x
      screen ! x
:
"""
RACE = HEAD + """  [3]CHAN OF BYTE c:
  PAR
    PAR i = 0 FOR 3
      SEQ j = 0 FOR 3
        c[i] ! BYTE (((i * 3) + j) + 97)
    BYTE x:
    SEQ k = 0 FOR 9
      SEQ
        ALT i = 0 FOR 3
          c[i] ? x
            SKIP
        screen ! x
:
"""
DEFAULTS = {"--limit": "1000000", "--quantum": "1", "--errors": "halt", "--tries": "1", "--arrows": "200", "--explore": "answers", "--states": "1000000", "--memory": "1024"}
# examples with words for their charts
PICTURES = [
    ("faults/dining", []), ("sharing/farm", []), ("sharing/pool", ["--last", "40"]), ("pipelines/primes", []), ("pipelines/squash", []), ("first_steps/relay", []), ("selection/stack", []),
    ("pipelines/matrix", ["--without", "component"]), ("pipelines/matrix", []), ("pipelines/matrix", ["--last", "50"]), ("pipelines/matrix", ["--limit", "150"]),
]
MOST = "a picture has 990 arrows at most"
SVG = "{http://www.w3.org/2000/svg}"
NO_CHOICE = "a line has two numbers with one space between, as `0 3`\n"
NO_PROCESS = """error: no process is called '{}': take a name over a column, as worker or 'line 14', or a number, as 3; keyboard, screen and error keep theirs
Usage: occam [FILE..] [OPTIONS]
occam --help says what is allowed
"""
STUCK = "unfinished: p0 was not at its end\nafter 2 communications no process can go on:\n"
STUCK_TOO = "circle: p1 p2 wait for one another\nafter 1 communication no process can go on:\n"
HALTED = "halted: p0 was halted\nafter 0 communications no process can go on:\n  p0 main, line 2: halted by STOP\n"
WAITING = """  p0 main, line 3: waits for p1 p2
  p1 main, line 6: offers 2 on c, which p2 reads
  p2 main, line 11: awaits d, which p1 writes
  in a circle, each waits for the next: p1 p2
"""
TYPED = "no FILE is named: type the source, then Ctrl-D on a line of its own\n"
NOTICE = "the program reads the keyboard: type its input, then Ctrl-D on a line of its own\n"
USAGE = "Compiles and runs an occam 2 program.\n\nUsage: occam [FILE..] [OPTIONS]\n\n`occam FILE` runs the program in FILE, `occam --help` lists the options\n"
MISSING = "no such file or folder\n"
NO_SOURCE = MISSING + "  `occam FILE` runs the program in FILE, `occam --help` lists the options\n"
ENDED_AT = "the search ended here, after {} states: there may be other answers\n"
STOPPED = '1 stopped "" by 1 choice: halted\neach run ends after 1 turn\none answer: the program has no ALT\n'
SHARED_TOLD = """refused 50 SharedVariable line 5 x
x.occ:5:5: `x` is written in one branch of a PAR and used in another
5 |     x := 2
  |     ^
  another branch uses it in line 4: give each branch a variable of its own, or send the value over a channel
"""
OLD = "what stood here before\n"
MEMORY = 32 << 20


class Case:
    """One run: its words and files, and what has to come of it."""

    def __init__(self, words, status, out="", err="", **others):
        self.words, self.status, self.out, self.err = words, status, out, err
        # what stands in the folder before, the keyboard or the source, where the answer goes, and how much memory there is
        self.files = others.get("files", {})
        self.given = others.get("given", "")
        self.to = others.get("to")
        self.memory = others.get("memory")


def on(source, *words):
    """The words for a source in a file of its own, and the file."""
    return [*words, "x.occ"], {"x.occ": source}


def of(source, words, status, out="", err="", **others):
    """A run of a source."""
    said, files = on(source, *words)
    others["files"] = {**files, **others.get("files", {})}
    return Case(said, status, out, err, **others)


CASES = [
    of(LETTER, [], 0, "A"),
    Case([], 0, "A", given=LETTER),
    of(ECHO, [], 0, "abc", given="abcd"),
    of(ECHO, [], 2, "ab\nstopped\n", given="ab"),
    of(SHARED, [], 1, "", "refused 50 SharedVariable line 5 x\n"),
    of(STOPS, [], 2, "stopped\n"),
    of(FAULTS, [], 3, "fault ARITH line 3\n"),
    of(FAULTS, ["--errors", "halt"], 3, "fault ARITH line 3\n"),
    of(FAULTS, ["--errors", "stop"], 2, "stopped ARITH line 3\n"),
    of(ENDLESS, ["--limit", "10"], 4, "limit\n"),
    of(LETTER, ["--explain"], 0, "A"),
    of(STOPS, ["--explain"], 2, "stopped\n", HALTED),
    of(FAULTS, ["--explain"], 3, "fault ARITH line 3\n", "after 0 communications:\n  p0 main, line 3: fault ARITH line 3\n    x := 1 / 0\n"),
    of(ENDLESS, ["--explain", "--limit", "10"], 4, "limit\n", "after 0 communications:\n  p0 main, line 2: can go on\n  the limit is reached: --limit N allows more turns, --quantum N makes each longer\n"),
    of(ECHO, ["--explain"], 2, "a\nstopped\n", f"{STUCK}  p0 main, line 5: awaits keyboard, whose bytes are used up\n", given="a"),
    of(WAITS, ["--explain"], 2, "stopped\n", STUCK_TOO + WAITING),
    of(LETTER, ["--limit", "0"], 4, "limit\n"),
    of(LARGE, [], 5, "", "memory\n", memory=MEMORY),
    Case(["none.occ"], 6, "", "read failed\n"),
    Case(["."], 6, "", "read failed\n"),
    of(LETTER, ["--choices", "none"], 6, "", "read failed\n"),
    of(LETTER, [], 6, "", "write failed\n", to="/dev/full"),
    of(LETTER, ["--record", "none/x"], 6, "A", "write failed\n"),
    of(LETTER, ["--chart", "none/x"], 6, "A", "write failed\n"),
    Case(["none.occ", "--explain"], 6, "", f"read failed\nnone.occ: {NO_SOURCE}"),
    Case([".", "--explain"], 6, "", "read failed\n.: it is a folder\n"),
    Case(["--check", "--explain", "x/y"], 6, "", "read failed\nx/y: a part of the path is no folder\n", files={"x": ""}),
    Case(["a\x1b[31m\x7f\u009bé\n.occ", "--explain"], 6, "", f"read failed\na\\x1b[31m\\x7f\\xc2\\x9bé\\x0a.occ: {NO_SOURCE}"),
    Case(["b\x1bc"], 1, "", "refused 50 SharedVariable line 5 x\n", files={"b\x1bc": SHARED}),
    Case(["b\x1bc", "--explain"], 1, "", SHARED_TOLD.replace("x.occ", "b\\x1bc"), files={"b\x1bc": SHARED}),
    Case(["a.occ", "--b\x1bc"], 7, "", "error: unexpected argument '--b\\x1bc' found\n  tip: to pass '--b\\x1bc' as a value, use '-- --b\\x1bc'\noccam --help says what is allowed\n"),
    of(LETTER, ["--explain", "--choices", "none"], 6, "", f"read failed\nnone: {MISSING}"),
    of(LETTER, ["--explain"], 6, "", "write failed\nstandard output: no room is left\n", to="/dev/full"),
    of(LETTER, ["--explain", "--record", "none/x"], 6, "A", f"write failed\nnone/x: {MISSING}"),
    of(LETTER, ["--explain", "--record", "none/x", "--chart", "none/y"], 6, "A", f"write failed\nnone/x: {MISSING}"),
    of(LETTER, ["--explain", "--trace-to", "none/z", "--chart", "none/y"], 6, "A", f"write failed\nnone/y: {MISSING}"),
    of(LETTER, ["--explain", "--steps", "none/u", "--trace-to", "none/z"], 6, "A", f"write failed\nnone/z: {MISSING}"),
    of(LETTER, ["--explain", "--steps", "none/u"], 6, "A", f"write failed\nnone/u: {MISSING}"),
    of(LETTER, ["--limit", "10000001"], 7, "", None),
    of(LETTER, ["--limit", "x"], 7, "", None),
    of(LETTER, ["--quantum", "0"], 7, "", None),
    of(LETTER, ["--workers", "65"], 7, "", None),
    of(LETTER, ["--errors", "none"], 7, "", None),
    of(LETTER, ["--none"], 7, "", None),
    of(LETTER, ["--record", "x.occ"], 7, "", None),
    of(LETTER, ["--record", "a", "--chart", "a"], 7, "", None),
    of(LETTER, ["--choices", "a", "--chart", "a"], 7, "", None, files={"a": "0 0\n"}),
    of(LETTER, ["--record", "./x.occ"], 7, "", "a file to be written is the source, that of --choices, or another one to be written: --record, --typed, --chart, --trace-to, --steps, --page and --graph each write into a file of their own\n"),
    of(LETTER, ["--choices", "a"], 7, "", "refused 90 BadChoice line 2\n", files={"a": "0 0\n0\n"}),
    of(LETTER, ["--choices", "a\x1b", "--explain"], 7, "", f"refused 90 BadChoice line 2\na\\x1b:2: {NO_CHOICE}", files={"a\x1b": "0 0\n0\n"}),
    of(LETTER, ["--chart", "a", "--only", "main,screen"], 7, "", NO_PROCESS.format("screen")),
    of(LETTER, ["--chart", "a", "--without", "1", "--explain"], 7, "", NO_PROCESS.format("1")),
    Case([b"\xff.occ"], 7, "", "an argument is no UTF-8\n"),
    of(LETTER, ["--trace"], 0, "A\n1 c1 screen p0>screen 65\nended\n"),
    of(LETTER, ["--watch"], 0, "A", "1 c1 screen p0>screen 65\n"),
    of(TWO, ["--watch", "--workers", "3"], 0, "7", "1 c3 c p1>p2 7\n2 c1 screen p2>screen 55\n"),
    of(TWO, ["--workers", "64"], 0, "7"),
    of(FAULTS, ["--workers", "2"], 3, "fault ARITH line 3\n"),
    of(STOPS, ["--workers", "2"], 2, "stopped\n"),
    of(ENDLESS, ["--workers", "2", "--limit", "10"], 4, "limit\n"),
    of(LETTER, ["--explore"], 0, '1 ended "A" by 2 choices\neach run ends after 2 turns\none answer: the program has no ALT\n'),
    of(LETTER, ["--explore=endings"], 0, "1 ended by 2 choices\neach run ends after 2 turns\none answer: the program has no ALT\n"),
    of(LETTER, ["--explore", "--states", "1"], 4, "these at least: the bound of 1 state was passed\n"),
    of(STOPS, ["--explore"], 2, STOPPED),
    of(FAULTS, ["--explore"], 3, '1 fault ARITH line 3 "" by 1 choice\neach run ends within 1 turn\nall, 2 states\n'),
    of(FAULTS, ["--explore=full"], 3, '1 fault ARITH line 3 "" by 1 choice\neach run ends within 1 turn\nall, 2 states\n'),
    of(FAULTS, ["--explore", "--errors", "stop"], 2, '1 stopped ARITH line 3 "" by 1 choice: halted\neach run ends within 1 turn\nall, 2 states\n'),
    of(ENDLESS, ["--explore"], 0, "some run goes on for ever\nall, 1 state\n"),
    of(EITHER, ["--explore"], 0, '1 ended "a" by 10 choices\n2 ended "b" by 10 choices\neach run ends within 10 turns\nall, 4 states\n'),
    of(EITHER, ["--explore=endings"], 0, "1 ended by 10 choices\neach run ends within 10 turns\nall, 4 states\n"),
    of(FAULTS, ["--explore", "--first"], 3, f'1 fault ARITH line 3 "" by 1 choice\n{ENDED_AT.format(2)}'),
    of(FAULTS, ["--explore=full", "--first"], 3, f'1 fault ARITH line 3 "" by 1 choice\n{ENDED_AT.format(2)}'),
    of(FAULTS, ["--explore=endings", "--first", "--errors", "stop"], 2, f"1 stopped ARITH line 3 by 1 choice: halted\n{ENDED_AT.format(2)}"),
    of(STOPS, ["--explore", "--first"], 2, STOPPED),
    of(EITHER, ["--explore", "--first"], 0, '1 ended "a" by 10 choices\n2 ended "b" by 10 choices\neach run ends within 10 turns\nall, 4 states\n'),
    of(ENDLESS, ["--explore", "--first"], 0, "some run goes on for ever\nall, 1 state\n"),
    of(FAULTS, ["--explore", "--first", "--states", "1"], 4, "these at least: the bound of 1 state was passed\n"),
    of(FAULTS, ["--explore", "--first", "--record", "none/x"], 6, f'1 fault ARITH line 3 "" by 1 choice\n{ENDED_AT.format(2)}', "write failed\n"),
    of(LETTER, ["--first"], 7, "", None),
    of(LETTER, ["--within", "x.occ", "--first"], 7, "", None),
    of(SHARED, ["--explore", "--first"], 1, "", "refused 50 SharedVariable line 5 x\n"),
    of(SHARED, ["--explore"], 1, "", "refused 50 SharedVariable line 5 x\n"),
    of(LETTER, ["--explore"], 6, "", "write failed\n", to="/dev/full"),
    of(LETTER, ["--explore", "--record", "none/x"], 6, '1 ended "A" by 2 choices\neach run ends after 2 turns\none answer: the program has no ALT\n', "write failed\n"),
    of(LETTER, ["--explore", "--explain"], 6, "", "write failed\nstandard output: no room is left\n", to="/dev/full"),
    of(STOPS, ["--explore", "--explain", "--record", "none/x"], 6, STOPPED, f"write failed\nnone/x.1.choices: {MISSING}"),
    of(SHARED, ["--explore", "--explain"], 1, "", SHARED_TOLD),
    of(LETTER, ["--explore", "--explain"], 0, '1 ended "A" by 2 choices\neach run ends after 2 turns\none answer: the program has no ALT\n'),
    of(STOPS, ["--explore", "--explain"], 2, STOPPED, f"1 stopped, {HALTED}"),
    of(LETTER, ["--explore", "--limit", "1"], 7, "", None),
    of(LETTER, ["--states", "1"], 7, "", None),
    of(LETTER, ["--check"], 0),
    of(STOPS, ["--check"], 0),
    of(SHARED, ["--check"], 1, "", "refused 50 SharedVariable line 5 x\n"),
    of(SHARED, ["--check", "--explain"], 1, "", SHARED_TOLD),
    of(LETTER, ["--check", "--explain"], 0),
    Case(["--check"], 0, given=LETTER),
    Case(["--version"], 0, None),
    Case(["--help"], 6, "", "write failed\n", to="/dev/full"),
    Case(["--version"], 6, "", "write failed\n", to="/dev/full"),
    of(LETTER, ["--arrows", "1"], 7, "", None),
    of(LETTER, ["--last", "1"], 7, "", None),
    of(LETTER, ["--chart", "/dev/null", "--last", "1"], 0, "A"),
    of(LETTER, ["--chart", "a", "--last", "1", "--arrows", "1"], 7, "", None),
    of(LETTER, ["--chart", "a", "--last", "4294967296"], 7, "", None),
    of(LETTER, ["--steps", "/dev/null"], 0, "A"),
    of(LETTER, ["--steps", "none/x"], 6, "A", "write failed\n"),
    of(LETTER, ["--steps", "x.occ"], 7, "", None),
    of(LETTER, ["--steps", "a", "--chart", "a"], 7, "", None),
    of(LETTER, ["--steps", "a", "--explore"], 7, "", None),
    of(LETTER, ["--steps", "a", "--check"], 7, "", None),
    of(LETTER, ["--page", "/dev/null"], 0, "A"),
    of(LETTER, ["--page", "none/x"], 6, "A", "write failed\n"),
    of(LETTER, ["--explain", "--steps", "none/u", "--page", "none/z"], 6, "A", f"write failed\nnone/u: {MISSING}"),
    of(LETTER, ["--explain", "--page", "none/u"], 6, "A", f"write failed\nnone/u: {MISSING}"),
    of(LETTER, ["--seed", "1"], 0, "A"),
    of(LETTER, ["--seed", "1", "--tries", "3"], 0, "A"),
    of(STOPS, ["--seed", "7", "--tries", "3"], 2, "stopped\n", "seed 7: the first one by which the run does not end\n"),
    of(STOPS, ["--seed", "7", "--explain"], 2, "stopped\n", HALTED),
    of(LETTER, ["--seed", "1", "--limit", "1"], 4, "A\nlimit\n"),
    of(LETTER, ["--tries", "3"], 7, "", None),
    of(LETTER, ["--json"], 7, "", None),
    of(LETTER, ["--trace-to", "none/x"], 6, "A", "write failed\n"),
    of(LETTER, ["--trace-to", "x.occ"], 7, "", None),
]


def tried(program, case):
    """What is wrong with a run of the table, or nothing."""
    with room_of(case.files) as room:
        status, out, err = run(program, room, case.words, case.given, case.to, case.memory)
        left = {path.name: path.read_text() for path in room.iterdir()}
        err_is_well = err == case.err if case.err is not None else err.strip() != ""
        out_is_well = out == case.out if case.out is not None else out.strip() != ""
        if status != case.status or not out_is_well or not err_is_well or left != case.files:
            return f"{case.words}: {status} {out!r} {err!r} {sorted(left)}, and not {case.status} {case.out!r} {case.err!r}"
        return None


def recorded(program):
    """What is wrong with files that are recorded and drawn, or nothing: a record plays the run again and is recorded again, a
    record without its last line is used up before the end, and a file that stood there is replaced, with none left beside."""
    with room_of({"x.occ": TWO, "kept": OLD, "drawn": OLD}) as room:
        first = run(program, room, ["--workers", "2", "--record", "kept", "--chart", "drawn", "--trace", "x.occ"])
        kept, drawn = (room / "kept").read_text(), (room / "drawn").read_text()
        again = run(program, room, ["--choices", "kept", "--record", "again", "--trace", "x.occ"])
        put(room, {"short": "".join(kept.splitlines(keepends=True)[:-1])})
        short = run(program, room, ["--choices", "short", "--record", "used", "x.occ"])
        put(room, {"few": "".join(kept.splitlines(keepends=True)[:-2])})
        all_at_once = ["--watch", "--trace", "--choices", "few", "--record", "used.too", "--chart", "drawn.too", "x.occ"]
        watched = run(program, room, all_at_once)
        drawn_too = (room / "drawn.too").read_text()
        wrong = []
        if watched != (4, "7\n1 c3 c p1>p2 7\n2 c1 screen p2>screen 55\nlimit\n", "") or (room / "used.too").read_text() != (room / "few").read_text():
            wrong.append(f"what was played by all words at once: {watched}")
        if not drawn_too.startswith("<svg ") or not drawn_too.endswith("limit</text>\n</svg>\n"):
            wrong.append(f"what was drawn of it: {drawn_too!r}")
        if first != (0, "7\n1 c3 c p1>p2 7\n2 c1 screen p2>screen 55\nended\n", ""):
            wrong.append(f"what was recorded: {first}")
        if again != first or (room / "again").read_text() != kept:
            wrong.append(f"what was played again: {again}")
        if short[0] != 4 or not short[1].endswith("limit\n") or (room / "used").read_text() != (room / "short").read_text():
            wrong.append(f"what a short list came to: {short}")
        if not drawn.startswith("<svg") or not drawn.endswith("</svg>\n") or ">1: c 7<" not in drawn or ">2: screen 55 '7'<" not in drawn:
            wrong.append(f"what was drawn: {drawn!r}")
        if sorted(path.name for path in room.iterdir()) != ["again", "drawn", "drawn.too", "few", "kept", "short", "used", "used.too", "x.occ"]:
            wrong.append(f"what was left: {sorted(path.name for path in room.iterdir())}")
        return "; ".join(wrong) or None


def explored(program):
    """What is wrong with the answers of a search that are recorded, or nothing: each plays a run that comes to it."""
    with room_of() as room:
        wrong = []
        source = TOP / "examples/faults/dining.occ"
        status, out, err = run(program, room, ["--explore", "--quantum", "1000", "--record", "x", source])
        lines = re.findall(r'(?m)^([0-9]+) (ended|stopped) "([^"]*)" by [0-9]+ choices(?:: circle)?$', out)
        if (status, err, len(lines)) != (2, "", 7) or [ending for _, ending, _ in lines].count("stopped") != 1:
            wrong.append(f"{source.name}: {status} {out!r} {err!r}")
        for number, ending, screen in lines:
            said = screen.replace("*n", "\n") + ("" if ending == "ended" else f"{ending}\n")
            again = run(program, room, ["--choices", f"x.{number}.choices", "--quantum", "1000", source])
            if again != (0 if ending == "ended" else 2, said, ""):
                wrong.append(f"x.{number}.choices: {again}")
        if len(list(room.iterdir())) != len(lines):
            wrong.append(f"what was left: {sorted(path.name for path in room.iterdir())}")
        return "; ".join(wrong) or None


def reported(program):
    """What is wrong with the reports behind the answers of a search, or nothing: one for each ending that is not that of a whole run,
    and it is that of the run by the answer's choices."""
    with room_of() as room:
        wrong = []
        put(room, {"two.occ": ENDS})
        for source, endings in [(TOP / "examples/faults/dining.occ", ["stopped"]), ("two.occ", ["stopped", "fault ARITH line 11"])]:
            plain = run(program, room, ["--explore", "--quantum", "1000", source])
            status, out, err = run(program, room, ["--explore", "--quantum", "1000", "--explain", "--record", "x", source])
            numbers = re.findall(r"(?m)^(\d+) (stopped|fault .*?)(?:, [a-z]+: .*|:)$", err)
            if (status, out, "") != plain or sorted(ending for _, ending in numbers) != sorted(endings):
                wrong.append(f"{source}: {status} {out!r} {err!r}")
            told = ""
            for number, ending in numbers:
                again = run(program, room, ["--choices", f"x.{number}.choices", "--quantum", "1000", "--explain", source])
                told += f"{number} stopped, {again[2]}" if ending == "stopped" else f"{number} {ending}:\n{again[2]}"
                if not again[1].endswith(f"{ending}\n"):
                    wrong.append(f"{source}: {number} is another answer: {again}")
            if told != err:
                wrong.append(f"{source}: {err!r}, and not {told!r}")
        return "; ".join(wrong) or None


def beside(program):
    """What is wrong with what a search tells of processes that wait for good while others go on, or nothing: it is the report of the run by
    the choices that it records under the number 0."""
    with room_of() as room:
        wrong = []
        put(room, {"x.occ": BESIDE})
        status, out, err = run(program, room, ["--explore", "--explain", "--record", "x", "x.occ"])
        if (status, out.split("\n")[1]) != (2, "p1 p2 wait for good while others go on, by 3 choices"):
            wrong.append(f"what was found: {status} {out!r}")
        again = run(program, room, ["--choices", "x.0.choices", "--explain", "x.occ"])
        if again[0] != 4 or err != f"while others go on:\n{again[2]}".removesuffix("  the schedule ends here: a longer one lets the run go on\n"):
            wrong.append(f"what was told: {err!r}, and of the run {again}")
        if sorted(path.name for path in room.iterdir()) != ["x.0.choices", "x.occ"]:
            wrong.append(f"what was left: {sorted(path.name for path in room.iterdir())}")
        return "; ".join(wrong) or None


def typed(program):
    """What is wrong with a keyboard that is a terminal, or can't be read, or nothing."""
    with room_of() as room:
        wrong = []
        put(room, {"x.occ": ECHO})
        cases = [
            (["x.occ"], "abc\n", (0, "abc", "")),
            (["x.occ", "--workers=2"], "abc\n\x04", (0, "abc", NOTICE)),
            (["x.occ", "--explore"], "abc\n\x04", (0, '1 ended "abc" by 10 choices\neach run ends after 10 turns\none answer: the program has no ALT\n', NOTICE)),
            ([], "", (7, "", USAGE)),
            (["--trace"], f"{LETTER}\x04", (0, "A\n1 c1 screen p0>screen 65\nended\n", TYPED)),
            (["x.occ", "--check"], "", (0, "", "")),
            (["none.occ"], "", (6, "", "read failed\n")),
        ]
        for words, given, wanted in cases:
            done = on_terminal(program, room, words, given)
            if done != wanted:
                wrong.append(f"{words} on a terminal: {done}, and not {wanted}")
        folder = os.open(room, os.O_RDONLY)
        done = subprocess.run([program, "--explain", "x.occ"], cwd=room, stdin=folder, capture_output=True, timeout=600, check=False)
        os.close(folder)
        if (done.returncode, done.stdout, done.stderr) != (6, b"", b"read failed\nstandard input: it is a folder\n"):
            wrong.append(f"a keyboard that is a folder: {done}")
        return "; ".join(wrong) or None


def on_terminal(program, room, words, given):
    """Runs the program in a folder with a terminal for standard input, and answers as `run`."""
    ours, its = pty.openpty()
    with subprocess.Popen([program, *words], cwd=room, stdin=its, stdout=subprocess.PIPE, stderr=subprocess.PIPE) as running:
        os.write(ours, given.encode())
        out, err = running.communicate(timeout=600)
    os.close(its)
    os.close(ours)
    return running.returncode, out.decode(), err.decode()


def counted(program):
    """What is wrong with what a search tells a terminal while it works, or nothing: how many states were found, taken away at the end;
    and nothing where standard error is none."""
    source = TOP / "examples/faults/butler.occ"
    plain = run(program, TOP, ["--explore=full", source])
    ours, its = pty.openpty()
    with subprocess.Popen([program, "--explore=full", source], stdin=subprocess.DEVNULL, stdout=subprocess.PIPE, stderr=its) as running:
        out, _ = running.communicate(timeout=600)
    os.close(its)
    told = b""
    try:
        while part := os.read(ours, 1000):
            told += part
    except OSError:
        pass
    os.close(ours)
    lines = told.decode().split("\r")
    counts = [int(line.split()[0]) for line in lines if line.endswith(" states")]
    if (running.returncode, out.decode(), "") != plain or len(counts) < 4 or counts != sorted(set(counts)) or lines[-1] or lines[-2].strip():
        return f"{plain}; on a terminal {running.returncode} {out!r} {told!r}"
    return None


def written(program):
    """What is wrong with traces that go into files, or nothing: the lines are those of --trace, and JSON says the same."""
    with room_of() as room:
        wrong = []
        source = TOP / "examples/selection/stack.occ"
        keyboard = "ab\n"
        shown = run(program, room, ["--trace", source], keyboard)
        plain = run(program, room, [source], keyboard)
        lines = run(program, room, ["--trace-to", "lines", source], keyboard)
        objects = run(program, room, ["--trace-to", "objects", "--json", source], keyboard)
        text = (room / "lines").read_text()
        if lines != plain or objects != plain or not shown[1].endswith(text):
            wrong.append(f"lines: {lines} {text!r}, and not {shown}")
        *made, last = [json.loads(line) for line in (room / "objects").read_text().splitlines()]
        said = [*map(line_of, made), last["ending"]]
        if said != text.splitlines():
            wrong.append(f"objects: {said}, and not {text!r}")
        return "; ".join(wrong) or None


def by_workers(program):
    """What is wrong with what workers leave, or nothing: the files are of the very run that was answered, which has no more turns than
    it may, and each turn once."""
    with room_of({"x.occ": RACE}) as room:
        wrong = []
        for number in range(20):
            limit = 5 + number
            words = ["--workers", "3", "--limit", str(limit), "--trace", "--record", "kept", "--trace-to", "lines", "--steps", "turns", "--chart", "drawn", "--page", "shown", "x.occ"]
            came = run(program, room, words)
            kept, lines, turns, drawn, shown = ((room / name).read_text() for name in ("kept", "lines", "turns", "drawn", "shown"))
            told = [found[1] for turn in turns.splitlines() for found in [re.search(r", (\d+) p\d+>", turn)] if found]
            made = [line for line in lines.splitlines() if line[0].isdigit()]
            count = len([line for line in tree.fromstring(drawn).iter(f"{SVG}path") if line.get("stroke") == "black"])
            if not came[1].endswith(lines) or len(turns.splitlines()) != kept.count("\n") or kept.count("\n") > limit or len(told) != len(made) or count != len(made) or f"\f{turns}\f" not in shown:
                wrong.append(f"{words}: {came} {kept.count(chr(10))} {len(told)} {count}")
            if (came[0] == 4) != (kept.count("\n") == limit and lines.endswith("limit\n")):
                wrong.append(f"{words}: {came[0]} after {kept.count(chr(10))}")
            if run(program, room, ["--choices", "kept", "--trace", "x.occ"])[:2] != came[:2]:
                wrong.append(f"{words}: not played again")
        return "; ".join(wrong[:3]) or None


def waited(program):
    """What is wrong with a source that is missing, where the keyboard goes on, or nothing: it is told before a key is read."""
    with room_of() as room, subprocess.Popen([program, "none.occ"], cwd=room, stdin=subprocess.PIPE, stdout=subprocess.PIPE, stderr=subprocess.PIPE) as running:
        try:
            status = running.wait(timeout=20)
        except subprocess.TimeoutExpired:
            running.kill()
            return "the keyboard is read first"
        err = running.stderr.read()
        return None if (status, err) == (6, b"read failed\n") else f"{status} {err!r}"


def item_of(item):
    """An item of a message in JSON, as a line of the trace has it."""
    if isinstance(item, list):
        return f"[{' '.join(map(item_of, item))}]"
    return str(item).upper() if isinstance(item, bool) else str(item)


def line_of(made):
    """A communication in JSON, as a line of the trace."""
    items = [made["tag"]] * (made["tag"] is not None) + [item_of(item) for item in made["message"]]
    return f"{made['number']} c{made['channel']} {made['name']} {made['sender']}>{made['receiver']} {'; '.join(items)}"


def drawn(program):
    """What is wrong with pictures and with turns, or nothing."""
    with room_of() as room:
        source = TOP / "examples/faults/dining.occ"
        run(program, room, ["--seed", "1", "--tries", "1000", "--record", "kept", "--limit", "100", source])
        put(room, {"many.occ": MANY})
        wrong = list(starving(program, room, source))
        for words, shown in [(["--last", "45"], "and 1155 before"), (["--arrows", "5000"], f"210 more; {MOST}")]:
            run(program, room, ["--chart", "many.svg", *words, "many.occ"])
            picture = tree.parse(room / "many.svg").getroot()
            words_in = [text.text for text in picture.iter(f"{SVG}text")]
            count = len([line for line in picture.iter(f"{SVG}path") if line.get("stroke") == "black"])
            heads = 2 + (count - 1) // 30
            if count != min(int(words[1]), 990) or shown not in words_in or words_in.count("p1") != heads or int(picture.get("height")) > 32_000:
                wrong.append(f"{words}: {count} arrows, {words_in[:8]}")
        return "; ".join(wrong) or None


def starving(program, room, source):
    """Faults of the picture and of the turns of philosophers who starve: an arrow for each line of the trace, in order, a stub
    for each process that the report has waiting for a communication, the names of PROCs and a circle; a line for each choice, with each line of the trace once."""
    status, out, err = run(program, room, ["--choices", "kept", "--trace", "--explain", "--chart", "a.svg", "--steps", "turns", source])
    lines = [re.fullmatch(r"(\d+) c\d+ (.*) (\S+>\S+) (.*)", line) for line in out.splitlines()]
    made = [line for line in lines if line]
    shapes = list(tree.parse(room / "a.svg").getroot())
    over = [after.text for line, after in zip(shapes, shapes[2:]) if line.get("stroke") == "black"]
    under = [text.text for text in shapes if text.get("fill") == "red" and not text.get("text-anchor")]
    if status != 2 or over != [f"{line[1]}: {line[2]} {line[4]}" for line in made]:
        yield f"arrows: {over}"
    heads = [text.text for text in tree.parse(room / "a.svg").getroot().iter(f"{SVG}text")]
    if heads[:2] != ["philosopher", "p2"] or not any(words.startswith("a circle waits: p2 p7 p3") for words in heads):
        yield f"heads: {heads}"
    if len(under) != len(re.findall(r"p\d+ [^:]*: (?:offers|awaits|chooses)", err)):
        yield f"stubs: {under}, and not {err!r}"
    turns = (room / "turns").read_text().splitlines()
    if len(turns) != len((room / "kept").read_text().splitlines()):
        yield f"turns: {len(turns)}"
    told = [found[1] for turn in turns for found in [re.search(r", (\d+ p\d+>.*)", turn)] if found]
    if told != [f"{line[1]} {line[3]} {line[2]} {line[4]}" for line in made]:
        yield f"turns: {told}"


def words_at(text):
    """The words that an element of a picture shows, and where they begin and end: a letter has 7 points."""
    words = text[-1].tail if len(text) else text.text
    left = int(text.get("x")) - (0 if text.get("text-anchor") else 7 * len(words) / 2)
    return words, left, left + 7 * len(words)


def fitting(program):
    """What is wrong with the room of words in pictures, or nothing: no two of one height overlap or leave the picture, those of an arrow stand
    over its middle, and between its ends where columns have room; and a browser may scale the picture, which fits a slide."""
    with room_of() as room:
        wrong = []
        for name, words in PICTURES:
            run(program, room, ["--chart", "a.svg", *words, TOP / f"examples/{name}.occ"], "a line\n")
            picture = tree.parse(room / "a.svg").getroot()
            width, rows = int(picture.get("width")), {}
            if picture.get("viewBox") != f"0 0 {width} {picture.get('height')}" or width > 2000:
                wrong.append(f"{name} {words}: {picture.attrib}")
            shapes = list(picture)
            is_close = len({text.get("y") for text in shapes if text.get("y") in ("32", "62")}) == 2
            if is_close != ("pipelines/matrix" == name and "--without" not in words):
                wrong.append(f"{name} {words}: close columns, or not")
            for line, text in zip(shapes, shapes[2:]):
                if line.get("stroke") == "black":
                    ends = sorted(map(int, re.match(r"M (\d+) \d+ H (\d+)", line.get("d")).groups()))
                    shown, left, right = words_at(text)
                    if abs(left + right - sum(ends)) > 1 or not is_close and (left < ends[0] or right > ends[1]):
                        wrong.append(f"{name} {words}: {shown}, {left} to {right}, and its arrow {ends}")
            for text in picture.iter(f"{SVG}text"):
                rows.setdefault(text.get("y"), []).append(words_at(text))
            for row in rows.values():
                row.sort(key=lambda found: found[1])
                wrong += [f"{name} {words}: {one} and {other} overlap" for one, other in zip(row, row[1:]) if one[2] > other[1]]
                wrong += [f"{name} {words}: {one} leaves the picture" for one in row if one[1] < 0 or one[2] > width]
        return "; ".join(wrong[:5]) or None


def seeded(program):
    """What is wrong with seeds that are tried, or nothing: the first is found by which philosophers starve, and is recorded; its
    choices are those that docs/formats.md says how to make."""
    with room_of() as room:
        wrong = []
        source = TOP / "examples/faults/dining.occ"
        tried = run(program, room, ["--seed", "1", "--tries", "1000", "--record", "kept", "--limit", "100", source])
        kept = (room / "kept").read_text()
        alone = (2, "stopped\n", "")
        if tried[:2] != alone[:2] or run(program, room, ["--choices", "kept", source]) != alone:
            wrong.append(f"what was tried: {tried}")
        made = [lines_from(seed, 100) for seed in range(1, 1001)]
        found = next((seed for seed, lines in enumerate(made, 1) if lines.startswith(kept)), None)
        if found is None or run(program, room, ["--seed", str(found), "--limit", "100", source]) != alone:
            wrong.append(f"choices of no seed: {kept!r}")
        elif tried[2] != f"seed {found}: the first one by which the run does not end\n":
            wrong.append(f"the seed that is told: {tried[2]!r}")
        elif any(run(program, room, ["--seed", str(seed), "--limit", "100", source])[0] for seed in range(1, found)):
            wrong.append(f"{found} is not the first seed")
        return "; ".join(wrong) or None


def lines_from(seed, count):
    """So many choices that are made from a seed, as lines of a file."""
    numbers = []
    for _ in range(2 * count):
        seed = (seed * 1664525 + 1013904223) % 2**32
        numbers.append(seed // 2**16)
    return "".join(f"{which} {pick}\n" for which, pick in zip(numbers[::2], numbers[1::2]))


def helped(program):
    """What is wrong with the help, or nothing."""
    with room_of() as room:
        status, out, err = run(program, room, ["--help"])
        is_well = status == 0 and "Usage" in out and "--choices" in out and not err
        defaults = dict(re.findall(r"(?m)^ *(--[a-z]+).*\[default: (\w+)\]", out))
        return None if is_well and defaults == DEFAULTS else f"--help: {status} {out!r} {err!r}"


CHECKS = [recorded, explored, reported, beside, typed, counted, written, by_workers, waited, drawn, fitting, seeded, helped]


def jobs():
    """A test for each run of the table, and for each of these checks."""
    made = [Job(f"statuses: {' '.join(map(str, case.words))}", lambda program, case=case: filter(None, [tried(program, case)])) for case in CASES]
    return made + [Job(f"statuses: {check.__name__}", lambda program, check=check: filter(None, [check(program)])) for check in CHECKS]
