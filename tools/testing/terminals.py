"""What a terminal is shown: explanations without being asked, bold where it is allowed, a keyboard that is read only where it may matter.

Each run has a terminal of its own for the streams that are named, and pipes for the others. What the terminal is shown is compared
whole, with the ends of its lines as LF. Behind it stand the words that bash completes.
"""
import re
import subprocess

from .running import SECONDS, TOP, Job, room, run_text, shown_on
from .statuses import ECHO, ENDLESS, FAULTS, HEAD, LETTER, NOTICE, NO_SOURCE, SHARED, SHARED_TOLD, STOPS, TYPED, USAGE

MISSING = f"none.occ: {NO_SOURCE}"
STUCK = "halted: p0 was halted\nafter 0 communications no process can go on:\n  p0 main, line 2: halted by STOP\n"
GUARDED = HEAD + "  ALT\n    BYTE b:\n    keyboard ? b\n      screen ! b\n    TRUE & SKIP\n      screen ! '.'\n:\n"
CALLED = "PROC get (CHAN OF BYTE from, VAL INT n)\n  BYTE b:\n  from ? b\n:\n" + HEAD + "  get (keyboard, 1)\n:\n"
READS = HEAD + "  INT x:\n  PAR\n    x := 1\n    BYTE b:\n    SEQ\n      keyboard ? b\n      x := 2\n:\n"
ALL = (0, 1, 2)


def bold(text):
    """A text with its first line in bold."""
    head, *rest = text.split("\n", 1)
    return f"\x1b[1m{head}\x1b[0m\n{rest[0]}"


PAST = "past: line 2 selects past the last ready process, so its number is taken modulo how many are ready; this may be the schedule of another program\n"
TOLD = SHARED_TOLD.split("\n", 1)[1]
REFUSED = "refused 50 SharedVariable line 5 x\n"
# files, words, what is typed, the streams on the terminal, variables; the status, and what the terminal and the pipes get
CASES = [
    ("a refusal is explained", SHARED, ["x.occ"], "", ALL, {}, (1, REFUSED + bold(TOLD), "")),
    ("not in bold by NO_COLOR", SHARED, ["x.occ"], "", ALL, {"NO_COLOR": "1"}, (1, REFUSED + TOLD, "")),
    ("in bold where NO_COLOR is empty", SHARED, ["x.occ"], "", ALL, {"NO_COLOR": ""}, (1, REFUSED + bold(TOLD), "")),
    ("not in bold on a dumb terminal", SHARED, ["x.occ"], "", ALL, {"TERM": "dumb"}, (1, REFUSED + TOLD, "")),
    ("in bold without TERM", SHARED, ["x.occ"], "", ALL, {"TERM": None}, (1, REFUSED + bold(TOLD), "")),
    ("--plain leaves it out", SHARED, ["--plain", "x.occ"], "", ALL, {}, (1, REFUSED, "")),
    ("--explain is the same there", SHARED, ["--explain", "x.occ"], "", ALL, {}, (1, REFUSED + bold(TOLD), "")),
    ("a refusal by --check", SHARED, ["--check", "x.occ"], "", ALL, {}, (1, REFUSED + bold(TOLD), "")),
    ("a refusal by --explore", SHARED, ["--explore", "x.occ"], "", ALL, {}, (1, REFUSED + bold(TOLD), "")),
    ("an ending", STOPS, ["x.occ"], "", ALL, {}, (2, "stopped\n" + bold(STUCK), "")),
    ("an ending, plainly", STOPS, ["--plain", "x.occ"], "", ALL, {}, (2, "stopped\n", "")),
    ("standard error alone", STOPS, ["x.occ"], "", (2,), {}, (2, bold(STUCK), "stopped\n")),
    ("standard output alone", STOPS, ["x.occ"], "", (0, 1), {}, (2, "stopped\n", "")),
    ("standard input alone", STOPS, ["x.occ"], "", (0,), {}, (2, "", "stopped\n")),
    ("--explain without a terminal", STOPS, ["--explain", "x.occ"], "", (0,), {}, (2, "", "stopped\n" + STUCK)),
    ("a fault", FAULTS, ["x.occ"], "", ALL, {"NO_COLOR": "1"}, (3, "fault ARITH line 3\nafter 0 communications:\n  p0 main, line 3: fault ARITH line 3\n    x := 1 / 0\n", "")),
    ("a limit", ENDLESS, ["--limit", "10", "x.occ"], "", ALL, {"NO_COLOR": "1"}, (4, "limit\nafter 0 communications:\n  p0 main, line 2: can go on\n  the limit is reached: --limit N allows more turns, --quantum N makes each longer\n", "")),
    ("an answer of a search", STOPS, ["--explore", "--plain", "x.occ"], "", ALL, {}, (2, '1 stopped "" by 1 choice: halted\neach run ends after 1 turn\none answer: the program has no ALT\n', "")),
    ("a missing file", LETTER, ["none.occ"], "", ALL, {"NO_COLOR": "1"}, (6, "read failed\n" + MISSING, "")),
    ("a missing file, in bold", LETTER, ["none.occ"], "", ALL, {}, (6, "read failed\n" + bold(MISSING), "")),
    ("a missing file, plainly", LETTER, ["none.occ", "--plain"], "", ALL, {}, (6, "read failed\n", "")),
    ("a word that is no file", LETTER, ["help"], "", ALL, {"NO_COLOR": "1"}, (6, "read failed\n" + MISSING.replace("none.occ", "help"), "")),
    ("a missing file of choices", LETTER, ["--choices", "none", "x.occ"], "", ALL, {"NO_COLOR": "1"}, (6, "read failed\nnone: no such file or folder\n", "")),
    ("no words at all", LETTER, [], "", ALL, {}, (7, USAGE, "")),
    ("no words, and no terminal but standard input", LETTER, [], "", (0,), {}, (7, "", USAGE)),
    ("a source that is typed", LETTER, ["--trace"], f"{LETTER}\x04", ALL, {}, (0, TYPED + "A\n1 c1 screen p0>screen 65\nended\n", "")),
    ("hello needs no Ctrl-D", LETTER, ["x.occ"], "", ALL, {}, (0, "A", "")),
    ("nor does its search", LETTER, ["--explore=endings", "x.occ"], "", ALL, {}, (0, "1 ended by 2 choices\neach run ends after 2 turns\none answer: the program has no ALT\n", "")),
    ("nor does a program that is refused", READS, ["--plain", "x.occ"], "", ALL, {}, (1, "refused 50 SharedVariable line 8 x\n", "")),
    ("a keyboard", ECHO, ["x.occ"], "abc\n", ALL, {}, (0, "abc", "")),
    ("a keyboard for threads", ECHO, ["--workers=2", "x.occ"], "abc\n\x04", ALL, {}, (0, NOTICE + "abc", "")),
    ("a keyboard that is typed without end", ECHO, ["--plain", "x.occ"], "ab\x04\x04", ALL, {}, (2, "ab\nstopped\n", "")),
    ("a keyboard in a guard", GUARDED, ["--choices", "c", "x.occ"], "z\n\x04", ALL, {}, (4, "limit\n" + bold("after 0 communications:\n  p0 main: can go on\n  the schedule ends here: a longer one lets the run go on\n"), "")),
    ("a keyboard that is handed on", CALLED, ["x.occ"], "z\n", ALL, {}, (0, "", "")),
    ("a keyboard in a guard, for threads", GUARDED, ["--watch", "x.occ"], "z\n\x04", ALL, {}, (0, NOTICE + "z1 c0 keyboard keyboard>p0 122\n2 c1 screen p0>screen 122\n", "")),
    ("choices of another program", LETTER, ["--choices", "past", "x.occ"], "", ALL, {}, (0, "A" + bold(PAST), "")),
    ("choices of another program, by --explain", LETTER, ["--choices", "past", "--explain", "x.occ"], "", (), {}, (0, "", "A" + PAST)),
    ("choices of another program, unasked", LETTER, ["--choices", "past", "x.occ"], "", (), {}, (0, "", "A")),
    ("choices that were recorded without any", LETTER, ["--choices", "plain", "x.occ"], "", ALL, {}, (0, "A", "")),
    ("choices from a seed", LETTER, ["--choices", "seeded", "x.occ"], "", ALL, {}, (0, "A", "")),
    ("no text", b"\x7fELF\x02\x01\0\0\0\n", ["x.occ"], "", ALL, {"NO_COLOR": "1"}, (1, "refused 2 BadByte line 1\nx.occ: this is not a text file: it contains NUL bytes\n", "")),
]

# words of a command line, the last of which is completed, as bash parts them; and what it becomes
COMPLETED = [
    (["occam", "--explore", "="], "answers endings full"),
    (["occam", "--explore", "=", "en"], "endings"),
    (["occam", "--errors", "="], "halt stop"),
    (["occam", "--errors", "s"], "stop"),
    (["occam", "--limit", "="], ""),
    (["occam", "--pl"], "--plain"),
    (["occam", "--expl"], "--explain --explore"),
    (["occam", "--li"], "--limit --live"),
    (["occam", "--fi"], "--first"),
]


def tried(program, source, words, typed, streams, variables, wanted):
    """What is wrong with a run of the table."""
    with room({"x.occ": source, "c": "", "past": "0 0\n2 0\n", "plain": "0 0\n1 0\n", "seeded": "15496 24200\n5 5\n"}) as folder:
        came = shown_on([program, *words], folder, typed, streams, **variables)
        if came != wanted:
            yield f"{came}, and not {wanted}"


def piped(program):
    """What is wrong where no stream is a terminal: what a terminal is told is not told, whatever the variables."""
    with room({"x.occ": SHARED, "s.occ": STOPS}) as folder:
        for words, wanted in [(["x.occ"], (1, "", REFUSED)), (["s.occ"], (2, "stopped\n", "")), (["--plain", "s.occ"], (2, "stopped\n", "")), (["none.occ"], (6, "", "read failed\n"))]:
            came = run_text(program, folder, words)
            if came != wanted:
                yield f"{words}: {came}, and not {wanted}"


def searched(program):
    """What is wrong with a search on a terminal: the count of states is taken away, and the answers stand as they do on a pipe."""
    with room({"x.occ": STOPS}) as folder:
        status, shown, _ = shown_on([program, "--explore", "x.occ"], folder, NO_COLOR="1")
        plain = run_text(program, folder, ["--explore", "--explain", "x.occ"])
        if (status, re.sub("\r[^\n]*\r", "", shown)) != (plain[0], plain[1] + plain[2]):
            yield f"{status} {shown!r}, and not {plain}"


def told_at_once(program):
    """What is wrong with a long search on a terminal: each answer behind which it goes on is told as it is found, above the answer of a
    pipe. Beside a specification none is told."""
    dining = TOP / "examples/faults/dining.occ"
    with room({}) as folder:
        answers = [line.split(" ", 1)[1] for line in run_text(program, folder, ["--explore=full", dining])[1].splitlines(keepends=True)[:7]]
        stop = next(place for place, line in enumerate(answers) if line.startswith("stopped"))
        for words, told in [(["--explore=full"], answers), (["--explore=full", "--first"], answers[:stop]), (["--explore=full", "--within", dining], [])]:
            status, shown, _ = shown_on([program, *words, "--plain", dining], folder)
            plain = run_text(program, folder, [*words, dining])
            wanted = "".join(f"found: {line}" for line in told) + plain[1]
            if (status, re.sub("\r( {20}\r|[0-9]+ states)", "", shown)) != (plain[0], wanted):
                yield f"{words}: {status} {shown!r}, and not {plain[0]} {wanted!r}"


def completed(_):
    """What is wrong with the words that bash completes."""
    for given, wanted in COMPLETED:
        script = f'. "{TOP}/tools/completions/occam.bash"; COMP_WORDS=({" ".join(map(repr, given))}); COMP_CWORD={len(given) - 1}; _occam; echo "${{COMPREPLY[*]}}"'
        done = subprocess.run(["bash", "-c", script], capture_output=True, text=True, timeout=SECONDS, check=False)
        if done.stdout.strip() != wanted:
            yield f"{given}: {done.stdout!r} {done.stderr!r}, and not {wanted}"


def jobs():
    """A test for each run of the table, and for these checks."""
    for title, *told in CASES:
        yield Job(f"terminals: {title}", lambda program, told=told: tried(program, *told))
    yield Job("terminals: pipes", piped)
    yield Job("terminals: a search", searched)
    yield Job("terminals: answers at once", told_at_once)
    yield Job("terminals: completions", completed)
