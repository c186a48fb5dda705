"""Live runs: what they show before more is typed, and that they come to what a run comes to that had the bytes from the start.

A conversation is a list of texts that are awaited, each with what is typed behind it. Nothing else may come before that is typed.
"""
import os
import pathlib
import pty
import random
import re
import select
import signal
import subprocess
import termios
import time

from .cases import all_cases
from .running import SECONDS, TOP, Job, put, room, run, shown_on
from .statuses import ECHO, FAULTS, HEAD, LETTER, NOTICE, SHARED

CALCULATOR = "examples/sequences/calculator.occ"
CAPITALS = "examples/first_steps/capitals.occ"
# it asks for each line, and says it
LINES = HEAD + """  BYTE b:
  SEQ i = 0 FOR 3
    SEQ
      screen ! '>'
      b := ' '
      WHILE b <> '*n'
        SEQ
          keyboard ? b
          screen ! b
:
"""
# it asks for each byte, and ends at a full stop
ASKS = HEAD + """  BYTE b:
  SEQ
    b := ' '
    WHILE b <> '.'
      SEQ
        screen ! '?'
        keyboard ? b
        screen ! b
:
"""
# it looks whether a byte stands at each pass, up to a full stop or the end
POLLS = HEAD + """  BYTE b:
  BOOL going:
  SEQ
    going := TRUE
    WHILE going
      PRI ALT
        keyboard ? b
          SEQ
            screen ! b
            going := b <> '.'
        TRUE & SKIP
          SEQ
            screen ! '-'
            going := FALSE
:
"""
# it shows much before it asks, and errors behind
LOUD = HEAD + "  BYTE b:\n  SEQ\n    SEQ i = 0 FOR 5000\n      screen ! 'A'\n    keyboard ? b\n    screen ! b\n:\n"
ERRS = "PROC main (CHAN OF BYTE keyboard, screen, error)\n  BYTE b:\n  SEQ\n    screen ! '>'\n    error ! 'E'\n    keyboard ? b\n    screen ! b\n    error ! 'F'\n:\n"
FOREVER = HEAD + "  WHILE TRUE\n    screen ! '.'\n:\n"
STUCK = (6, b"read failed\nstandard input: it is a folder\n")
# a source, whether its streams are a terminal, the conversation, and how it ends: the status, and what comes behind all of it
TALKS = [
    ("a prompt for each line", LINES, True, [(">", "one\n"), ("one\n>", "two\n"), ("two\n>", "three\n")], (0, "three\n", "")),
    ("three lines on a pipe", LINES, False, [(">", "one\n"), ("one\n>", "two\n"), ("two\n>", "three\n")], (0, "three\n", "")),
    ("a calculator", CALCULATOR, True, [("", "12+30*2=\n"), ("84\n", "7-10=\n"), ("-3\n", "0-2147483647-1=.\n")], (0, "-2147483648\n", "")),
    ("one byte a read", ASKS, False, [("?", "a"), ("a?", "b"), ("b?", "c"), ("c?", ".")], (0, ".", "")),
    ("one byte a read, and the end", ASKS, False, [("?", "a"), ("a?", "b"), ("b?", "")], (2, "\nstopped\n", "")),
    ("Ctrl-D within a line", ASKS, True, [("?", "ab\x04"), ("a?b?", "c\x04"), ("c?", "\x04")], (2, "\nstopped\n", "")),
    ("Ctrl-D at once", ASKS, True, [("?", "\x04")], (2, "\nstopped\n", "")),
    ("a poll waits for a key", POLLS, True, [("", "ab\n"), ("ab\n", "\x04")], (0, "-", "")),
    ("a poll on a pipe", POLLS, False, [("", "a"), ("a", "b"), ("b", ".")], (0, ".", "")),
    ("much output before a read", LOUD, False, [("A" * 5000, "x")], (0, "x", "")),
    ("errors come at the end", ERRS, False, [(">", "x")], (0, "xEF", "")),
]
KEYS = b"abcxyz ABC0123456789+-*/=.,;\n\n\t\x00\xff"
# what a run is asked for, beside --live or not
ASKED = [[], ["--trace"], ["--errors=stop"], ["--quantum=7", "--trace"], ["--seed=11"], ["--seed=12", "--errors=stop", "--trace"]]
MOST = ["--limit=20000"]


class Talk:
    """A run that is talked with, on a terminal that echoes nothing or on pipes."""

    def __init__(self, command, folder, on_terminal):
        self.is_terminal = on_terminal
        if on_terminal:
            ours, its = pty.openpty()
            change = termios.tcgetattr(its)
            change[1] &= ~termios.OPOST
            change[3] &= ~termios.ECHO
            termios.tcsetattr(its, termios.TCSANOW, change)
            self.running = subprocess.Popen(command, cwd=folder, stdin=its, stdout=its, stderr=subprocess.PIPE)
            os.close(its)
            self.keys, self.screen = ours, os.dup(ours)
        else:
            self.running = subprocess.Popen(command, cwd=folder, stdin=subprocess.PIPE, stdout=subprocess.PIPE, stderr=subprocess.PIPE, bufsize=0)
            self.keys, self.screen = os.dup(self.running.stdin.fileno()), self.running.stdout.fileno()
            self.running.stdin.close()

    def shows(self, count, seconds):
        """So many of the next bytes on the screen, or fewer where no more come within the time."""
        shown, last = b"", time.monotonic() + seconds
        while len(shown) < count and select.select([self.screen], [], [], max(0, last - time.monotonic()))[0]:
            try:
                part = os.read(self.screen, count - len(shown))
            except OSError:  # no process has the terminal any more
                part = b""
            if not part:
                break
            shown += part
        return shown

    def types(self, text):
        """Types something; nothing is the end where the streams are pipes."""
        if text:
            os.write(self.keys, text)
        elif not self.is_terminal:
            self.hang_up()

    def hang_up(self):
        """Closes the keyboard."""
        if self.keys is not None:
            os.close(self.keys)
            self.keys = None

    def ends(self):
        """The status, and what comes on the screen and on standard error up to the end."""
        if not self.is_terminal:
            self.hang_up()
        shown = self.shows(1 << 30, SECONDS)
        told = self.running.stderr.read()
        status = self.running.wait(SECONDS)
        self.hang_up()
        return status, shown, told

    def stops(self):
        """Ends it where it is."""
        self.running.kill()
        self.ends()


def talked(program, source, on_terminal, exchange, wanted):
    """What is wrong with a conversation."""
    with room({"x.occ": (TOP / source).read_text() if source.endswith(".occ") else source}) as folder:
        talk = Talk([program, *([] if on_terminal else ["--live"]), "x.occ"], folder, on_terminal)
        for awaited, typed in exchange:
            shown = talk.shows(len(awaited), SECONDS) + talk.shows(1, 0.05)
            if shown != awaited.encode():
                talk.stops()
                yield f"{shown!r} before {typed!r}, and not {awaited!r}"
                return
            talk.types(typed.encode())
        status, shown, told = talk.ends()
        if (status, shown.decode(), told.decode()) != wanted:
            yield f"{status} {shown!r} {told!r}, and not {wanted}"


def keyboards_of(path, count):
    """Keyboards for a program, the same at each run: each typed in pieces of its own."""
    made = random.Random(path.name)
    for _ in range(count):
        yield [bytes(made.choice(KEYS) for _ in range(made.randrange(1, 12))) for _ in range(made.randrange(4))]


def same(program, path, words, pieces):
    """What is wrong with a live run whose keyboard comes in pieces, beside the run that reads it first; and with it played again."""
    with room() as folder:
        keyboard, asked = b"".join(pieces), [*MOST, *words, path]
        plain = run(program, folder, ["--record=plain", *asked], keyboard)
        talk = Talk([program, "--live", "--record=used", "--typed=typed", *asked], folder, False)
        for piece in pieces:
            try:
                talk.types(piece)
            except BrokenPipeError:  # it has ended
                break
        came = talk.ends()
        if came != plain:
            yield f"{words} {keyboard!r}: {came}, and not {plain}"
            return
        if plain[0] in (1, 7):
            return
        used, typed = (folder / "used").read_bytes(), (folder / "typed").read_bytes()
        if used != (folder / "plain").read_bytes() or not keyboard.startswith(typed):
            yield f"{words} {keyboard!r}: it used other choices, or has {typed!r}"
        again = run(program, folder, ["--choices=used", *[word for word in words if "seed" not in word], path], typed)
        if again != plain:
            yield f"{words} {keyboard!r}: played again {again}, and not {plain}"


def generated(made):
    """A network of three processes: one inputs from the keyboard by what the dice say, one sends to it, and one outputs what it sends."""

    def part(level):
        """A part of the first process, at this level."""
        margin, kind = "  " * level, made.randrange(9)
        if kind < 2:
            return f"{margin}keyboard ? b\n"
        if kind < 4:
            return f"{margin}c ! b\n"
        if kind == 4:
            return f"{margin}d ? b\n"
        if kind == 5 and level < 6:
            return f"{margin}SEQ i{level} = 0 FOR {made.randrange(4)}\n{margin}  SEQ\n" + parts(level + 2)
        if kind == 6 and level < 6:
            return f"{margin}IF\n{margin}  b > 'm'\n{margin}    SEQ\n" + parts(level + 3) + f"{margin}  TRUE\n{margin}    SKIP\n"
        arms = [("keyboard ? b", "b"), made.choice([("TRUE & SKIP", "'-'"), ("d ? b", "b")])]
        made.shuffle(arms)
        text = "".join(f"{margin}  {guard}\n{margin}    c ! {said}\n" for guard, said in arms)
        return f"{margin}{made.choice(['ALT', 'PRI ALT'])}\n{text}"

    def parts(level):
        return "".join(part(level) for _ in range(made.randrange(1, 4)))

    first = "".join(part(3) for _ in range(made.randrange(2, 7)))
    return (
        f"{HEAD}  CHAN OF BYTE c, d:\n  PAR\n    BYTE b:\n    SEQ\n      b := 'a'\n"
        + first
        + f"    SEQ i = 0 FOR {made.randrange(5)}\n      d ! BYTE (i + 65)\n"
        + f"    SEQ i = 0 FOR {made.choice([3, 6, 1000])}\n      BYTE x:\n      SEQ\n        c ? x\n        screen ! x\n:\n"
    )


def all_generated(program, first, count):
    """What is wrong with the live runs of generated programs."""
    for number in range(first, first + count):
        made = random.Random(number)
        with room({"x.occ": generated(made)}) as folder:
            path = folder / "x.occ"
            checked = run(program, folder, ["--check", path])
            if checked[0]:
                yield f"{number}: {checked}"
            pieces = [bytes(made.choice(KEYS) for _ in range(made.randrange(1, 6))) for _ in range(made.randrange(4))]
            yield from (f"{number}: {fault}" for fault in same(program, path, made.choice(ASKED), pieces))


def case_live(program, source, keyboard):
    """What is wrong with a live run of a source of the tests."""
    with room() as folder:
        if not isinstance(source, pathlib.Path):
            put(folder, {"x.occ": source})
            source = folder / "x.occ"
        yield from same(program, source, ["--trace"], [keyboard] if keyboard else [])


def interrupted(program):
    """What is wrong where Ctrl-C ends a run that waits: what was shown stays, and no file is there."""
    with room({"x.occ": ASKS}) as folder:
        talk = Talk([program, "--live", "--record=used", "--typed=typed", "--trace-to=trace", "x.occ"], folder, False)
        talk.types(b"ab")
        shown = talk.shows(5, SECONDS)
        talk.running.send_signal(signal.SIGINT)
        status, rest, _ = talk.ends()
        if (status, shown + rest) != (-signal.SIGINT, b"?a?b?") or sorted(path.name for path in folder.iterdir()) != ["x.occ"]:
            yield f"{status} {shown!r} {rest!r} {sorted(folder.iterdir())}"


def all_same(program, path, count):
    """What is wrong with the live runs of an example."""
    for number, pieces in enumerate(keyboards_of(path, count)):
        yield from same(program, path, ASKED[number % len(ASKED)], pieces)


def left_open(program, path):
    """What is wrong with runs whose keyboard is not closed: where they end, that is the answer for whatever would have come behind."""
    for pieces in keyboards_of(path, 4):
        with room() as folder:
            keyboard = b"".join(pieces)
            talk = Talk([program, "--live", *MOST, path], folder, False)
            try:
                talk.types(keyboard or b"\n")
            except BrokenPipeError:
                pass
            try:
                talk.running.wait(0.5)
                more = b"xyz.\n"
            except subprocess.TimeoutExpired:
                more = b""
            came, plain = talk.ends(), run(program, folder, [*MOST, path], (keyboard or b"\n") + more)
            if came != plain:
                yield f"{keyboard!r}: {came}, and not {plain}"


def unwritten(program):
    """What is wrong where the screen can't be written, or nobody reads it: it ends as a run does that reads first."""
    with room({"x.occ": LOUD, "f.occ": FOREVER}) as folder:
        for source in ("x.occ", "f.occ"):
            for words in ([], ["--explain"]):
                plain, live = (run(program, folder, [*words, *more, "--limit=20000", source], b"y", "/dev/full") for more in ([], ["--live"]))
                if live != plain or live[0] != 6:
                    yield f"a full disk: {live}, and not {plain}"
        for source in ("x.occ", "f.occ"):
            ends = []
            for more in ([], ["--live"]):
                reader, writer = os.pipe()
                os.close(reader)
                done = subprocess.run([program, *more, "--limit=20000", source], cwd=folder, input=b"y", stdout=writer, stderr=subprocess.PIPE, timeout=SECONDS, check=False)
                os.close(writer)
                ends.append((done.returncode, done.stderr))
            if ends[0] != ends[1]:
                yield f"a closed pipe: {ends[1]}, and not {ends[0]}"


def unread(program):
    """What is wrong where standard input is a folder: nothing is read before it matters, and what the screen has comes before."""
    cases = [
        (ASKS, [], (6, b"?", STUCK[1])),
        (LETTER, [], (0, b"A", b"")),
        (SHARED, [], (1, b"", None)),
        (ASKS, ["--choices=bad"], (7, b"", None)),
        (ASKS, ["--choices=none"], (6, b"", b"read failed\nnone: no such file or folder\n")),
        (ASKS, ["--limit=1"], (4, b"?\nlimit\n", None)),
    ]
    for source, words, wanted in cases:
        with room({"x.occ": source, "bad": "x\n"}) as folder:
            stream = os.open(folder, os.O_RDONLY)
            done = subprocess.run([program, "--live", "--explain", *words, "--typed=typed", "x.occ"], cwd=folder, stdin=stream, capture_output=True, timeout=SECONDS, check=False)
            os.close(stream)
            came = (done.returncode, done.stdout, done.stderr if wanted[2] is not None else None)
            if came != wanted or (folder / "typed").exists() != (wanted[0] in (0, 4)):
                yield f"{words}: {came}, and not {wanted}"


def on_terminals(program):
    """What is wrong with which runs are live on a terminal."""
    cases = [
        (["x.occ"], "abc\n", (0, "abc", "")),
        (["--choices=c", "x.occ"], "", (4, "limit\n", "")),
        (["--seed=3", "x.occ"], "abc\n", (0, "abc", "")),
        (["--workers=2", "x.occ"], "abc\n\x04", (0, NOTICE + "abc", "")),
        (["--seed=3", "--tries=2", "x.occ"], "abc\n\x04", (0, NOTICE + "abc", "")),
        (["--live", "x.occ"], "abc\n", (0, "abc", "")),
        (["--typed=t", "x.occ"], "abc\ndef", (0, "abc", "")),
    ]
    for words, typed, wanted in cases:
        with room({"x.occ": ECHO, "c": ""}) as folder:
            came = shown_on([program, "--plain", *words], folder, typed)
            if came != wanted:
                yield f"{words}: {came}, and not {wanted}"
            if "--typed=t" in words and (folder / "t").read_bytes() != b"abc\n":
                yield f"{words}: {(folder / 't').read_bytes()!r}"


def files_left(program):
    """What is wrong with the files that a live run leaves: they are those of the run that reads first, and no file is half written."""
    words = ["--record", "used", "--chart", "chart.svg", "--trace-to", "trace", "--json", "--steps", "steps", "--page", "page"]
    with room({"x.occ": ASKS, "f.occ": FAULTS}) as folder:
        left = []
        for more in ([], ["--live"]):
            run(program, folder, [*more, *words, "x.occ"], b"ab.cd")
            left.append({name: (folder / name).read_bytes() for name in ("used", "chart.svg", "trace", "steps", "page")})
        if left[0] != left[1]:
            yield "the files of a live run are others"
        run(program, folder, ["--workers=2", "--typed=typed", "x.occ"], b"ab.cd")
        if (folder / "typed").read_bytes() != b"ab.cd":
            yield f"what was typed for threads: {(folder / 'typed').read_bytes()!r}"
        source = run(program, folder, ["--live", "--trace"], LETTER.encode())
        if source != (0, b"A\n1 c1 screen p0>screen 65\nended\n", b""):
            yield f"a source on standard input: {source}"


def jobs():
    """A test for each conversation, for the runs of each example, and for these checks."""
    for title, *told in TALKS:
        yield Job(f"live: {title}", lambda program, told=told: talked(program, *told))
    for path in sorted((TOP / "examples").rglob("*.occ")):
        asks = "keyboard ?" in path.read_text() or "(keyboard" in path.read_text().split("PROC main", 1)[-1].split(":\n", 1)[-1]
        yield Job(f"live: {path.name}", lambda program, path=path, asks=asks: all_same(program, path, 24 if asks else 6))
        yield Job(f"live: {path.name}, left open", lambda program, path=path: left_open(program, path))
    for first in range(0, 200, 20):
        yield Job(f"live: generated {first}", lambda program, first=first: all_generated(program, first, 20))
    sources = {}
    for case in all_cases():
        if re.match(r"tests/(runs|choices|texts|arrays)/", case.where) and not case.wanted[0].is_refused:
            sources.setdefault((case.source, case.keyboard), case.where)
    for (source, keyboard), where in sources.items():
        yield Job(f"live: {where}", lambda program, of=(source, keyboard): case_live(program, *of))
    yield Job("live: Ctrl-C", interrupted)
    yield Job("live: unwritten", unwritten)
    yield Job("live: unread", unread)
    yield Job("live: terminals", on_terminals)
    yield Job("live: files", files_left)
