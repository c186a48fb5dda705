"""Refuses memory to a program, request by request, and looks at what it answers. tools/refuse does so for each request of each line of
the table below, and tools/test for some requests of each kind of run."""
import concurrent.futures
import os
import pathlib
import shutil
import struct
import subprocess
import tempfile

from .running import TOP, Job, room

HEAD = "PROC main (CHAN OF BYTE keyboard, screen)\n"
BYTE = HEAD + "  screen ! 'A'\n:\n"
PIPELINE = HEAD + """  [4]CHAN OF INT c:
  PAR
    c[0] ! 1
    PAR i = 0 FOR 3
      INT x:
      SEQ
        c[i] ? x
        c[i + 1] ! x + 1
    INT y:
    SEQ
      c[3] ? y
      screen ! BYTE (y + 48)
:
"""
COPIES = HEAD + """  [2]INT a:
  INT n:
  SEQ
    n := 0
    WHILE n < 2
      SEQ
        PAR
          a[0] := a[0] + 1
          a[1] := a[1] + n
        n := n + 1
    screen ! BYTE ((a[0] + a[1]) + 48)
:
"""
CHOICE = HEAD + """  CHAN OF INT a, b:
  PAR
    a ! 1
    b ! 2
    INT x:
    SEQ
      PRI ALT
        a ? x
          SKIP
        b ? x
          SKIP
      screen ! BYTE (x + 48)
:
"""
TAGS = """PROTOCOL msg
  CASE
    data; INT
    quit
:
""" + HEAD + """  CHAN OF msg c:
  PAR
    SEQ
      c ! data; 5
      c ! quit
    INT x:
    SEQ
      c ? CASE data; x
      screen ! BYTE (x + 48)
      c ? CASE data; x
:
"""
COUNTED = HEAD + """  CHAN OF INT::[]BYTE c:
  [4]BYTE buf:
  PAR
    c ! 5::buf
    INT n:
    [4]BYTE got:
    SEQ
      got[0] := 'x'
      c ? n::got
      screen ! got[0]
:
"""
ECHO = HEAD + "  SEQ i = 0 FOR 3\n    BYTE b:\n    SEQ\n      keyboard ? b\n      screen ! b\n:\n"
ENDLESS = HEAD + "  WHILE TRUE\n    SKIP\n:\n"
DINING = (TOP / "examples/faults/dining.occ").read_text()
SOURCES = [("a byte", BYTE), ("a pipeline", PIPELINE), ("copies", COPIES), ("a choice", CHOICE), ("tags", TAGS), ("a count", COUNTED)]
REFUSED = [
    ("an open string", HEAD + '  screen ! "ab\n:\n'),
    ("no precedence", HEAD + "  INT x:\n  x := 1 + 2 + 3\n:\n"),
    ("a name that is none", HEAD + "  x := 1\n:\n"),
    ("a name twice", HEAD + "  INT a, a:\n  SKIP\n:\n"),
    ("too many cells", HEAD + "  [9999999]INT a:\n  SKIP\n:\n"),
    ("a shared variable", HEAD + "  INT n:\n  PAR\n    n := 1\n    n := 2\n:\n"),
    ("a fault", HEAD + "  INT x:\n  x := 2147483647 + 1\n:\n"),
]
WORKERS = [1, 2, 4, 8]


def table():
    """Names, sources, keyboards and words."""
    for name, source in SOURCES:
        yield name, source, "", ["--trace"]
        yield name, source, "", ["--trace", "--errors", "stop", "--quantum", "3"]
        yield name, source, "", ["--record", "kept.choices"]
        yield name, source, "", ["--chart", "kept.svg"]
        yield name, source, "", ["--choices", "zeros.choices"]
        for workers in WORKERS:
            yield name, source, "", ["--workers", str(workers)]
        yield name, source, "", ["--watch"]
        yield name, source, "", ["--watch", "--workers", "2"]
        yield name, source, "", ["--steps", "kept.steps"]
        yield name, source, "", ["--page", "kept.html"]
        for words in [["--explore"], ["--explore=full"], ["--explore=endings", "--states", "3"]]:
            yield name, source, "", words
    for name, source in REFUSED:
        yield name, source, "", []
    for name, source in [SOURCES[3], SOURCES[4], REFUSED[2]]:
        yield name, source, "", ["--explain"]
    yield *SOURCES[3], "", ["--explore", "--explain"]
    yield "a keyboard", ECHO, "hi", ["--trace"]
    yield "a keyboard", ECHO, "hi", ["--workers", "2"]
    yield "a keyboard", ECHO, "hi", ["--watch", "--choices", "zeros.choices"]
    yield *REFUSED[-2], "", ["--watch"]
    yield "no end", ENDLESS, "", ["--limit", "100"]
    yield "seeds", DINING, "", ["--seed", "1", "--tries", "4", "--limit", "100"]
    yield "no source", None, "", []
    yield "help", BYTE, "", ["--help"]
    yield "wrong words", BYTE, "", ["--limit", "x"]
    yield "one file twice", BYTE, "", ["--record", "kept.svg", "--chart", "kept.svg"]


def build_library(folder):
    """The library that refuses."""
    kit = subprocess.run(["rt", "doc"], capture_output=True, text=True, check=False).stdout.strip()
    own = os.path.join(os.path.dirname(kit), "toolchain", "bin", "clang")
    compiler = shutil.which("cc") or shutil.which("clang") or own
    library = folder / "refuse.so"
    subprocess.run([compiler, "-O1", "-fno-builtin", "-shared", "-fPIC", "-o", library, TOP / "tools" / "refuse.c", "-ldl"], check=True)
    return library


class Tried:
    """A line of the table, tried in a folder of its own."""

    def __init__(self, program, library, folder, line):
        self.program, self.library, self.folder = program, library, folder
        self.name, self.source, self.keyboard, self.words = line
        self.runs, self.refused, self.wrong = 0, 0, []
        (folder / "zeros.choices").write_text("0 0\n" * 200)
        if self.source is not None:
            (folder / "source.occ").write_text(self.source)
        # the numbers of requests that are refused are this far apart
        self.step = 1
        self.kept = [folder / it for it in self.words if it.startswith("kept.")]

    def run(self, **refusals):
        """What comes of a run, and how many requests it made."""
        for path in self.kept:
            path.write_text("kept\n")
        count = self.folder / "count"
        env = {"LD_PRELOAD": str(self.library), "COUNT_FILE": str(count), **refusals}
        done = subprocess.run([self.program, *self.words, "source.occ"], cwd=self.folder, env=env, input=self.keyboard.encode(), capture_output=True, timeout=60, check=False)
        self.runs += 1
        return done, struct.unpack("l", count.read_bytes())[0]

    def is_seen(self, lines, whole):
        """Whether these are the lines of a watcher or none. The communications of two workers come in any order."""
        if "--watch" not in self.words:
            return not lines
        return lines in (b"", whole) or "--workers" in self.words and lines.count(b"\n") == whole.count(b"\n")

    def is_cut(self, done, whole):
        """Whether a search told what it had found where memory ran out."""
        *answers, last = done.stdout.splitlines() or [b""]
        return done.returncode == 4 and last == b"these at least: memory ran out" and set(answers) <= set(whole.stdout.splitlines())

    def is_right(self, done, whole):
        """Whether a run gave what it gives with ample memory, or was refused with nothing lost."""
        files = sorted(it.name for it in self.folder.iterdir())
        if any(".new" in it for it in files):
            return False
        if (done.returncode, done.stdout, done.stderr) == (whole.returncode, whole.stdout, whole.stderr):
            return True
        if whole.returncode == 7 and done.returncode == 7:
            left = iter(whole.stderr.splitlines())
            return done.stdout == b"" and all(line in left for line in done.stderr.splitlines())
        if "--tries" in self.words and (done.returncode, done.stdout, done.stderr) == (whole.returncode, whole.stdout, b""):
            return True  # the line on the number is left out
        if "--explain" in self.words and (done.returncode, done.stdout) == (whole.returncode, whole.stdout) and done.stderr.endswith(b"memory\n"):
            return whole.stderr.startswith(done.stderr.removesuffix(b"memory\n"))  # in place of the report
        if self.is_cut(done, whole):
            return done.stderr in (b"", b"memory\n") or whole.stderr.startswith(done.stderr.removesuffix(b"memory\n"))
        by_workers = "--workers" in self.words or "--watch" in self.words
        if by_workers and done.returncode == whole.returncode and done.stdout and self.is_seen(done.stderr, whole.stderr):
            return True
        lines = [b"memory\n", b"thread refused\n"] if by_workers else [b"memory\n"]
        if done.returncode != 5 or done.stderr not in lines:
            return False
        if not self.kept:
            return done.stdout == b""
        texts = [path.read_text() for path in self.kept]
        return done.stdout in (b"", whole.stdout) and all(it == "kept\n" for it in texts)

    def try_some(self, count):
        """Refuses some requests, which stand evenly among all of them."""
        _, made = self.run()
        self.step = max(1, made // count)
        return self.try_all()

    def try_all(self):
        """Refuses each request, alone and with all after it."""
        whole, _ = self.run()
        for kind in ["FAIL_AT", "FAIL_FROM"]:
            number, made = 1 - self.step, 0
            while number <= made:
                number += self.step
                done, made = self.run(**{kind: str(number)})
                self.refused += done.returncode == 5
                if not self.is_right(done, whole):
                    self.wrong.append(f"{kind}={number}: status {done.returncode}, {done.stderr[:80]!r}")
        return self

    def told(self):
        """How many of its runs were wrong, and what of the first of them."""
        return [f"{self.name} {' '.join(self.words)}: {self.runs} runs, {len(self.wrong)} wrong", *(f"  {text}" for text in self.wrong[:5])]


def run_tests(word, program):
    """Whether these tests pass, whichever growth is refused."""
    listed = subprocess.run([program, "--list"], capture_output=True, text=True, check=True).stdout.splitlines()
    failures = 0
    with tempfile.TemporaryDirectory(prefix="refuse-") as folder:
        count = pathlib.Path(folder) / "count"
        env = {"LD_PRELOAD": str(build_library(pathlib.Path(folder))), "COUNT_FILE": str(count)}
        for name in [it.removesuffix(": test") for it in listed if word in it]:
            failed, number, made = [], 0, 0
            while number <= made:
                number += 1
                refusal = {**env, "FAIL_AT": str(number)}
                done = subprocess.run([program, name], env=refusal, capture_output=True, timeout=600, check=False)
                made = struct.unpack("l", count.read_bytes())[0]
                if done.returncode:
                    failed.append(number)
            failures += len(failed)
            print(f"{name}: {number} runs, {len(failed)} failed {failed[:20]}", flush=True)
    return not failures


def some(program, library, line):
    """Faults of a line of the table, where a part of its requests is refused."""
    with room() as folder:
        tried = Tried(program, library, folder, line).try_some(REFUSED_EACH)
        if tried.wrong:
            yield "; ".join(tried.told())
        elif not tried.refused:
            yield f"{tried.runs} runs, and none of them wanted memory"


# how many requests of a line are refused alone, and how many with all behind them, where not all are
REFUSED_EACH = 10


def kinds():
    """The lines of the table that are each kind of run once, each kind of another source, and all of a keyboard or of a source that is
    refused."""
    by_words = {}
    for line in table():
        name, _, keyboard, words = line
        by_words.setdefault((name, *words) if keyboard or not words else tuple(words), []).append(line)
    return [lines[number % len(lines)] for number, lines in enumerate(by_words.values())]


def jobs(folder):
    """A test for each kind of run; none, and a line that says so, where nothing compiles the library that refuses."""
    try:
        library = build_library(folder)
    except (OSError, subprocess.CalledProcessError) as fault:
        print(f"no memory was refused: {fault}")
        return
    for line in kinds():
        yield Job(f"refused memory: {line[0]} {' '.join(line[3])}", lambda program, line=line: some(program, library, line))


def try_table(program):
    """Refuses each request of each line of the table, and prints what came of it: whether nothing was wrong."""
    runs = wrong = 0
    with room() as folder, concurrent.futures.ThreadPoolExecutor(os.cpu_count()) as pool:
        library, tried = build_library(folder), []
        for number, line in enumerate(table()):
            own = folder / str(number)
            own.mkdir()
            tried.append(pool.submit(Tried(program, library, own, line).try_all))
        for it in tried:
            line = it.result()
            runs, wrong = runs + line.runs, wrong + len(line.wrong)
            print(*line.told(), sep="\n", flush=True)
    print(f"{runs} runs, {wrong} wrong")
    return not wrong
