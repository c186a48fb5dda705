"""Tries sources of several files: they are one, in their order, and lines are told by file."""
import json

from .running import TOP, Job, room, run_text

LETTERS = "PROC a (CHAN OF BYTE screen)\n  screen ! 'a'\n:\n"
MAIN = "PROC main (CHAN OF BYTE keyboard, screen)\n  a (screen)\n:\n"
ECHO = "PROC main (CHAN OF BYTE keyboard, screen)\n  BYTE b:\n  SEQ\n    keyboard ? b\n    screen ! b\n    a (screen)\n:\n"
WRONG = "PROC main (CHAN OF BYTE keyboard, screen)\n  x := 1\n:\n"
FAULTS = "PROC main (CHAN OF BYTE keyboard, screen)\n  INT x:\n  SEQ\n    a (screen)\n    x := 1 / 0\n:\n"
OWN = "a file to be written is the source, that of --choices, or another one to be written: --record, --typed, --chart, --trace-to, --steps, --page and --graph each write into a file of their own\n"
MISSING = "no such file or folder\n"
ADVICE = "  `occam FILE` runs the program in FILE, `occam --help` lists the options\n"
UNKNOWN = "`x` is not declared here\n2 |   x := 1\n  |   ^\n"
BEGINNINGS = "a.occ begins at line 1\nf.occ begins at line 4\n"
FILES = {"a.occ": LETTERS, "m.occ": MAIN, "e.occ": ECHO, "w.occ": WRONG, "f.occ": FAULTS, "n.occ": LETTERS.rstrip("\n"), "z.occ": "", "c.occ": LETTERS.replace("\n", "\r\n")}
# words, what is typed, and the status with what the two streams get; for a text on standard error that is None the first line alone
RUNS = [
    (["a.occ", "m.occ"], "", (0, "a", "")),
    (["n.occ", "m.occ"], "", (0, "a", "")),
    (["c.occ", "m.occ"], "", (0, "a", "")),
    (["z.occ", "a.occ", "z.occ", "m.occ", "z.occ"], "", (0, "a", "")),
    (["a.occ", "e.occ"], "k", (0, "ka", "")),
    (["a.occ", "--trace", "m.occ"], "", (0, "a\n1 c1 screen p0>screen 97\nended\n", "")),
    (["--explore=endings", "a.occ", "m.occ"], "", (0, "1 ended by 2 choices\neach run ends after 2 turns\none answer: the program has no ALT\n", "")),
    (["m.occ", "a.occ"], "", (1, "", "refused 52 TwoOutputs line 5 keyboard\n")),
    (["a.occ", "w.occ"], "", (1, "", "refused 30 Unknown line 5 x\n")),
    (["n.occ", "w.occ"], "", (1, "", "refused 30 Unknown line 5 x\n")),
    (["z.occ", "w.occ"], "", (1, "", "refused 30 Unknown line 2 x\n")),
    (["w.occ", "m.occ", "--check"], "", (1, "", "refused 30 Unknown line 5 a\n")),
    (["a.occ", "f.occ"], "", (3, "a\nfault ARITH line 8\n", "")),
    (["--explain", "a.occ", "f.occ"], "", (3, "a\nfault ARITH line 8\n", f"after 1 communication:\n  p0 main, line 8: fault ARITH line 8\n    x := 1 / 0\n{BEGINNINGS}")),
    (["--explain", "f.occ"], "", (1, "", None)),
    (["a.occ", "z.occ", "n.occ", "m.occ", "--check"], "", (0, "", "")),
    (["a.occ", "none.occ"], "", (6, "", "read failed\n")),
    (["--explain", "a.occ", "none.occ", "m.occ"], "", (6, "", f"read failed\nnone.occ: {MISSING}")),
    (["--explain", "none.occ", "m.occ"], "", (6, "", f"read failed\nnone.occ: {MISSING}{ADVICE}")),
    (["--record", "m.occ", "a.occ", "m.occ"], "", (7, "", None)),
    (["--steps", "z.occ", "a.occ", "m.occ", "z.occ"], "", (7, "", None)),
    (["--page", "z.occ", "a.occ", "m.occ", "z.occ"], "", (7, "", None)),
    (["--chart", "./m.occ", "a.occ", "m.occ"], "", (7, "", OWN)),
    (["--explore", "--record", "r", "a.occ", "r.7.choices"], "", (7, "", OWN)),
    (["-", "m.occ"], "", (7, "", None)),
    (["m.occ", "-"], "", (7, "", None)),
    (["l.occ", "l.occ"], "", (1, "", "refused 1 TooLong\n")),
    (["l.occ", "m.occ"], "", (1, "", "refused 30 Unknown line 3 a\n")),
]
# words, and the place that an explanation and an object tell: the file, the line, the column
PLACES = [
    (["a.occ", "w.occ"], "w.occ", 2, 3),
    (["n.occ", "w.occ"], "w.occ", 2, 3),
    (["c.occ", "z.occ", "w.occ"], "w.occ", 2, 3),
    (["a.occ", "a.occ", "m.occ", "w.occ"], "w.occ", 2, 3),
    (["w.occ"], "w.occ", 2, 3),
]
UNREACHED = [
    (["a.occ", "n.occ", "l.occ", "m.occ"], []),
    (["m.occ", "a.occ", "r.7.choices"], [("b", "r.7.choices", 2)]),
]


def made():
    """The files: one is as long as a source may be, but for a few bytes."""
    left = "PROC b ()\n  SKIP\n:\n"
    return {**FILES, "l.occ": "-" * 1_048_000 + "\n", "r.7.choices": "\n" + left + "PROC main (CHAN OF BYTE screen)\n  SKIP\n:\n"}


def runs(program, words, given, wanted):
    """Faults of a run."""
    with room(made()) as folder:
        came = run_text(program, folder, words, given)
    if wanted[2] is None:
        came = (*came[:2], None)
    if came != wanted:
        yield f"{came}, and not {wanted}"


def places(program, words, file, line, column):
    """Faults of the place of a refusal."""
    with room(made()) as folder:
        told = run_text(program, folder, ["--check", "--explain", *words])[2].split("\n")
        said = json.loads(run_text(program, folder, ["--check", "--json", *words])[1])
    if not told[1].startswith(f"{file}:{line}:{column}: ") or not told[2].startswith(f"{line} | "):
        yield f"{told}, and not {file}:{line}:{column}"
    if (said["file"], said["line"], said["column"]) != (file, line, column):
        yield f"{said}, and not {file}:{line}:{column}"


def unreached(program, words, wanted):
    """Faults of the PROCs that no call reaches."""
    with room(made()) as folder:
        told = run_text(program, folder, ["--check", *words])
        said = [json.loads(line) for line in run_text(program, folder, ["--check", "--json", *words])[1].splitlines()]
    lines = "".join(f"not checked: {name}, {file}, line {line}: no call reaches it\n" for name, file, line in wanted)
    if told != (0, "", lines) or [(it["name"], it["file"], it["line"]) for it in said] != wanted:
        yield f"{told}, {said}, and not {wanted}"


def joined(program):
    """Faults of runs by a library of examples/ and a program of two lines."""
    with room({"my.occ": "PROC main (CHAN OF BYTE keyboard, screen)\n  out.number (42, screen)\n:\n"}) as folder:
        library = str(TOP / "examples/library/writing.occ")
        came = run_text(program, folder, [library, "my.occ", "--record", "r"])
        again = run_text(program, folder, ["--choices", "r", library, "my.occ"])
    if came != (0, "42", "") or again != came:
        yield f"{came}, {again}"


def jobs():
    """A test for each."""
    for words, given, wanted in RUNS:
        yield Job(f"sources: {words}", lambda program, words=words, given=given, wanted=wanted: runs(program, words, given, wanted))
    for words, *place in PLACES:
        yield Job(f"sources: a place in {words}", lambda program, words=words, place=place: places(program, words, *place))
    for words, wanted in UNREACHED:
        yield Job(f"sources: unreached in {words}", lambda program, words=words, wanted=wanted: unreached(program, words, wanted))
    yield Job("sources: a library", joined)
