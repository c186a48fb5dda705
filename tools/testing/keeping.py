"""Tries --within: programs beside specifications, and words and files that belong to it. What it tells is compared with two searches."""
import itertools

from .running import Job, room, run_text
from .schedules import ANSWER

HEAD = "PROC main (CHAN OF BYTE keyboard, screen)\n"


def shows(text):
    """A program that shows a text."""
    return HEAD + "  SEQ\n" + "".join(f"    screen ! '{letter}'\n" for letter in text) + "    SKIP\n:\n"


def chooses(texts):
    """A program that shows one of these texts."""
    arms = "".join(f"      c[{place}] ? any\n        SEQ\n" + "".join(f"          screen ! '{letter}'\n" for letter in text) + "          SKIP\n" for place, text in enumerate(texts))
    several = f"  [{len(texts)}]CHAN OF BOOL c:\n  PAR\n    PAR i = 0 FOR {len(texts)}\n      BOOL any:\n      ALT\n        TRUE & SKIP\n          c[i] ! TRUE\n    BOOL any:\n    ALT\n{arms}:\n"
    return HEAD + several


LONG = "a" * 61
SHARED = HEAD + "  INT x:\n  PAR\n    x := 1\n    x := 2\n:\n"
ECHO = HEAD + "  BYTE b:\n  SEQ\n    keyboard ? b\n    screen ! b\n:\n"
EITHER = """PROC main (CHAN OF BYTE keyboard, screen)
  [2]CHAN OF BYTE double:
  PAR
    double[0] ! '4'
    double[1] ! '8'
    SEQ
      SEQ i = 0 FOR 2
        BYTE digit:
        ALT j = 0 FOR 2
          double[j] ? digit
            screen ! digit
      screen ! '*n'
:
"""
FILES = {
    "a.occ": shows("a"),
    "b.occ": shows("b"),
    "ab.occ": EITHER,
    "four.occ": shows("48").replace("    SKIP\n", "    screen ! '*n'\n"),
    "long.occ": shows(LONG + "x"),
    "longer.occ": shows(LONG + "y"),
    "stop.occ": HEAD + "  STOP\n:\n",
    "fault.occ": HEAD + "  INT x:\n  x := 1 / 0\n:\n",
    "round.occ": HEAD + "  WHILE TRUE\n    SKIP\n:\n",
    "echo.occ": ECHO,
    "shared.occ": SHARED,
    "text.bin": b"\0",
}
SAME = "same answers as the specification: {}\n"
NO_FILE = "none.occ: no such file or folder\n"
TOLD = """shared.occ:5:5: `x` is written in one branch of a PAR and used in another
5 |     x := 2
  |     ^
  another branch uses it in line 4: give each branch a variable of its own, or send the value over a channel
"""
# words, what is typed, and the status with what the two streams get
RUNS = [
    ("--within a.occ a.occ", "", (0, SAME.format("1 answer") + "each run ends within 2 turns\n", "")),
    ("a.occ --within=b.occ", "", (2, '1 ended "a" by 2 choices\nnot one of the specification\'s: 1 answer\n', "")),
    ("--explore=endings --within b.occ a.occ", "", (0, SAME.format("1 answer") + "each run ends within 2 turns\n", "")),
    ("--within ab.occ four.occ", "", (0, "each answer is one of the specification's: 1 of 2 answers\neach run ends within 4 turns\n", "")),
    ("--explore --within ab.occ ab.occ", "", (0, SAME.format("2 answers") + "each run ends within 14 turns\n", "")),
    ("--explore=full --within ab.occ ab.occ", "", (0, SAME.format("2 answers") + "each run ends within 14 turns\n", "")),
    ("--within four.occ ab.occ", "", (2, '1 ended "84*n" by 14 choices\nnot one of the specification\'s: 1 answer\n', "")),
    # what differs stands behind what is printed
    ("--within longer.occ long.occ", "", (2, f'1 ended "{"a" * 60}" and 2 more by 63 choices\nnot one of the specification\'s: 1 answer\n', "")),
    ("--within stop.occ a.occ", "", (2, '1 ended "a" by 2 choices\nnot one of the specification\'s: 1 answer\n', "")),
    ("--within a.occ stop.occ --explain", "", (2, '1 stopped "" by 1 choice\nnot one of the specification\'s: 1 answer\n', "1 stopped, halted: p0 was halted\nafter 0 communications no process can go on:\n  p0 main, line 2: halted by STOP\n")),
    ("--within fault.occ fault.occ", "", (0, SAME.format("1 answer") + "each run ends within 1 turn\n", "")),
    ("--within stop.occ fault.occ --errors stop", "", (2, '1 stopped ARITH line 3 "" by 1 choice\nnot one of the specification\'s: 1 answer\n', "")),
    ("--within a.occ round.occ", "", (0, "each answer is one of the specification's: 0 of 1 answer\nsome run goes on for ever\n", "")),
    ("--within round.occ round.occ", "", (0, SAME.format("0 answers") + "some run goes on for ever\n", "")),
    ("--within a.occ echo.occ", "a", (0, SAME.format("1 answer") + "each run ends within 3 turns\n", "")),
    ("--within echo.occ a.occ", "a", (0, SAME.format("1 answer") + "each run ends within 2 turns\n", "")),
    ("--within echo.occ a.occ", "b", (2, '1 ended "a" by 2 choices\nnot one of the specification\'s: 1 answer\n', "")),
    # bounds
    ("--within a.occ ab.occ --states 4", "", (4, "no verdict: the program passed the bound of 4 states\n", "")),
    ("--within ab.occ a.occ --states 4", "", (4, "no verdict: the specification passed the bound of 4 states\n", "")),
    ("--within ab.occ b.occ --states 1", "", (4, "no verdict: the program passed the bound of 1 state\n", "")),
    # refusals
    ("--within shared.occ a.occ", "", (1, "", "specification: refused 50 SharedVariable line 5 x\n")),
    ("--within shared.occ a.occ --explain", "", (1, "", f"specification: refused 50 SharedVariable line 5 x\n{TOLD}")),
    ("--within a.occ shared.occ --explain", "", (1, "", f"refused 50 SharedVariable line 5 x\n{TOLD}")),
    ("--within shared.occ shared.occ", "", (1, "", "refused 50 SharedVariable line 5 x\n")),
    ("--within none.occ a.occ", "", (6, "", "read failed\n")),
    ("--within none.occ a.occ --explain", "", (6, "", f"read failed\n{NO_FILE}")),
    ("--within a.occ none.occ", "", (6, "", "read failed\n")),
]
# words that stand wrongly beside --within
WRONG = ["--check", "--json", "--limit 5", "--workers 2", "--choices c", "--seed 1", "--trace", "--steps s", "--chart s", "--live", "--typed t", "--watch", "--within a.occ"]


def told(program, words, given, wanted):
    """Faults of a run."""
    with room(FILES) as folder:
        came = run_text(program, folder, words.split(), given)
    if came != wanted:
        yield f"{came}, and not {wanted}"


def refused(program, words):
    """Faults of wrong words."""
    with room(FILES) as folder:
        status, out, err = run_text(program, folder, ["--within", "b.occ", "a.occ", *words.split()])
    if status != 7 or out or not err.startswith("error: "):
        yield f"{status} {out} {err}"


def recorded(program):
    """Faults of the choices of the answer that is none of the specification's: they play it again."""
    with room(FILES) as folder:
        status = run_text(program, folder, ["--within", "four.occ", "ab.occ", "--record", "bad"])[0]
        written = sorted(path.name for path in folder.iterdir() if path.name not in FILES)
        again = run_text(program, folder, ["--choices", "bad.1.choices", "ab.occ"])
        if (status, written, again) != (2, ["bad.1.choices"], (0, "84\n", "")):
            yield f"{status} {written} {again}"
        (folder / "bad.1.choices").unlink()
        if run_text(program, folder, ["--within", "ab.occ", "four.occ", "--record", "bad"])[0] or (folder / "bad.1.choices").exists():
            yield "choices of no answer are written"
    for words in (["--within", "r.1.choices", "a.occ"], ["--within", "a.occ", "r.1.choices"]):
        with room({**FILES, "r.1.choices": FILES["b.occ"]}) as folder:
            came = run_text(program, folder, [*words, "--record", "r"])
            if came[0] != 7 or (folder / "r.1.choices").read_text() != FILES["b.occ"]:
                yield f"{words} with --record r: {came}"


def answers_of(program, folder, name):
    """What a search finds, without the numbers of choices."""
    out = run_text(program, folder, ["--explore", name])[1]
    return {ending + shown for ending, shown, _ in ANSWER.findall(out)}


def compared(program, first, second):
    """Faults of a comparison of two programs that choose, which two searches have to say too."""
    with room({"s.occ": chooses(first), "m.occ": chooses(second)}) as folder:
        status, out, _ = run_text(program, folder, ["--within", "s.occ", "m.occ"])
        specified, own = (answers_of(program, folder, name) for name in ("s.occ", "m.occ"))
        wanted = "same answers" if own == specified else "each answer" if own <= specified else "1 "
        if not out.startswith(wanted) or status != (0 if own <= specified else 2) or not own:
            yield f"{status} {out}: {own}, and of the specification {specified}"


def jobs():
    """The tests."""
    for words, given, wanted in RUNS:
        yield Job(f"within: {words}", lambda program, of=(words, given, wanted): told(program, *of))
    for words in WRONG:
        yield Job(f"within: beside {words}", lambda program, words=words: refused(program, words))
    yield Job("within: choices that are recorded", recorded)
    texts = ["", "a", "ab"]
    several = [choice for count in (1, 2) for choice in itertools.combinations_with_replacement(texts, count)]
    for first, second in itertools.product(several, several):
        yield Job(f"within: {first} and {second}", lambda program, of=(first, second): compared(program, *of))
