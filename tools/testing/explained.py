"""Tries --explain over the texts of tests/mistakes.txt and the programs of examples/.

Of each text the first line on standard error and the status have to be those without the word. Behind it come the place, with the words
of what is wrong, the line of the source behind its number, a caret under the place, and the words of the hint. A text of
tests/mistakes.txt stands below a line `=== ` with its mistake, and above a line `--- ` with the place, the words of what is wrong, a `/`
and the words of the hint; semicolons part the words.

An explanation of a long line takes time in proportion to its length: there are lines of up to 990,000 bytes, each with a bound in
processor seconds that a loaded machine keeps too.

Each program of examples/, and each of tests/runs, tests/choices and tests/explored, is played for some numbers of turns. In the report of a run that hasn't ended each process has to have a PROC of
the text, and a line unless it can go on; and what it stands at has to be in that line, with the name that its channel has there. Below a
fault has to stand its line of the text, and behind that values; each call has to be one in its line. So it is with the stops of its
first turns, as --steps writes them.
"""
import re
import resource

from .cases import all_cases
from .running import TOP, Job, room, run

TURNS = [1, 2, 3, 5, 8, 13, 21, 34, 55, 89, 144, 10000]
FEW_TURNS = [2, 5, 13, 10000]
STANDS = re.compile(r"  p\d+ (?P<name>[\w.]+)(?:, line (?P<line>\d+))?: (?P<text>.*)")
# the name that a channel has in the line, and what it stands for
NAMED = re.compile(r"(?:offers .* on|awaits) (?P<name>[\w.]+)(?:\[\d+\])?(?: \([^ ]*\))?, (?:which|whose)")
# lines below that of a process
CALLED = re.compile(r"    called in line (?P<line>\d+)")
VALUE = re.compile(r"    [\w.]+(?:\[\d+\])*(?: \([\w.]+(?:\[\d+\])*\))? = (?:-?\d+|TRUE|FALSE)")
# which process stands there, and whether it chooses
WHO = re.compile(r"  (?P<one>p\d+) [^:]*: (?P<chooses>chooses)?")
LIMIT = "  the limit is reached: --limit N allows more turns, --quantum N makes each longer"
# each of whom a process waits for, and the line that tells of a circle
OTHER = re.compile(r"(?:offers|awaits) [^;]*, which (p\d+) (?:reads|writes)")
BRANCHES = re.compile(r": waits for((?: p\d+)+)$")
CIRCLE = re.compile(r"  in a circle, each waits for the next(?:, (?P<arms>(?:p\d+ )+)by one of (?:its|their) arms)?: (?P<numbers>.*)")
# how the report of a stop begins
KIND = re.compile(r"(?:circle|halted|unfinished|idle): .*")
# how the report of a run begins that has used up its choices, and processes take no further turn; and the line that counts the ended
FOR_GOOD = re.compile(r"for good:((?: p\d+)+) waits?, whatever choices follow")
ENDED = re.compile(r"  (?:1 process has|(?:[2-9]|\d\d+) processes have) ended")
# who is at the other end of a channel
AT_END = re.compile(r", which (?:p\d+|nobody) (?:reads|writes)(?: now)?")
# how what a process stands at begins, or ends, and what the line then has
HAS = {
    "offers ": "!",
    "awaits ": "?",
    "chooses": "ALT",
    "waits for ": "PAR",
    "halted by STOP": "STOP",
    "the IF is TRUE": "IF",
    "for the value": "CASE",
    "has the tag": "?",
    "ALT is closed": "ALT",
}
# how what a turn stops at begins, and one of what its line then has
STOPS = {"offers ": ["!"], "awaits ": ["?"], "chooses": ["ALT"], "waits for ": ["PAR"], "halted": ["STOP", "IF", "CASE", "?", "ALT"]}
STEP = re.compile(r"\d+ ready (?:p\d+ )+took p\d+ pick \d+ (?:line (?P<line>\d+): )?(?P<text>.*)")
# texts that are no UTF-8, or that are cut within a character: a title, the text, the line, the column, what is wrong and the hint
ODD = [
    ("a comment in another code", b"PROC main (CHAN OF BYTE keyboard, screen)\n  INT x: -- caf\xe9\n  x = 1 -- caf\xe9\n:\n", 3, 5, "`=`", ":="),
    ("a letter of another code", b"PROC main (CHAN OF BYTE keyboard, screen)\n  screen ! '\xe9'\n:\n", 2, 13, "a byte", "ASCII"),
    ("a byte that begins a control sequence", b"PROC main (CHAN OF BYTE keyboard, screen)\n  INT x:\n  x = 1 -- \xc2\x9b2J\n:\n", 3, 5, "`=`", ":="),
]
# how many processor seconds may go by while a long line is refused, and then refused and explained
MOST_SECONDS = 2
# mistakes behind many operators: a title, how many they are, the end of the line, whose last letter is the mistake, and what is told
LONG = [
    ("a bracket behind 165,000 operators", 165_000, " )", "`)`", "none is open"),
    ("a number behind 165,000 operators", 165_000, " AND 1", "AND and OR join values of BOOL", ""),
    ("a channel behind 165,000 operators", 165_000, " AND c", "a CHAN OF BOOL", "input from it first"),
]
MISTAKES = re.compile(r"(?ms)^=== (.*?)\n(.*?)^--- (\d+):(\d+) (.*?) /(.*?)$")


def mistaken(program, source, line, column, wrong, hint):
    """Faults of what is told of one text."""
    with room({"x.occ": source}) as folder:
        (status, _, plain), (status_too, _, explained) = (run(program, folder, [*words, "x.occ"]) for words in ([], ["--explain"]))
    if (status, status_too) != (1, 1) or not explained.startswith(plain):
        yield "another first line or status"
    lines = explained.removeprefix(plain).decode("ascii", "replace").split("\n")
    if not lines[0].startswith(f"x.occ:{line}:{column}: "):
        yield f"another place: {lines[0]}"
    shown = re.sub(rb"[^\x20-\x7e]", b"?", source.split(b"\n")[line - 1]).decode("ascii")
    caret = f"{' ' * len(str(line))} | {' ' * (column - 1)}^"
    if lines[1:3] != [f"{line} | {shown}", caret]:
        yield f"another line: {lines[1:3]}"
    for words, text in ((wrong, lines[0]), (hint, "\n".join(lines[3:]))):
        for word in words.split(";"):
            if word.strip() not in text:
                yield f"no {word.strip()} in {text}"


def stand(program, folder, turns):
    """What each process stands at behind so many turns, without who is at the other ends."""
    _, _, err = run(program, folder, ["x.occ", "--explain", "--limit", str(turns)])
    lines = [AT_END.sub("", line) for line in err.decode("utf-8").split("\n")]
    return {line.split()[0]: line for line in lines if re.match(r"  p\d+ ", line)}


def slow(program, operators, end, wrong, hint):
    """Faults of what is told of a long line, and how long that took where it was too long."""
    line = f"  x := x{' AND x' * operators}{end}"
    source = f"PROC main (CHAN OF BYTE keyboard, screen)\n  BOOL x:\n  CHAN OF BOOL c:\n{line}\n:\n"
    before = resource.getrusage(resource.RUSAGE_CHILDREN).ru_utime
    yield from mistaken(program, source.encode(), 4, len(line), wrong, hint)
    taken = resource.getrusage(resource.RUSAGE_CHILDREN).ru_utime - before
    if taken > MOST_SECONDS:
        yield f"{taken:.1f} processor seconds"


def misplaced(program, folder, source, turns):
    """The lines of the report of a run of so many turns that tell no place, or another one."""
    status, _, err = run(program, folder, ["x.occ", "--explain", "--limit", str(turns)])
    told = err.decode("utf-8").split("\n")[:-1] if status in (2, 3, 4) else []
    if status == 2:
        if not KIND.fullmatch(told[0]):
            yield f"no kind: {told[0]}"
        told = told[1:]
    if status == 4 and FOR_GOOD.fullmatch(told[0]):
        before, after = stand(program, folder, turns), stand(program, folder, turns + 500)
        for one in FOR_GOOD.fullmatch(told[0])[1].split():
            if one not in before or before[one] != after.get(one):
                yield f"{one} does not wait for good: {before.get(one)}, and later {after.get(one)}"
        told = told[1:]
    told = told[1:]
    if status == 4:
        if told[-1:] != [LIMIT]:
            yield f"another last line: {told[-1:]}"
        told = told[:-1]
    others, choosing, joining, lonely, lines, fault = {}, set(), set(), set(), source.split("\n"), None
    for line in told:
        called = CALLED.fullmatch(line)
        if called or line.startswith("    "):
            if called and not re.match(r" *[\w.]+ *\(", lines[int(called["line"]) - 1]):
                yield f"no call: {line}"
            if not called and line[4:] != fault and not (fault is None and VALUE.fullmatch(line)):
                yield f"another line: {line}"
            fault = None
            continue
        circle = CIRCLE.fullmatch(line)
        if circle:
            numbers = circle["numbers"].split()
            # where nobody is at the other end now, one that waits for its branches may be in its next round
            if any(other not in others.get(one, ()) and not (one in lonely and other in joining) for one, other in zip(numbers, numbers[1:] + numbers[:1])):
                yield f"no circle: {line}"
            if sorted((circle["arms"] or "").split()) != sorted(choosing & {*numbers}):
                yield f"other arms: {line}"
            continue
        if ENDED.fullmatch(line):
            continue
        stands = STANDS.fullmatch(line)
        who = WHO.match(line)
        if who:
            branches = BRANCHES.search(line)
            others[who["one"]] = OTHER.findall(line) + (branches[1].split() if branches else [])
            if branches:
                joining.add(who["one"])
            if re.search(r", which nobody (?:reads|writes) now", line):
                lonely.add(who["one"])
            choosing |= {who["one"]} if who["chooses"] else set()
        if not stands or f"PROC {stands['name']} (" not in source:
            yield f"no PROC: {line}"
        elif stands["line"]:
            has = [word for text, word in HAS.items() if stands["text"].startswith(text) or stands["text"].endswith(text)]
            has = ["WHILE", "SEQ"] if stands["text"] == "can go on" else has[:1]
            there = lines[int(stands["line"]) - 1].strip()
            fault = there if re.fullmatch(rf"fault \w+ line {stands['line']}", stands["text"]) else None
            if not fault and not any(word in there for word in has):
                yield f"another line: {line}"
            named = NAMED.match(stands["text"])
            if named and not re.match(rf"{re.escape(named['name'])}\b", there):
                yield f"another name: {line}"
        elif stands["text"] != "can go on":
            yield f"no line: {line}"


def unplaced(program, folder, source):
    """The lines of --steps for a program's first turns that tell no line of the source, or another one."""
    run(program, folder, ["x.occ", "--steps", "turns", "--limit", "1000"])
    lines = source.split("\n")
    for line in (folder / "turns").read_text().splitlines():
        step = STEP.fullmatch(line)
        has = next((has for text, has in STOPS.items() if step and step["text"].startswith(text)), None)
        if has and not (step["line"] and any(word in lines[int(step["line"]) - 1] for word in has)):
            yield f"another line: {line}"
        if not has and not (step and step["text"].startswith(("can go on", "ends", "fault "))):
            yield f"no turn: {line}"


def reports(program, source, all_turns):
    """Faults of the reports of a program's runs of some numbers of turns."""
    with room({"x.occ": source}) as folder:
        for turns in all_turns:
            for fault in misplaced(program, folder, source, turns):
                yield f"{turns} turns: {fault}"
        yield from unplaced(program, folder, source)


def jobs():
    """A test for each text, for each example, and for each program of the tests that is not refused."""
    found = MISTAKES.findall((TOP / "tests/mistakes.txt").read_text(encoding="utf-8"))
    texts = [(title, text.encode("utf-8"), int(line), int(column), wrong, hint) for title, text, line, column, wrong, hint in found]
    for title, *told in texts + ODD:
        yield Job(f"explained: {title}", lambda program, told=told: mistaken(program, *told))
    for title, *told in LONG:
        yield Job(f"explained: {title}", lambda program, told=told: slow(program, *told))
    for path in sorted((TOP / "examples").rglob("*.occ")):
        source = path.read_text(encoding="utf-8")
        yield Job(f"explained: {path.relative_to(TOP)}", lambda program, source=source: reports(program, source, TURNS))
    sources = {}
    for case in all_cases():
        if re.match("tests/(runs|choices|explored)/", case.where) and not case.wanted[0].is_refused:
            text = case.source if isinstance(case.source, bytes) else case.source.read_bytes()
            sources.setdefault(text, case.where)
    for text, where in sources.items():
        yield Job(f"explained: {where}", lambda program, source=text.decode(): reports(program, source, FEW_TURNS))
