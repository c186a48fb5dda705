"""Tries --graph: files are read back, and what they say is compared with what the search says.

Of a graph it is looked at that its states are as many as the search has found, that each is come to from the start, that what is
shown along its turns up to a state without turns is an answer, and each answer is one of them, that its longest walk is as long as
runs are said to go on, and that both forms of file say the same.
"""
import re

from .networks import ANSWER, network
from .running import TOP, Job, room, run_text

HEAD = "PROC main (CHAN OF BYTE keyboard, screen)\n"
# how many networks that are made from seeds are tried, and up to how many states
TRIED = 40
STATES = "5000"
LINE = re.compile(r'\((\d+), "([^"\\\n]+)", (\d+)\)')
ARROW = re.compile(r'  (\d+) -> (\d+) \[label="([^"\\\n]+)"\];')
SHAPE = re.compile(r"  (\d+) \[shape=(doublecircle|box|diamond)\];")
SHAPES = {"doublecircle": "ended", "box": "stopped", "diamond": "fault"}
DOT = ["digraph {", "  node [shape=circle];", "  start [shape=point];", "  start -> 0;"]
TALK = HEAD + "  CHAN OF INT c:\n  PAR\n    c ! 5\n    INT x:\n    c ? x\n:\n"
UNDRAWN = "the graph was not written: the search has not come to all states\n"
OWN = "--record, --typed, --chart, --trace-to, --steps, --page and --graph each write into a file of their own"


def read_aut(text):
    """The number of states and the turns of an Aldebaran file."""
    head, *lines = text.splitlines()
    turns, states = map(int, re.fullmatch(r"des \(0, (\d+), (\d+)\)", head).groups())
    edges = [(int(a), label, int(b)) for a, label, b in (LINE.fullmatch(line).groups() for line in lines)]
    if len(edges) != turns:
        raise ValueError(f"{turns} turns are said, and {len(edges)} stand there")
    return states, edges


def read_dot(text):
    """How states have ended, and the turns, of a Graphviz file."""
    lines = text.splitlines()
    if lines[:4] != DOT or lines[-1] != "}":
        raise ValueError("no head or no foot")
    shapes = [found for found in map(SHAPE.fullmatch, lines[4:-1]) if found]
    arrows = [ARROW.fullmatch(line) for line in lines[4 + len(shapes) : -1]]
    ends = {int(found[1]): SHAPES[found[2]] for found in shapes}
    if len(ends) != len(shapes):
        raise ValueError("a state has two shapes")
    return ends, [(int(found[1]), found[3], int(found[2])) for found in arrows]


def walked(states, edges):
    """What each state's turns are, and what was shown by then, where each is come to from the start; and how many turns the longest walk
    has, none where one goes round."""
    fans = [[] for _ in range(states)]
    for here, label, there in edges:
        fans[here].append((label, there))
    shown, todo = {0: b""}, [0]
    while todo:
        here = todo.pop()
        for label, there in fans[here]:
            said = re.fullmatch(r"screen ! (\d+)", label)
            text = shown[here] + (bytes([int(said[1])]) if said else b"")
            if there not in shown:
                shown[there] = text
                todo.append(there)
            elif shown[there] != text:
                raise ValueError(f"state {there} has shown {shown[there]} and {text}")
    longest, path = {}, [(0, iter(fans[0]))]
    on = {0}
    while path:
        here, rest = path[-1]
        step = next(rest, None)
        if step is None:
            longest[here] = max((1 + longest[there] for _, there in fans[here]), default=0)
            on.discard(here)
            path.pop()
        elif step[1] in on:
            return fans, shown, None
        elif step[1] not in longest:
            on.add(step[1])
            path.append((step[1], iter(fans[step[1]])))
    return fans, shown, longest[0]


def letters(text):
    """The bytes of a string as the search prints it, where it is not cut."""
    return re.sub(rb"\*(.)", lambda found: {b"n": b"\n", b"c": b"\r", b"t": b"\t", b"s": b" "}.get(found[1], found[1]), text.encode())


def drawn(program, folder, source, words=(), keyboard=""):
    """What is wrong with the graphs of a source; nothing where the search passes its bound."""
    told = []
    for name in ("g.aut", "g.dot", "g.gv"):
        status, out, err = run_text(program, folder, ["--explore=full", "--graph", name, "--states", STATES, *words, source], keyboard)
        told.append((status, out))
        if status == 4:
            if (folder / name).exists() or err != UNDRAWN:
                yield f"{name}: past the bound: {err}"
        elif status not in (0, 2, 3) or err:
            yield f"{name}: {status} {out} {err}"
    if len(set(told)) != 1 or told[0][0] not in (0, 2, 3):
        if len(set(told)) != 1:
            yield f"searches differ: {told}"
        return
    status, out = told[0]
    states, edges = read_aut((folder / "g.aut").read_text())
    ends, arrows = read_dot((folder / "g.dot").read_text())
    if (folder / "g.dot").read_bytes() != (folder / "g.gv").read_bytes():
        yield ".dot and .gv differ"
    if arrows != edges:
        yield "the two forms have other turns"
    if f"all, {states} state" not in out:
        yield f"{states} states: {out}"
    fans, shown, longest = walked(states, edges)
    if len(shown) != states:
        yield f"{states - len(shown)} states are not come to"
    if {place for place in range(states) if not fans[place]} != set(ends):
        yield "states without turns are not those that have ended"
    lasts = "some run goes on for ever" if longest is None else f"each run ends within {longest} turn"
    if lasts not in out:
        yield f"{lasts}: {out}"
    if "and" not in out:
        answers = {(ending.split()[0], letters(text or "")) for _, ending, text, _, _ in ANSWER.findall(out)}
        if answers != {(ending, shown[place]) for place, ending in ends.items()}:
            yield f"{sorted(answers)} are not what the graph ends with"


def example(program, path):
    with room({"x.occ": (TOP / path).read_bytes()}) as folder:
        yield from drawn(program, folder, "x.occ")


def made(program, seed):
    source, keyboard, words = network(seed)
    with room({"x.occ": source}) as folder:
        for fault in drawn(program, folder, "x.occ", words, keyboard.decode()):
            yield f"seed {seed}: {fault}"


def small(program):
    """The text of one small graph."""
    with room({"talk.occ": TALK}) as folder:
        run_text(program, folder, ["--explore=full", "--graph", "talk.aut", "talk.occ"])
        states, edges = read_aut((folder / "talk.aut").read_text())
        said = {label for _, label, _ in edges}
        if said != {"i", "c ! 5"}:
            yield f"{said}"


def unwritten(program):
    """Graphs that are not written, and words that are refused."""
    with room({"x.occ": TALK}) as folder:
        for words, wanted, told in (
            (["--explore=full", "--graph", "g.aut", "--states", "3", "x.occ"], 4, UNDRAWN),
            (["--explore=full", "--graph", "g.txt", "x.occ"], 7, "the name of the file of --graph must end in .aut, .dot or .gv"),
            (["--explore=full", "--graph", "aut", "x.occ"], 7, "the name of the file of --graph must end in .aut, .dot or .gv"),
            (["--explore", "--graph", "g.aut", "x.occ"], 7, "--graph needs --explore=full"),
            (["--explore=endings", "--graph", "g.dot", "x.occ"], 7, "--graph needs --explore=full"),
            (["--graph", "g.gv", "x.occ"], 7, "--graph needs --explore=full"),
            (["--explore=full", "--graph", "g.aut", "--page", "g.aut", "x.occ"], 7, OWN),
            (["--explore=full", "--graph", "none/g.aut", "x.occ"], 6, "write failed"),
        ):
            status, _out, err = run_text(program, folder, words)
            if status != wanted or told.strip() not in err or sorted(path.name for path in folder.iterdir()) != ["x.occ"]:
                yield f"{words}: {status} {err}"
    with room({"x.aut": TALK}) as folder:
        status, _out, err = run_text(program, folder, ["--explore=full", "--graph", "x.aut", "x.aut"])
        if status != 7 or "--graph would overwrite the source" not in err or (folder / "x.aut").read_text() != TALK:
            yield f"the source: {status} {err}"
    with room({"x.occ": (TOP / "examples/faults/door.occ").read_bytes()}) as folder:
        status, _out, err = run_text(program, folder, ["--explore=full", "--first", "--graph", "g.aut", "x.occ"])
        if status != 0 or err or not (folder / "g.aut").exists():
            yield f"no wrong answer: {status} {err}"
    with room({"x.occ": HEAD + "  STOP\n:\n"}) as folder:
        status, _out, err = run_text(program, folder, ["--explore=full", "--first", "--graph", "g.aut", "x.occ"])
        if status != 2 or err != UNDRAWN or (folder / "g.aut").exists():
            yield f"a first answer: {status} {err}"


def jobs():
    """The tests."""
    for path in ("faults/waiter.occ", "faults/door.occ", "faults/livelock.occ", "pipelines/primes.occ", "faults/division.occ"):
        if (TOP / "examples" / path).exists():
            yield Job(f"the graph of {path}", lambda program, of=f"examples/{path}": example(program, of))
    yield Job("a graph of two processes", small)
    yield Job("graphs that are not written", unwritten)
    for seed in range(TRIED):
        yield Job(f"the graph of the network of seed {seed}", lambda program, of=seed: made(program, of))
