"""Small networks that are made from a seed, and their searches: by few states beside all states, and each answer's choices played back.

A network is one PAR of two to four processes with channels between them, of which each has one end that outputs and one that inputs.
They assign, output, input, wait, loop, choose by ALT and PRI ALT with guards and SKIP arms, divide by what may be 0 and stop; one reads the keyboard and one
shows letters.
"""
import random
import re

from .running import Job, room, run

# how many networks tools/test tries, and how many states it gives to a search of all of them
TRIED = 50
STATES = 20_000
ANSWER = re.compile(r'(?m)^(\d+) ((?:ended|stopped|fault)[^"\n]*?)(?: "(.*)")? by (\d+) choices?(?:: (\w+))?$')
LASTS = re.compile(r"(?m)^(each run ends (?:within|after) \d+|some run goes on for ever)")
ENDS = {"ended": 0, "stopped": 2, "fault": 3}


class Process:
    """What one process of a network may do."""

    def __init__(self, dice, gives, takes, shows, reads):
        self.dice, self.gives, self.takes, self.shows, self.reads = dice, gives, takes, shows, reads

    def value(self):
        """An expression."""
        return self.dice.choice(["0", "1", "2", "x", "y", "x + 1", "x - y", "1 - x"])

    def condition(self):
        """A condition."""
        return self.dice.choice(["TRUE", "x = 0", "x = 1", "x <> y", "y > 0", "FALSE"])

    def simple(self):
        """A process of one line, or of an input's few."""
        kinds = ["assign", "assign", "skip"] + ["give"] * (4 if self.gives else 0) + ["take"] * (4 if self.takes else 0)
        kinds += ["show"] * (4 if self.shows else 0) + ["read"] * (2 if self.reads else 0) + (["divide"] if self.dice.random() < 0.3 else [])
        kinds += ["stop"] if self.dice.random() < 0.1 else []
        kind = self.dice.choice(kinds)
        if kind == "give":
            return [f"{self.dice.choice(self.gives)} ! {self.value()}"]
        if kind == "take":
            return [f"{self.dice.choice(self.takes)} ? {self.dice.choice('xy')}"]
        if kind == "show":
            return [f"screen ! '{self.dice.choice('abc')}'"]
        if kind == "read":
            return ["keyboard ? letter"]
        return [{"assign": f"{self.dice.choice('xy')} := {self.value()}", "divide": "x := 1 / x", "stop": "STOP"}.get(kind, "SKIP")]

    def arms(self, depth):
        """The lines of an ALT's arms, one at least."""
        lines = []
        for _ in range(self.dice.choice([1, 2, 2, 3])):
            heads = [f"{chan} ? {self.dice.choice('xy')}" for chan in self.takes] + (["keyboard ? letter"] if self.reads else [])
            if self.dice.random() < 0.25 or not heads:
                head = f"{self.condition()} & SKIP"
            else:
                head = self.dice.choice(heads)
                head = head if self.dice.random() < 0.7 else f"{self.condition()} & {head}"
            lines += [head, *inside(self.process(depth - 1))]
        return lines

    def process(self, depth):
        """The lines of a process."""
        if depth <= 0 or self.dice.random() < 0.4:
            return self.simple()
        kind = self.dice.choice(["seq", "seq", "if", "loop", "while", "alt", "alt", "alt", "pri", "pri"])
        if kind == "seq":
            return ["SEQ", *inside([line for _ in range(self.dice.choice([2, 2, 3])) for line in self.process(depth - 1)])]
        if kind == "if":
            return ["IF", *inside([self.condition(), *inside(self.process(depth - 1)), "TRUE", *inside(self.process(depth - 1))])]
        if kind == "loop":
            return [f"SEQ i = 0 FOR {self.dice.choice([1, 2, 2])}", *inside(self.process(depth - 1))]
        if kind == "while":
            endless = self.dice.random() < 0.2
            body = self.process(depth - 1)
            return ["WHILE TRUE", *inside(body)] if endless else ["SEQ", *inside(["y := 2", "WHILE y > 0", *inside(["SEQ", *inside([*body, "y := y - 1"])])])]
        return ["PRI ALT" if kind == "pri" else "ALT", *inside(self.arms(depth))]


def inside(lines):
    """The lines, further in."""
    return ["  " + line for line in lines]


def network(seed):
    """The source of a network, its keyboard, and the words of its runs."""
    dice = random.Random(seed)
    count = dice.choice([2, 2, 3, 3, 4])
    channels = [f"c{number}" for number in range(dice.choice([1, 2, 2, 3]))]
    ends = {chan: dice.sample(range(count), 2) for chan in channels}
    shows, reads = dice.randrange(count), dice.randrange(count)
    lines = ["PROC main (CHAN OF BYTE keyboard, screen)", f"  CHAN OF INT {', '.join(channels)}:", "  PAR"]
    for number in range(count):
        one = Process(dice, [c for c in channels if ends[c][0] == number], [c for c in channels if ends[c][1] == number], shows == number, reads == number)
        body = [line for _ in range(dice.choice([1, 2, 2, 3])) for line in one.process(2)]
        lines += inside(inside(["INT x, y:", "BYTE letter:", "SEQ", *inside(["x := 0", "y := 0", *body])]))
    words = ["--quantum", dice.choice(["1", "2", "3", "1000"]), "--errors", dice.choice(["halt", "stop"])]
    return "\n".join([*lines, ":", ""]), dice.choice([b"", b"", b"k", b"kl"]), words


def searched(program, folder, keyboard, words):
    """The status of a search, its answers, how long runs go on, and what it printed."""
    status, out, err = run(program, folder, [*words, "--states", str(STATES), "x.occ"], keyboard)
    text = out.decode()
    lasts = LASTS.search(text)
    return status, {number: (ending, shown or "", kind) for number, ending, shown, _many, kind in ANSWER.findall(text)}, lasts and lasts[1], text + err.decode()


def played(program, folder, keyboard, words, file, ending, shown):
    """A fault where the choices of an answer, in this file, don't come to it."""
    status, out, _err = run(program, folder, [*words, "--choices", file, "x.occ"], keyboard)
    wanted = shown + (("\n" if shown else "") + ending + "\n" if ending != "ended" else "")
    if status != ENDS[ending.split()[0]] or out.decode() != wanted:
        yield f"{file} {ending} \"{shown}\": {status} {out}"


def ended_early(program, folder, keyboard, words, what, whole):
    """A fault where a search by --first tells another answer than a wrong one of those of the whole search, or if there is none not the
    same."""
    first = searched(program, folder, keyboard, [what, "--first", "--record", "f", *words])
    wrong = [answer for answer in whole[1].values() if answer[0].startswith("fault") or answer[0].startswith("stopped") and answer[2] != "idle"]
    if not wrong or "one answer" in whole[3]:
        if first != whole:
            yield f"{what} --first: {first[3]} and not {whole[3]}"
        return
    told = [*first[1].values()]
    if len(told) != 1 or told[0] not in wrong or first[0] != ENDS[told[0][0].split()[0]] or "the search ended here" not in first[3]:
        yield f"{what} --first: {first[3]} and not one of {whole[3]}"
    else:
        yield from played(program, folder, keyboard, words, "f.1.choices", *told[0][:2])


def faults_of(program, seed, known=None):
    """What is wrong with the searches of one network. `known` counts those that were searched whole."""
    source, keyboard, words = network(seed)
    with room({"x.occ": source}) as folder:
        full = searched(program, folder, keyboard, ["--explore=full", *words])
        if full[0] not in (0, 2, 3, 4):
            yield f"seed {seed}: {full}"
            return
        if full[0] == 4:
            return
        if known is not None:
            known.append(seed)
        few = searched(program, folder, keyboard, ["--explore", "--record", "a", *words])
        if sorted(few[1].values()) != sorted(full[1].values()) or few[0] != full[0] or few[2] != full[2]:
            yield f"seed {seed}: {few[3]} and of all states {full[3]}"
        ends = searched(program, folder, keyboard, ["--explore=endings", *words])
        if sorted({(ending, kind) for ending, _, kind in full[1].values()}) != sorted((ending, kind) for ending, _, kind in ends[1].values()) or ends[2] != full[2]:
            yield f"seed {seed}: endings {ends[3]} and of all states {full[3]}"
        for number, (ending, shown, _kind) in few[1].items():
            for fault in played(program, folder, keyboard, words, f"a.{number}.choices", ending, shown):
                yield f"seed {seed}: {fault}"
        for what, whole in (("--explore", few), ("--explore=full", full)):
            for fault in ended_early(program, folder, keyboard, words, what, whole):
                yield f"seed {seed}: {fault}"


def jobs():
    """The tests."""
    for seed in range(TRIED):
        yield Job(f"a network of seed {seed}", lambda program, of=seed: faults_of(program, of))
