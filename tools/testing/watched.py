"""Tries --watch over all examples.

The lines on standard error have to be those of the trace of a run by one worker, and the answer that run's. With a file of choices the
word says nothing. There is no such line where the source is refused, where the answer can't be written, and where memory runs out, at
each of 60 bounds.
"""
import re

from .running import TOP, Job, room, run

LIMIT = ["--limit", "3000"]
LINES = re.compile(rb"(?m)^[0-9]+ c[0-9]+ \S* \S+>\S+ .*\n")
MEGABYTE = 1 << 20
KEYBOARD = b"3 1 2\n"
FILES = {"zeros.choices": "0 0\n" * 3000, "refused.occ": "PROC main (CHAN OF BYTE keyboard, screen)\n  x := 1\n:\n"}
# what the program says where there is too little memory
REFUSALS = (b"memory\n", b"thread refused\n")
# statuses of a program that the system could not load for want of memory
NOT_LOADED = (127, -9, -11)


class Room:
    """The program, and a folder that it runs in."""

    def __init__(self, program, folder):
        self.program, self.folder = program, folder

    def run(self, source, *words, to=None, memory=None):
        """What comes of a run with a few bytes on the keyboard."""
        return run(self.program, self.folder, [*LIMIT, *words, source], KEYBOARD, to, memory)


def example(program, source):
    """Faults of a run that is watched, of one by a file of choices, and of one whose answer can't be written."""
    with room(FILES) as folder:
        tries = Room(program, folder)
        shown, plain = tries.run(source, "--trace", "--workers", "1"), tries.run(source, "--workers", "1")
        seen = tries.run(source, "--watch")
        if seen[:2] != plain[:2] or seen[2] not in shown[1] or LINES.search(shown[1].replace(seen[2], b"", 1)):
            yield f"--watch: {seen}"
        by_choices = ["--choices", "zeros.choices"]
        if tries.run(source, *by_choices) != tries.run(source, "--watch", *by_choices):
            yield "--watch says something beside --choices"
        lost = tries.run(source, "--watch", to="/dev/full")
        if (lost[0], lost[2]) != ((6, b"write failed\n") if seen[1] else (seen[0], seen[2])):
            yield f"--watch where the answer can't be written: {lost}"


def refused(program):
    """Faults of a run whose source is refused."""
    with room(FILES) as folder:
        done = Room(program, folder).run("refused.occ", "--watch")
        if done[:2] != (1, b"") or not re.fullmatch(rb"refused 30 [^\n]*\n", done[2]):
            yield f"--watch of a source that is refused: {done}"


def in_memory(program, source, bounds):
    """Faults of runs in little memory: each gives its answer with or without the lines, or a refusal alone."""
    with room(FILES) as folder:
        tries = Room(program, folder)
        whole = tries.run(source, "--watch")
        for number in bounds:
            done = tries.run(source, "--watch", memory=number * MEGABYTE)
            answered = done[:2] == whole[:2] and done[2] in (b"", whole[2])
            is_told = done[:2] == (5, b"") and done[2] in REFUSALS
            # the system may not even load the program
            if not (answered or is_told or done[0] in NOT_LOADED):
                yield f"--watch in {number} MiB: {done}"


def jobs():
    """A test for each example, for a source that is refused, and for each ten bounds of memory."""
    for source in sorted((TOP / "examples").rglob("*.occ")):
        yield Job(f"watched: {source.relative_to(TOP)}", lambda program, source=source: example(program, source))
    yield Job("watched: a source that is refused", refused)
    primes = TOP / "examples/pipelines/primes.occ"
    for first in range(1, 61, 10):
        bounds = range(first, first + 10)
        yield Job(f"watched: in {first} to {first + 9} MiB", lambda program, bounds=bounds: in_memory(program, primes, bounds))
