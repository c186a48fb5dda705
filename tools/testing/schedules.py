"""What is compared with another run and has no answer of its own: runs by several threads, searches of all schedules, programs that are
cut short, and threads that are refused for want of memory."""
import pathlib
import re

from .cases import all_cases
from .running import TOP, Job, put, room, run

# programs whose searches are compared with searches of all states
SEARCHED = ["faults/waiter", "selection/merge", "sharing/pool", "faults/livelock"]
ANSWER = re.compile(r'(?m)^\d+ ((?:ended|stopped|fault)[^"\n]*?)((?: ".*)?) by \d+ choices?(: [a-z]+)?$')
LASTS = re.compile(r"(?m)^(each run ends (?:within|after) \d+|some run goes on for ever)")
STATES = re.compile(r"(?m)^all, (\d+) states?$")
CREWS = [["--quantum", "1"], ["--quantum", "3"], ["--errors", "stop"]]
KILOBYTE = 1 << 10


def written(folder, source):
    """The path of a source, which is put into the folder where it is none yet."""
    if isinstance(source, pathlib.Path):
        return source
    put(folder, {"x.occ": source})
    return "x.occ"


def replayed(program, source, keyboard):
    """Faults of runs by four threads, which their choices have to play again by one."""
    with room() as folder:
        path = written(folder, source)
        for words in CREWS:
            first = run(program, folder, ["--workers", "4", "--limit", "1000", "--trace", "--record", "used", *words, path], keyboard)
            again = run(program, folder, ["--choices", "used", "--trace", *words, path], keyboard)
            if first != again or first[0] not in (0, 2, 3, 4):
                yield f"{' '.join(words)}: by four threads {first}, and by their choices {again}"


def found(program, folder, path, keyboard, words):
    """What a search finds: its answers, with the kinds of stops, in order of their texts, how long runs go on, and how many states it visited, if it counts them."""
    out = run(program, folder, [*words, "--states", "100000", path], keyboard)[1].decode()
    lasts, states = LASTS.search(out), STATES.search(out)
    answers = sorted(ending.strip() + kind + shown for ending, shown, kind in ANSWER.findall(out))
    return answers, lasts and lasts[1], int(states[1]) if states else None


def searched(program, source, keyboard):
    """Faults of searches by few states, which find what those of all states find, in both modes, for answers and for endings."""
    with room() as folder:
        path = written(folder, source)
        for errors in ("halt", "stop"):
            mode = ["--errors", errors]
            few, full = (found(program, folder, path, keyboard, [f"--explore={what}", *mode]) for what in ("answers", "full"))
            if few[:2] != full[:2] or not few[1] or (few[2] or 0) > (full[2] or 0):
                yield f"--errors {errors}: {few}, and of all states {full}"
            endings = found(program, folder, path, keyboard, ["--explore=endings", *mode])
            if endings[0] != sorted({re.sub(r' ".*', "", answer) for answer in full[0]}) or endings[1] != full[1]:
                yield f"--errors {errors}: endings {endings}, and of all states {full}"


def cut_short(program, source):
    """Faults of the beginnings of a program: each is refused, or comes to an end within fifty turns."""
    for end in range(len(source)):
        status, out, err = run(program, TOP, ["--limit", "50"], source[:end])
        if status not in (0, 1, 2, 3) or (status == 1) != (out == b"" and err.startswith(b"refused ")):
            yield f"the first {end} bytes: {status} {out} {err}"


def crowded(program):
    """Faults of 64 threads in little memory, of which some bound has to refuse one of them."""
    with room({"x.occ": "PROC main (CHAN OF BYTE keyboard, screen)\n  screen ! 'A'\n:\n"}) as folder:
        told = set()
        for bound in range(12_000, 60_000, 2_000):
            done = run(program, folder, ["--workers", "64", "x.occ"], memory=bound * KILOBYTE)
            told.add(done)
            # the system may not even load the program
            if done[0] not in (127, -9, -11) and done not in ((0, b"A", b""), (5, b"", b"memory\n"), (5, b"", b"thread refused\n")):
                yield f"64 threads in {bound} KiB: {done}"
        if (5, b"", b"thread refused\n") not in told:
            yield f"no thread was refused: {told}"


def deep(program):
    """Faults of searches of states that many turns lead to, or that have shown much: each takes little memory."""
    sums = """PROC main (CHAN OF BYTE keyboard, screen)
  CHAN OF INT c:
  PAR
    SEQ i = 0 FOR 4000
      c ! i
    SEQ i = 0 FOR 4000
      INT x:
      ALT
        c ? x
          SKIP
:
"""
    letters = "PROC main (CHAN OF BYTE keyboard, screen)\n  WHILE TRUE\n    screen ! 'a'\n:\n"
    either = "PROC main (CHAN OF BYTE keyboard, screen)\n  ALT\n    TRUE & SKIP\n      WHILE TRUE\n        screen ! 'a'\n    TRUE & SKIP\n      SKIP\n:\n"
    with room({"sums.occ": sums, "letters.occ": letters, "either.occ": either}) as folder:
        for words, status in ((["--explore=full", "sums.occ"], 0), (["--explore", "--states", "4000", "letters.occ"], 4)):
            done = run(program, folder, words, memory=100_000 * KILOBYTE)
            if done[0] != status:
                yield f"{' '.join(words)}: {done}"
        wanted = 4, b'1 ended "" by 2 choices\nthese at least: the bound of 1 MB was passed\n', b""
        done = run(program, folder, ["--explore", "--memory", "1", "either.occ"])
        if done != wanted:
            yield f"a bound of memory: {done}"


def jobs():
    """The tests."""
    cases = [*all_cases()]
    sources = {}
    for case in cases:
        if re.match(r"tests/(runs|choices|explored)/|examples/", case.where) and not case.wanted[0].is_refused:
            sources.setdefault((case.source, case.keyboard), case.where)
    for (source, keyboard), where in sources.items():
        yield Job(f"{where}: by four threads", lambda program, of=(source, keyboard): replayed(program, *of))
        is_small = where.startswith("tests/explored/") or any(str(source).endswith(f"{name}.occ") for name in SEARCHED)
        if is_small and not str(source).endswith("dining.occ"):
            yield Job(f"{where}: searches", lambda program, of=(source, keyboard): searched(program, *of))
    for case in cases:
        if case.where.startswith("tests/runs/networks.txt") and case.title.startswith(("a pipeline", "a tag")) and "--trace" in case.words:
            yield Job(f"{case.where}: cut short", lambda program, source=case.source: cut_short(program, source))
    yield Job("64 threads in little memory", crowded)
    yield Job("searches of what is deep and of what shows much", deep)
