"""A dozen tests on an unproved program, where none is built: `rt try` makes it. It proves nothing."""
import concurrent.futures
import os
import pathlib
import re
import subprocess
import tempfile

from .cases import all_cases
from .running import TOP, put

SAID = """no program was built: tools/build proves and builds one
so {count} tests run on an unproved one, which `rt try` makes in some minutes; nothing is proved"""
# where the tests stand, the lines of their answers, and their words; the first ones run also where each takes a call of its own
CHOSEN = [
    ("tests/runs/first.txt", 'ended "AB" after 3 turns', ["--trace"]),
    ("docs/language.md", "refused 50 SharedVariable line 5 x", []),
    ("tests/runs/faults.txt", "stopped ARITH line 3 after 1 turn", ["--errors", "stop"]),
    ("examples/first_steps/hello.occ", None, []),
    ("examples/faults/embrace.occ", None, []),
    ("examples/pipelines/primes.occ", None, []),
    ("tests/arrays/values.txt", 'ended "<421G"', []),
    ("tests/texts/refused.txt", "refused 3 OddIndent line 2", []),
    ("docs/language.md", "refused 20 Unexpected line 2", []),
    ("docs/language.md", "refused 30 Unknown line 2 x", []),
    ("docs/language.md", "fault ARITH line 3", []),
    ("tests/explored/small.txt", "status 3", ["--explore=full", "--states", "1000"]),
]
FEW = min(3, os.cpu_count() or 1)
# what a line of `rt try --cases` says of a test that passed
PASSED = re.compile(r"case=(\S+) run=ended status=(\d+) .*output=expected")


def chosen():
    """The tests: each with its source, its words, its status and what its two streams get."""
    cases = [*all_cases()]
    for path, line, words in CHOSEN:
        case = next(it for it in cases if it.where.startswith(path) and line in (None, it.wanted[0].line) and words == it.words)
        source = case.source.read_bytes() if isinstance(case.source, pathlib.Path) else case.source
        status, out, err, _ = case.wanted[0].streams(words)
        yield case.where, source, words, status, out, err


def at_once(tests):
    """Runs the tests over one build: where those stand that failed."""
    with tempfile.TemporaryDirectory(prefix="occam-smoke-") as name:
        for number, (_, source, words, _, out, _) in enumerate(tests):
            put(pathlib.Path(name), {f"{number}": source, f"{number}.stdout": out})
            if words:
                put(pathlib.Path(name), {f"{number}.args": "".join(f"{word}\n" for word in words)})
        done = subprocess.run(["rt", "try", "--cases", name], cwd=TOP / "crates/occam", capture_output=True, text=True, check=False)
    passed = {(int(number), int(status)) for number, status in PASSED.findall(done.stdout + done.stderr)}
    failed = [where for number, (where, _, _, status, _, _) in enumerate(tests) if (number, status) not in passed]
    if failed:
        print((done.stdout + done.stderr)[-3000:])
    return failed


def alone(test):
    """Runs one test over a build of its own: where it stands, if it failed."""
    where, source, words, status, out, err = test
    behind = ["--", *words] if words else []
    done = subprocess.run(["rt", "try", *behind], cwd=TOP / "crates/occam", input=source, capture_output=True, check=False)
    is_well = (done.returncode, done.stdout) == (status, out) and err in done.stderr
    return None if is_well else f"{where}: {done.returncode} {done.stdout!r} {done.stderr[-1000:]!r}"


def run():
    """Runs them, and answers the status."""
    try:
        help_of = subprocess.run(["rt", "help"], capture_output=True, text=True, check=False)
    except OSError:
        print("no program was built, and there is no rt to make one with")
        return 1
    has_cases = "--cases" in help_of.stdout + help_of.stderr
    tests = [*chosen()][: None if has_cases else FEW]
    print(SAID.format(count=len(tests)), flush=True)
    if has_cases:
        failed = at_once(tests)
    else:
        with concurrent.futures.ThreadPoolExecutor(FEW) as pool:
            failed = [*filter(None, pool.map(alone, tests))]
    for where in failed:
        print(f"unproved: {where}")
    print(f"{len(tests) - len(failed)} passed, {len(failed)} failed")
    return 1 if failed else 0
