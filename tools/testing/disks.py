"""What stands on a disk behind a run: full disks, permissions, links, folders that nobody may write into, and files with one number."""
import os
import pathlib
import resource
import signal
import stat
import subprocess
import tempfile

from .running import SECONDS, Job, put, room

# its record, its picture, its trace, its turns, its page and what is typed are all longer than FULL
LONG = "PROC main (CHAN OF BYTE keyboard, screen)\n  SEQ i = 0 FOR 1000\n    screen ! 'A'\n:\n"
SCREEN = b"A" * 1000
TYPED = b"t" * 5000
OLD = "what stood here before\n"
# its trace and its turns come in several pieces
LETTERS = 10_000
LONGER = LONG.replace("1000", str(LETTERS))
# how many bytes a file may have where the disk is full, and where it is full behind the first piece
FULL, LATER = 4096, 100_000
WRITTEN = ["--record", "--typed", "--chart", "--trace-to", "--steps", "--page"]
FAILED = b"write failed\n"
OWN_FILE = b"a file to be written is the source, that of --choices, or another one to be written: --record, --typed, --chart, --trace-to, --steps, --page and --graph each write into a file of their own\n"
NOBODY = 65534


def full(size=FULL):
    """The disk of this process is full at so many bytes a file."""
    signal.signal(signal.SIGXFSZ, signal.SIG_IGN)
    resource.setrlimit(resource.RLIMIT_FSIZE, (size, size))


def nobody():
    """This process may do only what anybody may."""
    if os.geteuid() == 0:
        os.setgroups([])
        os.setgid(NOBODY)
        os.setuid(NOBODY)


def run(program, folder, words, before=None):
    done = subprocess.run([program, *words], cwd=folder, input=TYPED, capture_output=True, preexec_fn=before, timeout=SECONDS, check=False)
    return done.returncode, done.stdout, done.stderr


def no_room(program):
    """A file that can't be written whole leaves the old one as it was, and none beside it; where there was none it leaves none."""
    for word in WRITTEN:
        for files in ({"kept": OLD}, {}):
            with room({"x.occ": LONG, **files}) as folder:
                came = run(program, folder, [word, "kept", "x.occ"], full)
                left = {path.name: path.read_text() for path in folder.iterdir()}
                if came != (6, SCREEN, FAILED) or left != {"x.occ": LONG, **files}:
                    yield f"{word}: {came[0]} {came[2]!r} {sorted(left)}"


def pieces(program):
    """A text of several pieces is written whole, or not at all."""
    for words in (["--trace-to", "kept"], ["--json", "--trace-to", "kept"], ["--steps", "kept"]):
        with room({"x.occ": LONGER}) as folder:
            came = run(program, folder, [*words, "x.occ"])
            kept = (folder / "kept").read_text()
            if came[0] or len(kept) < 2 * LATER or [line for line in kept.splitlines() if not line]:
                yield f"{words}: {came[0]} {came[2]!r} {len(kept)}"
            if words[0] == "--trace-to" and not run(program, folder, ["--trace", "x.occ"])[1].endswith(b"\n" + kept.encode()):
                yield "another trace than that of --trace"
            if words[0] == "--steps" and [int(line.split()[0]) for line in kept.splitlines()] != list(range(1, kept.count("\n") + 1)):
                yield "turns without their numbers"
            came = run(program, folder, [*words, "x.occ"], lambda: full(LATER))
            if came[0] != 6 or (folder / "kept").read_text() != kept or len(list(folder.iterdir())) > 2:
                yield f"{words} on a disk that is full behind the first piece: {came[0]} {came[2]!r}"


def permissions(program):
    """A file that is replaced keeps its permissions; a new one has those that are usual."""
    with room({"x.occ": LONG}) as folder:
        for mode in (0o640, 0o604, 0o600):
            put(folder, {"kept": OLD})
            (folder / "kept").chmod(mode)
            came = run(program, folder, ["--record", "kept", "x.occ"])
            found = stat.S_IMODE((folder / "kept").stat().st_mode)
            if came[0] or found != mode:
                yield f"{came[0]}, {found:o} and not {mode:o}"
        run(program, folder, ["--record", "new", "x.occ"], lambda: os.umask(0o027))
        if stat.S_IMODE((folder / "new").stat().st_mode) != 0o640:
            yield f"a new file: {(folder / 'new').stat().st_mode:o}"


def links(program):
    """What a link leads to is written, and the link stays. A file is known for the source, or for one that is written, by whatever name."""
    with room({"x.occ": LONG, "target": OLD, "one": OLD}) as folder:
        for name, to in (("link", "target"), ("dangling", "made"), ("soft", "x.occ")):
            (folder / name).symlink_to(to)
        (folder / "hard").hardlink_to(folder / "x.occ")
        (folder / "other").hardlink_to(folder / "one")
        for name, to in (("link", "target"), ("dangling", "made")):
            came = run(program, folder, ["--record", name, "x.occ"])
            if came != (0, SCREEN, b"") or not (folder / name).is_symlink() or (folder / to).read_text().count("\n") < 1000:
                yield f"{name}: {came[0]} {came[2]!r}"
        for name in ("hard", "soft", "./x.occ", str(folder / "x.occ"), "../" + folder.name + "/x.occ"):
            for word in WRITTEN:
                came = run(program, folder, [word, name, "x.occ"])
                if came != (7, b"", OWN_FILE) or (folder / "x.occ").read_text() != LONG:
                    yield f"{word} {name}: {came[0]} {came[2]!r}"
        top = pathlib.Path("/", folder.name)
        came = run(program, folder, ["--record", str(top), "--chart", top.name, "x.occ"])
        top.unlink(missing_ok=True)
        if came[0] == 7:
            yield f"{top} and {top.name}: {came[2]!r}"
        for first, second in (("one", "other"), ("new", "./new"), ("link", "target"), ("new", str(folder / "new"))):
            came = run(program, folder, ["--record", first, "--chart", second, "x.occ"])
            if came != (7, b"", OWN_FILE):
                yield f"{first} and {second}: {came[0]} {came[2]!r}"
        put(folder, {"s.1.choices": LONG})
        came = run(program, folder, ["--explore", "--record", "s", "s.1.choices"])
        if came[0] != 7 or (folder / "s.1.choices").read_text() != LONG:
            yield f"a search that would record into its source: {came[0]} {came[2]!r}"


def folders(program):
    """A path is looked for where it says. What is in the way, or may not be written, is told, and nothing is left behind."""
    with room({"x.occ": LONG}) as folder, tempfile.TemporaryDirectory(prefix="occam-other-") as name:
        other = pathlib.Path(name)
        came = run(program, other, ["--record", str(folder / "kept"), str(folder / "x.occ")])
        if came[0] or not (folder / "kept").exists() or any(other.iterdir()):
            yield f"a path from the root: {came[0]} {came[2]!r}"
        (folder / "d").mkdir()
        came = run(program, folder, ["--record", "d", "x.occ"])
        if came != (6, SCREEN, FAILED) or sorted(path.name for path in folder.rglob("*")) != ["d", "kept", "x.occ"]:
            yield f"a folder in the way: {came[0]} {came[2]!r} {sorted(map(str, folder.rglob('*')))}"
        folder.chmod(0o755)
        (folder / "x.occ").chmod(0o644)
        for named, mode, word, status in (("closed", 0o555, "kept", 0), ("closed", 0o555, "new", 6), ("sticky", 0o1777, "kept", 6)):
            # in a closed folder a file that may be written is; in one where only owners may move files, another's stays
            if named == "sticky" and os.geteuid():
                continue
            at = folder / named
            at.mkdir(exist_ok=True)
            at.chmod(0o755)
            put(at, {"kept": OLD})
            (at / "kept").chmod(0o666)
            at.chmod(mode)
            came = run(program, folder, ["--record", f"{named}/{word}", "x.occ"], nobody)
            at.chmod(0o755)
            is_old = (at / "kept").read_text() == OLD
            if came[0] != status or is_old != (word == "new" or status > 0) or [path.name for path in at.iterdir()] != ["kept"]:
                yield f"{named}/{word}: {came[0]} {came[2]!r} {is_old}"


def numbers(program):
    """Two files of two disks are two, though their numbers are the same."""
    disks = [pathlib.Path(name) for name in ("/dev/shm", "/run", "/tmp") if os.access(name, os.W_OK)]
    disks = list({path.stat().st_dev: path for path in disks}.values())
    for first, second in zip(disks, disks[1:]):
        with tempfile.TemporaryDirectory(dir=first) as one, tempfile.TemporaryDirectory(dir=second) as other:
            made = {}
            for number in range(2000):
                for folder in (one, other):
                    path = pathlib.Path(folder) / str(number)
                    path.touch()
                    made.setdefault(path.stat().st_ino, {})[folder] = path
                pair = next((paths for paths in made.values() if len(paths) == 2), None)
                if pair:
                    break
            if not pair:
                continue
            put(pathlib.Path(one), {"x.occ": LONG})
            came = run(program, one, ["--record", str(pair[one]), "--steps", str(pair[other]), "x.occ"])
            if came != (0, SCREEN, b""):
                yield f"{pair}: {came[0]} {came[2]!r}"


CHECKS = [no_room, pieces, permissions, links, folders, numbers]


def jobs():
    """A test for each of these checks."""
    return [Job(f"disks: {check.__name__}", check) for check in CHECKS]
