"""The crates of the repository, and copies of some of them, for the tools that prove or run in a folder of their own."""
import pathlib
import shutil
import subprocess
import sys

TOP = pathlib.Path(__file__).resolve().parent.parent
# what stands beside the sources of a crate and is neither proved nor built with them
LEFT_OUT = shutil.ignore_patterns("out", "must-fail", "wrong")


def need_kit():
    """Ends the program where the kit is not there."""
    if not shutil.which("rt"):
        sys.exit("there is no rt: put the Rattle kit on the PATH")


def read_crates():
    """The crates of crates.txt: the line of each, and those of them that it uses."""
    lines = [line.split("#")[0].strip() for line in (TOP / "crates.txt").read_text().splitlines()]
    lines = {line.split(":")[0].split()[0]: line for line in lines if line}
    return lines, {name: [it for it in line.split(":")[1].split() if it in lines] for name, line in lines.items()}


def below(name, uses):
    """All that a crate stands on, and the crate."""
    return {name}.union(*(below(it, uses) for it in uses[name]))


def copy_to(room, names, more=()):
    """Copies these crates and all below them into an empty folder, as a repository of its own with these further lines in crates.txt."""
    lines, uses = read_crates()
    wanted = set().union(*(below(name, uses) for name in names))
    for name in wanted:
        shutil.copytree(TOP / "crates" / name, room / "crates" / name, ignore=LEFT_OUT)
    listed = [line for name, line in lines.items() if name in wanted]
    (room / "crates.txt").write_text("".join(f"{line}\n" for line in [*listed, *more]))
    shutil.copy(TOP / "HANDLES", room)
    subprocess.run(["git", "init", "-q"], cwd=room, check=True)
