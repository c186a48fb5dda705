"""The commands of the pages: each is run as it stands there, and what comes of it is compared with what the page shows.

A block that is indented by four spaces may hold commands, behind `$ `, and below each what it prints. A line `..` stands for any lines.
Each command is run on a terminal, as by a reader, with NO_COLOR set; to one that reads the terminal Ctrl-D is typed at once.
All commands of a page are run in one folder, which has `examples/`, so a later one finds the files of those before it. A block
below a sentence with the words "into `NAME`" is that file. A block below `<!-- not run -->` is left out: what it prints changes
from day to day. A picture that the commands draw has to be the one that the page shows.
"""
import os
import pathlib
import re
import shutil
import tempfile

from .running import TOP, Job, shown_on

PAGES = ["README.md", *sorted(str(path.relative_to(TOP)) for path in (TOP / "docs").rglob("*.md"))]
INTO = re.compile(r"\binto\s+`([\w./-]+)`")
PICTURE = re.compile(r"!\[[^]]*\]\(([^)]+)\)")
LEFT_OUT = "<!-- not run -->"
CTRL_D = "\x04"


def blocks(text):
    """The blocks of a page: the paragraph above each, its first line's number, and its lines without their indentation."""
    above, block, first = "", [], 0
    for number, line in enumerate([*text.splitlines(), "end"], 1):
        if line.startswith("    ") or not line.strip() and block:
            first = first or number
            block.append(line[4:])
            continue
        if block:
            yield above, first, "\n".join(block).rstrip().split("\n")
            above, block, first = "", [], 0
        above = line if line.strip() else above


def commands(page):
    """The commands of a page and the files that it shows: (number of the line, command, lines that it prints) or (name, text)."""
    for above, first, lines in blocks(page):
        name = INTO.search(above)
        if LEFT_OUT in above:
            continue
        if name and not lines[0].startswith("$ "):
            yield name[1], "\n".join(lines) + "\n"
            continue
        command = None
        for number, line in enumerate(lines, first):
            if line.startswith("$ "):
                if command:
                    yield command
                command = (number, line[2:], [])
            elif command:
                command[2].append(line)
        if command:
            yield command


def agrees(printed, shown):
    """Whether these lines are what the page shows."""
    if not shown:
        return not printed
    if shown[0].strip() == "..":
        return any(agrees(printed[at:], shown[1:]) for at in range(len(printed) + 1))
    return bool(printed) and printed[0] == shown[0] and agrees(printed[1:], shown[1:])


def check(program, page):
    """What is wrong on a page."""
    with tempfile.TemporaryDirectory(prefix="occam-page-") as name:
        folder = pathlib.Path(name)
        shutil.copytree(TOP / "examples", folder / "examples")
        shutil.copytree(TOP / "docs", folder / "docs")
        (folder / "bin").mkdir()
        (folder / "bin/occam").symlink_to(program)
        path = f"{folder}/bin:{os.environ['PATH']}"
        for part in commands((TOP / page).read_text(encoding="utf-8")):
            if len(part) == 2:
                (folder / part[0]).write_text(part[1], encoding="utf-8")
                continue
            number, command, shown = part
            _, printed, _ = shown_on(["bash", "-c", command], folder, CTRL_D, PATH=path, NO_COLOR="1")
            printed = printed.splitlines()
            if not agrees(printed, shown):
                yield f"line {number}: {command}: {' / '.join(printed[:6])}"
        for picture in PICTURE.findall((TOP / page).read_text(encoding="utf-8")):
            kept, drawn = (TOP / page).parent / picture, folder / pathlib.Path(picture).name
            if drawn.exists() and drawn.read_bytes() != kept.read_bytes():
                yield f"{picture}: another picture is drawn"


def jobs():
    """A test for each page that has commands."""
    for page in PAGES:
        if any(len(part) == 3 for part in commands((TOP / page).read_text(encoding="utf-8"))):
            yield Job(page, lambda program, page=page: check(program, page))
