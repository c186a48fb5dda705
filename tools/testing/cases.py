"""Tests that are files: tables of sources in tests/, programs in tests/ and in examples/ whose first lines say what comes of them, and
the tables of answers in documents. tests/README.md says how each is written.
"""
import importlib.util
import json
import pathlib
import re
import shlex

from .answers import bytes_of, choices_of, wanted_of
from .running import TOP, Job, put, room, run

HEAD = "PROC main (CHAN OF BYTE keyboard, screen)\n"
# what a run is given, before its answer
GIVEN = re.compile(
    r'(?:keyboard "(?P<keyboard>(?:[^"*]|\*.)*)")?(?:(?:^|, )by (?P<choices>none|[\d, of]+?))?(?:(?:^|, )with (?P<words>--.*?))?: '
    r"(?=ended|stopped|fault|limit|refused|accepted|status)"
)
# how wide the left side of a table of answers in a document is
WIDTH = 40


class Case:
    """A run: its source or the path of it, what it is given, and what has to come of it."""

    def __init__(self, where, source, wanted, keyboard=b"", choices=None, words=(), title=""):
        self.where, self.source, self.wanted, self.title = where, source, wanted, title
        self.keyboard, self.choices, self.words = keyboard, choices, list(words)

    def all_words(self):
        """The words of the command line."""
        words = [*self.words, *self.wanted[0].words()]
        if self.choices is not None:
            words += ["--choices", "choices"]
        if self.wanted[0].turns is not None:
            words += ["--record", "used"]
        return [*words, self.source if isinstance(self.source, pathlib.Path) else "x.occ"]

    def faults(self, program):
        """What is wrong, if the run comes to none of what it may come to."""
        with room() as folder:
            if not isinstance(self.source, pathlib.Path):
                put(folder, {"x.occ": self.source})
            if self.choices is not None:
                put(folder, {"choices": self.choices})
            words = self.all_words()
            came = run(program, folder, words, self.keyboard)
            told = ["; ".join(self.differences(folder, came, wanted, words)) for wanted in self.wanted]
            if all(told):
                yield " or ".join(told)

    def differences(self, folder, came, wanted, words):
        """What is wrong with what came of a run, where this has to come of it."""
        status, out, err, file = wanted.streams(words)
        if wanted.kind:
            said, err = ("kind of stop", came[2].partition(b":")[0]), wanted.kind.encode()
        else:
            said = ("standard error", came[2])
        found = [("status", came[0], status), ("standard output", came[1], out), (*said, err)]
        if file:
            path = folder / file[0]
            found.append((file[0], path.read_bytes() if path.exists() else b"", file[1]))
        if (folder / "used").exists():
            used = (folder / "used").read_text()
            found.append(("turns", used.count("\n"), wanted.turns))
            if self.choices is not None:
                first = "".join(self.choices.splitlines(keepends=True)[: wanted.turns])
                found.append(("choices", used.encode(), first.encode()))
        return [difference(what, has, wants) for what, has, wants in found if has != wants]

    def job(self):
        """The test of it."""
        return Job(self.where, self.faults)


def difference(what, has, wants):
    """What is found, and what is wanted: of texts the first lines that differ."""
    if isinstance(has, int):
        return f"{what} {has}, and not {wants}"
    lines, others = (text.decode("utf-8", "replace").splitlines(keepends=True) + [""] for text in (has, wants))
    at = next(at for at, (line, other) in enumerate(zip(lines, others)) if line != other)
    place = f", line {at + 1}" if max(len(lines), len(others)) > 2 else ""
    return f"{what}{place}: {lines[at]!r}, and not {others[at]!r}"


def source_of(lines):
    """The source that lines of a table write down: as it stands, below main's first line where it is indented, a string of JSON, or the
    path of an example."""
    if len(lines) == 1 and re.fullmatch(r"examples/\S+\.occ", lines[0]):
        return TOP / lines[0]
    text = "".join(f"{line}\n" for line in lines)
    if text.startswith('"'):
        return json.loads(text).encode("latin-1")
    return f"{HEAD}{text}:\n".encode() if text.startswith("  ") else text.encode()


def given_of(line):
    """What the run of a line of a table is given, and the rest of the line."""
    match = GIVEN.match(line)
    if not match:
        return {}, line
    given = {}
    if match["keyboard"] is not None:
        given["keyboard"] = bytes_of(match["keyboard"])
    if match["choices"] is not None:
        given["choices"] = choices_of(match["choices"])
    if match["words"]:
        given["words"] = shlex.split(match["words"])
    return given, line[match.end() :]


def table(path):
    """The cases of a table in tests/: each is lines of a source, and then for each run a line `--- ` with its answer and lines of what
    is printed with it. `=== ` begins a title, an empty line behind an answer the next case."""
    said = path.relative_to(TOP)
    source, title, runs, first = [], "", [], 0

    def made():
        for at, answer, lines in runs:
            given, line = given_of(answer)
            try:
                yield Case(f"{said}:{at}", source_of(source), wanted_of(line, lines), title=title, **given)
            except ValueError as fault:
                raise ValueError(f"{said}:{at}: {fault}") from fault

    for number, line in enumerate([*path.read_text(encoding="utf-8").split("\n"), "=== "], 1):
        if line.startswith("=== ") or runs and not line:
            if title and source and not runs:
                raise ValueError(f"{said}:{first}: a source without an answer")
            yield from made()
            source, runs, title, first = [], [], line[4:] or title, number
        elif line.startswith("--- ") and title:
            runs.append((number, line[4:], []))
        elif runs:
            runs[-1][2].append(line)
        elif title and (line or source):
            source.append(line)


def block(lines, at, title):
    """What stands behind a title of first lines, and the number of the line behind it: a string, `nothing`, or lines below it."""
    rest = lines[at][len(f"-- {title}:") :].strip()
    if rest == "nothing":
        return b"", at + 1
    if rest:
        return bytes_of(rest[1:-1]), at + 1
    end = at + 1
    while end < len(lines) and lines[end].startswith("--   "):
        end += 1
    return "".join(f"{line[5:]}\n" for line in lines[at + 1 : end]).encode(), end


TITLE = re.compile(r"-- (Keyboard|Screen|Explored|Trace|Report|(?:With (?P<words>--.*?))?(?:(?:, b|B)y (?P<choices>[\w., ]+?))?):(?: nothing| \".*\")?")


def headed(path):
    """The cases of a program whose first lines say what comes of its runs."""
    lines = re.match(r"(?:--.*\n)*", path.read_text(encoding="utf-8"))[0].splitlines()
    said = path.relative_to(TOP)
    at, keyboard, begun, count = 0, b"", None, 0
    while at < len(lines):
        title = TITLE.fullmatch(lines[at])
        ends = re.fullmatch(r"-- (?:Ends: (.*)|Status: (\d))", lines[at])
        if ends and begun:
            count += 1
            yield finished(said, path, keyboard, begun, ends)
            begun, at = None, at + 1
        elif title and title[1]:
            text, end = block(lines, at, title[1])
            if title[1] == "Keyboard":
                keyboard = text
            elif title[1] in ("Trace", "Report"):
                begun["lines"] = text.decode().splitlines()
            elif title[1] == "Explored":
                count += 1
                yield Case(f"{said}:{at + 1}", path, wanted_of("status 0", text.decode().splitlines()), keyboard, None, ["--explore"])
            else:
                begun = {"at": at + 1, "text": text, "words": title["words"], "choices": title["choices"], "lines": []}
            at = end
        else:
            at += 1
    if not count:
        raise ValueError(f"{said}: its first lines tell of no run")


def finished(said, path, keyboard, begun, ends):
    """The case that the line of an ending or of a status finishes."""
    choices = begun["choices"]
    if choices and choices.endswith(".choices"):
        choices = (path.parent / choices).read_text()
    elif choices:
        choices = choices_of(choices)
    words = shlex.split(begun["words"] or "")
    if ends[2]:
        wanted = wanted_of(f"status {ends[2]}", begun["text"].decode().splitlines())
    else:
        ending, _, turns = ends[1].partition(" after ")
        quoted = begun["text"].decode().replace("*", "**").replace('"', '*"').replace("\n", "*n")
        wanted = wanted_of(f'{ending} "{quoted}"' + (f" after {turns}" if turns else ""), begun["lines"])
    return Case(f"{said}:{begun['at']}", path, wanted, keyboard, choices, words)


def beside(path):
    """The cases of the file with a program's trace that stands beside it."""
    kept = path.with_suffix(".trace")
    if kept.exists():
        yield Case(str(kept.relative_to(TOP)), path, wanted_of("status 0", kept.read_text().splitlines()), words=["--trace"])


def document(path):
    """The cases of a table of answers in a document: the answer stands on the left of a source's first line."""
    text = path.read_text(encoding="utf-8")
    begins = text.index("<!-- answers -->\n```\n") + len("<!-- answers -->\n```\n")
    number = text.count("\n", 0, begins) + 1
    for part in text[begins:].split("```\n")[0].strip("\n").split("\n\n"):
        lines = part.split("\n")
        yield Case(f"{path.relative_to(TOP)}:{number}", source_of([line[WIDTH:] for line in lines]), wanted_of(lines[0][:WIDTH].strip()))
        number += len(lines) + 1


def generated(path):
    """The cases that a file of Python makes, by its function `made`."""
    spec = importlib.util.spec_from_file_location(path.stem, path)
    module = importlib.util.module_from_spec(spec)
    spec.loader.exec_module(module)
    for title, source, answer in module.made():
        yield Case(f"{path.relative_to(TOP)}: {title}", source.encode(), wanted_of(answer), title=title)


def all_cases():
    """All of them."""
    for path in sorted((TOP / "tests").glob("*/*.txt")):
        yield from table(path)
    for path in sorted((TOP / "tests").glob("*/*.py")):
        yield from generated(path)
    for folder in ("tests", "examples"):
        for path in sorted((TOP / folder).glob("*/*.occ")):
            yield from headed(path)
            yield from beside(path)
    for name in ("docs/language.md", "docs/from-occam2.md"):
        yield from document(TOP / name)


def jobs():
    """A test for each."""
    return [case.job() for case in all_cases()]
