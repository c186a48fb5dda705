"""Tries what editors read: `--check --json`, the PROCs that no call reaches, a hyphen for standard input, and the files of editors/.

Of each text of tests/mistakes.txt the line of JSON has to tell what --explain does: the place, what is wrong and the hint; and behind
the place the end of the word that stands there. What no terminal shows, as quotes or bytes that are no UTF-8, has to leave it JSON.

Where there is node, tests/editors.js reads such lines by the problem matchers of editors/vscode. Where there is Vim, `:make` does.
"""
import json
import os
import re
import shutil
import subprocess

from .explained import MISTAKES, ODD
from .running import TOP, Job, room, run, run_text
from .statuses import LETTER, SHARED, SHARED_TOLD

KEYS = ["kind", "file", "line", "column", "end", "number", "name", "text", "hint"]
SHARED_OBJECT = {
    "kind": "refused", "file": "x.occ", "line": 5, "column": 5, "end": 6, "number": 50, "name": "SharedVariable",
    "text": "`x` is written in one branch of a PAR and used in another",
    "hint": "another branch uses it in line 4: give each branch a variable of its own, or send the value over a channel",
}
# `left` and `unused` are not called; what `left` has in it bears a name that is reached, so that and what it calls are not told
UNREACHED = """PROC deep ()
  SKIP
:
PROC left (CHAN OF BYTE screen)
  PROC inner ()
    deep ()
  :
  SEQ
    inner ()
    screen ! 'L'
:
PROC used (CHAN OF BYTE screen)
  PROC inner (CHAN OF BYTE screen)
    screen ! 'U'
  :
  SEQ
    inner (screen)
:
PROC main (CHAN OF BYTE keyboard, screen)
  PROC unused ()
    STOP
  :
  SEQ
    used (screen)
:
"""
UNREACHED_LINES = [("left", 4, 1), ("unused", 20, 3)]
# PROCs in the order of their calls, the last one first, each in a line of its own
CHAIN = "PROC p0 ()\n  SKIP\n:\n" + "".join(f"PROC p{n} ()\n  p{n - 1} ()\n:\n" for n in range(1, 400))
NO_MAIN = "PROC main ()\n  SKIP\n:\n"


def word_end(line, column):
    """The column behind the word in a column of a line of bytes."""
    rest = line[column - 1 :]
    return column + len(re.match(rb"[A-Za-z0-9.]*", rest)[0] or rest[:1])


def same(program, source):
    """Faults of the line of JSON of one text: it tells what --explain does."""
    with room({"x.occ": source}) as folder:
        status, out, err = run(program, folder, ["--check", "--json", "x.occ"])
        told = run(program, folder, ["--check", "--explain", "x.occ"])[2].decode("ascii", "replace").split("\n")
    first, place, *rest = told
    if (status, err.decode("ascii", "replace")) != (1, first + "\n"):
        yield f"status {status}, {err!r}"
    said = json.loads(out)
    if list(said) != KEYS or out.count(b"\n") != 1:
        yield f"another object: {out!r}"
        return
    if f"x.occ:{said['line']}:{said['column']}: {said['text']}" != place:
        yield f"another place or text: {said}, and not {place}"
    hint = rest[2].removeprefix("  ") if len(rest) > 3 else ""
    if said["hint"] != hint:
        yield f"another hint: {said['hint']}, and not {hint}"
    number, name = first.split()[1:3]
    if (said["kind"], said["file"], str(said["number"]), said["name"]) != ("refused", "x.occ", number, name):
        yield f"another refusal: {said}, and not {first}"
    line = (source.split(b"\n")[said["line"] - 1 : said["line"]] or [b""])[0].removesuffix(b"\r")
    if said["end"] != word_end(line, said["column"]):
        yield f"another end: {said['end']}, and not {word_end(line, said['column'])}"


def wants(program, words, files, given, status, objects, err):
    """Faults of a look at a source, with these objects."""
    with room(files) as folder:
        came = run_text(program, folder, words, given)
    found = [json.loads(line) for line in came[1].splitlines()]
    if (came[0], found, came[2]) != (status, objects, err):
        yield f"{came}, and not {(status, objects, err)}"


def says(program, words, files, given, wanted):
    """Faults of a run in words."""
    with room(files) as folder:
        came = run_text(program, folder, words, given)
    if came != wanted:
        yield f"{came}, and not {wanted}"


def to_full(program):
    """Faults where standard output can't be written."""
    with room({"x.occ": SHARED}) as folder:
        status, _, err = run_text(program, folder, ["--check", "--json", "x.occ"], to="/dev/full")
    if (status, err) != (6, "refused 50 SharedVariable line 5 x\nwrite failed\n"):
        yield f"status {status}, {err!r}"


def lines_of(program, folder):
    """What --check --json says of some sources."""
    sources = [SHARED.encode(), UNREACHED.encode(), NO_MAIN.encode(), ODD[0][1], b"PROC main (CHAN OF BYTE keyboard, screen)\n  screen ! \"a\" \\ \"b\"\n:\n"]
    out = b""
    for number, source in enumerate(sources):
        name = f"{number}\"\\\u00e9.occ"
        (folder / name).write_bytes(source)
        out += run(program, folder, ["--check", "--json", name])[1]
    return out


def by_node(program):
    """What is wrong with the extension for Visual Studio Code."""
    with room() as folder:
        (folder / "lines").write_bytes(lines_of(program, folder))
        done = subprocess.run(["node", TOP / "tests/editors.js", folder / "lines"], capture_output=True, text=True, check=False)
    yield from done.stdout.splitlines()
    if done.returncode:
        yield done.stderr.strip()


SHOW = "for i in getqflist() | echo join([i.type, bufname(i.bufnr), i.lnum, i.col, i.end_col, i.nr, i.text], '|') | endfor"
MADE = [
    "E|x.occ|5|5|6|50|`x` is written in one branch of a PAR and used in another: another branch uses it in line 4: "
    "give each branch a variable of its own, or send the value over a channel"
]


def by_vim(program):
    """What is wrong with `:make` in Vim."""
    for source, made in ((SHARED, MADE), (UNREACHED, [f"W|x.occ|{line}|{at}|{at + 4}|-1|not checked: {name}: no call reaches it" for name, line, at in UNREACHED_LINES])):
        with room({"x.occ": source}) as folder:
            (folder / "bin").mkdir()
            (folder / "bin/occam").symlink_to(program)
            words = [f"set rtp^={TOP}/editors/vim", "filetype plugin indent on", "edit x.occ", "silent make", "redir! > out", SHOW, "redir END", "qa!"]
            said = {**os.environ, "PATH": f"{folder}/bin:{os.environ['PATH']}", "HOME": str(folder)}
            subprocess.run(["vim", "-Nu", "NONE", "-es", *(it for word in words for it in ("-c", word))], cwd=folder, env=said, stdin=subprocess.DEVNULL, capture_output=True, timeout=60, check=False)
            found = [line for line in (folder / "out").read_text().splitlines() if line]
        if found != made:
            yield f"{found}, and not {made}"


def jobs():
    """A test for each text, and the others."""
    texts = [(title, text.encode("utf-8")) for title, text, *_ in MISTAKES.findall((TOP / "tests/mistakes.txt").read_text(encoding="utf-8"))]
    texts += [(title, text) for title, text, *_ in ODD]
    texts += [("no main process", NO_MAIN.encode()), ("nothing", b""), ("an empty line", b"\n"), ("a long text", b" " * 1_048_577)]
    texts += [("quotes", b'PROC main (CHAN OF BYTE keyboard, screen)\n  VAL s IS "*"\\":\n  x := "a" \\ "*x"\n:\n')]
    for title, text in texts:
        yield Job(f"editors: {title}", lambda program, text=text: same(program, text))
    objects = [
        {"kind": "unchecked", "file": "x.occ", "line": line, "column": at, "end": at + 4, "name": name, "text": "no call reaches it"}
        for name, line, at in UNREACHED_LINES
    ]
    in_words = "".join(f"not checked: {name}, line {line}: no call reaches it\n" for name, line, _ in UNREACHED_LINES)
    named = 'a"\\\u00e9\x01\n.occ'
    refused = "refused 50 SharedVariable line 5 x\n"
    chain = CHAIN + "PROC main (CHAN OF BYTE keyboard, screen)\n  SEQ\n    p{}\n    screen ! 'A'\n:\n"
    past = "".join(f"not checked: p{n}, line {3 * n + 1}: no call reaches it\n" for n in range(200, 400))
    tried = [
        ("refused", wants, ["--check", "--json", "x.occ"], {"x.occ": SHARED}, "", 1, [SHARED_OBJECT], refused),
        ("explained too", wants, ["--check", "--json", "--errors=stop", "-"], {}, SHARED, 1, [{**SHARED_OBJECT, "file": "-"}], refused),
        ("a name of its own", wants, ["--check", "--json", named], {named: SHARED}, "", 1, [{**SHARED_OBJECT, "file": named}], refused),
        ("accepted", wants, ["--check", "--json", "x.occ"], {"x.occ": LETTER}, "", 0, [], ""),
        ("unreached", wants, ["--check", "--json", "x.occ"], {"x.occ": UNREACHED}, "", 0, objects, ""),
        ("no file", wants, ["--check", "--json", "none.occ"], {}, "", 6, [], "read failed\n"),
        ("unreached in words", says, ["--check", "x.occ"], {"x.occ": UNREACHED}, "", (0, "", in_words)),
        ("unreached and explained", says, ["x.occ", "--explain", "--check"], {"x.occ": UNREACHED}, "", (0, "", in_words)),
        ("unreached, and run", says, ["x.occ"], {"x.occ": UNREACHED}, "", (0, "U", "")),
        ("a chain of calls", says, ["--check", "-"], {}, chain.format("399 ()"), (0, "", "")),
        ("half a chain of calls", says, ["--check", "-"], {}, chain.format("199 ()"), (0, "", past)),
        ("a hyphen", says, ["-"], {}, LETTER, (0, "A", "")),
        ("a hyphen, and words", says, ["--trace", "-", "--quantum=2"], {}, LETTER, (0, "A\n1 c1 screen p0>screen 65\nended\n", "")),
        ("a hyphen, searched", says, ["-", "--explore=endings"], {}, LETTER, (0, "1 ended by 2 choices\neach run ends after 2 turns\none answer: the program has no ALT\n", "")),
        ("a hyphen, explained", says, ["-", "--explain"], {}, SHARED, (1, "", SHARED_TOLD.replace("x.occ", "-"))),
    ]
    for title, test, *given in tried:
        yield Job(f"editors: {title}", lambda program, test=test, given=given: test(program, *given))
    yield Job("editors: a full disk", to_full)
    if shutil.which("node"):
        yield Job("editors: the extension", by_node)
    if shutil.which("vim"):
        yield Job("editors: :make", by_vim)
