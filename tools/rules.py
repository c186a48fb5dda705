"""Makes docs/rules.md, the index of rules, from the list docs/rules.txt. tools/tables.py compares the two and writes the page.

A line of the list is a rule, in five fields that ` | ` parts: the rule in about ten words, its definitions, the functions that run it,
its laws and wrong bodies, and its tests; any of the last four may be empty. A line `## ` begins a section, `-- ` is a remark, and
any other line is a paragraph.

A definition, function or law is `crate/name`, or `crate/FILE/name` where several files of the crate declare the name; a wrong body is
`crate/wrong/name.edit` or `crate/must-fail/name.edit`. A test is a file below tests/, or one that begins with tools/, docs/ or crates/;
behind `: ` stands what the file has to contain. Tests are parted by `; `.

ValueError lists each name that stands nowhere or twice, each wrong body or test that is missing, each test that lacks its text, each
rule of more than 16 words, and each refusal in a rule that no file of its tests has.
"""
import functools
import pathlib
import re

TOP = pathlib.Path(__file__).resolve().parent.parent
CRATES = TOP / "crates"
LIST = TOP / "docs/rules.txt"
MOST_WORDS = 16
HEAD = """# Where each rule stands

<!-- tools/tables.py makes this page from docs/rules.txt -->

Look up a rule to find its definition, the code that runs it, what shows that it matters, and its test. Paths are below `crates/`, but for
those of tests.

- *Definition*: the word of `specs/` that says the rule. The cell is empty where no definition does, as of streams and files.
- *Function*: the code. Its `ensures` clause says that it does what the definition says, and the prover checks that.
- *Law, wrong body*: a theorem about the rule, as `crate::name`, or a change of the code or the definition that a prover has to refuse.
- *Test*: the file that has cases of the rule, with the title of one. `tools/test` runs them on the built program.

A rule marked *(not proved)* is tested only. A rule that a source can break has the number and the name of its refusal with it.
"""
COLUMNS = "| Rule | Definition | Function | Law, wrong body | Test |\n|---|---|---|---|---|\n"
FORMS = {
    ".antt": re.compile(r"(?m)^(?:abbrev |unfoldable )?pub (?:abbrev |data |record )?(\S+)|^ +(?:pub )?(?:data |record )?((?:[^\s(){}:]+ )+):"),
    ".rt": re.compile(r"(?m)^ *(?:pub(?:\([^)]*\))? )?(?:fn|const|static|enum|struct|type|trait) (\w+)"),
}


@functools.cache
def declared(path):
    """The names that a file declares."""
    found = FORMS[path.suffix].finditer(path.read_text(encoding="utf-8"))
    return frozenset(name for match in found for name in (match[1] or match[2]).split())


@functools.cache
def files_of(crate):
    """The sources and definitions of a crate."""
    return [path for part in ("src", "specs") for path in sorted((CRATES / crate / part).rglob("*")) if path.suffix in FORMS]


@functools.cache
def place_of(said):
    """The file that declares such a name, and the name."""
    crate, *within, name = said.split("/")
    files = [path for path in files_of(crate) if name in declared(path)]
    for part in within:
        files = [path for path in files if part in path.relative_to(CRATES).with_suffix("").parts]
    if len(files) != 1:
        raise ValueError(f"{said} stands in {len(files)} files")
    return files[0], name


def shown(places):
    """A cell: the names behind each file."""
    files = {}
    for path, name in places:
        files.setdefault(path, []).append(f"`{name}`")
    return "; ".join(f"`{path.relative_to(CRATES)}`: {', '.join(names)}" for path, names in files.items())


def test_of(said):
    """A cell of a test, and what its file contains."""
    name, _, text = said.partition(": ")
    name = name if name.startswith(("tools/", "docs/", "crates/")) else f"tests/{name}"
    path = TOP / (name if re.search(r"\.\w+$", name) or (TOP / name).is_file() else f"{name}.txt")
    if not path.is_file():
        raise ValueError(f"there is no {name}")
    content = path.read_text(encoding="utf-8")
    if text not in content:
        raise ValueError(f"{name} does not have {text!r}")
    return f"`{path.relative_to(TOP)}`" + (f", {text.strip()}" if text and path.suffix == ".txt" else ""), content


def law_of(said):
    """A cell of a law or a wrong body."""
    if not said.endswith(".edit"):
        path, name = place_of(said)
        return f"`{path.relative_to(CRATES).parts[0]}::{name}`"
    if not (CRATES / said).is_file():
        raise ValueError(f"there is no crates/{said}")
    return f"`{said}`"


def row_of(line):
    """A row of the page."""
    rule, *fields = [field.strip() for field in f"{line} ".split(" |")]
    if len(fields) != 4 or len(rule.split()) > MOST_WORDS:
        raise ValueError(f"{len(fields) + 1} fields, or more than {MOST_WORDS} words")
    meant, run = ([place_of(said) for said in field.split()] for field in fields[:2])
    tests = [test_of(said) for said in fields[3].split("; ") if said]
    for refusal in re.findall(r"\b\d+ ([A-Z]\w+[a-z])\b", rule):
        if tests and not any(refusal in content for _, content in tests):
            raise ValueError(f"none of its tests has {refusal}")
    cells = [rule, shown(meant), shown(run), "; ".join(map(law_of, fields[2].split())), "; ".join(cell for cell, _ in tests)]
    return f"| {' | '.join(cells)} |\n"


def index():
    """The page."""
    lines, faults, in_table = [HEAD], [], False
    for number, line in enumerate(LIST.read_text(encoding="utf-8").splitlines(), 1):
        if line.startswith("-- "):
            continue
        is_row = " |" in line
        try:
            made = row_of(line) if is_row else f"\n{line}\n" if line else ""
        except (ValueError, OSError) as fault:
            faults.append(f"docs/rules.txt:{number}: {fault}")
            continue
        lines.append(("" if in_table or not is_row else f"\n{COLUMNS}") + made)
        in_table = is_row
    if faults:
        raise ValueError("\n".join(faults))
    return "".join(lines)
