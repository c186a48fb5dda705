#!/usr/bin/env python3
"""Keeps files equal to what they are made from: the names and the causes of refusals, which docs/language.md has; the words of the
command line, in crates/occ_play_inputs/src/command.rt, from which the manual page and the shells' completions are made; the page that
shows a run, in tools/page; and the index of rules, docs/rules.md, from docs/rules.txt (tools/rules.py).

    python3 tools/tables.py           says which file differs; the status is 1 where one does
    python3 tools/tables.py --write   writes the files
"""
import pathlib
import re
import sys

sys.dont_write_bytecode = True

import rules

TOP = pathlib.Path(__file__).resolve().parent.parent
WORDS = TOP / "crates/occ_play_inputs/src/command.rt"


def literal(text):
    """A literal of Rust."""
    return '"' + text.replace("\\", "\\\\").replace('"', '\\"') + '"'


def causes():
    """The causes of refusals in docs/language.md, without the mark of what is the project's own."""
    found = re.findall(r"(?m)^\| (\d+) [A-Z]\w+ \| (.*) \|$", (TOP / "docs/language.md").read_text())
    rows = []
    for number, cause in found:
        text = literal(cause.removesuffix(" (own)"))
        short = len(f"{number}, {text}") <= 60
        rows.append(f"    ({number}, {text}),\n" if short else f"    (\n        {number},\n        {text},\n    ),\n")
    return (
        "//! The causes of refusals in `docs/language.md`. `tools/tables.py` writes this file.\n\n"
        f"pub const CAUSES: [(u32, &str); {len(rows)}] = [\n{''.join(rows)}];\n"
    )


def names():
    """The names of refusals in docs/language.md, by their numbers."""
    found = re.findall(r"(?m)^\| (\d+) ([A-Z]\w+) \| .* \|$", (TOP / "docs/language.md").read_text())
    rows = "".join(f"    ({number}, {literal(name)}),\n" for number, name in found)
    return (
        "//! The names of refusals in `docs/language.md`. `tools/tables.py` writes this file.\n\n"
        f"pub const NAMES: [(u32, &str); {len(found)}] = [\n{rows}];\n"
    )


def words():
    """The words of the command line, in the order of the help: name, name of the value, whether it has to stand behind `=`,
    what the value may be, and what the help says."""
    rows = re.findall(r'Word \{ name: "([^"]+)", form: Form::(\w+), value: "([^"]*)", takes: (.*?),\s+needs: .*?help: "(.*?)" \}', WORDS.read_text(), re.S)
    for name, form, value, takes, said in rows:
        one_of = re.findall(r'"(\w+)"', takes)
        yield None if form == "Files" else name, value or None, form == "Search", one_of, said
    yield "help", None, False, [], "Prints this help"
    yield "version", None, False, [], "Prints the version"


def version():
    """The version of the program."""
    return re.search(r'VERSION: &str = "([^"]+)"', (TOP / "crates/occ_play_inputs/src/words.rt").read_text())[1]


def manual():
    """The manual page."""
    text = WORDS.read_text()
    about = re.search(r'\.about\("([^"]+)"\)', text)[1]
    turn, statuses, example = re.search(r'MORE_HELP: &str =\s*r#"(.*?)\n"#', text, re.S)[1].split("\n\n")
    escaped = lambda said: re.sub(r"(?m)^\.", r"\\&.", said.replace("\\", "\\e").replace("-", "\\-").replace("'", "\\(aq"))
    lines = [
        f'.TH OCCAM 1 "" "occam {version()}" "User Commands"',
        f".SH NAME\noccam \\- {about[0].lower()}{about[1:].rstrip('.')}",
        ".SH SYNOPSIS\n.B occam\n[\\fIFILE\\fR...] [\\fIOPTIONS\\fR]",
        f".SH DESCRIPTION\n{about}",
    ]
    options = []
    for long, value, is_equal, one_of, said in words():
        if long is None:
            lines.append(f".PP\n\\fIFILE\\fR: {escaped(said[0].lower() + said[1:])}.")
            continue
        shown = f"\\fB\\-\\-{escaped(long)}\\fR"
        if value:
            shown += f"[=\\fI{value}\\fR]" if is_equal else f" \\fI{value}\\fR"
        listed = f" One of: {', '.join(one_of)}." if one_of else ""
        options.append(f".TP\n{shown}\n{escaped(said)}.{listed}")
    lines.append(f".PP\n{escaped(' '.join(turn.split()))}")
    lines += [".SH OPTIONS", *options, ".SH EXIT STATUS"]
    for status, said in re.findall(r"(?m)^  (\d)  ((?:.*)(?:\n     .*)*)", statuses):
        lines.append(f".TP\n{status}\n{escaped(' '.join(said.split()))}")
    shown = escaped("\n".join(line.strip() for line in example.split("\n") if line.startswith("  ")))
    lines.append(f".SH EXAMPLES\n.nf\n{shown}\n.fi")
    lines.append(
        ".SH FILES\nA package puts the documents, a course and the examples into\n.IR /usr/share/doc/occam .\nTo work with them, copy that folder:\n"
        ".PP\n.nf\ncp \\-r /usr/share/doc/occam ~/occam; cd ~/occam\n.fi\n.PP\nThe first hour is\n.I docs/tutorial.md\nthere, and the course\n.IR docs/course/README.md ."
    )
    return "\n".join(lines) + "\n"


def in_bash():
    """The completions of bash. A value may stand behind `=`, which is a word of its own unless COMP_WORDBREAKS has been changed."""
    options = [(long, value, is_equal, one_of) for long, value, is_equal, one_of, _ in words() if long]
    all_of = " ".join(f"--{long}" for long, *_ in options)
    cases = "".join(
        f'    {"" if is_equal else f"--{long} | "}--{long}=)\n      COMPREPLY=($(compgen -W "{" ".join(one_of)}" -- "$now"))\n      return\n      ;;\n'
        for long, value, is_equal, one_of in options
        if one_of
    )
    numbers = " | ".join(f"--{long} | --{long}=" for long, value, *_ in options if value == "N")
    return (
        "# completions of occam for bash; tools/tables.py writes this file\n"
        "_occam() {\n"
        '  local now="${COMP_WORDS[COMP_CWORD]}" before="${COMP_WORDS[COMP_CWORD - 1]}"\n'
        "  COMPREPLY=()\n"
        '  if [[ "$now" == "=" ]]; then\n'
        '    before="$before=" now=""\n'
        '  elif [[ "$before" == "=" ]]; then\n'
        '    before="${COMP_WORDS[COMP_CWORD - 2]}="\n'
        "  fi\n"
        '  case "$before" in\n'
        f"{cases}"
        f"    {numbers})\n      return\n      ;;\n"
        "  esac\n"
        '  if [[ "$now" == -* ]]; then\n'
        f'    COMPREPLY=($(compgen -W "{all_of}" -- "$now"))\n'
        "  else\n"
        '    COMPREPLY=($(compgen -f -- "$now"))\n'
        "  fi\n"
        "}\n"
        "complete -o filenames -F _occam occam\n"
    )


def in_zsh():
    """The completions of zsh."""
    lines = ["#compdef occam", "# completions of occam for zsh; tools/tables.py writes this file", "_arguments \\"]
    for long, value, is_equal, one_of, said in words():
        if long is None:
            continue
        told = re.sub(r"([\[\]:\\])", r"\\\1", said).replace("'", "'\\''")
        action = f"({' '.join(one_of)})" if one_of else "_files" if value == "FILE" else " "
        behind = f"{'=-' if is_equal else ''}[{told}]" + (f":{':' if is_equal else ''}{value}:{action}" if value else "")
        lines.append(f"  '--{long}{behind}' \\")
    return "\n".join([*lines, "  '*:source:_files -g \"*.occ\"'"]) + "\n"


def in_fish():
    """The completions of fish."""
    lines = ["# completions of occam for fish; tools/tables.py writes this file"]
    for long, value, is_equal, one_of, said in words():
        if long is None:
            continue
        told = said.replace("\\", "\\\\").replace("'", "\\'")
        listed = f" -a '{' '.join(one_of)}'" if one_of else ""
        kind = f" {'-f' if is_equal else '-x'}{listed}" if listed else " -r" if value == "FILE" else " -x" if value else ""
        lines.append(f"complete -c occam -l {long}{kind} -d '{told}'")
    return "\n".join(lines) + "\n"


def shown_page():
    """The beginning and the end of the page that shows a run, from tools/page."""
    page, script = ((TOP / "tools/page" / name).read_text() for name in ("page.html", "page.js"))
    if "</script" in script or "<!--" in script or script.count("\n") > 500:
        raise ValueError("tools/page/page.js: at most 500 lines, without `</script` and `<!--`")
    return page.replace("@script@", script).split("@data@")


def page_part(name, said, place):
    """What makes the file of a constant with a part of that page."""
    return lambda: f'//! {said}. `tools/tables.py` writes this file.\n\npub const {name}: &str = r##"{shown_page()[place]}"##;\n'


differ = False
TABLES = {
    "crates/occ_shown/src/page_foot.rt": page_part("FOOT", "The end of the page that shows a run, with its script", 1),
    "crates/occ_shown/src/page_head.rt": page_part("HEAD", "The beginning of the page that shows a run", 0),
    "crates/occ_explain/src/cause_table.rt": causes,
    "crates/occ_explaining/src/refusal_names.rt": names,
    "docs/occam.1": manual,
    "docs/rules.md": rules.index,
    "tools/completions/occam.bash": in_bash,
    "tools/completions/_occam": in_zsh,
    "tools/completions/occam.fish": in_fish,
}
for name, table in TABLES.items():
    path = TOP / name
    try:
        text = table()
    except ValueError as fault:
        differ = True
        print(fault)
        continue
    if "--write" in sys.argv[1:]:
        path.write_text(text)
    elif not path.exists() or path.read_text() != text:
        differ = True
        print(f"{path.relative_to(TOP)} differs: python3 tools/tables.py --write")
sys.exit(differ)
