"""Tries the page of --page.

Its bytes are the beginning and the end that tools/page has, and between them the source, the names of the processes, and what
--trace-to --json, --steps and --explain write of that run; with --explore the same of each answer. No byte `<` stands there.

Where there is a browser, it opens such pages. It goes through a run by the keys, on and back, and each turn has to show what --steps and the
trace have of it, and at the end what --explain reports. A source with markup in its strings and comments has to be shown letter by letter.
Nothing may overlap, wide or narrow, and a page of 10,000 communications has to open with less than a second of work.
"""
import json
import re

from .browser import browser, found
from .running import TOP, Job, room, run

EXAMPLES = ["first_steps/relay", "faults/dining", "faults/division", "sharing/farm", "pipelines/primes", "selection/merge", "first_steps/hello"]
MARKUP = """-- </script><b>bold</b> <!-- & &lt; \\ \\u003c
PROC main (CHAN OF BYTE keyboard, screen)
  VAL text IS "</script><!--<b>'*"\\n*c*n":
  SEQ i = 0 FOR SIZE text
    screen ! text[i] -- <i>&amp;</i> é
:
"""
LONG = """PROC main (CHAN OF BYTE keyboard, screen)
  CHAN OF INT one, two:
  PAR
    SEQ i = 0 FOR 5000
      one ! i
    SEQ i = 0 FOR 5000
      INT x:
      SEQ
        one ? x
        two ! x
    SEQ i = 0 FOR 5000
      INT x:
      two ? x
:
"""
# 120 answers
MANY = """PROC main (CHAN OF BYTE keyboard, screen)
  [5]CHAN OF BYTE c:
  PAR
    PAR i = 0 FOR 5
      c[i] ! BYTE (i + 97)
    BYTE x:
    SEQ k = 0 FOR 5
      SEQ
        ALT i = 0 FOR 5
          c[i] ? x
            SKIP
        screen ! x
:
"""
# what the page shows: the words on the turn, the rows of processes as texts, and how many communications are behind it
SEEN = """JSON.stringify({told: $("told").textContent, where: $("where").textContent,
  rows: [...$("rows").rows].map((row) => [...row.cells].map((cell) => cell.textContent)), made: madeBy(now)})"""
# the texts that overlap or stand outside, of those of the header, the table and the chart
CROSSING = """(() => {
  const found = [];
  for (const part of ["header *", "#rows tr", "#lines li", "#heads text", "#body .label", "#body .number", "#lines li:nth-child(n) > *"]) {
    const boxes = [...document.querySelectorAll(part)].filter((one) => !one.children.length || part.endsWith("tr") || part.endsWith("li"))
      .map((one) => [one.textContent.trim() || one.id, one.getBoundingClientRect()]).filter(([text, box]) => text && box.width && box.height);
    const inside = boxes.filter(([, box]) => box.bottom > 0 && box.top < 3000).slice(0, 300);
    for (const [place, [text, box]] of inside.entries()) for (const [other, it] of inside.slice(place + 1)) {
      const wide = Math.min(box.right, it.right) - Math.max(box.left, it.left), high = Math.min(box.bottom, it.bottom) - Math.max(box.top, it.top);
      if (wide > 1.5 && high > 1.5) found.push(`${part}: ${text.slice(0, 40)} / ${other.slice(0, 40)}`);
    }
  }
  if (document.documentElement.scrollWidth > innerWidth) found.push(`wider than the window: ${document.documentElement.scrollWidth}`);
  return found.slice(0, 3);
})()"""


def parts():
    """The beginning and the end of each page."""
    page, script = ((TOP / "tools/page" / name).read_text() for name in ("page.html", "page.js"))
    return [part.encode() for part in page.replace("@script@", script).split("@data@")]


def kept(text):
    """A text as it stands in a page."""
    return re.sub(rb"[\x00-\x09\x0b-\x1f<\\]", lambda byte: b"\\u%04x" % byte[0][0], text) + b"\x0c"


def made(program, folder, source, words=()):
    """The texts of a page, by the other words of the program; but for the names, which are those in the page. And what is wrong with it."""
    (folder / "x.occ").write_text(source)
    told = ["--page", "page.html", "--trace-to", "trace", "--json", "--steps", "turns", "--record", "used", "--explain", *words]
    run(program, folder, [*told, "x.occ"], b"some keys\n")
    page = (folder / "page.html").read_bytes()
    head, foot = parts()
    if not (page.startswith(head) and page.endswith(foot)):
        return None, ["another beginning or end"]
    data = page[len(head) : len(page) - len(foot)]
    texts = data.split(b"\x0c")
    faults = ["a < in the data"] if b"<" in data else []
    wanted = [source.encode(), None, b"", (folder / "trace").read_bytes(), (folder / "turns").read_bytes()]
    for place, text in enumerate(wanted):
        if text is not None and texts[place] + b"\x0c" != kept(text):
            faults.append(f"the text {place} is another one")
    if len(texts) != 7 or texts[6]:
        faults.append(f"{len(texts)} texts")
    plain = [re.sub(rb"\\u([0-9a-f]{4})", lambda code: bytes([int(code[1], 16)]), text) for text in texts[:6]]
    report = run(program, folder, ["--choices", "used", "--explain", "x.occ"], b"some keys\n")[2]
    if report and plain[5] + b"  the schedule ends here: a longer one lets the run go on\n" != report and plain[5] != report:
        faults.append(f"another report: {report[:200]}")
    for number, name in re.findall(rb"(?m)^  p(\d+) ([\w.]+), line", plain[5]):
        if plain[1].split(b"\n")[int(number)] != name:
            faults.append(f"p{number.decode()} has another name")
    return [text.decode(errors="replace") for text in plain], faults


def composed(program, source, words=()):
    """What is wrong with the bytes of a page."""
    with room() as folder:
        yield from made(program, folder, source, words)[1]


def searched(program, source):
    """What is wrong with the bytes of a page of a search: of each answer it has the line, and what is written of the run by its choices."""
    with room() as folder:
        (folder / "x.occ").write_text(source)
        lines = run(program, folder, ["--explore", "--record", "found", "--page", "page.html", "x.occ"])[1].splitlines(keepends=True)
        answers = [line for line in lines if re.match(rb"\d+ (ended|stopped|fault)", line)]
        more = b"".join(line for line in lines if re.match(rb"and \d+ more\n", line))
        page = (folder / "page.html").read_bytes()
        head, foot = parts()
        texts = page[len(head) : len(page) - len(foot)].split(b"\x0c")
        if len(texts) != 3 + 4 * len(answers) or texts[-1] or texts[0] + b"\x0c" != kept(source.encode()):
            yield f"{len(texts)} texts of {len(answers)} answers"
            return
        for number, line in enumerate(answers):
            run(program, folder, ["--choices", f"found.{number + 1}.choices", "--trace-to", "trace", "--json", "--steps", "turns", "x.occ"])
            wanted = [line + more, (folder / "trace").read_bytes(), (folder / "turns").read_bytes()]
            for place, text in enumerate(wanted):
                if texts[2 + 4 * number + place] + b"\x0c" != kept(text):
                    yield f"answer {number + 1}: the text {place} is another one"
        print_of_search = run(program, folder, ["--explore", "x.occ"])[1]
        if print_of_search.splitlines(keepends=True) != lines:
            yield "a search with a page prints something else"


def walked(shown, texts):
    """What is wrong with what the page shows of each turn, on and back."""
    _, _, _, trace, turns, report = texts
    lines, entries = turns.splitlines(), [json.loads(line) for line in trace.splitlines()][:-1]
    seen, count = [], 0
    shown.press("Home")
    for number in range(len(lines) + 1):
        now = json.loads(shown.of(SEEN))
        seen.append(now)
        if now["where"] != f"{number} of {len(lines)}":
            yield f"turn {number}: {now['where']}"
        if number:
            taken, at, stop = re.match(r"\d+ ready.* took (p\d+) pick \d+ (?:line (\d+): )?(.*)", lines[number - 1]).groups()
            while count < len(entries) and f", {entries[count]['number']} {entries[count]['sender']}>{entries[count]['receiver']} " in stop:
                stop = stop.replace(f", {entries[count]['number']} ", f". Communication {entries[count]['number']}: ").replace(">", " > ")
                stop = re.sub(r"(: \w+ > \w+) ", r"\1, ", stop)
                count += 1
            before = "" if stop == "can go on" else f"stops at line {at}: " if at else "meets a " if stop.startswith("fault") else ""
            wanted = f"It {before}{stop}{f', at line {at}' if at and stop == 'can go on' else ''}."
            if not (now["told"].startswith(f"Turn {number}: {taken}") and now["told"].endswith(wanted)):
                yield f"turn {number}: {now['told']!r}, and not {wanted!r}"
        if now["made"] != count:
            yield f"turn {number}: {now['made']} communications, and not {count}"
        shown.press("ArrowRight")
    left = re.findall(r"(?m)^  (p\d+)(?: ([\w.]+))?(?:, line (\d+))?: (.*)$", report)
    rows = seen[-1]["rows"]
    if [row[0].split(" ")[0] for row in rows] != [process for process, *_ in left]:
        yield f"at the end {[row[0] for row in rows]}, and not {[process for process, *_ in left]}"
    for row, (process, name, line, stop) in zip(rows, left):
        plain = re.sub(r", (?:which (?:p\d+|nobody) (?:reads|writes)(?: now)?|whose bytes are used up)", "", stop)
        same = row[2] == plain or plain.startswith("halted") and row[2] == "halted"
        if not (same and row[0].endswith(f" {name}") and line in ("", row[1])):
            yield f"at the end {row}, and not {process} {name} {line} {plain}"
    for number in range(len(lines) - 1, -1, -1):
        shown.press("ArrowLeft")
        if json.loads(shown.of(SEEN)) != seen[number]:
            yield f"turn {number}: something else on the way back"


def laid_out(shown, name):
    """What overlaps, wide and narrow."""
    for width in (1280, 390):
        for is_dark in (False, True):
            shown.show_as(width, is_dark)
            for fault in shown.of(CROSSING):
                yield f"{name}, {width} points: {fault}"
    shown.show_as(1280)


def looked_at(program, path):
    """What is wrong with what a browser shows."""
    with room() as folder, browser(path) as shown:
        shown.show_as(1280)
        for name in EXAMPLES:
            texts, faults = made(program, folder, (TOP / f"examples/{name}.occ").read_text(), ["--seed", "3"])
            yield from faults
            shown.open(folder / "page.html")
            yield from (f"{name}: {fault}" for fault in walked(shown, texts))
            yield from laid_out(shown, name)
        made(program, folder, MARKUP)
        shown.open(folder / "page.html")
        lines = shown.of('[...document.querySelectorAll("#lines .code")].map((code) => code.textContent)')
        if lines != MARKUP.splitlines() or shown.of('document.querySelectorAll("b, i").length') or shown.of("document.scripts.length") != 2:
            yield f"markup: {lines}"
        (folder / "x.occ").write_text((TOP / "examples/faults/dining.occ").read_text())
        lines = run(program, folder, ["--explore", "--page", "page.html", "x.occ"])[1].decode().splitlines()
        shown.open(folder / "page.html", "#2.16")
        told = shown.of('[...$("answers").options].map((one) => one.textContent)')
        if told != [line for line in lines if " by " in line] or shown.of('$("answers").value') != "1" or shown.of("now") != 16:
            yield f"a search: {told}"
        yield from laid_out(shown, "a search")
        for part, run_shown, turn in (("#2.3", 1, 3), ("#1.5", 0, 5), ("#4.0", 3, 0)):
            shown.follow(part)
            if (shown.of("chosen"), shown.of("now"), shown.of('$("answers").value')) != (run_shown, turn, str(run_shown)):
                yield f"a link to {part} shows run {shown.of('chosen')} behind turn {shown.of('now')}"
        (folder / "x.occ").write_text(MANY)
        run(program, folder, ["--explore", "--page", "page.html", "x.occ"])
        shown.open(folder / "page.html")
        last = shown.of('(({length, [length - 1]: one}) => [length, one.textContent, one.disabled])([...$("answers").options])')
        if last != [101, "and 20 more", True]:
            yield f"120 answers: {last}"
        made(program, folder, LONG)
        before = shown.busy()
        shown.open(folder / "page.html")
        took = shown.busy() - before
        if took > 1 or shown.of("made.length") != 10_000:
            yield f"10,000 communications open in {took:.2f} s"
        shown.press("End")
        if shown.of("now") != shown.of("last") or not shown.of('document.querySelectorAll("#body .label").length'):
            yield "nothing is shown of the last of 10,000 communications"
        yield from shown.faults


def jobs():
    """A test for the bytes of each page, and one for what a browser shows."""
    for name in EXAMPLES:
        source = (TOP / f"examples/{name}.occ").read_text()
        for words in ([], ["--seed", "3"], ["--limit", "5"]):
            yield Job(f"page: {name} {words}", lambda program, source=source, words=words: composed(program, source, words))
    for name in ("faults/dining", "faults/door", "first_steps/relay", "selection/merge"):
        source = (TOP / f"examples/{name}.occ").read_text()
        yield Job(f"page of a search: {name}", lambda program, source=source: searched(program, source))
    yield Job("page of a search with 120 answers", lambda program: searched(program, MANY))
    yield Job("page: markup", lambda program: composed(program, MARKUP))
    path = found()
    if path:
        yield Job("page: in a browser", lambda program: looked_at(program, path))
    else:
        print("no browser (chromium) is there: no page is opened")
