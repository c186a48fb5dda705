"""What is given beside the source: files of choices, and words of the command line."""
from .running import Job, put, room, run

HEAD = "PROC main (CHAN OF BYTE keyboard, screen)\n"
# it takes a turn for each choice that there is
ENDLESS = HEAD + "  WHILE TRUE\n    SKIP\n:\n"
LETTER = HEAD + "  screen ! 'A'\n:\n"
# a file of choices, and the choices that are recorded of a run by it, or the refusal
CHOICES = [
    (b"", ""),
    (b"0 0\r\n1 0\n", "0 0\n1 0\n"),
    (b"0 0\n1 0", "0 0\n1 0\n"),
    (b"007 0000000010\n", "7 10\n"),
    (b"4294967295 7\n", "4294967295 7\n"),
    (b"0  0\n", "refused 90 BadChoice line 1"),
    (b"0 0\n4294967296 0\n", "refused 90 BadChoice line 2"),
    (b"0 0\n\n", "refused 90 BadChoice line 2"),
    (b"0 0 \n", "refused 90 BadChoice line 1"),
    (b" 0 0\n", "refused 90 BadChoice line 1"),
    (b"0\n", "refused 90 BadChoice line 1"),
    (b"0 \n", "refused 90 BadChoice line 1"),
    (b"+1 0\n", "refused 90 BadChoice line 1"),
    (b"00000000001 0\n", "refused 90 BadChoice line 1"),
    (b"0 0\r", "refused 90 BadChoice line 1"),
    (b"0 a\n", "refused 90 BadChoice line 1"),
    (b"0 0\n" * 10_000_001, "refused 91 TooMany"),
]
# words that are wrong
WRONG = [
    # a number outside of its range, or none
    "--limit=10000001", "--limit=4294967296", "--limit=-1", "--limit=x", "--limit=", "--limit", "--quantum=0", "--quantum=65537",
    "--workers=0", "--workers=65", "--arrows=4294967296", "--seed=1000000001", "--seed=1 --tries=0", "--explore --states=0",
    "--explore --states=10000001", "--explore --memory=0", "--explore --memory=1000001",
    # a word that is not one of those allowed, none at all, and one too many
    "--errors=both", "--errors=STOP", "--explore=all", "--chart", "--trace=yes", "--nope", "-t", "-",
    # a word twice
    "--limit=1 --limit=1", "--trace --trace", "--explore --first --first",
    # words of one run beside a search, or beside a check
    "--explore --limit=1", "--workers=2 --explore", "--explore --choices=c", "--explore --trace", "--explore --watch",
    "--explore --chart=s", "--explore --arrows=5", "--explore --steps=u", "--within=b.occ --page=p", "--explore --seed=1", "--explore --seed=1 --tries=2",
    "--explore --trace-to=t", "--explore --json", "--explore --last=1", "--explore --only=0", "--explore --live", "--explore --typed=t", "--check --explore", "--check --states=5", "--check --memory=5", "--check --record=r",
    "--check --trace", "--check --trace-to=t", "--check --trace-to=t --json", "--check --chart=s", "--check --arrows=5", "--check --last=5", "--check --without=0",
    "--check --steps=u", "--check --page=p", "--check --seed=1", "--check --tries=2", "--check --choices=c", "--check --workers=2", "--check --watch",
    "--check --limit=1", "--check --live", "--check --typed=t",
    # words that exclude one another, and words that need another one
    "--chart=s --last=5 --arrows=5", "--seed=1 --workers=2", "--states=5", "--memory=5", "--arrows=5", "--last=5", "--tries=2", "--json",
    "--live --workers=2", "--live --watch", "--live --seed=1 --tries=2",
    "--only=0", "--without=0", "--chart=s --only=0 --without=main", "--chart=s --only=0 --only=main",
    # a name or a number that no process has
    "--chart=s --only=maim", "--chart=s --only=main,1", "--chart=s --without=p1", "--chart=s --without=main,", "--chart=s --without=00", "--live --chart=s --only=screen",
    "--first", "--first --states=5", "--within=b.occ --first", "--explore --within=b.occ --first", "--check --first", "--check --explore --first",
    # one file named twice
    "--record=x.occ", "--chart=x.occ", "--record=f --choices=f", "--chart=f --choices=f", "--record=f --chart=f", "--trace-to=x.occ",
    "--chart=f --trace-to=f", "--steps=x.occ", "--steps=f --trace-to=f", "--trace-to=c --choices=c", "--steps=c --choices=c",
    "--record=f --trace-to=f", "--record=f --steps=f", "--chart=f --steps=f", "--typed=x.occ", "--typed=c --choices=c",
    "--typed=f --record=f", "--typed=f --chart=f", "--typed=f --trace-to=f", "--typed=f --steps=f", "--page=x.occ", "--page=c --choices=c",
    "--page=f --record=f", "--page=f --chart=f", "--page=f --trace-to=f", "--page=f --steps=f", "--page=f --typed=f",
]
# words that are wrong, and what is told of them
TOLD = [
    ("--states=5", "--states needs --explore or --within"), ("--memory=5", "--memory needs --explore or --within"),
    ("--json", "--json needs --trace-to or --check"),
    ("--explore --trace", "--explore has no run to trace: add --record STEM, and trace answer 1 by --choices STEM.1.choices --trace"),
    *((f"--{word}=x.occ", f"--{word} would overwrite the source") for word in ("record", "typed", "chart", "trace-to", "steps", "page")),
    *((f"--{word}=c --choices=c", f"--{word} would overwrite the file of --choices") for word in ("record", "typed", "chart", "trace-to", "steps", "page")),
    ("--record=c c", "--record would overwrite the source"), ("--record=f --chart=f", "each write into a file of their own"),
]
# words that are allowed
ALLOWED = [
    "--limit 10000000 --trace", "--trace --limit=2", "--errors halt", "--quantum=65536 --errors=stop --workers=64 --watch --explain",
    "--chart=s.svg --arrows=0", "--explore", "--explore --page=p", "--explore=full", "--explore --first", "--first --explore=full --page=p --explain",
    "--explore=endings --first --states=5 --memory=5 --record=r --plain", "--explore=endings --states=10000000 --quantum=7 --errors=stop --record=r",
    "--check", "--check --json", "--seed=1000000000 --tries=2 --trace-to=t --json --steps=u --chart=s --last=3", "--record=g --chart=h --steps=s --page=p",
    "--live", "--live --seed=3 --errors=stop --trace --explain --record=r --typed=k --trace-to=t --json --steps=u --chart=s --page=p",
    "--typed=k --workers=2", "--chart=s --only=main,0,p0", "--chart=s --without=0 --last=3", "--live --chart=s --without=main",
]


def by_choices(program, text, wanted):
    """What is wrong with a run by this file of choices."""
    with room({"x.occ": ENDLESS, "choices": text}) as folder:
        status, out, err = run(program, folder, ["--choices", "choices", "--record", "used", "x.occ"])
        if wanted.startswith("refused"):
            if (status, out, err.decode()) != (7, b"", wanted + "\n"):
                yield f"status {status}, {err[:80]!r}, and not {wanted}"
        elif (status, (folder / "used").read_text()) != (4, wanted):
            yield f"status {status}, and recorded {(folder / 'used').read_text()[:80]!r}"


def by_words(program, words, is_wrong):
    """What is wrong with a run by these words."""
    with room({"x.occ": LETTER}) as folder:
        put(folder, {"c": "0 0\n0 0\n"})
        status, out, err = run(program, folder, ["x.occ", *words.split()])
        if is_wrong and (status != 7 or out or not err.startswith(b"error: ")):
            yield f"status {status}, {out[:40]!r}, {err[:80]!r}, and not wrong words"
        if not is_wrong and status:
            yield f"status {status}, {err[:80]!r}"


def by_told(program, words, told):
    """What is wrong with what is told of these words."""
    with room({"x.occ": LETTER}) as folder:
        put(folder, {"c": "0 0\n0 0\n"})
        status, out, err = run(program, folder, ["x.occ", *words.split()])
        if (status, out) != (7, b"") or told not in err.decode():
            yield f"status {status}, {err[:120]!r}, and not {told!r}"


def jobs():
    """A test for each file of choices, and for each list of words."""
    for text, wanted in CHOICES:
        yield Job(f"choices: {text[:30]!r}", lambda program, text=text, wanted=wanted: by_choices(program, text, wanted))
    for is_wrong, lists in ((True, WRONG), (False, ALLOWED)):
        for words in lists:
            yield Job(f"words: {words}", lambda program, words=words, is_wrong=is_wrong: by_words(program, words, is_wrong))
    for words, told in TOLD:
        yield Job(f"told: {words}", lambda program, words=words, told=told: by_told(program, words, told))
