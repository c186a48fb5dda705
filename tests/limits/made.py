"""Programs at their limits and past them, which are too long to write down. `made` yields a title, a source and the answer for each."""

HEAD = "PROC main (CHAN OF BYTE keyboard, screen)\n"
TOO_LARGE = "refused 43 TooLarge"
JOINED = (" AND ", " OR ")


def within(body, before=""):
    """A program with this body of main, behind these lines."""
    return f"{before}{HEAD}{body}:\n"


def texts():
    """Long texts, and the letters of one."""
    letters = [chr(byte) for byte in range(32, 127) if chr(byte) not in "*'"]
    outputs = "".join(f"    screen ! '{letter}'\n" for letter in letters)
    shown = "".join(letters).replace('"', '*"')
    yield "each byte that is printed", within(f"  SEQ\n{outputs}"), f'ended "{shown}" after 94 turns'
    yield "a text of 1,048,576 blanks", " " * 1_048_576, "refused 42 NoMain"
    yield "a text of 1,048,577 blanks", " " * 1_048_577, "refused 1 TooLong"
    yield "100,000 nodes", within("  SEQ\n" + "    SKIP\n" * 99_999), "ended after 1 turn"
    yield "100,001 nodes", within("  SEQ\n" + "    SKIP\n" * 100_000), TOO_LARGE
    for level, answer in ((64, 'ended "A" after 2 turns'), (65, "refused 23 TooDeep line 66")):
        outer = "".join(f"{'  ' * deep}SEQ\n" for deep in range(1, level))
        yield f"a letter at level {level}", within(f"{outer}{'  ' * level}screen ! 'A'\n"), answer


def sizes():
    """Sizes of messages, formals and named values, which take no cell."""
    channel = "  CHAN OF [1048577]BYTE c:\n"
    yield "a channel of arrays", within(f"{channel}  SKIP\n"), "ended"
    yield "a channel of the longest arrays", within("  CHAN OF [2147483647]INT c:\n  SKIP\n"), "ended"
    protocol = "PROTOCOL P IS [1048577]BYTE; INT:\n"
    yield "a sequential protocol", within("  CHAN OF P c:\n  SKIP\n", protocol), "ended"
    tagged = "PROTOCOL P\n  CASE\n    a; [1048577]INT\n    b\n:\n"
    yield "a protocol with tags", within("  CHAN OF P c:\n  SKIP\n", tagged), "ended"
    formal = "PROC p (CHAN OF [1048577]BYTE c)\n  SKIP\n:\n"
    yield "a formal channel", within(f"{channel}  p (c)\n", formal), "ended"
    yield "an array with a cell too many", within("  [1048577]BYTE a:\n  SKIP\n"), TOO_LARGE
    string = f'  VAL [65537]BYTE s IS "{"x" * 65_537}":\n  p (s)\n'
    yield "a string of 65,537 letters", within(string, "PROC p (VAL [65537]BYTE a)\n  SKIP\n:\n"), "ended"


def chains():
    """Chains of AND and of OR: of constants as long as they like, of variables up to 198 operands."""
    for between in JOINED:
        word, chain = between.strip(), between.join(["TRUE"] * 1_500)
        yield f"a named value of 1,500 operands of {word}", within(f"  VAL BOOL b IS {chain}:\n  SKIP\n"), "ended"
        yield f"a size of 1,500 operands of {word}", within(f"  [INT ({chain})]INT a:\n  SKIP\n"), "ended"
        yield f"a condition of 1,500 operands of {word}", within(f"  WHILE {chain}\n    STOP\n"), TOO_LARGE
        for operands in (198, 199, 200, 300, 1_500, 20_000):
            chain = between.join(["a"] * operands)
            answer = "ended" if operands <= 198 else TOO_LARGE
            yield f"{operands} variables joined by {word}", within(f"  BOOL a:\n  a := {chain}\n"), answer
    for operands, answer in ((190, "accepted"), (300, TOO_LARGE), (1_000, TOO_LARGE), (100_000, TOO_LARGE)):
        yield f"an assignment of {operands} operands", within(f"  BOOL b:\n  b := {' AND '.join(['b'] * operands)}\n"), answer


def levels(between, count, deep):
    """A chain of so many further operands in parentheses and followed by as many more, so many levels in all."""
    more = f"{between}t" * count
    return f"{'(' * (deep - 1)}t{(more + ')') * (deep - 1)}{more}"


def chains_within_chains():
    """Chains in parentheses within chains."""
    value = "  VAL BOOL t IS TRUE:\n"
    for between in JOINED:
        word = between.strip()
        deepest, deep = levels(between, 1_000, 64), levels(between, 1_000, 45)
        yield f"64 levels of {word}", within(f"{value}  VAL BOOL b IS {deepest}:\n  screen ! 'A'\n"), 'ended "A"'
        yield f"45 levels of {word} in a size", within(f"{value}  [INT ({deep})]INT a:\n  screen ! 'A'\n"), 'ended "A"'
        body = f"  [2]INT a:\n{value}  SEQ\n    p (a[INT ({deep})])\n    screen ! 'A'\n"
        yield f"45 levels of {word} in a subscript", within(body, "PROC p (INT x)\n  SKIP\n:\n"), 'ended "A"'
        yield f"45 levels of {word} over variables", within(f"  BOOL t, b:\n  b := {deep}\n"), TOO_LARGE


def nested(construct, count, *innermost):
    """So many of a construct, each within the one before, round these lines."""
    outer = "".join(f"{'  ' * level}{construct}" for level in range(count))
    return outer + "".join(f"{'  ' * count}{line}" for line in innermost)


def sequences():
    """Replicated SEQs within one another, through a call, and one after another."""
    replicator, called = "  SEQ i = 0 FOR 1\n", "PROC p (CHAN OF BYTE screen)\n"
    inner, outer = nested(replicator, 50, "  screen ! 'A'\n"), nested(replicator, 50, "  p (screen)\n")
    yield "50 replicated SEQs, called within 50 more", within(outer, f"{called}{inner}:\n"), 'ended "A"'
    row = "    SEQ i = 0 FOR 1\n      SKIP\n" * 20_100
    yield "20,100 replicated SEQs in a row", within(f"  SEQ\n{row}    screen ! 'A'\n"), 'ended "A"'


def names():
    """Declarations before one part of a construct: of a variant and of a branch any number, of an arm and of a choice up to 190."""
    tags = "PROTOCOL p\n  CASE\n    t\n:\n"
    before, behind = "  CHAN OF p c:\n  PAR\n    c ! t\n    c ? CASE\n", "      t\n        screen ! 'a'\n"
    for count in (1, 5_000):
        yield f"{count} variables before a variant", within(before + "      INT x:\n" * count + behind, tags), 'ended "a"'
        yield f"{count} variables before a branch", within("  PAR\n" + "    INT x:\n" * count + "    screen ! 'a'\n"), 'ended "a"'
    for count in (1, 190, 300, 5_000):
        answer, declared = 'ended "a"' if count <= 190 else TOO_LARGE, "    INT x:\n" * count
        yield f"{count} variables before an arm", within(f"  ALT\n{declared}    TRUE & SKIP\n      screen ! 'a'\n"), answer
        yield f"{count} variables before a choice", within(f"  IF\n{declared}    TRUE\n      screen ! 'a'\n"), answer


def calls():
    """Long chains of calls, and ALTs and IFs that nest through them."""
    chain = "PROC p0 ()\n  SKIP\n:\n" + "".join(f"PROC p{number} ()\n  p{number - 1} ()\n:\n" for number in range(1, 30_000))
    yield "a chain of 30,000 calls", within("  p29999 ()\n", chain), "accepted"
    for word, construct, part in (("ALT", "  ALT\n", "  TRUE & SKIP\n"), ("IF", "  IF\n", "  TRUE\n")):
        for count, deep in ((1, 58), (3, 58), (17, 10), (4, 58), (95, 58)):
            lines = nested(construct, deep, part, "    p (screen)\n")
            step = f"PROC q (CHAN OF BYTE screen)\n{lines}:\nPROC p (CHAN OF BYTE screen)\n  q (screen)\n:\n"
            before = "PROC p (CHAN OF BYTE screen)\n  screen ! 'a'\n:\n" + step * count
            answer = 'ended "a"' if count * deep <= 174 else TOO_LARGE
            yield f"{deep} of {word} in one another, through {count} calls", within("  p (screen)\n", before), answer


def made():
    """All of them."""
    for part in (texts, sizes, chains, chains_within_chains, sequences, names, calls):
        yield from part()
