"""What a test says of a run: the line of its answer, and what that line means for the two streams and the status."""
import re

ENDING = r"ended|limit|stopped(?: [A-Z]+ line \d+)?|fault [A-Z]+ line \d+"
ANSWER = re.compile(rf'(?P<ending>{ENDING})(?:, (?P<kind>circle|halted|unfinished|idle))?(?: "(?P<screen>(?:[^"*]|\*.)*)")?(?: after (?P<turns>\d+) turns?)?')
# what stands for a byte behind `*` in a string of occam
ESCAPES = {"n": b"\n", "c": b"\r", "t": b"\t", "s": b" ", "'": b"'", '"': b'"', "*": b"*"}
STATUSES = {"ended": 0, "stopped": 2, "fault": 3, "limit": 4}
# refusals of what is given beside the source
OF_WORDS = ("62", "81", "90", "91")


def bytes_of(text):
    """The bytes of a string of occam."""
    parts = re.split(r"\*(#[0-9A-F]{2}|.)", text)
    made = parts[0].encode()
    for escape, rest in zip(parts[1::2], parts[2::2]):
        made += bytes.fromhex(escape[1:]) if escape[0] == "#" else ESCAPES[escape]
        made += rest.encode()
    return made


class Wanted:
    """What a run has to come to: the line of an answer, and the lines that stand below it."""

    def __init__(self, line, lines=()):
        self.line, self.lines = line, list(lines)
        self.match = ANSWER.fullmatch(line)
        self.is_refused = re.fullmatch(r"refused \d+ .*", line) is not None
        self.status_alone = re.fullmatch(r"status (\d)", line)
        if not (self.match or self.is_refused or self.status_alone or line == "accepted"):
            raise ValueError(f"no answer: {line}")
        self.kind = self.match["kind"] if self.match else None
        self.turns = int(self.match["turns"]) if self.match and self.match["turns"] else None

    def text(self):
        """The lines below the answer."""
        return "".join(f"{line}\n" for line in self.lines).encode()

    def words(self):
        """Words that the run needs for this answer."""
        return ["--check"] if self.line == "accepted" else ["--explain"] if self.kind else []

    def streams(self, words):
        """The status, standard output, standard error, and what the file that the words name has, if they name one."""
        told = self.text()
        file = next((words[at + 1] for at, word in enumerate(words) if word in FILES), None)
        beside = any(word in ("--explain", "--watch") for word in words)
        if self.line == "accepted":
            return 0, b"", told, None
        if self.is_refused:
            status = 7 if self.line.split()[1] in OF_WORDS else 1
            return status, b"", self.line.encode() + b"\n" + told, None
        if self.status_alone:
            return int(self.status_alone[1]), told, b"", None
        ending = self.match["ending"]
        report = told if "--trace" in words else b""
        if "--trace" in words or ending != "ended":
            report += ending.encode() + b"\n"
        out = bytes_of(self.match["screen"] or "")
        if out and report and not out.endswith(b"\n"):
            out += b"\n"
        return STATUSES[ending.split()[0]], out + report, told if beside else b"", (file, told) if file else None


# words behind which a file is named that is written
FILES = ("--chart", "--steps", "--trace-to")


def wanted_of(line, lines=()):
    """The answers that a line allows: ` or ` stands between them."""
    return [Wanted(part, lines) for part in re.split(r" or (?=ended|stopped|fault|limit)", line)]


def choices_of(text):
    """A file of choices, from `0 1` or `20 of 0 1`, with commas between such parts; `none` is the empty file."""
    lines = []
    for part in text.split(", ") if text != "none" else []:
        count, which, pick = re.fullmatch(r"(?:(\d+) of )?(\d+) (\d+)", part).groups()
        lines += [f"{which} {pick}\n"] * int(count or 1)
    return "".join(lines)
