"""Runs of a built program, each in a folder of its own, and the jobs that look at them."""
import contextlib
import os
import pathlib
import pty
import resource
import select
import subprocess
import tempfile
import termios
import time

TOP = pathlib.Path(__file__).resolve().parent.parent.parent
# how long a run may take, in seconds
SECONDS = 120


class Job:
    """A test: where it stands, and a function of the program that yields a line for each fault."""

    def __init__(self, where, faults):
        self.where, self.faults = where, faults


@contextlib.contextmanager
def room(files=()):
    """A folder with these files, which goes away."""
    with tempfile.TemporaryDirectory(prefix="occam-test-") as name:
        folder = pathlib.Path(name)
        put(folder, dict(files))
        yield folder


def put(folder, files):
    """Writes files into a folder."""
    for name, text in files.items():
        (folder / name).write_bytes(text if isinstance(text, bytes) else text.encode())


def run(program, folder, words, given=b"", to=None, memory=None):
    """Runs the program in a folder with these bytes on standard input: its status, and what its two streams got.

    `to` names a file that standard output goes to, and `memory` is how many bytes the program may take.
    """
    cut = (lambda: resource.setrlimit(resource.RLIMIT_AS, (memory, memory))) if memory else None
    with open(to, "wb") if to else contextlib.nullcontext(subprocess.PIPE) as out:
        done = subprocess.run(
            [program, *words], cwd=folder, input=given, stdout=out, stderr=subprocess.PIPE, preexec_fn=cut, timeout=SECONDS, check=False
        )
    return done.returncode, done.stdout or b"", done.stderr


def run_text(program, folder, words, given="", to=None, memory=None):
    """The same, in texts."""
    status, out, err = run(program, folder, words, given.encode(), to, memory)
    return status, out.decode(), err.decode()


def shown_on(command, folder, typed="", streams=(0, 1, 2), **variables):
    """Runs a command with a terminal for these streams and these variables: its status, what the terminal got, and what the pipes
    got behind one another. What is typed is not echoed."""
    ours, its = pty.openpty()
    change = termios.tcgetattr(its)
    change[3] &= ~termios.ECHO
    termios.tcsetattr(its, termios.TCSANOW, change)
    given = {name: value for name, value in {**os.environ, "TERM": "xterm", "NO_COLOR": None, **variables}.items() if value is not None}
    of = lambda number, other: its if number in streams else other
    with subprocess.Popen(
        command, cwd=folder, env=given, stdin=of(0, subprocess.DEVNULL), stdout=of(1, subprocess.PIPE), stderr=of(2, subprocess.PIPE)
    ) as running:
        os.close(its)
        os.write(ours, typed.encode())
        shown = read_all(ours, running)
        piped = b"".join(stream.read() for stream in (running.stdout, running.stderr) if stream)
    os.close(ours)
    return running.returncode, shown.decode().replace("\r\n", "\n"), piped.decode()


def read_all(ours, running):
    """What a terminal is shown until the program has ended."""
    shown, last = b"", time.monotonic() + SECONDS
    while True:
        ended = running.poll() is not None
        if not select.select([ours], [], [], 0 if ended else 0.05)[0]:
            if ended:
                return shown
            if time.monotonic() > last:
                running.kill()
                return shown + b" (killed)"
            continue
        try:
            part = os.read(ours, 65536)
        except OSError:  # no process has the terminal any more
            part = b""
        if not part:
            running.wait()
            return shown
        shown += part
