"""Programs into which the library scripts/faults.c is loaded: it has calls and allocations fail, or stops the machine, as the environment says."""
import os
import pathlib
import struct
import subprocess
import tempfile

from lib.command import SCRIPTS, needs

SOURCE = SCRIPTS / "faults.c"
STEPS = 64
EMPTY = struct.pack("L", 0) * (STEPS + 1)
MOST_SECONDS = 60


def compiled(folder):
    """The library, compiled into the folder."""
    needs("cc", "gcc")
    library = os.path.join(folder, "faults.so")
    subprocess.run(["cc", "-O1", "-shared", "-fPIC", "-o", library, SOURCE, "-ldl"], check=True)
    return library


def settings(library, **values):
    """The environment of a program in which the library makes the faults that the values say: `file=3` is FAULT_FILE=3."""
    given = {f"FAULT_{name.upper()}": str(value) for name, value in values.items() if value is not None}
    return {**os.environ, "LD_PRELOAD": library, **given}


def counts_of(asked):
    """How many calls were made, and how many allocations from each read of standard input on."""
    numbers = struct.unpack(f"{STEPS + 1}L", pathlib.Path(asked).read_bytes())
    return numbers[0], list(numbers[1:])


class Ended:
    """How a run ended: what it replied to each line that it was sent, what it wrote after them, its errors and its status."""

    def __init__(self, replies, rest, errors, status, counts):
        self.replies, self.rest, self.errors, self.status, self.counts = replies, rest, errors, status, counts


def run(library, words, text=b"", folder=None, **values):
    """A run that is given its input at once: how it ended, and how many calls it made."""
    with tempfile.NamedTemporaryFile(dir=folder) as asked:
        asked.write(EMPTY)
        asked.flush()
        env = settings(library, asked=asked.name, **values)
        told = subprocess.run(words, input=text, capture_output=True, env=env, timeout=MOST_SECONDS)
        return told, counts_of(asked.name)[0]


class Lines:
    """A run that is sent a line at a time, each once the one before it is replied to. The allocation with this number after the line with
    that number, from 1, is refused, or as many from there on."""

    def __init__(self, library, words, folder=None, step=0, refuse=0, many=None):
        self.asked = tempfile.NamedTemporaryFile(dir=folder)
        self.asked.write(EMPTY)
        self.asked.flush()
        env = settings(library, asked=self.asked.name, step=step, allocation=refuse, many=many)
        pipe = subprocess.PIPE
        self.process = subprocess.Popen(words, stdin=pipe, stdout=pipe, stderr=pipe, env=env)
        self.replies = []

    def read(self):
        """The next line that is written, or None where there is none."""
        line = self.process.stdout.readline()
        return line.decode().rstrip("\n") if line.endswith(b"\n") else None

    def send(self, line):
        """The reply to the line, or None where the run ended."""
        try:
            self.process.stdin.write(line.encode())
            self.process.stdin.flush()
        except BrokenPipeError:
            return None
        reply = self.read()
        if reply is not None:
            self.replies.append(reply)
        return reply

    def end(self):
        """Ends the input: how the run ended."""
        try:
            self.process.stdin.close()
        except BrokenPipeError:
            pass
        self.process.stdin = None
        rest, errors = self.process.communicate(timeout=MOST_SECONDS)
        counts = counts_of(self.asked.name)[1]
        self.asked.close()
        return Ended(self.replies, rest.decode(), errors.decode(), self.process.returncode, counts)
