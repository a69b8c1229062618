"""Each read of standard input failed in turn, and each write to standard output.

Each time the command ends with status 3 and says `relayd: Read` or `relayd: Write`, and what it has
written is a beginning of what it writes else: whole lines of it if a read failed. A read gives one
byte, 7 or all; so does a write.
Usage: scripts/script streams RELAYD
"""
import concurrent.futures
import subprocess
import tempfile

from lib import faults
from lib.command import ROOT, program_of

STORED = ROOT / "vectors" / "replay"
SECRET = "whsec_MfKQ9r8GKYqrTwjUPD8ILPZIo2LaLaSw"
# The words of a command, its standard input and what it writes: the first path, the signature of a body, and limits.
COMMANDS = [
    (["replay"], (STORED / "first-path.script").read_bytes(), (STORED / "first-path.replies").read_bytes()),
    (["sign", "msg_p5jXN8AQM9LWM0D4loKWxJek", "1614265330", SECRET], b'{"test": 2432232314}',
     b"v1,g0hM9SsE+OTPJTGt/tmIKtSyZlE3uFJELVlNIOLJ1OE=\n"),
    (["vegas", "1000"], b"100000 1 ok\n100000 10 ok\n", b"20 100000\n26 100000\n"),
]
PIECES = (1, 7, 0)
STREAMS = {"read": b"relayd: Read\n", "write": b"relayd: Write\n"}
MOST = 5000


def run(program, library, words, text, stream, number, piece):
    """How the command ends where this read or write fails."""
    env = faults.settings(library, **{stream: number}, piece=piece)
    return subprocess.run([program, *words], input=text, capture_output=True, env=env, timeout=60)


def is_whole(end, wanted):
    return (end.returncode, end.stderr, end.stdout) == (0, b"", wanted)


def is_failed(end, stream, wanted):
    """Whether it told the stream's failure, and wrote a front of what is wanted before."""
    if (end.returncode, end.stderr) != (3, STREAMS[stream]) or not wanted.startswith(end.stdout):
        return False
    return stream == "write" or end.stdout == b"" or end.stdout.endswith(b"\n")


def try_stream(program, library, command, stream, piece, pool):
    """Fails each call in turn, until one run meets no failure: how many ended well, and how many did not."""
    words, text, wanted = command
    passed = failed = 0
    for first in range(1, MOST, 64):
        numbers = range(first, first + 64)
        ends = list(pool.map(lambda number: run(program, library, words, text, stream, number, piece), numbers))
        for number, end in zip(numbers, ends):
            if is_whole(end, wanted):
                return passed + (passed > 0), failed + (passed == 0)
            if is_failed(end, stream, wanted):
                passed += 1
            else:
                failed += 1
                print(f"FAILED {words[0]}, {stream} {number} in pieces of {piece}: {end.returncode}, {end.stdout!r} {end.stderr!r}")
    return passed, failed + 1


def main():
    program = program_of(__doc__)
    passed = failed = 0
    with tempfile.TemporaryDirectory() as scratch, concurrent.futures.ThreadPoolExecutor(4) as pool:
        library = faults.compiled(scratch)
        for command in COMMANDS:
            for stream in STREAMS:
                for piece in PIECES:
                    good, bad = try_stream(program, library, command, stream, piece, pool)
                    passed, failed = passed + good, failed + bad
    print(f"{passed} passed, {failed} failed")
    return 1 if failed else 0
