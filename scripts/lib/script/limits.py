"""Scripts up to the relay's limits: endpoints, pending events, 1,000,000 lines.

256 endpoints, 10,000 pending events of an endpoint, 50,000 of all, 4,096 pairs of a topic and an
endpoint; publishes at each limit.
Usage: scripts/script limits RELAYD
"""
import subprocess

from lib.command import program_of
from lib.limit_scripts import pairs, publishes, room

MOST_PENDING = 10_000
MOST_PENDING_ALL = 50_000


def replayed(relayd, script):
    return subprocess.run([relayd, "replay"], input=script.encode(), capture_output=True)


def is_answered(relayd, script):
    """Whether the program gives each line its reply."""
    told = replayed(relayd, "".join(text + "\n" for text, _ in script.lines))
    given = told.stdout.decode().splitlines()
    for (text, reply), answer in zip(script.lines, given):
        if reply != answer:
            print(f"{text}: {answer}, wanted {reply}")
            break
    return told.returncode == 0 and given == [reply for _, reply in script.lines] and not told.stderr


def has_lines(relayd):
    """1,000,000 lines, and one more."""
    most, more = replayed(relayd, "seal\n" * 1_000_000), replayed(relayd, "seal\n" * 1_000_001)
    replies = b"nothing\n" * 1_000_000
    good = (most.returncode, most.stdout, most.stderr) == (0, replies, b"")
    bad = (more.returncode, more.stdout, more.stderr) == (2, replies, b"relayd: TooLong\n")
    if not (good and bad):
        print(f"1,000,000 lines: status {most.returncode}; one more: {more.returncode}, {more.stderr!r}")
    return good and bad


def main():
    relayd = program_of(__doc__)
    scripts = [room(MOST_PENDING, MOST_PENDING_ALL), pairs(), publishes(MOST_PENDING, MOST_PENDING_ALL)]
    ends = [has_lines(relayd), *(is_answered(relayd, it) for it in scripts)]
    print(f"{ends.count(True)} passed, {ends.count(False)} failed")
    return 0 if all(ends) else 1
