"""What each command writes: lines, samples, signatures, bounds, help and refused words.

Rows of words, standard input, both outputs and the status, which the rules of docs/FORMATS.md give.
Some run again with streams that take a byte at a call, of which one is interrupted. (Whole scripts
are in vectors/, for `scripts/script worked`; streams that fail are for `scripts/script streams`.)
Usage: scripts/script commands RELAYD
"""
import subprocess
import tempfile

from lib import faults
from lib.command import Counts, program_of

SECRET = "whsec_MDEyMzQ1Njc4OTAxMjM0NTY3ODkwMTIz"
SIGN = ["sign", "msg_1", "1000", SECRET]
# The example of Standard Webhooks 1.0.0.
EXAMPLE = ["sign", "msg_p5jXN8AQM9LWM0D4loKWxJek", "1614265330", "whsec_MfKQ9r8GKYqrTwjUPD8ILPZIo2LaLaSw"]

BAD_LINES = [
    "", "fly", "seal ", "seal\r", "submit 01 a m2 -", "submit 1 a m2 ", "submit 1 a m2 7g",
    "secrets a", "secrets a whsec_AAAA", f"secrets a {SECRET},",
    f"put a http://127.0.0.1:9000/hook 0 {SECRET}", f"put a http://127.0.0.1:9000/hook 1001 {SECRET}",
    f"put a https://127.0.0.1:9000/hook 100 {SECRET}", "put a http://127.0.0.1:9000/hook 100 whsec_AAAA",
    f"put a http://127.0.0.1:9000/hook 100 {SECRET} more", "put a b c d e f", "enable", "disable a b",
    "subscribe", "subscribe t", "subscribe t a b", "subscribe T a", "subscribe t A",
    "unsubscribe", "unsubscribe t", "unsubscribe t a b", "unsubscribe T a", "unsubscribe t A",
    "publish", "publish 1 t m2", "publish 1 t m2 - a", "publish 01 t m2 -", "publish 1099511627777 t m2 -",
    "publish 1 T m2 -", "publish 1 t m.2 -", "publish 1 t m2 ", "publish 1 t m2 7", "publish 1 t m2 7g",
    "purge", "purge ", "purge 1 2", "purge 01", "purge -1", "purge 1.0", "purge 1e3", "purge a",
    "purge 1099511627777", "purge 18446744073709551616", "Purge 1", "told 01", "told 18446744073709551616",
    "unseal 1", "halt now", "show", "show A", "show a b c",
]

BAD_SAMPLES = [
    "100000 0 ok", "100000 1001 drop", "9223372036854775808 1 ok", "1 1 okay", "", "100000 1", "100000 1 ok more",
]

# The last column is the fault, of which standard error tells after `relayd: `.
REFUSED = [
    (["sign", "a.b", "x", "y"], 1, "BadId"),
    (["sign", "msg_1", "01", "y"], 1, "BadMoment"),
    (["sign", "msg_1", "1099511627777", "y"], 1, "BadMoment"),
    (["sign", "msg_1", "1000", "y"], 1, "BadSecret"),
    (["sign", "msg_1", "1000", *[SECRET] * 5], 1, "BadSecret"),
    # no file, but a directory and a device
    (["check", "/"], 3, "CannotOpen"),
    (["check", "/dev/null"], 3, "CannotOpen"),
    (["vegas", "1001"], 1, "BadMax"),
]

# The numbers before any sample, and then those after all samples.
EXPLAINED = "20 100000 from 20 0 0 by 1\n26 100000 from 20 0 0 by 2\n"
SAMPLES = """100000 1 ok
100000 10 ok
100000 12 ok
100000 13 ok
110000 16 ok
105000 16 ok
200000 17 ok
200000 17 drop
"""
LIMITS = """20 100000
26 100000
26 100000
32 100000
32 100000
33 100000
32 100000
31 100000
"""

# A signature for each of one to four secrets, each as Python's hmac makes it.
FIRST = "v1,SWmnEwHTCxM5LOV+bjJ4VJ8UF8MOq1/kZ1YxmYp0p4g="
SECOND = "v1,Yr85wgeyK4wnnPBNTS1SHnPM/J6uU3GDMZkDuR+XxGk="

# A line has 140,000 bytes at most, and a body 65,536, that of an event in hexadecimal too.
ROWS = [
    (["vegas", "1000", "--explain"], "100000 1 ok\n100000 10 ok\n", EXPLAINED, "", 0),
    (["vegas", "1000"], SAMPLES, LIMITS, "", 0),
    (["vegas", "1000"], "9223372036854775807 1 ok\n", "20 3600000000\n", "", 0),
    (SIGN, "", f"{FIRST}\n", "", 0),
    ([*SIGN, "whsec_AAAAAAAAAAAAAAAAAAAAAAAAAAAAAAAA"], "", f"{FIRST} {SECOND}\n", "", 0),
    ([*SIGN, SECRET, SECRET], "", f"{FIRST} {FIRST} {FIRST}\n", "", 0),
    ([*SIGN, SECRET, SECRET, SECRET], "", f"{FIRST} {FIRST} {FIRST} {FIRST}\n", "", 0),
    (EXAMPLE, '{"test": 2432232314}', "v1,g0hM9SsE+OTPJTGt/tmIKtSyZlE3uFJELVlNIOLJ1OE=\n", "", 0),
    (["--version"], "", "relayd 0.1.0\n", "", 0),
    (["replay"], "a" * 140_001 + "\n", "", "relayd: TooLong\n", 2),
    (["replay"], "a" * 140_000 + "\n", "", "relayd: line 1: bad line\n", 2),
    (SIGN, "a" * 65_537, "", "relayd: TooLong\n", 2),
    (SIGN, "a" * 65_536, "v1,GjTZuaVX0LTcCHTBbSXHqPggK0L/cmm9zhn8STp9NEc=\n", "", 0),
    (["replay"], "submit 1 a m " + "7b" * 65_537, "", "relayd: line 1: bad line\n", 2),
    (["replay"], "submit 1 a m " + "7b" * 65_536, "refused 2 UnknownEndpoint\n", "", 0),
]

# Over 1,500 reads of one byte, and a fault that is written byte by byte. The header is that of Python's hmac.
SLOW_ROWS = [
    (["replay"], "seal\n" * 300 + "fly\n", "nothing\n" * 300, "relayd: line 301: bad line\n", 2),
    (SIGN, "a" * 1500, "v1,EMvyJS7ChJFPhceI/ew8iUyUewHL/lPPEPqSM5LF0Qw=\n", "", 0),
]
# Which call is interrupted, if any is.
INTERRUPTED = (1, 2, 40, 100_000)

# The last line of what help shows.
HELP = [
    ([], "Errors are reported on standard error."),
    (["check"], "another program has it open; with CannotOpen, Corrupt, Full or Lost: the file or the disk failed."),
    (["replay"], "A bad line ends the script with status 2. The replies before it are printed."),
    (["serve"], "Status 3 means that the relay halted, couldn't listen at ADDRESS, or that another relay has the file open."),
    (["sign"], "status 2 means that it is longer, status 1 that an argument is invalid."),
    (["vegas"], "A bad line ends the input with status 2. The limits before it are printed."),
]

SERVE = ["serve", "relay.db", "127.0.0.1:8080"]
BAD_WORDS = [
    [], ["check"], ["check", "a", "b"], ["fly"], ["--fly"], ["replay", "more"], ["sign", "msg_1", "1000"], ["vegas"],
    ["vegas", "1", "2"], ["serve"], ["serve", "relay.db"], [*SERVE, "more"], [*SERVE, "--workers", "0"],
    [*SERVE, "--workers", "65"], [*SERVE, "--intake", "0"], [*SERVE, "--intake", "65"], [*SERVE, "--timeout", "0"],
    [*SERVE, "--timeout", "61"], [*SERVE, "--requests", "-1"], [*SERVE, "--requests", "many"],
]

# The longest value of each kind: an endpoint with them is committed, loaded after a stop and shown.
SHOWN = """staged 0
sealed 0..1
committed 1
settled 1
staged 1
staged 2
sealed 1..3
committed 3
settled 3
reopened 3
enabled pending 2 delivered 0 exhausted 0
pending due 1099511627776 attempts 0
pending due 1099511627776 attempts 0
"""
LONGEST = ("n" * 32, "http://h/" + "p" * 2039, "whsec_" + "A" * 86 + "==")


def script_of(name, url, secret):
    """An endpoint and two of its events, the first of them with the longest id and the longest body. The moment of the second is that of the clock."""
    lines = [f"put {name} {url} 1000 {secret},{SECRET},{SECRET},{SECRET}", "seal", "commit", "settle",
             f"submit 1099511627776 {name} {'i' * 64} {'ff' * 65_536}", f"submit 0 {name} i -", "seal", "commit", "settle",
             "stop", f"show {name}", f"show {name} {'i' * 64}", f"show {name} i"]
    return "\n".join(lines) + "\n"


def told(relayd, words, text, env=None):
    """What a run writes to both outputs, and its status."""
    run = subprocess.run([relayd, *words], input=text.encode(), capture_output=True, env=env, timeout=60)
    return run.stdout.decode(), run.stderr.decode(), run.returncode


def rows():
    """All rows: words, standard input, and what has to be told."""
    bad_line = ("", "relayd: line 1: bad line\n", 2)
    yield from ((words, text, wanted) for words, text, *wanted in ROWS + SLOW_ROWS)
    yield from ((["replay"], f"{line}\n", bad_line) for line in BAD_LINES)
    yield from ((["vegas", "1000"], f"100000 1 ok\n{line}\n", ("20 100000\n", "relayd: line 2: bad line\n", 2)) for line in BAD_SAMPLES)
    yield from ((words, "", ("", f"relayd: {fault}\n", status)) for words, status, fault in REFUSED)
    name, url, secret = LONGEST
    yield ["replay"], script_of(*LONGEST), (SHOWN, "", 0)
    yield ["replay"], script_of(f"{name}n", url, secret), bad_line
    yield ["replay"], script_of(name, f"{url}p", secret), bad_line
    yield ["replay"], script_of(name, url, "whsec_" + "A" * 87 + "="), bad_line


def main():
    relayd, counts = program_of(__doc__), Counts()
    for words, text, wanted in rows():
        counts.check(f"{' '.join(words)[:40]} with {text[:60]!r}", told(relayd, words, text), tuple(wanted))
    for words, line in HELP:
        output, errors, status = told(relayd, [*words, "--help"], "")
        counts.check(f"{words} --help", (output.splitlines()[-1:], errors, status), ([line], "", 0))
    for words in BAD_WORDS:
        output, errors, status = told(relayd, words, "seal\n")
        counts.check(f"words {words}", (output, errors.startswith("error: "), status), ("", True, 1))
    with tempfile.TemporaryDirectory() as scratch:
        library = faults.compiled(scratch)
        for words, text, *wanted in SLOW_ROWS:
            for call in INTERRUPTED:
                env = faults.settings(library, piece=1, interrupt=call)
                counts.check(f"{words[0]}, call {call} interrupted", told(relayd, words, text, env), tuple(wanted))
        env = faults.settings(library, write=1)
        counts.check("--help to an output that fails", told(relayd, ["--help"], "", env), ("", "relayd: Write\n", 3))
    return counts.end()
