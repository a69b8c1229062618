"""The signatures of `relayd sign` are those of Python's hmac.

200 rounds, always the same: 1 to 4 random keys of 24 to 64 bytes, a random id and moment, and a
random body on standard input.
Usage: scripts/script signatures RELAYD
"""
import base64
import hashlib
import hmac
import random
import string
import subprocess

from lib.command import program_of

ROUNDS = 200
# An id may also begin with `-`, which a command line takes for an option.
FIRST = string.ascii_letters + string.digits + "_"
REST = FIRST + "-"


def signature(key, content):
    digest = hmac.new(key, content, hashlib.sha256).digest()
    return "v1," + base64.b64encode(digest).decode()


def wanted(keys, name, moment, body):
    content = b".".join([name.encode(), str(moment).encode(), body])
    return " ".join(signature(key, content) for key in keys) + "\n"


def random_round(source, place):
    keys = [source.randbytes(source.randint(24, 64)) for _ in range(source.randint(1, 4))]
    name = source.choice(FIRST) + "".join(source.choices(REST, k=source.randint(0, 63)))
    moment = source.choice([0, 2**40, source.randint(0, 2**40), source.randint(10**9, 2 * 10**9)])
    size = {0: 0, 1: 65536}.get(place, source.randint(0, 4096))
    return keys, name, moment, source.randbytes(size)


def printed(program, keys, name, moment, body):
    secrets = ["whsec_" + base64.b64encode(key).decode() for key in keys]
    run = subprocess.run([program, "sign", name, str(moment), *secrets], input=body, capture_output=True, timeout=60)
    return run.stdout.decode(errors="replace") if run.returncode == 0 else f"status {run.returncode}: {run.stderr!r}"


def main():
    relayd, source = program_of(__doc__), random.Random(20240131)
    failed = 0
    for place in range(ROUNDS):
        parts = random_round(source, place)
        have, want = printed(relayd, *parts), wanted(*parts)
        if have != want:
            failed += 1
            print(f"round {place}: id {parts[1]} at {parts[2]}, {len(parts[0])} keys, body of {len(parts[3])} bytes:")
            print(f"  relayd {have!r}\n  python {want!r}")
    print(f"{ROUNDS - failed} passed, {failed} failed")
    return 1 if failed else 0
