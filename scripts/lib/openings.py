"""An opening that lasts, for `scripts/serve check`."""
import os
import tempfile
import time

from lib import faults
from lib.serving import put, relay_of, submit, wait_until

# So long the reads of the slow opening take beside what they take anyhow, in microseconds.
LASTS = 8_000_000
BODY = 60_000


def lines_of(relay):
    """What the operator was told, without the moments."""
    return [line.split(" ", 1)[1] for line in relay.told]


def wait_for_start(relay):
    """Its line comes after the address is printed, and a relay that is killed at once may never tell it."""
    wait_until(lambda: any(line.startswith("started:") for line in lines_of(relay)))


def check_slow_opening(counts, relayd, folder):
    """Every five seconds that an opening lasts the operator is told so. The file is read in pieces, each of which takes a while."""
    file, library = f"{folder}/slow.db", faults.compiled(folder)
    with relay_of(relayd, file) as relay:
        put(relay.address, "a", 9)
        for number in range(20):
            submit(relay.address, "a", os.urandom(BODY), f"e{number}")
    with tempfile.NamedTemporaryFile(dir=folder) as asked:
        asked.write(faults.EMPTY)
        asked.flush()
        with relay_of(relayd, file, env=faults.settings(library, asked=asked.name, file=0)):
            calls, _ = faults.counts_of(asked.name)
    for slow in (0, LASTS // calls):
        begun = time.monotonic()
        with relay_of(relayd, file, env=faults.settings(library, slow=slow)) as relay:
            wait_for_start(relay)
            lasted = time.monotonic() - begun
        *progress, last = lines_of(relay)
        name = f"an opening that lasts {lasted:.1f} s"
        counts.check(f"{name}: no line before its five seconds are over", len(progress) <= lasted / 5)
        counts.check(f"{name}: its lines", progress, [f"opening: {5 * number} s so far\n" for number in range(1, len(progress) + 1)])
        counts.check(f"{name}: the last line", last.split(":")[0], "started")
    counts.check("a slow opening is told of", len(progress) >= 1)
