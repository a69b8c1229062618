"""10,000 connections that say nothing.

Most of them wait in the kernel; each of the others holds a thread of the intake for ten seconds.
Meanwhile the relay's memory and descriptors stay bounded, and a submitter that tries again and
again is answered 202 within minutes. Once the crowd is gone the next one is answered at once.
Usage: scripts/serve crowd RELAYD [CONNECTIONS]: 10,000 connections if left out
"""
import resource
import socket
import sys
import tempfile
import time

from lib.command import Counts, program_of
from lib.process import descriptors_of, status_of
from lib.serving import Relay, put, submit

INTAKE = 64
MOST_SECONDS = 600
MEGABYTES = 64


def has(process):
    """The memory of a process in megabytes, and how many descriptors it has."""
    return status_of(process.pid, "VmRSS") // 2**20, len(descriptors_of(process.pid))


class Crowd:
    """Connections that say nothing."""

    def __init__(self, address, count):
        self.sockets = []
        for _ in range(count):
            sock = socket.socket()
            sock.setblocking(False)
            sock.connect_ex(address)
            self.sockets.append(sock)

    def close(self):
        for sock in self.sockets:
            sock.close()


def first_answer(address, seconds):
    """After how many seconds a submitter that tries again and again is answered 202, or None."""
    begun = time.monotonic()
    while time.monotonic() < begun + seconds:
        try:
            if submit(address, "a", b"{}").status == 202:
                return time.monotonic() - begun
        except OSError:
            pass
    return None


def main():
    relayd, counts = program_of(__doc__), Counts()
    count = int(sys.argv[2]) if len(sys.argv) > 2 else 10000
    _, most = resource.getrlimit(resource.RLIMIT_NOFILE)
    resource.setrlimit(resource.RLIMIT_NOFILE, (min(most, count + 1000), most))
    with tempfile.TemporaryDirectory() as folder:
        relay = Relay(relayd, f"{folder}/crowd.db", "--intake", INTAKE)
        counts.check("an endpoint", put(relay.address, "a", 9).status, 201)
        memory, descriptors = has(relay.process)
        crowd = Crowd(relay.address, count)
        time.sleep(5)
        full_memory, full_descriptors = has(relay.process)
        seconds = first_answer(relay.address, MOST_SECONDS)
        print(f"{count} connections: {memory} MiB and {descriptors} descriptors before, {full_memory} and {full_descriptors} with them;"
              f" a submitter was answered after {seconds and round(seconds)} s")
        counts.check("memory", full_memory <= memory + MEGABYTES)
        counts.check("descriptors", full_descriptors <= descriptors + 4 * INTAKE)
        counts.check("a submitter is answered", seconds is not None)
        crowd.close()
        begun = time.monotonic()
        counts.check("then another at once", (submit(relay.address, "a", b"{}").status, time.monotonic() - begun < 5), (202, True))
        relay.kill()
    return counts.end()
