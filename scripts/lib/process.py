"""What /proc says of a process, and a user for one without rights."""
import os
import pathlib
import re

# The user that owns nothing.
NOBODY = 65534


def status_of(process, name):
    """A number of its status, in bytes if it is memory: `VmRSS`, `VmHWM` or `Threads`. It is 0 if the process has ended."""
    found = re.search(rf"(?m)^{name}:\s+(\d+)( kB)?$", pathlib.Path(f"/proc/{process}/status").read_text())
    return int(found[1]) * (1024 if found[2] else 1) if found else 0


def descriptors_of(process):
    """The descriptors that it has open."""
    return list(map(int, os.listdir(f"/proc/{process}/fd")))


def seconds_of(process):
    """The processor time that it has used."""
    fields = pathlib.Path(f"/proc/{process}/stat").read_text().rpartition(")")[2].split()
    return (int(fields[11]) + int(fields[12])) / os.sysconf("SC_CLK_TCK")
