"""How many crates are proved at once.

One for each processor while each has 5 GB of memory: a crate takes 2 to 7 GB. RT_JOBS, if it is
set, decides. Usage: scripts/gate jobs
"""
import os
import pathlib
import re

KILOBYTES = 5_000_000


def crates_at_once():
    available = int(re.search(r"MemAvailable: *(\d+)", pathlib.Path("/proc/meminfo").read_text())[1])
    return max(1, min(len(os.sched_getaffinity(0)), available // KILOBYTES))


def main():
    print(os.environ.get("RT_JOBS") or crates_at_once())
