"""Which functions of a crate cost its proof the most time.

It checks the crate, or its tests, by one job and with nothing kept of it; what is below it has to be
proved. The prover keeps each part of its work in a file of its own (out/incremental), so a part took
the time since the file before. A function's time has all its parts. The first function that uses a
library also pays for reading that, and other programs make all times longer. If rt begins with what
another checkout kept, it says so: then only what differs from there is measured.
Usage: scripts/gate dearest CRATE [--test]
"""
import shutil
import subprocess
import sys
import time

from lib.command import ROOT, end_with_usage, read_crates

SHOWN = 20


def function_of(path):
    """The function that a kept file is a part of, or the module of lemmas that it holds."""
    parts = path.stem.split("-", 2)[-1].split(".")
    if parts[0] != "proofs":
        return ".".join(parts)
    is_part = len(parts) > 2 and parts[-1][:1].isupper()
    return ".".join(parts[1:-1] if is_part else parts[1:])


def seconds_by_function(kept, began):
    """For each function, the seconds that its parts took in a check that began then."""
    seconds, before = {}, began
    for at, path in sorted((it.stat().st_mtime, it) for it in kept.rglob("*.oantt")):
        if at >= began and "records" not in path.parts:
            name = function_of(path)
            seconds[name] = seconds.get(name, 0) + at - before
            before = at
    return seconds


def main():
    name, *flags = sys.argv[1:] or [""]
    if name not in read_crates() or flags not in ([], ["--test"]):
        end_with_usage(__doc__)
    kept = ROOT / "crates" / name / "out" / "incremental"
    shutil.rmtree(kept, ignore_errors=True)
    began = time.time()
    words = ["rt", "check", *([name, "--test"] if flags else []), "--jobs", "1"]
    run = subprocess.run(words, cwd=ROOT / "crates" / name, stdout=subprocess.PIPE, stderr=subprocess.STDOUT, errors="replace", check=False)
    print(*(it for it in run.stdout.split("\n") if "begins with" in it or it.startswith("logic=")), sep="\n")
    seconds = seconds_by_function(kept, began)
    for function in sorted(seconds, key=lambda it: -seconds[it])[:SHOWN]:
        print(f"{seconds[function]:7.1f} s  {function}")
    print(f"{sum(seconds.values()):7.1f} s  all {len(seconds)}")
    return run.returncode
