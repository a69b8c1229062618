"""What `relayd check` reports of the files in vectors/check/files.

Copies of the files are checked in the order of vectors/check/reports, some of them twice, and one
that isn't there. The reports were written by hand, from the faults in docs/FORMATS.md: the name of a
file, what is printed of it, and the exit status. `scripts/store samples` made most of the files.
Usage: scripts/store checks RELAYD
"""
import re
import shutil
import subprocess
import tempfile

from lib.command import ROOT, Counts, program_of

CHECK = ROOT / "vectors" / "check"


def reports():
    """For each file that is checked, its name, what is to be printed, and the exit status."""
    return re.findall(r"^(\S+):\n((?:.*\n)*?)status (\d+)\n", (CHECK / "reports").read_text(), re.M)


def main():
    relayd, counts = program_of(__doc__), Counts()
    with tempfile.TemporaryDirectory() as folder:
        shutil.copytree(CHECK / "files", folder, dirs_exist_ok=True)
        for name, printed, status in reports():
            told = subprocess.run([relayd, "check", name], cwd=folder, stdout=subprocess.PIPE, stderr=subprocess.STDOUT, text=True, timeout=60)
            counts.check(f"{name}: what is printed", told.stdout, printed)
            counts.check(f"{name}: the exit status", told.returncode, int(status))
    return counts.end()
