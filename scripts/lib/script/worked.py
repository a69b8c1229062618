"""The worked scripts of vectors/: replies, status and errors are those beside each.

If both streams go to one file, the replies come first. A script is NAME.script, its replies
NAME.replies; NAME.errors and NAME.status are there if standard error isn't empty and the status
isn't 0. (first-event.sentences is for `scripts/script show`.) Usage: scripts/script worked RELAYD
"""
import pathlib
import subprocess
import tempfile

from lib.command import ROOT, Counts, first_difference, program_of

FOLDERS = ["replay", "topics", "retention"]


def beside(script, ending):
    """The lines of the file beside a script with this ending; none if there is no such file."""
    file = script.with_suffix(ending)
    return file.read_bytes().splitlines(keepends=True) if file.exists() else []


def replayed(relayd, script, errors):
    """The status of a script, and what it writes to standard output, to standard error, and to both if they are one file."""
    with open(script) as given, open(errors, "wb") as error:
        apart = subprocess.run([relayd, "replay"], stdin=given, stdout=subprocess.PIPE, stderr=error)
    with open(script) as given, open(f"{errors}-both", "wb") as both:
        subprocess.run([relayd, "replay"], stdin=given, stdout=both, stderr=both)
    return apart.returncode, apart.stdout, errors.read_bytes(), pathlib.Path(f"{errors}-both").read_bytes()


def main():
    relayd, counts = program_of(__doc__), Counts()
    with tempfile.TemporaryDirectory() as folder:
        for script in (it for name in FOLDERS for it in sorted((ROOT / "vectors" / name).glob("*.script"))):
            replies, errors = beside(script, ".replies"), beside(script, ".errors")
            status, *found = replayed(relayd, script, pathlib.Path(folder, "errors"))
            differences = [first_difference(*it) for it in zip([text.splitlines(keepends=True) for text in found], (replies, errors, replies + errors))]
            wanted = beside(script, ".status")
            counts.check(script.stem, (status, differences), (int(wanted[0]) if wanted else 0, [None] * 3))
    return counts.end()
