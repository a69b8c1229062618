"""Shows one event's way through the core, each reply with what it means (`make try`).

The event is submitted, its first post fails, the relay crashes in the second, and the event is
delivered all the same. Each call of the stored script vectors/replay/first-event.script is printed
with the reply of `relayd replay` and what both mean.

With no program named, `rt try` compiles and runs relayd from its sources and proves nothing, which
takes three to four minutes. The status is 0 if each reply is the one that is stored.
Usage: scripts/script show [RELAYD]
"""
import shutil
import subprocess
import sys
import textwrap

from lib.command import ROOT, program_of

STORED = ROOT / "vectors" / "replay" / "first-event"
LEFT, RIGHT = 54, 44
ABOUT = """
Left: each call of a stored script, and what `relayd replay` answers. Right: what that means.
The file is one in memory here, and nothing is posted: the script says what time it is and what
the subscriber answers.
"""


def lines_of(ending):
    return STORED.with_suffix(ending).read_text().splitlines()


def replies_of(words, folder):
    """What a command prints for the stored script, and its status."""
    with open(STORED.with_suffix(".script")) as script:
        ran = subprocess.run(words, cwd=folder, stdin=script, stdout=subprocess.PIPE, text=True)
    return ran.stdout.splitlines(), ran.returncode


def shown(call, reply, sentence):
    """A call and its reply, with the sentence beside them."""
    left = [f"> {call if len(call) < LEFT - 3 else call[: LEFT - 6] + '..'}", f"  {reply}"]
    right = textwrap.wrap(sentence, RIGHT)
    for place in range(max(len(left), len(right))):
        one = left[place] if place < len(left) else ""
        other = right[place] if place < len(right) else ""
        yield f"{one:{LEFT}}  {other}".rstrip()


def main():
    if sys.argv[1:]:
        replies, status = replies_of([program_of(__doc__), "replay"], ROOT)
    elif not shutil.which("rt"):
        sys.exit("there is no rt, which belongs to the toolchain that README.md names")
    else:
        replies, status = replies_of(["rt", "try", "--", "replay"], ROOT / "crates" / "relayd")
    calls, wanted, replies = lines_of(".script"), lines_of(".replies"), iter(replies)
    steps = iter(zip(calls, wanted, strict=True))
    print(ABOUT)
    for sentence in lines_of(".sentences"):
        if not sentence or sentence.startswith("#"):
            print(sentence.lstrip("# "))
            continue
        call, stored = next(steps)
        reply = next(replies, "(no reply)")
        print(*shown(call, reply, sentence), sep="\n")
        if reply != stored:
            sys.exit(f"the stored reply is: {stored}")
    print("\nEach reply is the one that was expected.")
    return status
