"""The table of crates in docs/ARCHITECTURE.md, which is made of crates.txt.

crates.txt has the crates by layer, the highest first, each layer under a heading `# == NAME`. A
comment says what others rely on of the crates that follow it. In the table each of these is a row:
the crates, the nearest ones below, without `relay_types`, and the comment.

It fails if the page has another table, if a crate uses one of a higher layer (tools and tests may),
or if a folder of crates/ isn't listed. `--write` first writes the table into the page.
Usage: scripts/docs crates [--write]
"""
import functools
import itertools
import sys

from lib.command import ROOT, Counts, read_crates

PAGE = ROOT / "docs" / "ARCHITECTURE.md"
HEAD = "| Crate | On | What those above rely on |\n|---|---|---|\n"
BASE = "relay_types"
FREE = ("tools", "tests")


def read_layers():
    """The layers of crates.txt, the highest first: the name, and for each comment its text and its crates."""
    layers = []
    for line in (ROOT / "crates.txt").read_text().split("\n"):
        if line.startswith("# == "):
            layers.append((line[5:], []))
        elif line.startswith("# ") and layers:
            layers[-1][1].append((line[2:], []))
        elif line.strip() and not line.startswith("#"):
            layers[-1][1][-1][1].append(line.partition(":")[0].split()[0])
    return layers


def nearest_below(uses):
    """For each crate, the crates of the repository that it uses and that nothing else between them uses."""

    @functools.cache
    def below(crate):
        own = {it for it in uses[crate] if it in uses}
        return own | {low for it in own for low in below(it)}

    own = {crate: [it for it in used if it in uses and it != BASE] for crate, used in uses.items()}
    return {crate: [it for it in used if not any(it in below(other) for other in used)] for crate, used in own.items()}


def table(layers, nearest):
    def row(says, crates):
        on = nearest[crates[0]] if len(crates) == 1 else []
        return f"| {', '.join(f'`{it}`' for it in crates)} | {', '.join(f'`{it}`' for it in on)} | {says} |\n".replace("|  |", "| |")

    return HEAD + "".join(itertools.starmap(row, (group for _, groups in layers for group in groups)))


def main():
    layers, uses = read_layers(), read_crates()
    wanted = table(layers, nearest_below(uses))
    text = PAGE.read_text()
    start = text.index(HEAD)
    end = text.index("\n\n", start) + 1
    if sys.argv[1:] == ["--write"]:
        text = text[:start] + wanted + text[end:]
        PAGE.write_text(text)
    counts = Counts()
    counts.check("the table of crates", wanted in text)
    heights = {crate: height for height, (_, groups) in enumerate(layers) for _, crates in groups for crate in crates}
    for name, groups in layers:
        for crate in (it for _, crates in groups for it in crates if name not in FREE):
            counts.check(f"{crate} uses no crate of a higher layer", [it for it in uses[crate] if heights.get(it, heights[crate]) < heights[crate]], [])
    counts.check("the folders of crates", sorted(it.name for it in (ROOT / "crates").iterdir() if (it / "src").is_dir()), sorted(heights))
    return counts.end()
