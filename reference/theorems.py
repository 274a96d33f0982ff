#!/usr/bin/env python3
"""Tries each theorem of docs/THEOREMS.md over all vectors, on exact numbers.

A theorem is a sentence in bold at the beginning of a paragraph of that page, or a row of its table of versions. The figures
in it are computed here, so that another figure on the page is wrong. The files for each version say which vectors are tried.
This file also compares `base_scores.tsv`, by which the library is tested, and the plot that is drawn from it.

usage: reference/theorems.py           prints each theorem that does not hold, or that is tried or written and not both;
                                       status 1 if there are some
       reference/theorems.py --scores  prints how many base vectors have each score, as base_scores.tsv has it
"""
import re
import sys
from pathlib import Path

import theorems_plot
import theorems_v2
import theorems_v3
import theorems_v4

ROOT = Path(__file__).resolve().parent.parent
PAGE = (ROOT / "docs/THEOREMS.md").read_text(encoding="utf-8")
VERSIONS = {"v2": theorems_v2, "v3.0, v3.1": theorems_v3, "v4.0": theorems_v4}


def table_of_scores(counts):
    rows = [f"{score / 10}\t" + "\t".join(str(each[score]) for each in counts.values()) for score in range(101)]
    return "\n".join(["score\t" + "\t".join(counts), *rows, ""])


def about_falls():
    """The rows of the page's table of how much scores fall."""
    falls = {"v2": theorems_v2.falls(), "v3.0": theorems_v3.falls(0), "v3.1": theorems_v3.falls(1)}
    for version, found in falls.items():
        yield f"| {version} | " + " | ".join(f"0.{fall} at most" if fall else "never" for fall in found) + " |", max(found) < 10
    yield "| v4.0 | never | never | never |", theorems_v4.never_falls()


def longest_gap(counts):
    """The first and the last of the most scores in a row that no base vector has."""
    taken = sorted(+counts)
    least, most = max(zip(taken, taken[1:]), key=lambda pair: pair[1] - pair[0])
    return f"from {(least + 1) / 10} to {(most - 1) / 10}"


def about_scores(counts):
    """The rows of the page's table of base scores, and what else it says of all versions."""
    for version, each in counts.items():
        taken = sorted(+each)
        mean = sum(score * count for score, count in each.items()) / each.total() / 10
        yield f"| {version} | {each.total():,} | {len(taken)} | {each[0]} | {taken[1] / 10} | {each[100]} | {mean:.2f} |", True
    gaps = "{} in v2, {} in v3, or {} in v4.0".format(*map(longest_gap, counts.values()))
    yield f"No base vector scores {gaps}.", True
    vectors = "{:,} effective vectors in v2, {:,} in v3 and {:,} in v4.0".format(
        *(module.effective_vectors() for module in VERSIONS.values()))
    yield f"There are {vectors}.", True


def wrong_laws():
    """The laws that the page names and that there are not, and its theorems of which it does not say whether they are proved."""
    for version, law in re.findall(r"`(v\d)::laws::(\w+)`", PAGE):
        sources = [path for path in (ROOT / "crates/cvss_laws/src").rglob("*.rt") if version in (path.stem, path.parent.name)]
        if not any(f"pub fn {law}()" in path.read_text(encoding="utf-8") for path in sources):
            yield f"there is no law {version}::laws::{law}"
    for sentence, rest in re.findall(r"^\*\*(.+?)\*\*(.*)$", PAGE, re.M):
        if not re.match(r" (Proved|Counted)\b", rest):
            yield f"neither proved nor counted: {sentence}"


def wrong(tried, scores):
    """What is wrong with the sentences that are tried, and with what is written."""
    written = [bold or row for bold, row in re.findall(r"^\*\*(.+?)\*\*|^(\| v\d.*)$", PAGE, re.M)]
    yield from (f"wrong: {sentence}" for sentence, holds in tried.items() if not holds)
    yield from (f"docs/THEOREMS.md says, and nothing tries it: {sentence}" for sentence in written if sentence not in tried)
    yield from (f"docs/THEOREMS.md does not say: {sentence}" for sentence in tried if sentence not in written)
    yield from wrong_laws()
    if (ROOT / "reference/base_scores.tsv").read_text(encoding="utf-8") != scores:
        yield "reference/base_scores.tsv is not what `reference/theorems.py --scores` prints"
    if (ROOT / "docs/base_scores.svg").read_text(encoding="utf-8") != theorems_plot.drawn(scores):
        yield "docs/base_scores.svg is not what `reference/theorems_plot.py` draws"


def main():
    counts = {version: module.counts() for version, module in VERSIONS.items()}
    scores = table_of_scores(counts)
    if sys.argv[1:] == ["--scores"]:
        sys.stdout.write(scores)
        return
    tried = dict([*(each for module in VERSIONS.values() for each in module.theorems()),
                  *about_falls(), *about_scores(counts)])
    faults = [*wrong(tried, scores)]
    print("\n".join(faults) or f"docs/THEOREMS.md: {len(tried)} sentences hold over all vectors")
    sys.exit(1 if faults else 0)


if __name__ == "__main__":
    main()
