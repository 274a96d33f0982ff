#!/usr/bin/env python3
"""Draws how many base vectors of each version have each score, from base_scores.tsv, as SVG.

usage: reference/theorems_plot.py > docs/base_scores.svg
"""
import sys
from pathlib import Path

TABLE = Path(__file__).resolve().parent / "base_scores.tsv"
# All versions have the same scales: a tenth is as wide, and a hundredth of the vectors as high.
LEFT, TENTH, BAR = 64, 7, 5
HUNDREDTH, GREATEST = 16, 8
PANEL, TOP = 200, 72
WIDTH = LEFT + 101 * TENTH + 20
RATINGS = {"v2": [("low", 0), ("medium", 40), ("high", 70)]}
OTHER_RATINGS = [("none", 0), ("low", 1), ("medium", 40), ("high", 70), ("critical", 90)]
STYLE = """text{font:12px sans-serif;fill:#222}.head{font-weight:bold;font-size:14px}.small{font-size:11px;fill:#555}
.right{text-anchor:end}.middle{text-anchor:middle}.bars{fill:#2b6ca3}.grid{stroke:#ddd}.bound{stroke:#999;stroke-dasharray:3 3}
.axis{stroke:#222}"""


def counts_of(table):
    """How many vectors of each version have 0.0, 0.1 and so on to 10.0."""
    head, *rows = (line.split("\t") for line in table.splitlines())
    return {version: [int(count) for count in column] for version, column in zip(head[1:], list(zip(*rows))[1:])}


def left_of(score):
    return LEFT + score * TENTH


def line(kind, x1, y1, x2, y2):
    return f'<line class="{kind}" x1="{x1}" y1="{y1}" x2="{x2}" y2="{y2}"/>'


def text(kind, x, y, words):
    return f'<text class="{kind}" x="{x}" y="{y}">{words}</text>'


def scales(version, bottom):
    """The lines behind the bars, with their numbers, and the bounds of the ratings."""
    right = left_of(101)
    for percent in range(0, GREATEST + 1, 2):
        height = bottom - percent * HUNDREDTH
        yield line("axis" if percent == 0 else "grid", LEFT, height, right, height)
        yield text("right", LEFT - 6, height + 4, f"{percent} %")
    for score in range(0, 101, 10):
        yield text("middle", left_of(score) + BAR / 2, bottom + 16, score // 10)
    top = bottom - GREATEST * HUNDREDTH
    ratings = [(name, first) for name, first in RATINGS.get(version, OTHER_RATINGS) if name != "none"]
    for name, first in ratings:
        if first > 1:
            yield line("bound", left_of(first) - 1, top - 14, left_of(first) - 1, bottom)
        yield text("small", left_of(first) + 3, top - 4, name)


def bars(counts, bottom):
    """One bar for each score, as high as its share of the vectors."""
    for score, count in enumerate(counts):
        if count:
            height = round(100 * count / sum(counts) * HUNDREDTH, 1)
            yield f"M{left_of(score)} {bottom}v-{height}h{BAR}v{height}z"


def panel(version, counts, top):
    bottom = top + GREATEST * HUNDREDTH
    taken = sum(count > 0 for count in counts)
    yield text("head", LEFT, top - 24, f"{version}: {sum(counts):,} base vectors, {taken} different scores")
    yield from scales(version, bottom)
    yield f'<path class="bars" d="{"".join(bars(counts, bottom))}"/>'


def drawn(table):
    counts = counts_of(table)
    height = TOP + PANEL * len(counts) - 24
    title = "How many base vectors have each score"
    parts = [f'<svg xmlns="http://www.w3.org/2000/svg" viewBox="0 0 {WIDTH} {height}" width="{WIDTH}" height="{height}" role="img">',
             f"<title>{title}, as a share of all base vectors of the version</title>", f"<style>{STYLE}</style>",
             f'<rect width="{WIDTH}" height="{height}" fill="#fff"/>',
             text("small", LEFT, 20, f"{title}, as a share of all base vectors of the version. Dashed: where a rating begins.")]
    for place, (version, each) in enumerate(counts.items()):
        parts += panel(version, each, TOP + PANEL * place)
    return "\n".join([*parts, "</svg>", ""])


if __name__ == "__main__":
    sys.stdout.write(drawn(TABLE.read_text(encoding="utf-8")))
