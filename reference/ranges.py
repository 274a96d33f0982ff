#!/usr/bin/env python3
"""Writes the lowest and the highest score of all completions of each vector that may lack base metrics,
on fractions, and how many completions it has. A complete vector is its own completion.

The score is the one that counts all defined metrics: for v4.0 the score; for v2 and v3 the
environmental score if an environmental metric is defined, else the temporal score if a temporal
metric is, else the base score. Reads lines on standard input, and writes `LEAST GREATEST COUNT` for
each, in tenths. It shares no code with the crates: its answers are expected values for them.

usage: reference/ranges.py < LINES
"""
import sys
from itertools import product

import reference
import v2
import v3
import v4

TEMPORAL = ("E", "RL", "RC")


def kind(vector, base):
    """The index of the score that counts among the base, temporal and environmental score."""
    defined = {name for name, value in vector.items() if name not in base and value not in ("X", "ND")}
    return 2 if defined - set(TEMPORAL) else 1 if defined else 0


def score_of_v2(vector):
    return v2.scores(vector)[kind(vector, v2.MANDATORY)]


def score_of_v3(minor):
    return lambda vector: v3.scores(minor, vector)[kind(vector, v3.BASE)]


def read(line):
    """The vector of a line, the names of its base metrics, all metrics, and what scores it."""
    pieces = reference.cut(line)
    if not line.startswith("CVSS:"):
        vector = reference.read_components("v2", v2.METRICS, [], pieces, any_case=False)
        return vector, v2.MANDATORY, v2.METRICS, score_of_v2
    version = reference.version_told(pieces, ("3.0", "3.1", "4.0"))
    if version == "4.0":
        return reference.read_components("v4", v4.METRICS, [], pieces[1:]), v4.BASE, v4.METRICS, v4.score
    vector = reference.read_components("v3", v3.METRICS, [], pieces[1:])
    return vector, v3.BASE, v3.METRICS, score_of_v3(int(version[2:]))


def answer(line):
    vector, base, metrics, score = read(line)
    missing = [name for name in base if name not in vector]
    values = product(*(metrics[name][1] for name in missing))
    scores = [score({**vector, **dict(zip(missing, own))}) for own in values]
    return f"{min(scores)} {max(scores)} {len(scores)}"


def main():
    for line in sys.stdin.read().splitlines():
        print(answer(line))


if __name__ == "__main__":
    main()
