#!/usr/bin/env python3
"""A second implementation of what `cvss explain --what-if` shows: for each value of each metric the score with all metrics
of the vector with that value.

Reads lines on standard input and writes a JSON object for each: the scores by metric and value, and the vector's values.

usage: reference/what_if.py
"""
import json
import sys

import reference
import scores
import setting
import v2
import v3
import v4

METRICS = {20: v2.METRICS, 30: v3.METRICS, 31: v3.METRICS, 40: v4.METRICS}


def scores_with(line):
    """The tenths of the score with all metrics for each metric's values, and for each metric the value that the vector has. A
    metric that it lacks is not defined, except a base metric, which has no such value (v3.1 specification, section 6,
    table 15)."""
    version, vector = setting.read(reference.text_of(line))
    metrics = METRICS[version]
    changed = {name: {value: scores.overall(version, {**vector, name: value})[0] for value in values}
               for name, (_, values) in metrics.items()}
    undefined = "ND" if version == 20 else "X"
    own = {name: vector.get(name, undefined if undefined in values else "") for name, (_, values) in metrics.items()}
    return changed, own


def main():
    for line in reference.lines_of_file(sys.stdin.buffer.read()):
        changed, own = scores_with(line)
        print(json.dumps({"scores": changed, "own": own}))


if __name__ == "__main__":
    main()
