#!/usr/bin/env python3
"""Writes random lines of CVSS vectors, from the tables of a version.

usage: tests/inputs/lines.py v2|v3.0|v3.1|v4|all base|full|every|any|refused|mixed COUNT [SEED]

`base` lines have all base metrics, `full` lines also each other metric with an even chance, `every`
lines have all metrics, each in printing order. `any` lines are full lines with the components in any
order and, except for v2, in any case. `refused` lines are full lines with one error: a component
without its colon, an unknown name or value, a component twice, or the first component dropped, which
only v3 accepts. Of 100 `mixed` lines 90 are full, 8 any and 2 refused. `all` draws the version of each
line. The same seed gives the same lines.
"""
import random
import sys
from pathlib import Path

sys.path.insert(0, str(Path(__file__).resolve().parents[2] / "reference"))

import v2
import v3
import v4

VERSIONS = {
    "v2": ([], v2.MANDATORY, v2.METRICS),
    "v3.0": (["CVSS:3.0"], v3.BASE, v3.METRICS),
    "v3.1": (["CVSS:3.1"], v3.BASE, v3.METRICS),
    "v4": (["CVSS:4.0"], v4.BASE, v4.METRICS),
}


def components(draw, version, chance):
    front, base, metrics = VERSIONS[version]
    names = [name for name in metrics if name in base or (chance and draw.random() < chance)]
    return front, [f"{name}:{draw.choice(list(metrics[name][1]))}" for name in names]


def in_some_case(draw, text):
    return "".join(draw.choice((letter.lower(), letter.upper())) for letter in text)


def with_fault(draw, parts):
    at = draw.randrange(len(parts))
    name, value = parts[at].split(":")
    fault = draw.randrange(5)
    if fault == 4:
        return parts[1:]
    bad = (name + value, f"{name}Q:{value}", f"{name}:{value}Q", f"{parts[at]}/{parts[at]}")[fault]
    return parts[:at] + [bad] + parts[at + 1:]


def line(draw, version, kind):
    if version == "all":
        version = draw.choice(list(VERSIONS))
    if kind == "mixed":
        kind = draw.choices(("full", "any", "refused"), (90, 8, 2))[0]
    front, parts = components(draw, version, {"base": 0, "every": 1}.get(kind, 0.5))
    if kind == "any":
        draw.shuffle(parts)
        if version != "v2":
            parts = [in_some_case(draw, part) for part in parts]
    if kind == "refused":
        parts = with_fault(draw, parts)
    return "/".join(front + parts)


def main():
    version, kind, count = sys.argv[1], sys.argv[2], int(sys.argv[3])
    draw = random.Random(int(sys.argv[4]) if len(sys.argv) > 4 else 2)
    for _ in range(count):
        print(line(draw, version, kind))


if __name__ == "__main__":
    main()
