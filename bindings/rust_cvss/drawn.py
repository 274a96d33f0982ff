#!/usr/bin/env python3
"""Draws texts, always the same, and writes what the package has to answer to them, by the second implementation in
reference/.

usage: drawn.py COUNT LINES ANSWERS    LINES are read and ANSWERS written by examples/answers.rs

A line is a text, a tab, and a number whose bits say which of the base metrics are taken out of its vector by hand.
"""
import random
import sys
from fractions import Fraction
from pathlib import Path

ROOT = Path(__file__).resolve().parents[2]
sys.dont_write_bytecode = True  # leaves nothing in the tree
sys.path[:0] = [str(ROOT / folder) for folder in ("reference", "tests/inputs")]

import drawing
import lines
import reference
import v2
import v3
import v4


def told(tenths):
    return f"{tenths // 10}.{tenths % 10}" if tenths >= 0 else f"-{-tenths // 10}.{-tenths % 10}"


def numbers(*exact):
    return " ".join(repr(float(number)) for number in exact)


def answer_v2(vector):
    """The scores, sub-scores and the temporal score with an impact of 2.5."""
    impacts = v2.impact(vector, [None, None, None]), v2.exploitability(vector), v2.adjusted_impact(vector)
    scores = [*v2.scores(vector), v2.temporal(vector, Fraction("2.5")), *map(v2.tenths, impacts)]
    return f"{reference.canonical([], v2.METRICS, vector)} {' '.join(map(told, scores))} {numbers(*impacts)}"


def answer_v3(minor, vector):
    scores = v3.scores(minor, vector)
    sub_scores = v3.sub_score(vector, [1, 1, 1]), v3.exploitability(vector)
    text = reference.canonical([f"CVSS:3.{minor}"], v3.METRICS, vector)
    return f"{text} {' '.join(map(told, scores))} {v3.severity(scores[0])} {numbers(*sub_scores)}"


def without(mask, base, vector):
    """The vector without the base metrics whose bits are set."""
    gone = [name for bit, name in enumerate(base) if mask >> bit & 1]
    return {name: value for name, value in vector.items() if name not in gone}


def metrics_of(canonical):
    return dict(piece.split(":") for piece in canonical.split("/") if not piece.startswith("CVSS:"))


def of_v2(text, mask):
    vector = metrics_of(reference.read_v2(text)[0])
    return answer_v2(vector) + " " + answer_v2(without(mask, v2.MANDATORY, vector))


def of_v3(text, mask):
    canonical = reference.read_v3(text)[0]
    minor, vector = int(canonical[7]), metrics_of(canonical)
    return answer_v3(minor, vector) + " " + answer_v3(minor, without(mask, v3.BASE, vector))


def of_v4(text, _):
    canonical, score, severity = reference.read_v4(text)
    return f"{canonical} {told(score)} {severity} {v4.nomenclature(metrics_of(canonical))}"


def of_any(text, _):
    canonical, score, severity = reference.read(text)
    return f"{canonical} {told(score)} {severity}"


def outcome(call, *given):
    try:
        return call(*given)
    except reference.Refused as refused:
        return f"error: {refused}"


def texts(count):
    """Vectors of all versions, in any order and case, rejected ones, and hostile ones."""
    draw = random.Random(66)
    for number in range(count):
        if number % 4 == 0:
            text = drawing.hostile(draw).decode("utf-8", "replace")
            yield "".join(letter for letter in text if letter not in "\t\n\r"), draw.randrange(256)
        else:
            kind = ("any", "full", "refused")[number % 4 - 1]
            yield lines.line(draw, "all", kind), draw.choice((0, 255, draw.randrange(256)))


def main():
    with open(sys.argv[2], "w", encoding="utf-8") as given, open(sys.argv[3], "w", encoding="utf-8") as answers:
        for text, mask in texts(int(sys.argv[1])):
            given.write(f"{text}\t{mask}\n")
            answers.write("\t".join(outcome(call, text, mask) for call in (of_any, of_v2, of_v3, of_v4)) + "\n")


if __name__ == "__main__":
    main()
