#!/usr/bin/env python3
"""Answers the texts of the kit by the Python package of this repository, and so by its C library.

columns: canonical,version,score,temporal,environmental,nomenclature,severity,temporal_severity,environmental_severity,complete,kind
"""
import sys
from pathlib import Path

HERE = Path(__file__).resolve()
sys.dont_write_bytecode = True  # leaves nothing in the tree
sys.path[:0] = [str(HERE.parents[1]), str(HERE.parents[2] / "bindings" / "python")]

from cvss_proved import CvssError, Vector
from kinds import kind_of


def column(value):
    return "-" if value is None else f"{value:.1f}"


def answer(text):
    try:
        vector = Vector(text, allow_incomplete=True)
    except CvssError as error:
        return f"error: {kind_of(str(error))}"
    # the kit has the base score of v2 and v3, and for v4.0 the score with all metrics
    is_v4 = vector.version == "4.0"
    scores = [vector.score if is_v4 else vector.base_score, *vector.scores[1:]]
    severities = [vector.severity if is_v4 else vector.base_severity, *vector.severities[1:]]
    complete = "yes" if vector.is_complete else "no"
    return " ".join([str(vector), vector.version, *map(column, scores), vector.nomenclature or "-",
                     *(severity or "-" for severity in severities), complete])


def main():
    for line in sys.stdin.buffer:
        print(answer(line.removesuffix(b"\n")))


if __name__ == "__main__":
    main()
