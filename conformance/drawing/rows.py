"""Rows of the kit: how a vector and a text become a line of a table.

A vector is a dictionary from metrics to spellings, as in reference/reference.py, whose fractions give
every answer here.
"""
import sys
from functools import lru_cache
from pathlib import Path

sys.path.insert(0, str(Path(__file__).resolve().parents[2] / "reference"))

import reference
import v2
import v3
import v4

# For each version: the prefix, the table of metrics, the base metrics, and how "not defined"
# is spelled.
FRONTS = {"2.0": [], "3.0": ["CVSS:3.0"], "3.1": ["CVSS:3.1"], "4.0": ["CVSS:4.0"]}
METRICS = {"2.0": v2.METRICS, "3.0": v3.METRICS, "3.1": v3.METRICS, "4.0": v4.METRICS}
BASE = {"2.0": v2.MANDATORY, "3.0": list(v3.BASE), "3.1": list(v3.BASE), "4.0": list(v4.BASE)}
# v2: the groups of optional metrics, at values that weigh as if they were left out.
NEUTRAL_GROUPS = ({"E": "H", "RL": "U", "RC": "C"},
                  {"CDP": "N", "TD": "H", "CR": "M", "IR": "M", "AR": "M"})
UNDEFINED = {"2.0": "ND", "3.0": "X", "3.1": "X", "4.0": "X"}
SCORE_COLUMNS = ["text", "canonical", "version", "score", "temporal", "environmental",
                 "nomenclature", "severity", "temporal_severity", "environmental_severity", "complete",
                 "class"]
REJECTED_COLUMNS = ["text", "kind", "class"]
NONE = "-"


def options(version):
    """The metrics that may be left out by the standard."""
    return [name for name in METRICS[version] if name not in BASE[version]]


def canonical(version, vector):
    return reference.canonical(FRONTS[version], METRICS[version], vector)


def in_order(version, vector):
    """The vector with its metrics in printing order."""
    return {name: vector[name] for name in METRICS[version] if name in vector}


def whole(version, vector):
    """The vector in printing order, in v2 with all metrics of a group of which it has one: there
    are calculators that read such a group whole or not at all."""
    for group in NEUTRAL_GROUPS if version == "2.0" else ():
        if any(name in vector for name in group):
            vector = group | vector
    return in_order(version, vector)


def by_modified(version, vector):
    """The same effective values by modified metrics, over the base metrics' last spellings."""
    base = {name: list(METRICS[version][name][1])[-1] for name in BASE[version]}
    modified = {"M" + name if name in base else name: value for name, value in vector.items()}
    return in_order(version, base | modified)


def base_vector(version, spellings):
    """The vector with these values of the base metrics, in printing order."""
    return dict(zip(BASE[version], spellings.split()))


def tenths(score):
    return f"{score // 10}.{score % 10}"


@lru_cache(maxsize=None)
def answers(version, items):
    """The columns after the version, up to the severities, for these metrics and spellings."""
    vector = dict(items)
    if version == "4.0":
        score = v4.score(vector)
        return [tenths(score), NONE, NONE, v4.nomenclature(vector), v3.severity(score), NONE, NONE]
    scores = v2.scores(vector) if version == "2.0" else v3.scores(int(version[2:]), vector)
    rated = v2.severity if version == "2.0" else v3.severity
    return [tenths(score) for score in scores] + [NONE] + [rated(score) for score in scores]


def accepted(reason, version, vector, text=None):
    """The row of a vector, read from a text that denotes it; from the canonical one if there is
    none."""
    plain = canonical(version, vector)
    text = plain if text is None else text
    columns = answers(version, tuple(vector.items()))
    answer = f"{plain} {columns[0]} {columns[4]}"
    if reference.answer(text.encode()) != answer:
        raise AssertionError(f"{text} is not read as {answer}")
    complete = all(name in vector for name in BASE[version])
    return [text.encode(), plain.encode(), version, *columns, "yes" if complete else "no", reason]


def rejected(reason, text):
    """The row of a text that is rejected, with the kind of the first error."""
    try:
        reference.read(reference.text_of(text))
    except reference.Refused as rejection:
        return [text, rejection.kind, reason]
    raise AssertionError(f"{text} is accepted")


def written(column):
    """A column as it is in a file: in texts, what is no visible ASCII character is escaped."""
    if isinstance(column, str):
        return column
    return "".join(chr(byte) if 0x20 < byte < 0x7f and byte != 0x5c else f"\\x{byte:02x}"
                   for byte in column)


def table(columns, rows):
    """The bytes of a file: a line of names, and then the rows, none twice."""
    once = dict.fromkeys("\t".join(map(written, row)) for row in rows)
    return ("\n".join(["\t".join(columns), *once]) + "\n").encode()
