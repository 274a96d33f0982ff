"""What is expected of a line, from the second implementation in reference/ alone; write.py stores it.

For a valid line the facts are its canonical text, the version, the nomenclature, whether all base metrics are present, four
scores with their severities (with all metrics, base, temporal, environmental), the scores of CVSS-B, CVSS-BE, CVSS-BT and
CVSS-BTE, and the metrics; for a rejected one the number of the kind, the metric that is named, and the message. `-` is for
what does not exist. The vector may lack base metrics.
"""
import sys
from pathlib import Path

sys.path.insert(0, str(Path(__file__).resolve().parents[2] / "reference"))

import complete
import finding
import ranking
import reference
import setting
import v2
import v3
import v4

NOMENCLATURES = ("CVSS-B", "CVSS-BE", "CVSS-BT", "CVSS-BTE")


def decimal(tenths):
    return f"{tenths // 10}.{tenths % 10}"


def scored(tenths, severity):
    return f"{decimal(tenths)} {severity(tenths)}"


def scores(version, vector):
    """The base, temporal and environmental score with their severities, and the four by nomenclature."""
    if version == 40:
        by = [v4.score_by(vector, nomenclature) for nomenclature in NOMENCLATURES]
        return [scored(by[0], v3.severity), "- -", "- -", *map(decimal, by)]
    if version == 20:
        own = [scored(tenths, v2.severity) for tenths in v2.scores(vector)]
    else:
        own = [scored(tenths, v3.severity) for tenths in v3.scores(version - 30, vector)]
    return [*own, *["-"] * 4]


def facts(text):
    """What is known of a text that is accepted, of which a vector of v3 may lack base metrics."""
    version, vector = setting.read(text)
    nomenclature = v4.nomenclature(vector) if version == 40 else "-"
    is_complete = version not in (30, 31) or all(name in vector for name in v3.BASE)
    told = [setting.canonical_text(version, vector), decimal(version), nomenclature, "complete" if is_complete else "incomplete"]
    tenths, severity = ranking.overall(version, vector)
    told += [f"{decimal(tenths)} {severity}", *scores(version, vector)]
    return " ".join(told + [f"{name}={value}" for name, value in vector.items()])


def facts_of(reason):
    return f"{reference.KINDS.index(reason.kind) + 1} {reason.metric or '-'} {reason}"


def line_facts(line):
    """The facts of a line, or why it is rejected."""
    try:
        return facts(reference.text_of(line))
    except reference.Refused as reason:
        return facts_of(reason)


def missing_facts(text):
    """Why a vector is rejected that lacks a base metric."""
    try:
        complete.find_missing(text)
    except reference.Refused as reason:
        return facts_of(reason)
    sys.exit(f"{text} has all base metrics")


def lines_found(lines):
    for number, line in enumerate(lines, 1):
        for place, match, _ in finding.found(line):
            yield f"{number}:{place + 1} {complete.answer(match)}"

