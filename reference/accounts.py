#!/usr/bin/env python3
"""Writes how the score of each line is computed, on fractions, by the equations and tables in v2.py,
v3.py and v4.py.

Reads lines on standard input and writes a JSON object for each on standard output: the numbers from
which the score of a vector is computed, or why the line is rejected. A number with more than seven
decimals is rounded to seven, halves up. It shares no code with the crates: its answers are expected
values for them.

usage: reference/accounts.py < LINES
"""
import json
import sys
from fractions import Fraction
from math import floor

import complete
import reference
import scores
import setting
import v2
import v3
import v4

MODIFIED = ["M" + name for name in v3.BASE if name != "S"]
WEIGHTS_OF_V3 = [name for name in v3.METRICS if name != "S" and not name.startswith("M")] + MODIFIED
EFFECTIVE = "AV PR UI AC AT VC VI VA CR IR AR SC SI SA E".split()
GROUPS = {"EQ1": v4.access, "EQ2": v4.complexity, "EQ3+EQ6": v4.vulnerable, "EQ4": v4.subsequent,
          "EQ5": None}


def in_tenths(tenths):
    return Fraction(tenths, 10)


def account_of_v2(vector):
    impact = v2.impact(vector, [None, None, None])
    base, temporal, environmental = v2.scores(vector)
    adjusted = v2.adjusted_impact(vector)
    adjusted_temporal = v2.temporal(vector, adjusted)
    return {
        "weights": {name: v2.weight(vector, name) for name in v2.METRICS},
        "base": {
            "impact": impact,
            "exploitability": v2.exploitability(vector),
            "f": v2.f(impact),
            "number": v2.base_number(vector, impact),
            "score": in_tenths(base),
        },
        "temporal": {
            "number": in_tenths(base) * v2.temporal_weight(vector),
            "score": in_tenths(temporal),
        },
        "environmental": {
            "adjustedImpact": adjusted,
            "adjustedBase": in_tenths(v2.base(vector, adjusted)),
            "adjustedTemporal": in_tenths(adjusted_temporal),
            "number": v2.environmental_number(vector, adjusted_temporal),
            "score": in_tenths(environmental),
        },
    }


def scored(number, tenths):
    """A number, the score that it is rounded to, and its severity."""
    return {"number": number, "score": in_tenths(tenths), "severity": v3.severity(tenths)}


def account_of_v3(minor, vector):
    own = v3.modified(vector)
    reached = v3.modified_sub_score(vector)
    base, temporal, environmental = v3.scores(minor, vector)
    first_number = v3.modified_number(minor, vector)
    first_score = in_tenths(v3.tenths(minor, first_number))
    rest = v3.temporal_weight(vector)
    return {
        "scope": "C" if v3.is_changed(vector) else "U",
        "modifiedScope": "C" if v3.is_changed(own) else "U",
        "weights": {name: v3.weight(own, name[1:]) if name in MODIFIED else v3.weight(vector, name)
                    for name in WEIGHTS_OF_V3},
        "base": {
            "iss": v3.sub_score(vector, [1, 1, 1]),
            "impact": v3.base_impact(vector),
            "exploitability": v3.exploitability(vector),
            **scored(v3.base_number(vector), base),
        },
        "temporal": scored(in_tenths(base) * rest, temporal),
        "environmental": {
            "miss": reached,
            "modifiedImpact": v3.modified_impact(minor, own, reached),
            "modifiedExploitability": v3.exploitability(own),
            "firstNumber": first_number,
            "firstScore": first_score,
            **scored(first_score * rest, environmental),
        },
    }


def digits(classes):
    return "".join(map(str, classes))


def group_of_v4(name, own, macro, lower):
    """One group of metrics: its class, and its share, which is subtracted on the way to the next lower one."""
    group = GROUPS[name]
    distance, depth = v4.distance(group, v4.values_of(group, own)) if group else (0, 1)
    classes = [macro[int(letter) - 1] for letter in name.replace("EQ", "").split("+")]
    told = {"group": name, "class": digits(classes), "distance": distance, "depth": depth,
            "next": None, "nextValue": None, "gap": None, "share": None}
    if group in lower:
        below = v4.value_of(*lower[group])
        gap = in_tenths(v4.value_of(*macro) - below)
        told |= {"next": digits(lower[group]), "nextValue": in_tenths(below), "gap": gap,
                 "share": gap * distance / depth}
    return told


def account_of_v4(vector):
    own = v4.effective(vector)
    macro = v4.macro_vector(own)
    lower = v4.lower_classes(macro)
    groups = [group_of_v4(name, own, macro, lower) for name in GROUPS] if v4.has_impact(own) else []
    shares = [group["share"] for group in groups if group["share"] is not None]
    return {
        "nomenclature": v4.nomenclature(vector),
        "effective": {name: own[name] for name in EFFECTIVE},
        "macroVector": digits(macro),
        "value": in_tenths(v4.value_of(*macro)),
        "groups": groups,
        "mean": Fraction(sum(shares), max(1, len(shares))),
        "number": v4.number(vector) / 10,
    }


def account(text):
    """The explanation of a text that is accepted, its decimals exact."""
    version, vector = setting.read(text)
    score, severity = scores.overall(version, vector)
    if version == 20:
        told = account_of_v2(vector)
    elif version == 40:
        told = account_of_v4(vector)
    else:
        told = account_of_v3(version % 10, vector)
    return {"vector": reference.read(text)[0], "version": f"{version // 10}.{version % 10}",
            "score": in_tenths(score), "severity": severity, **told}


def answer(number, line, allow_incomplete=True):
    """The explanation of a line, with exact decimals."""
    try:
        text = reference.text_of(line)
        numbers = account(text)
        if not allow_incomplete:
            complete.find_missing(text)
        return {"line": number, **numbers}
    except reference.Refused as reason:
        given = {} if reason.kind == "encoding" else {"given": line.decode("utf-8")}
        return {"line": number, **given, "error": str(reason)}


def is_exact(told):
    """Whether no decimal has more than seven places, so that each is the number itself."""
    if isinstance(told, dict):
        return all(map(is_exact, told.values()))
    if isinstance(told, list):
        return all(map(is_exact, told))
    return not isinstance(told, Fraction) or (told * 10_000_000).denominator == 1


def rounded(number):
    """The number as it is written, with seven decimals at most."""
    return floor(number * 10_000_000 + Fraction(1, 2)) / 10_000_000


def written(told):
    return json.dumps(told, default=rounded, sort_keys=True, separators=(",", ":"), ensure_ascii=False)


def main():
    for number, line in enumerate(reference.lines_of_file(sys.stdin.buffer.read()), 1):
        sys.stdout.buffer.write(written(answer(number, line)).encode("utf-8") + b"\n")


if __name__ == "__main__":
    main()
