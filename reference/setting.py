#!/usr/bin/env python3
"""A second implementation of calls on single metrics, written from the public standards alone.

Reads lines on standard input, a mark, a space and its arguments, and writes the answer to each:

    with TEXT METRICS       the vector with these metrics set, and why they are not
    build VERSION METRICS   the vector of a version (20, 30, 31, 40) with these metrics, and why there is none
    groups TEXT             the scores of a v4.0 vector by nomenclature in tenths: CVSS-B, BE, BT and BTE
    rating VERSION TENTHS   the rating of a number of tenths by the bounds of a version
    value TEXT              the part of a rejected text that the reason quotes

`-` is an empty answer.
"""
import sys

import reference
import v2
import v3
import v4
from reference import Refused

# By the number of a version: the name in reasons, the front, the metrics, those that are mandatory, and whether names and
# values are read in any case.
VERSIONS = {
    20: ("v2", [], v2.METRICS, v2.MANDATORY, False),
    30: ("v3", ["CVSS:3.0"], v3.METRICS, [], True),
    31: ("v3", ["CVSS:3.1"], v3.METRICS, [], True),
    40: ("v4", ["CVSS:4.0"], v4.METRICS, v4.MANDATORY, True),
}


def read(text):
    """The number of the version of a vector, and the vector."""
    canonical = reference.read(text)[0]
    pieces = [tuple(piece.split(":")) for piece in canonical.split("/")]
    if pieces[0][0] != "CVSS":
        return 20, dict(pieces)
    return int(pieces[0][1].replace(".", "")), dict(pieces[1:])


def given(version, pieces):
    """The values of the components, or the first that is rejected, with its index."""
    name, _, metrics, _, any_case = VERSIONS[version]
    values = {}
    for index, piece in enumerate(pieces):
        try:
            if piece.count(":") != 1:
                raise reference.no_component(piece)
            reference.read_component(name, metrics, values, piece, any_case)
        except Refused as reason:
            raise Refused(reason.kind, f"metric {index}: {reason}", reason.metric, reason.part) from None
    return values


def canonical_text(version, vector):
    _, front, metrics, _, _ = VERSIONS[version]
    return reference.canonical(front, metrics, vector)


def with_metrics(text, metrics):
    """The canonical text of the vector with the components set that a text joins by slashes."""
    version, vector = read(reference.text_of(text))
    own = reference.text_of(metrics)
    return canonical_text(version, {**vector, **given(version, own.split("/") if own else [])})


def build(version, metrics):
    """The canonical text of the vector of a version that these components make."""
    if version not in VERSIONS:
        raise Refused("version", "unsupported CVSS version")
    vector = given(version, reference.text_of(metrics).split("/"))
    name, _, known, mandatory, _ = VERSIONS[version]
    reference.find_missing(name, known, mandatory, vector)
    return canonical_text(version, vector)


def groups(text):
    """The scores of a vector of v4.0 by nomenclature."""
    version, vector = read(reference.text_of(text))
    if version != 40:
        return "-"
    return " ".join(str(v4.score_by(vector, nomenclature)) for nomenclature in ("CVSS-B", "CVSS-BE", "CVSS-BT", "CVSS-BTE"))


def rating(version, tenths):
    if version not in VERSIONS or not 0 <= tenths <= 100:
        return "-"
    return (v2 if version == 20 else v3).severity(tenths)


def both(call, *asked):
    """What a call gives, and why it gives nothing."""
    try:
        return f"{call(*asked)} -"
    except Refused as reason:
        return f"- {reason}"


def part(text):
    """What the reason quotes for which a text is rejected."""
    try:
        reference.read(reference.text_of(text))
    except Refused as reason:
        return reason.part or "-"
    return "-"


def answer(line):
    mark, _, asked = line.partition(b" ")
    first, _, second = asked.partition(b" ")
    if mark == b"with":
        return both(with_metrics, first, second)
    if mark == b"build":
        return both(build, int(first), second)
    if mark == b"groups":
        try:
            return groups(asked)
        except Refused:
            return "-"
    if mark == b"rating":
        return rating(int(first), int(second))
    if mark == b"value":
        return part(asked)
    raise ValueError(f"no such mark: {mark}")


def main():
    for line in sys.stdin.buffer.read().splitlines():
        sys.stdout.buffer.write(answer(line).encode("utf-8") + b"\n")


if __name__ == "__main__":
    main()
