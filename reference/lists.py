#!/usr/bin/env python3
"""A second implementation of what lists of vectors are filtered and compared by, written from the public standards alone:
thresholds, gates, the difference of two vectors, what a version's standard does not allow, and with these what `cvss score`
prints of a line.
"""
import re

import complete
import reference
import rows
import scores
import setting
from reference import Refused

# The lowest score of each severity in tenths (v3.1 specification, section 5; v4.0 specification, section 6).
LOWEST = {"none": 0, "low": 1, "medium": 40, "high": 70, "critical": 90}


def lowered(text):
    return "".join(c.lower() if c.isascii() else c for c in text)


def threshold(text):
    """The tenths for which a text stands, a number from 0 to 10 or the name of a severity, if it does."""
    if re.fullmatch(r"(10|[0-9])(\.0)?|[0-9]\.[0-9]", text, re.ASCII):
        whole, _, tenth = text.partition(".")
        return int(whole) * 10 + int(tenth or "0")
    return LOWEST.get(lowered(text))


def tenths_of(answer):
    """The tenths that a score line reports, if it does."""
    if answer.startswith("error: "):
        return None
    return int(answer.split(" ")[1].replace(".", ""))


def gated(answer, minimum=0, fail_on=None, quiet=False):
    """What is printed of an answer, if something is, and whether its line counts as rejected."""
    tenths = tenths_of(answer)
    if tenths is not None and tenths < minimum:
        return None, False
    fails = tenths is None or fail_on is not None and tenths >= fail_on
    return None if quiet else answer, fails


def vector_of(line, allow_incomplete=False):
    """The number of the version of a vector, and the vector."""
    text = reference.text_of(line)
    reference.read(text)
    if not allow_incomplete:
        complete.find_missing(text)
    return setting.read(text)


def rated(version, vector, base=False):
    score, severity = (scores.base if base else scores.overall)(version, vector)
    return f"{score // 10}.{score % 10} {severity}"


def difference(first, second, allow_incomplete=False, base=False):
    """The lines that say in what two vectors differ, and whether they can be compared."""
    vectors = []
    for which, line in (("first", first), ("second", second)):
        try:
            vectors.append(vector_of(line, allow_incomplete))
        except Refused as reason:
            return [f"{which} vector: {complete.shown(f'error: {reason}')}"], False
    (version, before), (other, after) = vectors
    if version != other:
        names = (f"{number // 10}.{number % 10}" for number in (version, other))
        return [f"error: different versions: {' and '.join(names)}"], False
    metrics = setting.VERSIONS[version][2]
    changes = [f"{name}: {before.get(name, '-')} -> {after.get(name, '-')}" for name in metrics
               if before.get(name) != after.get(name)]
    return [*changes, f"score: {rated(version, before, base)} -> {rated(version, after, base)}"], True


def departure(line):
    """What the standard of its version does not allow of a line, although it is read, if there is something."""
    text = reference.text_of(line)
    version, vector = setting.read(text)
    if version == 20:
        return None
    pieces = text.split("/")[1:]
    for piece in pieces:
        name, value = piece.split(":")
        if vector.get(name) != value:
            return f"{'lower' if re.search('[a-z]', piece) else 'upper'} case: {piece}"
    if version == 40:
        order = list(setting.VERSIONS[version][2])
        names = [piece.split(":")[0] for piece in pieces]
        for before, name in zip(names, names[1:]):
            if order.index(name) < order.index(before):
                return f"metrics out of order: {name} after {before}"
    return None


def strict(line, **options):
    """The score line of a line that its version's standard allows, and else what it does not allow."""
    try:
        found = departure(line)
    except Refused:
        found = None
    return complete.answer(line, **options) if found is None else f"error: {found}"


def scored(line, form=None, file=None, minimum=0, fail_on=None, quiet=False, standard=False, **options):
    """What `cvss score` prints of a line, if it prints something, and whether the line counts as rejected. The form is that of
    rows, if there is one, and the file is named where there are several."""
    text = complete.scored_text(line)
    prefix = b"" if file is None else complete.shown_name(file).encode() + b":"
    if not text:
        return None if quiet else (b"" if form else prefix), False
    answer = strict(text, **options) if standard else complete.answer(text, **options)
    printed, fails = gated(answer, minimum, fail_on, quiet)
    if printed is None:
        return None, fails
    if form:
        return rows.row(form, text, options.get("allow_incomplete", False), file), fails
    return prefix + complete.shown(printed).encode("utf-8"), fails
