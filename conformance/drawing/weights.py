"""Vectors that reveal a wrong weight, in v2, v3.0 and v3.1: for each weight, a hundredth or a thousandth
more or less, one with another score, if there is one.
"""
from contextlib import contextmanager
from fractions import Fraction
from functools import lru_cache
from itertools import product

from . import jumps
from .jumps import REQUIREMENTS, TEMPORAL, assignments
from .rows import BASE, METRICS, UNDEFINED, accepted, by_modified, v2, v3, whole

CHANGES = [Fraction(change) for change in ("0.01", "-0.01", "0.001", "-0.001")]
LAST = ("CDP", "TD")


@contextmanager
def replaced(table, key, value):
    """Within it the table has this value at the key."""
    before = table[key]
    table[key] = value
    try:
        yield
    finally:
        table[key] = before


def base_score(version, vector):
    return jumps.rounded(version, jumps.base_number(version, vector))


@lru_cache(maxsize=None)
def known_base_score(version, values):
    return base_score(version, dict(zip(BASE[version], values)))


def temporal_score(version, vector):
    base = known_base_score(version, tuple(vector[name] for name in BASE[version]))
    return jumps.rounded(version, Fraction(base, 10) * jumps.temporal_weight(version, vector))


def adjusted_score(version, vector):
    return max(0, jumps.rounded(version, jumps.adjusted_number(version, vector)))


def last_score(version, vector):
    base = known_base_score(version, tuple(vector[name] for name in BASE[version]))
    return v2.tenths(v2.environmental_number(vector, base))


def scored_bases(version, names):
    """A vector for each base score and each values of the metrics."""
    bases = jumps.by_tenths(version, jumps.base_numbers(version)).values()
    return [{**base, **rest} for base, rest in product(bases, assignments(version, names))]


def groups(version):
    """The groups of metrics, with the score that shows their weights and the vectors to search."""
    yield BASE[version], base_score, assignments(version, BASE[version])
    yield TEMPORAL, temporal_score, scored_bases(version, TEMPORAL)
    if version == "2.0":
        yield REQUIREMENTS, adjusted_score, assignments(version, BASE[version] + [*REQUIREMENTS])
        yield LAST, last_score, scored_bases(version, LAST)
    else:
        yield REQUIREMENTS, adjusted_score, jumps.adjusted_vectors(version)


def with_value(version, vectors, name, value):
    """Those of the vectors that have the value; one that is not defined in place of one that weighs
    the same."""
    weights = METRICS[version][name][1]
    same = value
    if value == UNDEFINED[version]:
        same = next(other for other in weights
                    if other != value and Fraction(weights[other]) == Fraction(weights[value]))
    return [{**vector, name: value} for vector in vectors if vector[name] == same]


def changes(version, name, value):
    """The table and key of a weight, with its value there, for each change."""
    words, weights = METRICS[version][name]
    for change in CHANGES:
        other = Fraction(weights[value]) + change
        yield METRICS[version], name, (words, {**weights, value: other})
        if name == "PR":
            yield v3.CHANGED_PRIVILEGES, value, Fraction(v3.CHANGED_PRIVILEGES[value]) + change


def telling(version, score, vectors, name, value):
    """For each change of a weight the first vector whose score changes."""
    known = {}
    for place in changes(version, name, value):
        for at, vector in enumerate(vectors):
            if at not in known:
                known[at] = score(version, vector)
            with replaced(*place):
                other = score(version, vector)
            if other != known[at]:
                yield vector
                break


def weighed_values(version, names):
    return [(name, value) for name in names
            for value, weight in METRICS[version][name][1].items() if weight is not None]


def rows():
    for version in ("2.0", "3.0", "3.1"):
        for names, score, vectors in groups(version):
            for name, value in weighed_values(version, names):
                fitting = with_value(version, vectors, name, value)
                for vector in telling(version, score, fitting, name, value):
                    yield accepted("weight", version, whole(version, vector))
                    if version != "2.0" and name in BASE[version]:
                        yield accepted("weight", version, by_modified(version, vector))
