"""Numbers on a jump of their version's rounding, or near it, in v2, v3.0 and v3.1.

Every number that is rounded while a score is computed counts once: the same number from other metrics
is the same row.
"""
from fractions import Fraction
from functools import lru_cache
from itertools import product
from math import floor

from .rows import BASE, METRICS, accepted, by_modified, in_order, v2, v3, whole

NEAR = Fraction(1, 10_000)
TEMPORAL = ("E", "RL", "RC")
REQUIREMENTS = ("CR", "IR", "AR")
IMPACTS = ("C", "I", "A")


def distance(version, number):
    """How far a number is from the nearest jump of the version's rounding."""
    if version == "2.0":
        shifted = abs(number + Fraction(1, 1_000_000)) * 10 - Fraction(1, 2)
    elif version == "3.0":
        shifted = number * 10
    else:
        shifted = (number - Fraction(5, 1_000_000)) * 10
    return min(abs(shifted - floor(shifted)), abs(shifted - floor(shifted) - 1)) / 10


def rounded(version, number):
    return v2.tenths(number) if version == "2.0" else v3.tenths(int(version[2:]), number)


def assignments(version, names, without=("X", "ND")):
    """All values of the metrics, except those that weigh the same as another by definition."""
    values = ([value for value in METRICS[version][name][1] if value not in without]
              for name in names)
    return [dict(zip(names, chosen)) for chosen in product(*values)]


def firsts(pairs):
    """The first vector of each number."""
    found = {}
    for number, vector in pairs:
        found.setdefault(number, vector)
    return found


def exploit_metrics(version):
    """The base metrics except the impacts."""
    return [name for name in BASE[version] if name not in IMPACTS]


def ease(version, vector):
    """The product of the metrics of exploitability, and the scope."""
    weight = v2.weight if version == "2.0" else v3.weight
    number = Fraction(1)
    for name in exploit_metrics(version):
        number *= weight(vector, name) if name != "S" else 1
    return number, vector.get("S")


@lru_cache(maxsize=None)
def exploitable(version):
    """A vector of the metrics of exploitability, and of the scope, for each number they give."""
    chosen = assignments(version, exploit_metrics(version))
    return list(firsts((ease(version, vector), vector) for vector in chosen).values())


def weighed_impact(version, vector):
    """The sub-score of the impacts, each multiplied by its requirement, before it is cut off."""
    if version == "2.0":
        return v2.impact(vector, REQUIREMENTS)
    return v3.sub_score(vector, [v3.weight(vector, name) for name in REQUIREMENTS])


@lru_cache(maxsize=None)
def impacts(version):
    """A vector of the impacts and their requirements for each sub-score, ahead those that leave
    the impacts as they are."""
    plain = [{**vector, **dict.fromkeys(REQUIREMENTS, "M")}
             for vector in assignments(version, IMPACTS)]
    return firsts((weighed_impact(version, vector), vector)
                  for vector in plain + assignments(version, IMPACTS + REQUIREMENTS))


def adjusted_number(version, vector):
    """The number that the environmental score rounds first."""
    if version == "2.0":
        return v2.base_number(vector, v2.adjusted_impact(vector))
    return v3.modified_number(int(version[2:]), vector)


def adjusted_vectors(version):
    """A vector for each exploitability and each sub-score of impact with requirements."""
    return [in_order(version, {**exploited, **hurt})
            for exploited, hurt in product(exploitable(version), impacts(version).values())]


def base_number(version, vector):
    """The number that the base score rounds."""
    if version == "2.0":
        return v2.base_number(vector, v2.impact(vector, [None] * 3))
    return v3.base_number(vector)


@lru_cache(maxsize=None)
def base_numbers(version):
    return firsts((base_number(version, vector), vector)
                  for vector in assignments(version, BASE[version]))


@lru_cache(maxsize=None)
def adjusted_numbers(version):
    return firsts((adjusted_number(version, vector), vector)
                  for vector in adjusted_vectors(version))


def by_tenths(version, numbers):
    """The first vector of each number of tenths to which numbers are rounded."""
    return firsts((rounded(version, number), vector) for number, vector in numbers.items())


def temporal_weight(version, vector):
    return (v2 if version == "2.0" else v3).temporal_weight(vector)


def temporal_weights(version):
    return firsts((temporal_weight(version, vector), vector)
                  for vector in assignments(version, TEMPORAL))


def products(version, numbers):
    """The numbers times the temporal metrics, of which a temporal or adjusted score is rounded."""
    return firsts((Fraction(score, 10) * weight, in_order(version, {**vector, **rest}))
                  for score, vector in by_tenths(version, numbers).items()
                  for weight, rest in temporal_weights(version).items())


def distributed(version, numbers):
    """v2: the last numbers of the environmental score, over damage potential and distribution."""
    return firsts((v2.environmental_number({**vector, **last}, score), {**vector, **last})
                  for score, vector in by_tenths(version, numbers).items()
                  for last in assignments(version, ("CDP", "TD")))


def environmental_numbers(version):
    """The numbers that are rounded on the way to an environmental score."""
    first = adjusted_numbers(version)
    second = products(version, first)
    return [first, second] + ([distributed(version, second)] if version == "2.0" else [])


def near(version, numbers):
    """The vectors of the numbers near a jump, by rising number."""
    return [numbers[number] for number in sorted(numbers) if distance(version, number) <= NEAR]


def rows():
    for version in ("2.0", "3.0", "3.1"):
        based = base_numbers(version)
        found = [("base-near-jump", near(version, based)),
                 ("temporal-near-jump", near(version, products(version, based)))]
        for numbers in environmental_numbers(version):
            vectors = near(version, numbers)
            found.append(("environmental-near-jump", vectors))
            if version != "2.0":
                found.append(("modified-near-jump", [by_modified(version, v) for v in vectors]))
        for reason, vectors in found:
            for vector in vectors:
                yield accepted(reason, version, whole(version, vector))
