"""What docs/THEOREMS.md says of CVSS v2, tried over all vectors: 729 choices of the base metrics, 27 of the requirements, 48 of
the temporal metrics, and 20 of CDP and TD that weigh differently.

An environmental score is computed of the adjusted base score and of the temporal metrics, CDP and TD. So there is a grid of
adjusted base scores, and for each score that occurs in it a row of environmental scores.
"""
from collections import Counter
from fractions import Fraction
from functools import cache
from math import prod

import v2
from grids import NONE, fall, greatest_below, points, rising

REQUIREMENTS = ("CR", "IR", "AR")
BASE = {name: rising(v2.METRICS[name]) for name in v2.MANDATORY}
ADJUSTED = BASE | {name: rising(v2.METRICS[name]) for name in REQUIREMENTS}
TEMPORAL = {name: rising(v2.METRICS[name]) for name in ("E", "RL", "RC")}
OTHERS = TEMPORAL | {name: rising(v2.METRICS[name]) for name in ("CDP", "TD")}


def nearest(x):
    """The nearest tenth, half away from zero, without the 10^-6 that `v2.tenths` adds."""
    return v2.tenths(x - Fraction(1, 1_000_000))


@cache
def base_numbers():
    """What the base equation gives for each base vector."""
    return [v2.base_number(vector, v2.impact(vector, [None] * 3)) for vector in points(BASE)]


@cache
def base_scores():
    return [v2.tenths(number) for number in base_numbers()]


@cache
def temporal_rows():
    """By base score the temporal scores."""
    return {score: [v2.temporal_of(score, vector) for vector in points(TEMPORAL)] for score in sorted({*base_scores()})}


@cache
def adjusted_impact(*values):
    return v2.adjusted_impact(dict(zip(("C", "I", "A", *REQUIREMENTS), values)))


@cache
def adjusted_numbers():
    """What the adjusted base equation gives for each choice of the base metrics and the requirements."""
    return [v2.base_number(vector, adjusted_impact(*(vector[name] for name in ("C", "I", "A", *REQUIREMENTS))))
            for vector in points(ADJUSTED)]


@cache
def adjusted_scores():
    return [v2.tenths(number) for number in adjusted_numbers()]


@cache
def adjusted_temporal(rounded, adjusted, *values):
    return rounded(Fraction(adjusted, 10) * v2.temporal_weight(dict(zip(TEMPORAL, values))))


@cache
def last_score(rounded, temporal, *values):
    return max(0, rounded(v2.environmental_number(dict(zip(("CDP", "TD"), values)), temporal)))


def environmental(adjusted, vector, rounded=v2.tenths):
    """The published environmental score by the adjusted base score."""
    temporal = adjusted_temporal(rounded, adjusted, *(vector[name] for name in TEMPORAL))
    return last_score(rounded, temporal, vector["CDP"], vector["TD"])


@cache
def environmental_rows():
    """By adjusted base score, from the least one up, the environmental scores."""
    others = list(points(OTHERS))
    return {score: [environmental(score, vector) for vector in others] for score in sorted({*adjusted_scores()})}


def rows_fall(rows, axes):
    return fall([list(rows), *axes.values()], [score for row in rows.values() for score in row])


def keeps_order():
    """Whether of two adjusted base scores the greater gives no less with the same other metrics, and whether raising these
    lowers nothing where the adjusted base score is 0 or more. Then no vector scores more than a raised one whose adjusted base
    score is 0 or more and no less: a number below 0 gives no more than 0, and 0 no more than the greater one."""
    rows = environmental_rows()
    ordered = list(rows.values())
    return rows_fall({score: row for score, row in rows.items() if score >= 0}, OTHERS) == 0 and all(
        x <= y for low, high in zip(ordered, ordered[1:]) for x, y in zip(low, high))


@cache
def falls():
    """By how much base, temporal and environmental scores fall at most. The adjusted base score falls only from 0 to the one
    score below 0, so for environmental scores it is enough to look at the rows of these two."""
    above = greatest_below([len(axis) for axis in ADJUSTED.values()], adjusted_scores())
    least, second, *_ = rows = environmental_rows()
    fallen = {(most, score) for most, score in zip(above, adjusted_scores()) if most > score}
    assert keeps_order() and second == 0 and fallen == {(0, least)}, f"v2: adjusted base scores fall as in {fallen}"
    return (fall(BASE.values(), base_scores()), rows_fall(temporal_rows(), TEMPORAL),
            rows_fall({score: rows[score] for score in (0, least)}, OTHERS))


def is_exception(vector):
    """What the theorem says of the vectors whose adjusted base equation gives a number below 0."""
    impacts = {name: vector[name] for name in "CIA" if vector[name] != "N"}
    return (vector["AV"], vector["AC"]) == ("L", "H") and vector["Au"] in ("M", "S") and len(impacts) == 1 and all(
        value == "P" and vector[name + "R"] == "L" for name, value in impacts.items())


def orders():
    base, temporal, environmental = falls()
    yield "Raising a v2 vector never lowers its base score or its temporal score.", base == temporal == 0
    yield ("Raising a v2 vector never lowers its environmental score, unless the adjusted base equation gives a number below 0 "
           "for the raised vector."), keeps_order() and fall(ADJUSTED.values(), (
               score if number >= 0 else NONE for score, number in zip(adjusted_scores(), adjusted_numbers()))) == 0
    without_low = ADJUSTED | {name: [value for value in ADJUSTED[name] if value != "L"] for name in REQUIREMENTS}
    scores = [score for vector, score in zip(points(ADJUSTED), adjusted_scores())
              if all(vector[name] != "L" for name in REQUIREMENTS)]
    yield "Raising a v2 vector in which no requirement is L never lowers its environmental score.", (
        keeps_order() and min(scores) == 0 and fall(without_low.values(), scores) == 0)
    yield f"Raising a v2 vector can lower its environmental score, but never by more than {environmental / 10}.", environmental > 0
    yield "A v2 temporal score is at most the base score.", all(max(row) <= score for score, row in temporal_rows().items())


def negative_numbers():
    vectors = list(points(ADJUSTED))
    below = [vector for vector, number in zip(vectors, adjusted_numbers()) if number < 0]
    yield (f"The adjusted base equation gives a number below 0 for {len(below)} of the {len(vectors):,} choices of the base "
           "metrics, CR, IR and AR: those with AV:L, AC:H, and Au:M or Au:S, in which exactly one of C, I and A is P, its "
           "requirement is L, and the other two are N."), [*filter(is_exception, vectors)] == below
    yield "No v2 base equation gives a number below 0.", min(base_numbers()) == 0


def other_laws():
    products = {Fraction(score, 10) * v2.temporal_weight(vector) for score in {*base_scores()} for vector in points(TEMPORAL)}
    pairs = {(v2.tenths(number), nearest(number)) for number in adjusted_numbers()}
    others = list(points(OTHERS))
    yield "Adding 10^-6 before each rounding, as calculators do, changes no published v2 score.", (
        all(v2.tenths(number) == nearest(number) for number in {*base_numbers()} | products)
        and all(environmental(one, vector) == environmental(other, vector, nearest) for one, other in pairs for vector in others))
    yield "A v2 metric that is ND scores as one that is absent.", all(
        v2.weight({name: "ND"}, name) == v2.weight({}, name) for name in v2.METRICS if name not in v2.MANDATORY)


def theorems():
    yield from orders()
    yield from negative_numbers()
    yield from other_laws()


def effective_vectors():
    return prod(map(len, (ADJUSTED | OTHERS).values()))


def counts():
    """How many base vectors have each score."""
    return Counter(base_scores())
