"""What docs/THEOREMS.md says of CVSS v3.0 and v3.1, tried over all vectors: 2,592 choices of the base metrics, 27 of the
requirements and 48 of the temporal metrics that weigh differently. With missing base metrics, as the library accepts
them, there are 9,720 choices of the base metrics: a missing one weighs 0, and a missing scope is unchanged.

Beside the scope, a score is computed of the exploitability and of the sub-score of the impacts, so it is computed once for
each of these. The last rounding is tried for each number in tenths that the first one gives.
"""
from collections import Counter
from fractions import Fraction
from functools import cache
from itertools import product
from math import floor, prod

import v3
from grids import fall, points, rising

MINORS = (0, 1)
IMPACTS = {name: rising(v3.BASE[name]) for name in "CIA"}
ACCESS = {name: rising(v3.BASE[name]) for name in ("AV", "AC", "PR", "UI")}
# None is the missing metric, which weighs less than all values; C, I or A that is missing weighs as N.
OPEN = {name: [None, *axis] for name, axis in ACCESS.items()}
REQUIREMENTS = {name: rising(v3.METRICS[name]) for name in ("CR", "IR", "AR")}
TEMPORAL = {name: rising(v3.METRICS[name]) for name in ("E", "RL", "RC")}
WEIGHTS = [v3.temporal_weight(vector) for vector in points(TEMPORAL)]
# The modified sub-score of each choice of C, I, A, CR, IR and AR.
SUB_SCORES = [v3.modified_sub_score(vector) for vector in points(IMPACTS | REQUIREMENTS)]


def accesses(scopes, access):
    """Each choice of the scope and of AV, AC, PR and UI."""
    return [vector | {"S": scope} for scope, vector in product(scopes, points(access))]


def reach(own):
    return own["S"], v3.exploitability(own)


# A choice with each exploitability.
CHOICES = {reach(own): own for own in accesses("UC", OPEN)}


@cache
def base_row(minor, reached):
    """The base scores for all impacts."""
    return [v3.base(minor, CHOICES[reached] | impacts) for impacts in points(IMPACTS)]


@cache
def first_row(minor, reached):
    """What the first rounding of the environmental scores gives for all impacts and requirements."""
    scores = {own: v3.tenths(minor, v3.modified_unrounded(minor, CHOICES[reached], own)) for own in {*SUB_SCORES}}
    return [scores[own] for own in SUB_SCORES]


def grid(row, minor, scopes="UC", access=OPEN):
    """The numbers of a row for all choices of the scope, AV, AC, PR and UI."""
    return [score for own in accesses(scopes, access) for score in row(minor, reach(own))]


def base_fall(minor):
    return fall(["UC", *OPEN.values(), *IMPACTS.values()], grid(base_row, minor))


@cache
def first_fall(minor, scopes="UC", complete=False):
    """By how much the first rounding of the environmental score falls at most; with missing base metrics unless complete."""
    access = ACCESS if complete else OPEN
    axes = [scopes, *access.values(), *IMPACTS.values(), *REQUIREMENTS.values()]
    return fall(axes, grid(first_row, minor, scopes, access))


@cache
def last_scores(minor, first):
    """What the temporal metrics make of a score in tenths, the most severe ones last."""
    return [v3.tenths(minor, Fraction(first, 10) * weight) for weight in WEIGHTS]


@cache
def last_fall(minor):
    """By how much the last rounding falls at most as the first score or the temporal metrics rise."""
    return fall([range(101), *TEMPORAL.values()], [score for first in range(101) for score in last_scores(minor, first)])


def keeps_falls(minor):
    """Whether an environmental score falls by as much at most as the first rounding of it. The last rounding never falls, a
    tenth more before it is a tenth more after it at most, and without temporal metrics it changes nothing."""
    return last_fall(minor) == 0 and all(last_scores(minor, first)[-1] == first for first in range(101)) and all(
        more - less <= 1 for first in range(100)
        for less, more in zip(last_scores(minor, first), last_scores(minor, first + 1)))


def falls(minor):
    """By how much base, temporal and environmental scores of vectors with all base metrics fall at most."""
    assert keeps_falls(minor), f"v3.{minor}: the last rounding of an environmental score adds to a fall"
    return base_fall(minor), last_fall(minor), first_fall(minor, complete=True)


def orders():
    keeps = all(map(keeps_falls, MINORS))
    yield ("Raising a v3.0 or v3.1 vector never lowers its base score or its temporal score, also where its scope becomes "
           "changed."), keeps and all(base_fall(minor) == 0 for minor in MINORS)
    yield "Raising a v3.1 vector that has all base metrics never lowers its environmental score.", (
        keeps and first_fall(1, complete=True) == 0)
    yield "Raising a v3.1 vector in one modified scope never lowers its environmental score.", (
        keeps and first_fall(1, "U") == first_fall(1, "C") == 0)
    yield "Raising a v3.0 vector whose modified scope stays unchanged never lowers its environmental score.", (
        keeps and first_fall(0, "U") == 0)
    yield f"Raising a v3.0 vector can lower its environmental score, but never by more than {first_fall(0) / 10}.", (
        keeps and first_fall(0) > 0)
    yield (f"Raising a v3.1 vector that lacks base metrics can lower its environmental score where the modified scope becomes "
           f"changed, but never by more than {first_fall(1) / 10}."), keeps and first_fall(1) > 0
    yield "A v3 temporal score is at most the base score.", all(
        max(last_scores(minor, first)) <= first for minor in MINORS for first in range(101))


def differences():
    """v3.0 and v3.1."""
    same = all(last_scores(0, first) == last_scores(1, first) for first in range(101))
    yield "v3.0 and v3.1 give every vector the same base score and the same temporal score.", (
        same and grid(base_row, 0) == grid(base_row, 1))
    yield "v3.0 and v3.1 give every vector whose modified scope is unchanged the same environmental score.", (
        same and grid(first_row, 0, "U") == grid(first_row, 1, "U"))
    firsts = Counter(zip(grid(first_row, 0, access=ACCESS), grid(first_row, 1, access=ACCESS)))
    changes = Counter()
    for (one, other), count in firsts.items():
        for less, more in zip(last_scores(0, one), last_scores(1, other)):
            changes[more - less] += count
    yield (f"Of the {changes.total():,} effective vectors of v3, {changes.total() - changes[0]:,} have another environmental "
           f"score in v3.1 than in v3.0: {changes[1]:,} score 0.1 more, and {changes[-1]:,} score 0.1 less."), (
               {*changes} == {-1, 0, 1})


def without_environmental():
    """Vectors without environmental metrics. The temporal score follows from the base score as the environmental one does from
    what its first rounding gives."""
    plain = [{v3.weight(vector, name) for name in REQUIREMENTS} == {1} for vector in points(IMPACTS | REQUIREMENTS)]
    changes = {minor: Counter() for minor in MINORS}
    for minor in MINORS:
        for own in accesses("UC", ACCESS):
            firsts = [score for score, is_plain in zip(first_row(minor, reach(own)), plain) if is_plain]
            changes[minor].update(first - base for base, first in zip(base_row(minor, reach(own)), firsts))
    yield "Without environmental metrics, a v3.0 environmental score is the temporal score.", {*changes[0]} == {0}
    yield (f"Of the {changes[1].total():,} base vectors, {changes[1].total() - changes[1][0]} have a v3.1 environmental score "
           f"that is not their base score: {changes[1][1]} score 0.1 more, and {changes[1][-1]} score 0.1 less."), (
               {*changes[1]} == {-1, 0, 1})


def is_same_when_cut(number):
    """Whether v3.1 rounds a number in the same way after cutting it off at the fifth decimal."""
    return v3.tenths(1, number) == v3.tenths(0, Fraction(floor(number * 100_000), 100_000))


def other_laws():
    names = [name for name in v3.METRICS if name not in v3.BASE and name[1:] not in v3.BASE]
    yield "A v3 metric that is X scores as one that is absent.", (
        all(v3.weight({name: "X"}, name) == v3.weight({}, name) for name in names)
        and all(v3.modified({name: value, "M" + name: "X"}) == {name: value} for name in v3.BASE for value in v3.BASE[name][1]))
    yield ("A v3 modified metric scores as its base metric does with that value, so modified values equal to the base values "
           "change nothing."), all(
               v3.modified({name: value, "M" + name: other}) == {name: other}
               for name in v3.BASE for value in v3.BASE[name][1] for other in v3.BASE[name][1])


def roundings():
    """The numbers that base and temporal scores are the roundings of, and those of environmental scores by version."""
    numbers = [v3.base_number(own | impacts) for own in CHOICES.values() for impacts in points(IMPACTS)]
    numbers += [Fraction(first, 10) * weight for first in range(101) for weight in WEIGHTS]
    old, new = [[v3.modified_unrounded(minor, own, reached) for own in CHOICES.values() for reached in {*SUB_SCORES}]
                for minor in MINORS]
    yield "Every number of a v3 score is rounded to the same tenth by v3.0 and by v3.1.", all(
        v3.tenths(0, number) == v3.tenths(1, number) for number in (*numbers, *old, *new))
    yield "To cut a number off at the fifth decimal in place of rounding it there changes no v3.1 score.", all(
        map(is_same_when_cut, (*numbers, *new)))


def theorems():
    yield from orders()
    yield from differences()
    yield from without_environmental()
    yield from other_laws()
    yield from roundings()


def effective_vectors():
    return prod(map(len, (ACCESS | {"S": "UC"} | IMPACTS | REQUIREMENTS | TEMPORAL).values()))


def counts():
    """How many base vectors have each score."""
    return Counter(grid(base_row, 1, access=ACCESS))
