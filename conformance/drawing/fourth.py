"""MacroVectors of v4.0: both ends of all 270, exact halves, Safety, nomenclature."""
from fractions import Fraction
from functools import lru_cache, reduce
from itertools import product
from math import floor
from operator import add

from .rows import METRICS, UNDEFINED, accepted, base_vector, by_modified, in_order, options, v4

HALF = Fraction(1, 2)
# 10^-6, which some calculators add before they round, in tenths.
MARGIN = Fraction(1, 100_000)
# The highest severity vectors of each class, as the specification lists them, in the order of the
# metrics of the group.
MAXIMAL = {
    v4.access: {0: ["NNN"], 1: ["ANN", "NLN", "NNP"], 2: ["PNN", "ALP"]},
    v4.complexity: {0: ["LN"], 1: ["HN", "LP"]},
    v4.vulnerable: {(0, 0): ["HHHHHH"], (0, 1): ["HHLMMH", "HHHMMM"], (1, 0): ["LHHHHH", "HLHHHH"],
                    (1, 1): ["LHLHMH", "LHHHMM", "HLHMHM", "HLLMHH", "LLHHHM"], (2, 1): ["LLLHHH"]},
    v4.subsequent: {0: ["HSS"], 1: ["HHH"], 2: ["LLL"]},
}
SAFETY = [{"MSI": "S"}, {"MSA": "S"}, {"MSI": "S", "MSA": "S"}]


def level(name, spelling):
    return METRICS["4.0"][name][1][spelling]


@lru_cache(maxsize=None)
def members(group):
    """The values of a group by their class and level sum, those without impact only where no other
    have the sum."""
    names = v4.GROUPS[group]
    found = {}
    for values in product(*(METRICS["4.0"][name][1] for name in names)):
        if "X" not in values:
            total = sum(map(level, names, values))
            found.setdefault(group(*values), {}).setdefault(total, []).append(values)
    for sums in found.values():
        for total, same in sums.items():
            sums[total] = [values for values in same if set(values[:3]) != {"N"}] or same
    return found


def vector_of(chosen, maturity):
    """A vector with these effective values of the groups, by base metrics as far as they go."""
    vector = {"E": maturity}
    for group, values in chosen.items():
        for name, value in zip(v4.GROUPS[group], values):
            if value == "S":
                vector[name] = value
            vector[name.removeprefix("M")] = "H" if value == "S" else value
    return in_order("4.0", vector)


def classes():
    """Each of the 270 classes: the class of each group, and the exploit maturity."""
    return product(product(*(members(group).items() for group in v4.GROUPS)), "APU")


def class_ends():
    for groups, maturity in classes():
        for end in (min, max):
            ends = [sums[end(sums)] for _, sums in groups]
            yield vector_of({group: same[0] for group, same in zip(v4.GROUPS, ends)}, maturity)
            last = vector_of({group: same[-1] for group, same in zip(v4.GROUPS, ends)}, maturity)
            yield by_modified("4.0", last)


def distance_in_doubles(group, values):
    """How far values lie below the first highest severity vector that none of them is above."""
    names = v4.GROUPS[group]
    for highest in MAXIMAL[group][group(*values)]:
        steps = [level(name, value) / 10 - level(name, top) / 10
                 for name, value, top in zip(names, values, highest)]
        if min(steps) >= 0:
            return reduce(add, steps)
    raise AssertionError(f"{values} has no highest severity vector")


def number_in_doubles(vector, chosen):
    """The score before its rounding, as calculators compute it in doubles."""
    value, lower = v4.class_values(v4.effective(vector))
    total = 0.0
    for group, below in lower.items():
        if group:
            sums = v4.level_sums(group)[group(*chosen[group])]
            depth = (max(sums) - min(sums) + 1) * 0.1
            total += (value / 10 - below / 10) * (distance_in_doubles(group, chosen[group]) / depth)
    return value / 10 - total / len(lower) if lower else value / 10


def same_distances(sums):
    """All choices of values with these class and level sums whose distances in doubles differ."""
    found = []
    for group, same in zip(v4.GROUPS, sums):
        differing = {distance_in_doubles(group, values): values for values in same}
        found.append(list(differing.values()))
    return [dict(zip(v4.GROUPS, chosen)) for chosen in product(*found)]


def crossing_in_doubles(sums, maturity, tenths):
    """A vector with these level sums whose number in doubles is rounded to another tenth."""
    for chosen in same_distances(sums):
        vector = vector_of(chosen, maturity)
        double = number_in_doubles(vector, chosen)
        if floor((double + 1e-6) * 10 + 0.5) != tenths:
            raise AssertionError(f"{vector}: doubles with the margin differ")
        if floor(double * 10 + 0.5) != tenths or f"{double:.1f}" != f"{tenths / 10:.1f}":
            return vector
    return None


def halves():
    """A vector for each class with distances whose number is an exact half, where there is one by a
    vector at which doubles fail."""
    for groups, maturity in classes():
        for turn, sums in enumerate(product(*(sums.values() for _, sums in groups))):
            # another choice of values each time, so that none stands for all
            sums = [same[turn % len(same):] + same[:turn % len(same)] for same in sums]
            vector = vector_of({group: same[0] for group, same in zip(v4.GROUPS, sums)}, maturity)
            number = v4.number(vector)
            if floor(number + HALF) != floor(number + MARGIN + HALF):
                raise AssertionError(f"{vector}: adding 10^-6 changes the tenth")
            if number % 1 == HALF:
                crossing = crossing_in_doubles(sums, maturity, floor(number + HALF))
                yield ("half-in-doubles", crossing) if crossing else ("half", vector)


def with_safety():
    for vulnerable, later, (integrity, availability), safety in product(
            ("H H H", "H L N", "N N N"), "HLN", product("HLN", repeat=2), SAFETY):
        base = base_vector("4.0", f"N L N L N {vulnerable} {later} {integrity} {availability}")
        yield {**base, **safety}


def nomenclatures():
    """Each optional metric alone, also as X; and the threat metric with each."""
    base = base_vector("4.0", "A L N L N L H L L N L")
    for name in options("4.0"):
        for value in (list(METRICS["4.0"][name][1])[0], UNDEFINED["4.0"]):
            for threat in ({}, {"E": "P"}, {"E": "X"}):
                yield {**base, **threat, name: value}


def rows():
    for reason, vectors in (("class-ends", class_ends()), ("safety", with_safety()),
                            ("nomenclature", nomenclatures())):
        for vector in vectors:
            yield accepted(reason, "4.0", in_order("4.0", vector))
    for reason, vector in halves():
        yield accepted(reason, "4.0", in_order("4.0", vector))
