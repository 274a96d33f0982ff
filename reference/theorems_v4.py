"""What docs/THEOREMS.md says of CVSS v4.0, tried over all 15,116,544 effective vectors: each value of each base metric (with S of
SI and SA), of CR, IR and AR, and A, P and U of E.

The score is computed of each group of metrics by its class, its distance from the worst of the class, and whether all its
impacts are N. So it is computed once for each of these, a state, and counted as often as values are in that state.
"""
from collections import Counter
from fractions import Fraction
from functools import cache
from itertools import product
from math import floor, prod

import v4

NAMES = {group: [name.removeprefix("M") for name in names] for group, names in v4.GROUPS.items()}
MATURITIES = "APU"

# The highest severity vectors of each class, from the tables of the specification, section 8.2.
HIGHEST = {
    v4.access: {0: ["N/N/N"], 1: ["A/N/N", "N/L/N", "N/N/P"], 2: ["P/N/N", "A/L/P"]},
    v4.complexity: {0: ["L/N"], 1: ["H/N", "L/P"]},
    v4.vulnerable: {(0, 0): ["H/H/H/H/H/H"], (0, 1): ["H/H/L/M/M/H", "H/H/H/M/M/M"],
                    (1, 0): ["L/H/H/H/H/H", "H/L/H/H/H/H"],
                    (1, 1): ["L/H/L/H/M/H", "L/H/H/H/M/M", "H/L/H/M/H/M", "H/L/L/M/H/H", "L/L/H/H/H/M"],
                    (2, 1): ["L/L/L/H/H/H"]},
    v4.subsequent: {0: ["H/S/S"], 1: ["H/H/H"], 2: ["L/L/L"]},
}


def severity_levels(name):
    return {spelling: level for spelling, level in v4.METRICS[name][1].items() if spelling != "X"}


def axes(group):
    """The values of the metrics of a group, from the most severe one down."""
    return {name: sorted(levels, key=levels.get) for name in v4.GROUPS[group] for levels in [severity_levels(name)]}


def levels_of(group, values):
    return [v4.METRICS[name][1][value] for name, value in zip(v4.GROUPS[group], values)]


def state(group, values):
    impacts = [value for name, value in zip(NAMES[group], values) if name[0] in "VS"]
    return group(*values), v4.distance(group, values), {*impacts} == {"N"}


STATES = {group: {values: state(group, values) for values in product(*axes(group).values())} for group in v4.GROUPS}
COUNTS = {group: Counter(states.values()) for group, states in STATES.items()}
# Values in each state.
CHOICES = {group: {found: dict(zip(NAMES[group], values)) for values, found in states.items()}
           for group, states in STATES.items()}


def chosen(states, maturity="A"):
    """A vector in these states."""
    own = {"E": maturity}
    for group, found in zip(v4.GROUPS, states):
        own |= CHOICES[group][found]
    return own


@cache
def numbers():
    """The number of tenths before the rounding, in all states."""
    return {(*states, maturity): v4.number(chosen(states, maturity))
            for states in product(*CHOICES.values()) for maturity in MATURITIES}


def rounded(number):
    return floor(number + Fraction(1, 2))


@cache
def scores():
    return {states: rounded(number) for states, number in numbers().items()}


def count_of(states):
    return prod(counts[found] for counts, found in zip(COUNTS.values(), states))


def lowered(group):
    """The states of values of a group with those of the values in which one metric is one step less severe."""
    pairs = set()
    for values, found in STATES[group].items():
        for place, axis in enumerate(axes(group).values()):
            step = axis.index(values[place]) + 1
            if step < len(axis):
                pairs.add((found, STATES[group][(*values[:place], axis[step], *values[place + 1:])]))
    return pairs


def steps():
    """All states with those after one step down."""
    steps_of = [*map(lowered, v4.GROUPS), {*zip(MATURITIES, MATURITIES[1:])}]
    states_of = [*CHOICES.values(), MATURITIES]
    for place, pairs in enumerate(steps_of):
        before, after = product(*states_of[:place]), states_of[place + 1:]
        for start, end, (high, low) in product(list(before), list(product(*after)), pairs):
            yield (*start, high, *end), (*start, low, *end)


@cache
def never_falls():
    """Between two vectors of which one is as severe in every metric lies a chain of steps, all of them over vectors of this
    set. So no score falls if none falls in a step."""
    return all(scores()[high] >= scores()[low] for high, low in steps())


def orders():
    yield "Raising a v4.0 vector never lowers its score.", never_falls()


def table_values():
    """What the table has for a MacroVector and for its next lower ones, and the scores between them."""
    between, gaps, impacts = [], [], []
    for states, score in scores().items():
        own = chosen(states[:4], states[4])
        value, lower = v4.class_values(own)
        gaps.append(max(lower.values(), default=0) <= value)
        if v4.has_impact(own):
            between.append(min(lower.values(), default=value) <= score <= value)
            impacts.append(1 <= numbers()[states] <= 100)
        else:
            impacts.append(score == 0)
    yield "No v4.0 MacroVector has a smaller value in the table than its next lower ones.", all(gaps)
    yield ("A v4.0 score with impact lies between the value of its MacroVector in the table and the least value of the next "
           "lower MacroVectors; where there are none, it is the value of its MacroVector."), all(between)
    yield "A v4.0 score is 0.0 without impact, and with impact at least 0.1.", all(impacts)


def highest_vectors():
    """Values of a group, and those of the highest severity vectors of their class. That all of these have the distance 0 means
    that none has a greater sum of levels than another."""
    dominated, listed = [], []
    for group, states in STATES.items():
        maxima = {name: [tuple(text.split("/")) for text in texts] for name, texts in HIGHEST[group].items()}
        for values, (name, _, _) in states.items():
            dominated.append(any(all(most <= level for most, level in zip(levels_of(group, each), levels_of(group, values)))
                                 for each in maxima[name]))
        listed += [states[each][0] == name and states[each][1][0] == 0 for name, texts in maxima.items() for each in texts]
    yield ("Each v4.0 vector has a highest severity vector of its MacroVector that is at least as severe in every metric, and "
           "its severity distance is the same from each of these."), all(dominated) and all(listed)


def other_laws():
    base = {name: "N" for name in v4.BASE}
    yield "A v4.0 vector without E scores as with E:A, and with any other E at most that.", (
        v4.effective(base) == v4.effective(base | {"E": "A"})
        and all(scores()[(*states[:4], "A")] >= score for states, score in scores().items()))
    yield "A v4.0 metric that is X scores as one that is absent.", all(
        v4.effective(base | {name: "X"}) == v4.effective(base) for name in v4.METRICS if name not in v4.BASE)
    yield ("A v4.0 modified metric scores as its base metric does with that value, so modified values equal to the base values "
           "change nothing."), all(
               v4.effective(base | {name: value, "M" + name: other}) == v4.effective(base | {name: other})
               for name in v4.BASE for value in v4.BASE[name][1] for other in v4.METRICS["M" + name][1] if other != "X")
    yield "Adding 10^-6 before the rounding, as calculators do, changes no v4.0 score.", all(
        rounded(number) == rounded(number + Fraction(1, 100_000)) for number in numbers().values())
    yield f"With threat and environmental metrics v4.0 has all {len({*scores().values()})} scores from 0.0 to 10.0.", (
        {*scores().values()} == {*range(101)})


def theorems():
    yield from orders()
    yield from table_values()
    yield from highest_vectors()
    yield from other_laws()


def effective_vectors():
    return sum(map(count_of, scores()))


def counts():
    """How many base vectors have each score. Without S, and with CR, IR and AR as H."""
    states_of = [Counter(found for values, found in states.items() if "S" not in values and all(
        value == "H" for name, value in zip(NAMES[group], values) if name in ("CR", "IR", "AR")))
        for group, states in STATES.items()]
    found = Counter()
    for states in product(*states_of):
        found[scores()[(*states, "A")]] += prod(each[name] for each, name in zip(states_of, states))
    return found
