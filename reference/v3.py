"""CVSS v3.0 and v3.1: metrics and scores, from the tables and equations of the specifications, on
exact numbers.

A vector is a dictionary from metrics to the spellings of their values; scores are whole tenths.
"""
from fractions import Fraction
from functools import cache
from math import ceil, floor

from v2 import weighed

IMPACT = weighed("N 0, L 0.22, H 0.56")
REQUIREMENT = weighed("X 1, H 1.5, M 1, L 0.5")
# In printing order: the name in words, and the weight of each spelling.
BASE = {
    "AV": ("Attack Vector", weighed("P 0.2, L 0.55, A 0.62, N 0.85")),
    "AC": ("Attack Complexity", weighed("H 0.44, L 0.77")),
    "PR": ("Privileges Required", weighed("H 0.27, L 0.62, N 0.85")),
    "UI": ("User Interaction", weighed("R 0.62, N 0.85")),
    "S": ("Scope", {"U": None, "C": None}),
    "C": ("Confidentiality Impact", IMPACT),
    "I": ("Integrity Impact", IMPACT),
    "A": ("Availability Impact", IMPACT),
}
METRICS = {
    **BASE,
    "E": ("Exploit Code Maturity", weighed("X 1, H 1, F 0.97, P 0.94, U 0.91")),
    "RL": ("Remediation Level", weighed("X 1, U 1, W 0.97, T 0.96, O 0.95")),
    "RC": ("Report Confidence", weighed("X 1, C 1, R 0.96, U 0.92")),
    "CR": ("Confidentiality Requirements", REQUIREMENT),
    "IR": ("Integrity Requirements", REQUIREMENT),
    "AR": ("Availability Requirements", REQUIREMENT),
    **{"M" + name: ("Modified " + words.removesuffix(" Impact"), {"X": None, **weights})
       for name, (words, weights) in BASE.items()},
}
CHANGED_PRIVILEGES = weighed("H 0.5, L 0.68, N 0.85")


def weight(vector, name):
    """The weight of a metric, where an absent base metric weighs nothing."""
    if name not in vector:
        return Fraction(0 if name in BASE else 1)
    changed = name == "PR" and is_changed(vector)
    return (CHANGED_PRIVILEGES if changed else METRICS[name][1])[vector[name]]


def tenths(minor, x):
    """The least tenth that is not below x, for v3.1 of the nearest fifth decimal to x."""
    if minor == 1:
        x = max(Fraction(0), Fraction(floor(x * 100_000 + Fraction(1, 2)), 100_000))
    return ceil(x * 10)


def sub_score(vector, requirements):
    """The sub-score of the impacts (ISS), each multiplied by its requirement (MISS)."""
    rests = Fraction(1)
    for name, requirement in zip("CIA", requirements):
        rests *= 1 - weight(vector, name) * requirement
    return 1 - rests


@cache
def power(number, exponent):
    return number ** exponent


def is_changed(vector):
    return vector.get("S") == "C"


def exploitability(vector):
    product = Fraction("8.22")
    for name in ("AV", "AC", "PR", "UI"):
        product *= weight(vector, name)
    return product


def impact(vector, sub_score, raised):
    """The impact by the scope, below 0 where the scope is changed and nothing is hit."""
    if is_changed(vector):
        return Fraction("7.52") * (sub_score - Fraction("0.029")) - Fraction("3.25") * raised
    return Fraction("6.42") * sub_score


def unrounded(vector, reached):
    """The number of which a score is the rounding, by the impact that is reached."""
    if reached <= 0:
        return Fraction(0)
    factor = Fraction("1.08") if is_changed(vector) else 1
    return min(Fraction(10), (reached + exploitability(vector)) * factor)


def base_impact(vector):
    own = sub_score(vector, [1, 1, 1])
    return impact(vector, own, power(own - Fraction("0.02"), 15))


def base_number(vector):
    """The number of which the base score is the rounding."""
    return unrounded(vector, base_impact(vector))


def base(minor, vector):
    return tenths(minor, base_number(vector))


def modified(vector):
    """The base metrics, each in place of which a modified one is set being that one."""
    own = {name: vector["M" + name] if vector.get("M" + name, "X") != "X" else vector.get(name)
           for name in BASE}
    return {name: value for name, value in own.items() if value}


def modified_sub_score(vector):
    """The sub-score of the modified impacts (MISS)."""
    requirements = [weight(vector, name) for name in ("CR", "IR", "AR")]
    return min(Fraction("0.915"), sub_score(modified(vector), requirements))


def modified_impact(minor, own, reached):
    """The impact that these values give with the sub-score of the impacts that is reached."""
    raised = (power(reached * Fraction("0.9731") - Fraction("0.02"), 13) if minor == 1
              else power(reached - Fraction("0.02"), 15))
    return impact(own, reached, raised)


def modified_unrounded(minor, own, reached):
    """The number that these values give with the sub-score of the impacts that is reached."""
    return unrounded(own, modified_impact(minor, own, reached))


def modified_number(minor, vector):
    """The number that the environmental score rounds first, before its temporal metrics weigh."""
    return modified_unrounded(minor, modified(vector), modified_sub_score(vector))


def temporal_weight(vector):
    return weight(vector, "E") * weight(vector, "RL") * weight(vector, "RC")


def temporal(minor, vector):
    return tenths(minor, Fraction(base(minor, vector), 10) * temporal_weight(vector))


@cache
def first_score(minor, values):
    """What the first rounding of the environmental score gives for effective values."""
    return tenths(minor, modified_number(minor, dict(values)))


def environmental(minor, vector):
    requirements = {name: vector.get(name, "X") for name in ("CR", "IR", "AR")}
    first = first_score(minor, (*modified(vector).items(), *requirements.items()))
    return tenths(minor, Fraction(first, 10) * temporal_weight(vector))


def scores(minor, vector):
    """The base, temporal and environmental score, in tenths."""
    return [base(minor, vector), temporal(minor, vector), environmental(minor, vector)]


def severity(score):
    """The rating of a score of v3 or v4."""
    return ("none" if score < 1 else "low" if score < 40 else "medium" if score < 70
            else "high" if score < 90 else "critical")
