"""CVSS v2: metrics and scores, from the tables and equations of the guide, on exact numbers.

A vector is a dictionary from metrics to the spellings of their values; scores are whole tenths.
"""
from fractions import Fraction
from functools import cache


def weighed(text):
    """Values written as `spelling weight`, with commas between them."""
    pairs = (pair.split() for pair in text.split(","))
    return {spelling: Fraction(weight) for spelling, weight in pairs}


IMPACT = weighed("N 0, P 0.275, C 0.660")
REQUIREMENT = weighed("L 0.5, M 1, H 1.51, ND 1")
# In printing order: the name in words, and the weight of each spelling.
METRICS = {
    "AV": ("Access Vector", weighed("L 0.395, A 0.646, N 1")),
    "AC": ("Access Complexity", weighed("H 0.35, M 0.61, L 0.71")),
    "Au": ("Authentication", weighed("M 0.45, S 0.56, N 0.704")),
    "C": ("Confidentiality Impact", IMPACT),
    "I": ("Integrity Impact", IMPACT),
    "A": ("Availability Impact", IMPACT),
    "E": ("Exploitability", weighed("U 0.85, POC 0.9, F 0.95, H 1, ND 1")),
    "RL": ("Remediation Level", weighed("OF 0.87, TF 0.9, W 0.95, U 1, ND 1")),
    "RC": ("Report Confidence", weighed("UC 0.9, UR 0.95, C 1, ND 1")),
    "CDP": ("Collateral Damage Potential", weighed("N 0, L 0.1, LM 0.3, MH 0.4, H 0.5, ND 0")),
    "TD": ("Target Distribution", weighed("N 0, L 0.25, M 0.75, H 1, ND 1")),
    "CR": ("Confidentiality Requirement", REQUIREMENT),
    "IR": ("Integrity Requirement", REQUIREMENT),
    "AR": ("Availability Requirement", REQUIREMENT),
}
MANDATORY = ["AV", "AC", "Au", "C", "I", "A"]


def weight(vector, name):
    """The weight of a metric, where an absent one counts as the guide says."""
    if name in vector:
        return METRICS[name][1][vector[name]]
    return Fraction(0 if name in MANDATORY or name == "CDP" else 1)


def tenths(x):
    """The nearest tenth to x + 10^-6, half away from zero, in tenths."""
    x = (x + Fraction(1, 1_000_000)) * 10
    sign = -1 if x < 0 else 1
    return sign * ((2 * abs(x) + 1) // 2)


def impact(vector, requirements):
    rests = Fraction(1)
    for name, requirement in zip("CIA", requirements):
        wanted = weight(vector, requirement) if requirement else 1
        rests *= 1 - weight(vector, name) * wanted
    return Fraction("10.41") * (1 - rests)


def adjusted_impact(vector):
    return min(Fraction(10), impact(vector, ["CR", "IR", "AR"]))


def exploitability(vector):
    return 20 * weight(vector, "AV") * weight(vector, "AC") * weight(vector, "Au")


def f(impact):
    """The factor f(Impact) of the base equation."""
    return Fraction("1.176") if impact else Fraction(0)


def base_number(vector, impact):
    """The number of which the base score is the rounding."""
    weighed_impact = Fraction("0.6") * impact + Fraction("0.4") * exploitability(vector)
    return (weighed_impact - Fraction("1.5")) * f(impact)


def base(vector, impact):
    return tenths(base_number(vector, impact))


def temporal_weight(vector):
    return weight(vector, "E") * weight(vector, "RL") * weight(vector, "RC")


def temporal_of(score, vector):
    """The temporal score by the base score, in tenths."""
    return tenths(Fraction(score, 10) * temporal_weight(vector))


def temporal(vector, impact):
    return temporal_of(base(vector, impact), vector)


def environmental_number(vector, adjusted_temporal):
    """The number of which the environmental score is the rounding."""
    score = Fraction(adjusted_temporal, 10)
    return (score + (10 - score) * weight(vector, "CDP")) * weight(vector, "TD")


@cache
def base_scores(values):
    """The base score and the adjusted base score by the base metrics and the requirements."""
    vector = dict(values)
    return base(vector, impact(vector, [None, None, None])), base(vector, adjusted_impact(vector))


def scores(vector):
    """The published base, temporal and environmental score, in tenths."""
    of_base = (*MANDATORY, "CR", "IR", "AR")
    own, adjusted = base_scores(tuple((name, value) for name, value in vector.items() if name in of_base))
    environmental = tenths(environmental_number(vector, temporal_of(adjusted, vector)))
    return [max(0, score) for score in (own, temporal_of(own, vector), environmental)]


def severity(score):
    return "low" if score < 40 else "medium" if score < 70 else "high"
