"""Edge cases of the equations: versions that differ, numbers below 0, an impact at its cap."""
from fractions import Fraction
from itertools import product

from .jumps import (IMPACTS, REQUIREMENTS, adjusted_number, adjusted_numbers, adjusted_vectors,
                    assignments, base_numbers, exploitable, products, rounded, weighed_impact)
from .rows import BASE, accepted, v2, v3, whole

CAPS = {"2.0": Fraction(10), "3.0": Fraction("0.915"), "3.1": Fraction("0.915")}
# What an environmental score does with a number below 0 that is not raised to 0 before.
AFTER_BELOW_ZERO = [{}, {"CDP": "MH", "TD": "H"}, {"E": "U", "RL": "OF", "RC": "UC", "CDP": "LM"}]
WITHOUT_IMPACT = dict.fromkeys(("MC", "MI", "MA"), "N")


def differing():
    """Vectors that v3.0 and v3.1 score differently."""
    numbers = [found for version in ("3.0", "3.1")
               for stage in (base_numbers(version), adjusted_numbers(version))
               for found in (stage, products(version, stage))]
    rounding = [vector for found in numbers for number, vector in found.items()
                if rounded("3.0", number) != rounded("3.1", number)]
    changed = [vector for vector in adjusted_vectors("3.1") if vector["S"] == "C"]
    return [vector for vector in rounding + changed if v3.scores(0, vector) != v3.scores(1, vector)]


def below_zero():
    """v2: an adjusted base number below 0; v3: an impact that is not above 0."""
    below = {tuple(vector[name] for name in BASE["2.0"] if name not in IMPACTS)
             for number, vector in adjusted_numbers("2.0").items() if number < 0}
    for exploited, hurt in product(exploitable("2.0"), assignments("2.0", IMPACTS + REQUIREMENTS)):
        if tuple(exploited.values()) in below and adjusted_number("2.0", {**exploited, **hurt}) < 0:
            for last in AFTER_BELOW_ZERO:
                yield "2.0", {**exploited, **hurt, **last}
    for version in ("3.0", "3.1"):
        for exploited in exploitable(version):
            yield version, {**exploited, **dict.fromkeys(IMPACTS, "N")}
            yield version, {**exploited, **dict.fromkeys(IMPACTS, "H"), **WITHOUT_IMPACT}


def at_cap(version, exploited, cap):
    """The score with an impact that is cut off here."""
    if version == "2.0":
        return rounded(version, v2.base_number(exploited, cap))
    return rounded(version, v3.modified_unrounded(int(version[2:]), exploited, cap))


def telling_cap(version, cap):
    """Two choices of the rest, in v3 with each scope, by which a cap that is a thousandth part more
    or less gives another score, where there are such."""
    for scope in (None,) if version == "2.0" else ("U", "C"):
        scoped = [vector for vector in exploitable(version) if vector.get("S") == scope]
        for other in (cap - cap / 1000, cap + cap / 1000):
            telling = [vector for vector in scoped
                       if at_cap(version, vector, other) != at_cap(version, vector, cap)]
            yield (telling or scoped)[0]


def capped():
    """Each choice of impacts and requirements whose sub-score is cut off, or reaches the cap."""
    for version, cap in CAPS.items():
        exploited = list(telling_cap(version, cap))
        for hurt in assignments(version, IMPACTS + REQUIREMENTS):
            if weighed_impact(version, hurt) >= cap:
                for vector in exploited:
                    yield version, {**vector, **hurt}


def rows():
    for vector in differing():
        for version in ("3.0", "3.1"):
            yield accepted("versions-differ", version, whole(version, vector))
    for reason, found in (("below-zero", below_zero()), ("impact-cap", capped())):
        for version, vector in found:
            yield accepted(reason, version, whole(version, vector))
