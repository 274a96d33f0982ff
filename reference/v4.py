"""CVSS v4.0: metrics and the score, from the tables and rules of the specification, on exact
numbers.

A vector is a dictionary from metrics to the spellings of their values; the score is whole tenths.
"""
from fractions import Fraction
from functools import cache
from itertools import product
from math import floor


def levels(spellings, first=0):
    """Values from the most severe one down, with their severity levels."""
    return {spelling: first + level for level, spelling in enumerate(spellings.split())}


# In printing order: the name in words, and the level of each spelling.
BASE = {
    "AV": ("Attack Vector", levels("N A L P")),
    "AC": ("Attack Complexity", levels("L H")),
    "AT": ("Attack Requirements", levels("N P")),
    "PR": ("Privileges Required", levels("N L H")),
    "UI": ("User Interaction", levels("N P A")),
    **{"V" + letter: (f"{word} Impact to the Vulnerable System", levels("H L N"))
       for letter, word in zip("CIA", ("Confidentiality", "Integrity", "Availability"))},
    **{"S" + letter: (f"{word} Impact to the Subsequent System", levels("H L N", 1))
       for letter, word in zip("CIA", ("Confidentiality", "Integrity", "Availability"))},
}
METRICS = {
    **BASE,
    "E": ("Exploit Maturity", levels("A P U X")),
    "CR": ("Confidentiality Requirements", levels("H M L X")),
    "IR": ("Integrity Requirements", levels("H M L X")),
    "AR": ("Availability Requirements", levels("H M L X")),
    **{"M" + name: ("Modified " + words, {**own, "X": None})
       for name, (words, own) in BASE.items()},
    "S": ("Safety", dict.fromkeys("XPN")),
    "AU": ("Automatable", dict.fromkeys("XYN")),
    "R": ("Recovery", dict.fromkeys("XAUI")),
    "V": ("Value Density", dict.fromkeys("XDC")),
    "RE": ("Vulnerability Response Effort", dict.fromkeys("XLMH")),
    "U": ("Provider Urgency", dict.fromkeys("X Red Amber Green Clear".split())),
}
for name in ("MSI", "MSA"):
    METRICS[name][1]["S"] = 0
MANDATORY = ["AC", "AT", "AV", "PR", "SA", "SC", "SI", "UI", "VA", "VC", "VI"]
# What a class scores, in tenths: a row for each EQ1, EQ2, EQ3 and EQ6, in it three numbers (EQ5)
# for each EQ4.
TABLE = {row.split()[0]: row.split()[1:] for row in """
0000 100 98 95 100 93 91 93 89 81
0001 99 95 92 96 87 81 90 80 68
0010 98 95 90 93 89 81 88 78 69
0011 95 92 84 92 81 65 80 70 48
0021 92 82 72 79 69 50 69 55 27
0100 99 95 92 95 90 84 92 82 72
0101 97 92 85 91 83 71 81 71 53
0110 95 92 85 92 80 70 84 71 50
0111 93 85 73 82 72 59 70 52 30
0121 86 75 52 71 52 29 63 29 17
1000 98 94 91 94 86 77 87 74 63
1001 95 87 81 89 74 64 75 63 49
1010 94 88 76 86 74 59 72 57 52
1011 89 77 67 76 58 50 57 52 25
1021 83 70 54 65 58 26 53 21 13
1100 95 88 76 90 75 61 77 68 52
1101 90 76 70 77 62 53 66 59 30
1110 89 76 62 74 57 47 61 57 24
1111 78 67 58 59 57 23 52 29 16
1121 71 59 30 58 26 15 23 13 6
2000 93 86 75 86 74 56 70 52 40
2001 87 72 58 74 61 34 54 40 22
2010 85 74 62 72 55 46 53 34 19
2011 75 55 51 57 41 19 36 19 8
2021 64 51 20 47 21 11 24 9 4
2100 88 73 60 73 59 41 54 45 20
2101 75 53 50 55 40 20 43 22 11
2110 75 58 40 61 48 20 46 17 8
2111 55 45 21 51 18 9 18 7 2
2121 53 24 14 24 12 5 10 3 1
""".strip().splitlines()}


def value_of(eq1, eq2, eq3, eq4, eq5, eq6):
    """What a class scores, or None where there is no such class."""
    row = TABLE.get(f"{eq1}{eq2}{eq3}{eq6}")
    return int(row[3 * eq4 + eq5]) if row and eq4 < 3 and eq5 < 3 else None


def effective(vector):
    """The values that the score rests on."""
    own = {name: vector["M" + name] if vector.get("M" + name, "X") != "X" else vector[name]
           for name in BASE}
    for name in ("E", "CR", "IR", "AR"):
        worst = "A" if name == "E" else "H"
        own[name] = vector[name] if vector.get(name, "X") != "X" else worst
    return own


def access(av, pr, ui):
    if (av, pr, ui) == ("N", "N", "N"):
        return 0
    return 1 if "N" in (av, pr, ui) and av != "P" else 2


def complexity(ac, at):
    return 0 if (ac, at) == ("L", "N") else 1


def vulnerable(vc, vi, va, cr, ir, ar):
    eq3 = 0 if (vc, vi) == ("H", "H") else 1 if "H" in (vc, vi, va) else 2
    return eq3, 0 if ("H", "H") in ((vc, cr), (vi, ir), (va, ar)) else 1


def subsequent(sc, si, sa):
    return 0 if "S" in (si, sa) else 1 if "H" in (sc, si, sa) else 2


GROUPS = {
    access: ("AV", "PR", "UI"),
    complexity: ("AC", "AT"),
    vulnerable: ("VC", "VI", "VA", "CR", "IR", "AR"),
    subsequent: ("SC", "MSI", "MSA"),
}


@cache
def level_sums(group):
    """The level sums of all values of a group, by their class."""
    sums = {}
    for own in product(*(METRICS[name][1].items() for name in GROUPS[group])):
        if "X" not in dict(own):
            found = group(*(spelling for spelling, _ in own))
            sums.setdefault(found, set()).add(sum(level for _, level in own))
    return sums


def values_of(group, own):
    """The effective values of the metrics of a group."""
    return tuple(own[name.removeprefix("M")] for name in GROUPS[group])


@cache
def distance(group, values):
    """The steps of severity that the values lie below the worst of their class, and the depth of
    the class."""
    sums = level_sums(group)[group(*values)]
    level = sum(METRICS[name][1][value] for name, value in zip(GROUPS[group], values))
    return level - min(sums), max(sums) - min(sums) + 1


@cache
def proportion(group, values):
    """How far the values lie below the worst of their class, by the depth of the class."""
    return Fraction(*distance(group, values))


def macro_vector(own):
    """The classes of the effective values, EQ1 to EQ6."""
    eq1, eq2, (eq3, eq6), eq4 = (group(*values_of(group, own)) for group in GROUPS)
    return eq1, eq2, eq3, eq4, "APU".index(own["E"]), eq6


# Where the classes of a group are in the MacroVector; the last group has E alone.
PLACES = {access: [0], complexity: [1], vulnerable: [5, 2], subsequent: [3], None: [4]}


@cache
def lower_classes(macro):
    """By group the next lower macro vector, where there is one.

    Of the two that follow EQ3 and EQ6 it is the one that scores more, of equal ones that with the
    next EQ6."""
    found = {}
    for group, places in PLACES.items():
        below = [(*macro[:place], macro[place] + 1, *macro[place + 1:]) for place in places]
        listed = [each for each in below if value_of(*each) is not None]
        if listed:
            found[group] = max(listed, key=lambda each: value_of(*each))
    return found


def class_values(own):
    """What the class of the effective values scores, and by group the next lower class, where there
    is one."""
    macro = macro_vector(own)
    lower = {group: value_of(*below) for group, below in lower_classes(macro).items()}
    return value_of(*macro), lower


def has_impact(own):
    return any(own[name] != "N" for name in ("VC", "VI", "VA", "SC", "SI", "SA"))


def number(vector):
    """The number of tenths of which the score is the rounding."""
    own = effective(vector)
    if not has_impact(own):
        return Fraction(0)
    value, lower = class_values(own)
    mean = sum((value - below) * proportion(group, values_of(group, own)) for group, below in lower.items() if group)
    return value - Fraction(mean) / max(1, len(lower))


def score(vector):
    """The score in tenths, halves rounded up."""
    return floor(number(vector) + Fraction(1, 2))


def nomenclature(vector):
    """Which groups the vector has in addition to the base metrics, also as X: threat, environmental."""
    threat = "T" if "E" in vector else ""
    environmental = "E" if any(is_environmental(name) for name in vector) else ""
    return "CVSS-B" + threat + environmental


def is_environmental(name):
    return name in ("CR", "IR", "AR") or name[1:] in BASE


def score_by(vector, nomenclature):
    """The score of the vector without the threat and environmental metrics that the nomenclature lacks."""
    groups = nomenclature.removeprefix("CVSS-B")
    return score({name: value for name, value in vector.items()
                  if (name != "E" or "T" in groups) and (not is_environmental(name) or "E" in groups)})
