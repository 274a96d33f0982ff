#!/usr/bin/env python3
"""Makes the kit: scores.tsv and rejected.tsv, always the same bytes.

Every answer comes from reference/reference.py, which computes on fractions. This file also has a
simulation of calculators that compute in doubles: it finds the rows at which they go wrong, and
gives no answer.

usage: make.py [FOLDER]

Writes the two files into the folder, by default into the folder of this script.
"""
import sys
from fractions import Fraction
from itertools import chain, permutations, product
from math import ceil, floor
from pathlib import Path

sys.dont_write_bytecode = True  # leaves nothing in the tree

from drawing import edges, fourth, jumps, rejections, texts, weights
from drawing.jumps import IMPACTS, REQUIREMENTS, TEMPORAL, assignments
from drawing.rows import REJECTED_COLUMNS, SCORE_COLUMNS, accepted, table, v2, v3, whole


def doubles(version, vector, names):
    """The weights of the metrics as doubles."""
    weight = v2.weight if version == "2.0" else v3.weight
    return [float(weight(vector, name)) for name in names]


# How calculators round a double to tenths.

def ceiling(x):
    return ceil(x * 10)


def cut_at_fifth_decimal(x):
    """Appendix A of v3.1, with the fifth decimal cut off, as the Rust crate does."""
    whole = int(x * 100_000)
    return whole // 10_000 if whole % 10_000 == 0 else whole // 10_000 + 1


def nearest_fifth_decimal(x):
    """Appendix A of v3.1."""
    whole = floor(x * 100_000 + 0.5)
    return whole // 10_000 if whole % 10_000 == 0 else whole // 10_000 + 1


def half_up_with_margin(x):
    """v2 as the Rust crate rounds, half away from zero after 10^-6 is added."""
    shifted = (x + 1e-6) * 10
    return floor(shifted + 0.5) if shifted >= 0 else -floor(0.5 - shifted)


def half_up(x):
    return floor(x * 10 + 0.5) if x >= 0 else -floor(0.5 - x * 10)


def nearest_to_double(x):
    """The tenth nearest to the double itself, as `%.1f` prints it."""
    return round(float(f"{x:.1f}") * 10)


def multiplied(factors):
    """The product in doubles, from left to right."""
    result = 1.0
    for factor in factors:
        result *= factor
    return result


CRATE = {"2.0": half_up_with_margin, "3.0": ceiling, "3.1": cut_at_fifth_decimal}
ROUNDINGS = {"2.0": [half_up_with_margin, half_up, nearest_to_double], "3.0": [ceiling],
             "3.1": [cut_at_fifth_decimal, nearest_fifth_decimal]}
# The order in which the crate multiplies a score, E, RL and RC.
LEFT_TO_RIGHT = (0, 1, 2, 3)


def impact_in_doubles(version, hurt, modified):
    """The impact of v2, the sub-score of v3, in the order of operations of the Rust crate."""
    c, i, a = (1.0 - impact * wanted for impact, wanted in zip(
        doubles(version, hurt, IMPACTS), doubles(version, hurt, REQUIREMENTS)))
    impact = (10.41 if version == "2.0" else 1.0) * (1.0 - c * i * a)
    return min(float(edges.CAPS[version]), impact) if modified else impact


def ease_in_doubles(version, exploited):
    names = [name for name in jumps.exploit_metrics(version) if name != "S"]
    return multiplied([20.0 if version == "2.0" else 8.22, *doubles(version, exploited, names)])


def number_in_doubles(version, ease, changed, impact, modified):
    """The number that is rounded first: the base number, or the one of the modified metrics."""
    if version == "2.0":
        return (0.6 * impact + 0.4 * ease - 1.5) * (1.176 if impact else 0.0)
    if not changed:
        return min(6.42 * impact + ease, 10.0) if impact > 0 else 0.0
    lessened = ((impact * 0.9731 - 0.02) ** 13.0 if modified and version == "3.1"
                else (impact - 0.02) ** 15.0)
    reached = 7.52 * (impact - 0.029) - 3.25 * lessened
    return min(1.08 * (reached + ease), 10.0) if reached > 0 else 0.0


def scored(version, modified):
    """Each choice of weights of a base score, or of an environmental one before the temporal
    metrics weigh, with its exact score in tenths and the number in doubles."""
    exploiting = [(vector, jumps.ease(version, vector), ease_in_doubles(version, vector))
                  for vector in assignments(version, jumps.exploit_metrics(version))]
    hurting = [(vector, jumps.weighed_impact(version, vector),
                impact_in_doubles(version, vector, modified))
               for vector in assignments(version, IMPACTS + (REQUIREMENTS if modified else ()))]
    number_of = jumps.adjusted_number if modified else jumps.base_number
    exact = {}
    for (exploited, ease, ease_double), (hurt, impact, double) in product(exploiting, hurting):
        if (ease, impact) not in exact:
            number = number_of(version, {**exploited, **hurt})
            exact[ease, impact] = jumps.rounded(version, number)
        changed = exploited.get("S") == "C"
        yield ({**exploited, **hurt}, exact[ease, impact],
               number_in_doubles(version, ease_double, changed, double, modified))


def crossing_products(version, roundings, orders):
    """Each score in tenths, with temporal metrics, whose product in doubles crosses a jump."""
    for tenths, rest in product(range(-20, 101), assignments(version, TEMPORAL)):
        exact = jumps.rounded(version, Fraction(tenths, 10) * jumps.temporal_weight(version, rest))
        factors = [tenths / 10, *doubles(version, rest, TEMPORAL)]
        numbers = {multiplied(factors[place] for place in order) for order in orders}
        if any(rounding(number) != exact for rounding, number in product(roundings, numbers)):
            yield tenths, rest


def crossings(version):
    """All weights at which a calculator that goes the crate's way publishes another score; and a
    vector for each score and weights at which one does that multiplies or rounds in another way."""
    of_crate = {}
    for tenths, rest in crossing_products(version, [CRATE[version]], [LEFT_TO_RIGHT]):
        of_crate.setdefault(tenths, []).append(rest)
    others = list(crossing_products(version, ROUNDINGS[version], list(permutations(LEFT_TO_RIGHT))))
    for modified, reason in ((False, "doubles-temporal"), (True, "doubles-environmental")):
        vectors = {}
        for vector, tenths, double in scored(version, modified):
            vectors.setdefault(tenths, vector)
            if any(rounding(double) != tenths for rounding in ROUNDINGS[version]):
                yield "doubles-first", vector
            for rest in of_crate.get(tenths, ()):
                yield reason, {**vector, **rest}
        for tenths, rest in others:
            if tenths in vectors:
                yield "doubles-other", {**vectors[tenths], **rest}


def last_of_v2_crosses():
    """The same of the last product of v2, over damage potential and distribution."""
    numbers = jumps.products("2.0", jumps.adjusted_numbers("2.0"))
    for tenths, vector in jumps.by_tenths("2.0", numbers).items():
        for last in assignments("2.0", ("CDP", "TD")):
            score, (damage, share) = tenths / 10, doubles("2.0", last, ("CDP", "TD"))
            exact = v2.tenths(v2.environmental_number(last, tenths))
            double = (score + (10.0 - score) * damage) * share
            if any(rounding(double) != exact for rounding in ROUNDINGS["2.0"]):
                yield {**vector, **last}


def doubles_rows():
    for version in ("2.0", "3.0", "3.1"):
        for reason, vector in crossings(version):
            yield accepted(reason, version, whole(version, vector))
    for vector in last_of_v2_crosses():
        yield accepted("doubles-other", "2.0", whole("2.0", vector))


def drawn():
    """The names and the bytes of the files."""
    scores = (texts.rows(), weights.rows(), jumps.rows(), edges.rows(), doubles_rows(),
              fourth.rows())
    return {"scores.tsv": table(SCORE_COLUMNS, chain.from_iterable(scores)),
            "rejected.tsv": table(REJECTED_COLUMNS, rejections.rows())}


def main():
    folder = Path(sys.argv[1]) if len(sys.argv) > 1 else Path(__file__).resolve().parent
    for name, content in drawn().items():
        (folder / name).write_bytes(content)
        print(f"{name}: {content.count(10) - 1} rows, {len(content)} bytes")


if __name__ == "__main__":
    main()
