#!/usr/bin/env python3
"""Writes the explanation of the score of each line for people, on fractions, by the equations and tables in v2.py, v3.py
and v4.py and the words of FIRST's JSON schemas.

Reads lines on standard input and writes for each what `cvss explain --allow-incomplete` does, with exact numbers rounded
to seven decimals, halves up. It shares no code with the crates: its answers are expected values for them.

usage: reference/explained.py < LINES
"""
import sys
from fractions import Fraction
from math import floor

import accounts
import complete
import reference
import setting
import v2
import v3
import v4


def worded(text):
    """Values written as `spelling word`, with commas between them."""
    return dict(pair.split(maxsplit=1) for pair in text.split(", "))


IMPACT = worded("N none, L low, H high")
REQUIREMENT = worded("L low, M medium, H high")
PRIVILEGES = worded("N none, L low, H high")
# The words of FIRST's JSON schemas for the values of each version, those for Not Defined apart.
WORDS_OF_V2 = {
    "AV": worded("L local, A adjacent network, N network"),
    "AC": worded("H high, M medium, L low"),
    "Au": worded("M multiple, S single, N none"),
    **dict.fromkeys("CIA", worded("N none, P partial, C complete")),
    "E": worded("U unproven, POC proof of concept, F functional, H high"),
    "RL": worded("OF official fix, TF temporary fix, W workaround, U unavailable"),
    "RC": worded("UC unconfirmed, UR uncorroborated, C confirmed"),
    "CDP": worded("N none, L low, LM low medium, MH medium high, H high"),
    "TD": worded("N none, L low, M medium, H high"),
    **dict.fromkeys(("CR", "IR", "AR"), REQUIREMENT),
}
WORDS_OF_V3 = {
    "AV": worded("P physical, L local, A adjacent network, N network"),
    "AC": worded("H high, L low"),
    "PR": PRIVILEGES,
    "UI": worded("R required, N none"),
    "S": worded("U unchanged, C changed"),
    **dict.fromkeys("CIA", IMPACT),
    "E": worded("H high, F functional, P proof of concept, U unproven"),
    "RL": worded("U unavailable, W workaround, T temporary fix, O official fix"),
    "RC": worded("C confirmed, R reasonable, U unknown"),
    **dict.fromkeys(("CR", "IR", "AR"), REQUIREMENT),
}
WORDS_OF_V4 = {
    "AV": worded("P physical, L local, A adjacent, N network"),
    "AC": worded("H high, L low"),
    "AT": worded("P present, N none"),
    "PR": PRIVILEGES,
    "UI": worded("A active, P passive, N none"),
    **dict.fromkeys(("VC", "VI", "VA", "SC", "SI", "SA"), IMPACT),
    "E": worded("U unreported, P proof of concept, A attacked"),
    **dict.fromkeys(("CR", "IR", "AR"), REQUIREMENT),
    "MSC": worded("N negligible, L low, H high"),
    **dict.fromkeys(("MSI", "MSA"), worded("N negligible, L low, H high, S safety")),
    "S": worded("P present, N negligible"),
    "AU": worded("Y yes, N no"),
    "R": worded("A automatic, U user, I irrecoverable"),
    "V": worded("D diffuse, C concentrated"),
    "RE": worded("L low, M moderate, H high"),
    "U": worded("Red red, Amber amber, Green green, Clear clear"),
}
EQUIVALENCE_SETS = {"EQ1": "AV PR UI", "EQ2": "AC AT", "EQ3": "VC VI VA", "EQ4": "SC SI SA", "EQ5": "E",
                    "EQ6": "VC VI VA CR IR AR"}


def word(words, name, value):
    if value in ("X", "ND"):
        return "not defined"
    return words[name if name in words else name.removeprefix("M")][value]


def metric_lines(vector, metrics, words, figure):
    """A line for each metric: a list of texts and exact numbers, joined by nothing."""
    lines = []
    for name in metrics:
        if name in vector:
            parts = figure(name)
            width = sum(len(part if isinstance(part, str) else decimal(part)) for part in parts)
            lines.append([f"  {name + ':' + vector[name]:<9}", *parts, " " * (13 - width),
                          f"{metrics[name][0]}: {word(words, name, vector[name])}"])
    return lines


def row(title, *parts):
    return [f"  {title:<36}", *parts]


def score_row(title, scored, severity=""):
    return row(title, Fraction(scored), f" {severity}" if severity else "")


def score_row_of_v2(title, scored):
    return score_row(title, scored, v2.severity(scored * 10))


def lines_of_v2(vector):
    numbers = accounts.account_of_v2(vector)
    base, temporal, environmental = numbers["base"], numbers["temporal"], numbers["environmental"]
    lines = metric_lines(vector, v2.METRICS, WORDS_OF_V2, lambda name: [numbers["weights"][name]])
    lines += [row("Impact", base["impact"]), row("Exploitability", base["exploitability"]), row("f(Impact)", base["f"]),
              row("Before rounding", base["number"]), score_row_of_v2("Base score", base["score"])]
    if any(name in vector for name in ("E", "RL", "RC")):
        lines += [row("Before rounding", temporal["number"]), score_row_of_v2("Temporal score", temporal["score"])]
    if any(name in vector for name in ("CDP", "TD", "CR", "IR", "AR")):
        lines += [row("Adjusted impact", environmental["adjustedImpact"]),
                  row("Adjusted base score", environmental["adjustedBase"]),
                  row("Adjusted temporal score", environmental["adjustedTemporal"]),
                  row("Before rounding", environmental["number"]),
                  score_row_of_v2("Environmental score", environmental["score"])]
    return lines


def lines_of_v3(minor, vector):
    numbers = accounts.account_of_v3(minor, vector)
    base, temporal, environmental = numbers["base"], numbers["temporal"], numbers["environmental"]
    weights = numbers["weights"]
    lines = metric_lines(vector, v3.METRICS, WORDS_OF_V3, lambda name: [weights.get(name, "-")])
    lines += [row("Impact sub-score (ISS)", base["iss"]), row("Impact", base["impact"]),
              row("Exploitability", base["exploitability"]), row("Before rounding", base["number"]),
              score_row("Base score", base["score"], base["severity"])]
    if any(name in vector for name in ("E", "RL", "RC")):
        lines += [row("Before rounding", temporal["number"]),
                  score_row("Temporal score", temporal["score"], temporal["severity"])]
    if any(name in ("CR", "IR", "AR") or name.startswith("M") for name in vector):
        lines += [row("Modified impact sub-score (MISS)", environmental["miss"]),
                  row("Modified impact", environmental["modifiedImpact"]),
                  row("Modified exploitability", environmental["modifiedExploitability"]),
                  row("Before the first rounding", environmental["firstNumber"]),
                  row("After the first rounding", environmental["firstScore"]),
                  row("Before rounding", environmental["number"]),
                  score_row("Environmental score", environmental["score"], environmental["severity"])]
    return lines


def levels(vector, name, macro):
    """The levels that a metric's value counts in; a hyphen where it does not count."""
    base = name.removeprefix("M") if name[1:] in v4.BASE else name
    replaced = name in v4.BASE and vector.get("M" + name, "X") != "X"
    if replaced or base != name and vector[name] == "X":
        return "-"
    found = [f"{each}:{level}" for (each, names), level in zip(EQUIVALENCE_SETS.items(), macro) if base in names.split()]
    return " ".join(found) or "-"


def group_line(group):
    title = f"{group['group']} level {group['class']}"
    distance = f"distance {group['distance']} of {group['depth']}, "
    if group["next"] is None:
        return row(title, distance + "no lower level")
    return row(title, distance + "gap ", group["gap"], f" to {group['next']}, share ", group["share"])


def lines_of_v4(vector):
    numbers = accounts.account_of_v4(vector)
    own, nomenclature = v4.score(vector), numbers["nomenclature"]
    lines = metric_lines(vector, v4.METRICS, WORDS_OF_V4, lambda name: [levels(vector, name, numbers["macroVector"])])
    lines.append(row(f"MacroVector {numbers['macroVector']}", numbers["value"]))
    lines += [group_line(group) for group in numbers["groups"]]
    lines.append(row("Mean of the shares", numbers["mean"]) if numbers["groups"] else row("No impact", "0.0"))
    lines.append(row("Before rounding", numbers["number"]))
    lines.append(score_row(f"{nomenclature} score", Fraction(own, 10), v3.severity(own)))
    for name in ("CVSS-B", "CVSS-BT", "CVSS-BE"):
        tenths = v4.score_by(vector, name)
        if name != nomenclature and set(name) < set(nomenclature + "B") and tenths != own:
            lines.append(score_row(f"{name} score", Fraction(tenths, 10), v3.severity(tenths)))
    return lines


def explanation(line):
    """The lines that explain the scores of a text that is accepted, after its score line."""
    version, vector = setting.read(reference.text_of(line))
    heading = [complete.answer(line, allow_incomplete=True)]
    if version == 20:
        return [heading, *lines_of_v2(vector)]
    return [heading, *(lines_of_v4(vector) if version == 40 else lines_of_v3(version - 30, vector))]


def answer(line, allow_incomplete=True):
    """The lines of the answer, each a list of texts and exact numbers."""
    scored = complete.answer(line, allow_incomplete=allow_incomplete)
    return [[complete.shown(scored)]] if scored.startswith("error: ") else explanation(line)


def decimal(number):
    """A number as it is written: with seven decimals at most, and at least one."""
    count = floor(number * 10_000_000 + Fraction(1, 2))
    whole, rest = divmod(abs(count), 10_000_000)
    return f"{'-' if count < 0 else ''}{whole}.{f'{rest:07}'.rstrip('0') or '0'}"


def written(lines):
    return "".join("".join(part if isinstance(part, str) else decimal(part) for part in line) + "\n" for line in lines)


def main():
    for line in reference.lines_of_file(sys.stdin.buffer.read()):
        sys.stdout.buffer.write(written(answer(line)).encode("utf-8") + b"\n")


if __name__ == "__main__":
    main()
