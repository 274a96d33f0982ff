#!/usr/bin/env python3
"""Compares what `cvss explain` writes, as JSON, text and with --what-if, with accounts.py, explained.py and what_if.py.

The lines are random: vectors with each metric, vectors in any order and case, rejected ones and lines that are almost
vectors, in files; with `whole` also all vectors with base metrics alone, of each version. A number has at most seven
decimals and is exact if the exact number has no more; otherwise it is less than 10^-6 from it. WHAT_IF is how many
lines are answered with --what-if.

usage: tests/checks/compare_explained.py [whole] [COUNT [SEED [WHAT_IF]]]
"""
import json
import random
import re
import subprocess
import sys
import tempfile
from fractions import Fraction
from pathlib import Path

ROOT = Path(__file__).resolve().parents[2]
sys.path[:0] = [str(ROOT / "reference"), str(ROOT / "tests/inputs")]

import accounts
import complete
import explained
import hostile
import lines
import reference
import what_if
import whole_sets

COMMAND = [ROOT / "crates/cvss_command/out/cvss_command", "explain"]
ALLOW = "--allow-incomplete"
CLOSE = Fraction(1, 1_000_000)
AT_ONCE = 20_000


def has_seven_decimals(number):
    return (number * 10_000_000).denominator == 1


def is_number(actual, exact):
    """Whether a printed number is close enough to the exact one."""
    if isinstance(actual, bool) or not isinstance(actual, (int, Fraction)):
        return False
    if not has_seven_decimals(actual):
        return False
    return actual == exact if has_seven_decimals(exact) else abs(actual - exact) < CLOSE


def difference(actual, expected, at=""):
    """Where the output differs from what is expected, and how, if it does."""
    if isinstance(expected, dict):
        if not isinstance(actual, dict) or actual.keys() != expected.keys():
            return f"{at}: {actual}, and not {expected}"
        pairs = [(actual[name], expected[name], f"{at}/{name}") for name in expected]
    elif isinstance(expected, list):
        if not isinstance(actual, list) or len(actual) != len(expected):
            return f"{at}: {actual}, and not {expected}"
        pairs = [(*pair, f"{at}/{place}") for place, pair in enumerate(zip(actual, expected))]
    else:
        agrees = (is_number(actual, expected) if isinstance(expected, Fraction)
                  else type(actual) is type(expected) and actual == expected)
        return None if agrees else f"{at}: {actual}, and not {expected}"
    return next(filter(None, (difference(*pair) for pair in pairs)), None)


def is_as_written(line):
    """Whether the members are in the order of their names, with nothing between them, and what is hidden is escaped."""
    again = json.dumps(json.loads(line), sort_keys=True, separators=(",", ":"), ensure_ascii=False)
    return complete.shown(again) == line


def run(given, end, *options, room=None):
    """The number, the line and the answer without the file's name for each line of the files or of standard input,
    where an end follows each answer; and the status."""
    data = given.get("-", b"")
    done = subprocess.run([*COMMAND, *options, *given], input=data, cwd=room, capture_output=True, check=False)
    if done.stderr:
        sys.exit(f"cvss explain: {done.stderr!r}")
    own, named = ("{", '{{"file":{},'.format) if "--json" in options else ("", "{}:".format)
    names = {name: json.dumps(name, ensure_ascii=False) if own else complete.shown(name) for name in given}
    read = [(named(names[name]) if len(given) > 1 else own, number, line) for name, content in given.items()
            for number, line in enumerate(reference.lines_of_file(content), 1)]
    answers = done.stdout.decode("utf-8").split(end)
    if answers.pop() != "" or len(answers) != len(read):
        sys.exit(f"cvss explain {options} answers {len(answers)} of {len(read)} lines")
    if not all(answer.startswith(front) for (front, _, _), answer in zip(read, answers)):
        sys.exit(f"cvss explain {options}: an answer without the name of its file")
    answers = [own + answer.removeprefix(front) for (front, _, _), answer in zip(read, answers)]
    return [(number, line, answer) for (_, number, line), answer in zip(read, answers)], done.returncode


def compare_json(given, *options, room=None):
    """Ends if an object is another than that of accounts.py, or the status is."""
    answers, status = run(given, "\n", "--json", *options, room=room)
    rejected = False
    for number, line, answer in answers:
        expected = accounts.answer(number, line, ALLOW in options)
        rejected = rejected or "error" in expected
        found = difference(json.loads(answer, parse_float=Fraction), expected)
        if found or not is_as_written(answer):
            sys.exit(f"{line[:500]}: {found or answer}")
    if status != int(rejected):
        sys.exit(f"cvss explain --json: status {status}")


def is_line(actual, expected):
    """Whether a line of text has these texts, and numbers that are close enough to these."""
    if actual == explained.written([expected])[:-1]:
        return True
    number = r"(-?\d+\.(?:\d|\d{1,6}[1-9]))"
    pattern = "".join(re.escape(part) if isinstance(part, str) else number for part in expected)
    found = re.fullmatch(pattern, actual)
    numbers = [part for part in expected if isinstance(part, Fraction)]
    return found is not None and all(is_number(Fraction(own), exact) for own, exact in zip(found.groups(), numbers))


def compare_text(given, *options, room=None):
    """Ends if a text is another than that of explained.py, or the status is."""
    answers, status = run(given, "\n\n", *options, room=room)
    rejected = False
    for _, line, answer in answers:
        expected = explained.answer(line, ALLOW in options)
        rejected = rejected or expected[0][0].startswith("error: ")
        written = answer.split("\n")
        if len(written) != len(expected) or not all(map(is_line, written, expected)):
            sys.exit(f"{line[:500]}: {answer}\nand not\n{explained.written(expected)}")
    if status != int(rejected):
        sys.exit(f"cvss explain: status {status}")


def scores_in(rows):
    """The scores in tenths by metric and value that rows have, and the values that are marked; a wrong row, if any."""
    scores, marked = {}, {}
    for row in rows:
        if not re.fullmatch(r"  [A-Za-z]+ *(  [ *][A-Za-z]+ \d+\.\d)+", row):
            return row
        name, *cells = row.split()
        values = cells[::2]
        scores[name] = {value.lstrip("*"): int(score.replace(".", "")) for value, score in zip(values, cells[1::2])}
        marked[name] = "".join(value[1:] for value in values if value.startswith("*"))
    return scores, marked


def compare_what_if(given, *options, room=None):
    """Ends if the scores that other values would give are others than those of what_if.py."""
    answers, status = run(given, "\n\n", "--what-if", *options, room=room)
    rejected = False
    for _, line, answer in answers:
        heading, *rows = answer.split("\n")
        expected = complete.shown_answer(line, allow_incomplete=ALLOW in options)
        is_rejected = expected.startswith("error: ")
        scores = ({}, {}) if is_rejected else what_if.scores_with(line)
        if heading != expected or scores_in(rows) != scores:
            sys.exit(f"{line[:500]}: {answer}\nand not {expected}\n{scores}")
        rejected = rejected or is_rejected
    if status != int(rejected):
        sys.exit(f"cvss explain --what-if: status {status}")


def compare_all(name, given):
    for start in range(0, len(given), AT_ONCE):
        data = {"-": "".join(f"{line}\n" for line in given[start:start + AT_ONCE]).encode()}
        compare_json(data, ALLOW)
        compare_text(data, ALLOW)
    print(f"cvss explain: {len(given)} {name}, explained as accounts.py and explained.py do")


def compare_files(draw, count, *compare):
    """Compares over files of so many lines, of which many are almost vectors; returns how many there are."""
    tried = 0
    with tempfile.TemporaryDirectory() as folder:
        room = Path(folder)
        while tried < count:
            given = hostile.files(draw, room, min(AT_ONCE // 10, count - tried))
            options = [ALLOW] if draw.random() < 0.5 else []
            for each in compare:
                each(given, *options, room=room)
            tried += sum(len(reference.lines_of_file(data)) for data in given.values())
    return tried


def try_stored():
    """The objects that answer stored lines, whose bytes are checked too."""
    given, answers = ((ROOT / "tests/stored" / name).read_bytes() for name in ("explain.lines", "explain.answers"))
    done = subprocess.run([*COMMAND, ALLOW, "--json"], input=given, capture_output=True, check=False)
    if (done.returncode, done.stdout, done.stderr) != (1, answers, b""):
        sys.exit(f"cvss explain --json: the answers to tests/stored/explain.lines are {done}")


def main():
    arguments = sys.argv[1:]
    try_stored()
    is_whole = arguments[:1] == ["whole"]
    if is_whole:
        arguments.pop(0)
        compare_all("v4.0 base vectors", whole_sets.base_of_v4())
    compare_all("v2 base vectors", whole_sets.base_of_v2())
    for version in ("CVSS:3.0", "CVSS:3.1"):
        compare_all(f"{version} base vectors", whole_sets.base_of_v3(version))
    count = int(arguments[0]) if arguments else 2_000
    draw = random.Random(int(arguments[1]) if len(arguments) > 1 else 2)
    compare_all("drawn vectors with each metric",
                [lines.line(draw, "all", "every") for _ in range(count)])
    compare_all("drawn vectors of v4.0", [lines.line(draw, "v4", "full") for _ in range(count)])
    tried = compare_files(draw, count // 5, compare_json, compare_text)
    print(f"cvss explain: {tried} drawn lines in files, some rejected, explained as accounts.py and explained.py do")
    tried = compare_files(draw, int(arguments[2]) if len(arguments) > 2 else count // 20, compare_what_if)
    print(f"cvss explain --what-if: {tried} drawn lines in files, some rejected, with the scores of what_if.py")


if __name__ == "__main__":
    main()
