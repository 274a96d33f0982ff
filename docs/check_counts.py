#!/usr/bin/env python3
"""Checks the numbers in the documents that count what is in this repository: tests, stored lines, must-fail edits,
functions for C, and the rows of the conformance kit.

usage: docs/check_counts.py    prints each wrong number; status 1 if there are some
"""
import re
import sys
from pathlib import Path

ROOT = Path(__file__).resolve().parent.parent
WORDS = ("none one two three four five six seven eight nine ten eleven twelve thirteen fourteen fifteen sixteen seventeen "
         "eighteen nineteen twenty").split()
TENS = {"thirty": 30, "forty": 40, "fifty": 50}


def lines(name):
    return (ROOT / name).read_bytes().count(b"\n")


def found(pattern, expression):
    """How often an expression is found in the files of a pattern."""
    return sum(len(re.findall(expression, path.read_text(encoding="utf-8"), re.M)) for path in ROOT.glob(pattern))


def counts():
    """Each document, a sentence of it with its numbers, and what they have to be."""
    edits = [path.parent for path in ROOT.glob("crates/*/must-fail/*.edit")]
    functions = found("bindings/c/cvss.h", r"^[a-z].* cvss_[a-z_]*\(")
    kit = {name: (lines(f"conformance/{name}") - 1, (ROOT / f"conformance/{name}").stat().st_size)
           for name in ("scores.tsv", "rejected.tsv")}
    yield "README.md", r"`examples/vectors` has (\S+) lines", [lines("examples/vectors")]
    yield ("README.md", r"(\S+) tests and (\S+) stored lines of `test_vectors`",
           [found("crates/*/src/**/*.rt", r"^ *#\[test\]$"),
            lines("crates/test_vectors/stdin")])
    yield "CONTRIBUTING.md", r"Few are kept, (\S+) in (\S+) crates", [len(edits), len(set(edits))]
    yield "docs/ARCHITECTURE.md", r"these (\S+) functions as a static library", [functions]
    yield "docs/BINDINGS.md", r"a static library of (\S+) functions", [functions]
    yield ("docs/BINDINGS.md", r"(?s)each of the (\S+) stored lines .* each of (\S+) texts .* explanations of (\S+) vectors",
           [lines(f"tests/stored/{name}") for name in ("facts", "texts", "explanations")])
    yield "conformance/README.md", r"^(\S+) texts with exact answers", [sum(rows for rows, _ in kit.values())]
    for name, counted in kit.items():
        yield "conformance/README.md", rf"^\| `{name}` \| (\S+) \| (\S+) \|", list(counted)


def number(text):
    if text in TENS or text in WORDS:
        return TENS.get(text) or WORDS.index(text)
    return int(text.replace(",", ""))


def main():
    wrong = []
    for name, sentence, expected in counts():
        match = re.search(sentence, (ROOT / name).read_text(encoding="utf-8"), re.M)
        if match is None:
            wrong.append(f"{name} has no sentence like `{sentence}`")
        elif [number(each) for each in match.groups()] != expected:
            wrong.append(f"{name}: `{match[0][:100]}`, and there are {', '.join(f'{each:,}' for each in expected)}")
    sys.exit("\n".join(wrong) or None)


if __name__ == "__main__":
    main()
