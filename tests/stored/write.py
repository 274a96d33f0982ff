#!/usr/bin/env python3
"""Writes the expected answers in this folder and in tests/samples, by the second implementation in reference/ alone, and
checks by it those that were written by hand.

usage: tests/stored/write.py            writes the files
       tests/stored/write.py --check    only reports the files that differ from what it would write

The status is 1 if `--check` finds such a file, or if an answer written by hand differs.
"""
import json
import sys
from pathlib import Path

ROOT = Path(__file__).resolve().parents[2]
sys.dont_write_bytecode = True  # leaves nothing in the tree
sys.path.insert(0, str(ROOT / "reference"))

import accounts
import auditing
import complete
import expected
import facts
import finding
import reference

STORED, SAMPLES = ROOT / "tests/stored", ROOT / "tests/samples"
# The first lines of crates/test_vectors/stdin, before those with a mark.
COUNT = 1320
LINES = (ROOT / "crates/test_vectors/stdin").read_bytes().split(b"\n")[:COUNT]


def lines_of(name):
    return (STORED / name).read_bytes().split(b"\n")[:-1]


def calls():
    return ("\t".join(map(expected.escaped, row)) for row in expected.calls(400))


def explanations():
    """The vectors are those that the file already has."""
    return (accounts.written(accounts.account(json.loads(line)["vector"])) for line in lines_of("explanations"))


def explained():
    numbered = enumerate(reference.lines_of((STORED / "explain.lines").read_bytes()), 1)
    return (accounts.written(accounts.answer(number, line)) for number, line in numbered)


def found():
    answers = finding.answers((STORED / "find.lines").read_bytes(), allow_incomplete=True)
    return (answer.removesuffix("\n") for answer in answers)


def incomplete():
    """The vectors are those that the file already has."""
    for line in lines_of("incomplete"):
        text = line.split()[0].decode()
        yield f"{text} {facts.missing_facts(text)}"


def audited():
    lines = (SAMPLES / "lines.jsonl").read_bytes()
    for number, line in enumerate(reference.lines_of(lines), 1):
        yield from map(auditing.written, auditing.answer({"line": number}, line)[0])


# The rows of each file.
WRITTEN = {
    STORED / "facts": lambda: map(facts.line_facts, LINES),
    STORED / "score_lines": lambda: map(complete.answer, LINES),
    STORED / "found": lambda: facts.lines_found(lines_of("texts")),
    STORED / "calls": calls,
    STORED / "explanations": explanations,
    STORED / "explain.answers": explained,
    STORED / "find.answers": found,
    STORED / "incomplete": incomplete,
    SAMPLES / "lines.answers": audited,
}


def records():
    for line in lines_of("records"):
        yield expected.accepted(json.loads(line)["vectorString"])["record"]


def example():
    """What the examples print for the vectors in bindings/python/example.py."""
    yield complete.answer(b"CVSS:3.1/A:H/I:H/C:H/S:U/UI:N/PR:N/AC:L/AV:N")
    yield complete.answer(b"CVSS:3.1/AV:Q").removeprefix("error: ")


# Written by hand: the records from FIRST's JSON schemas.
BY_HAND = {STORED / "records": records, STORED / "example.stdout": example}


def differing(files):
    """Each file that does not have these rows, with the rows."""
    for path, rows in files.items():
        text = "".join(f"{row}\n" for row in rows()).encode("utf-8")
        if not text or path.read_bytes() != text:
            yield path, text


def main():
    if sys.argv[1:] not in ([], ["--check"]):
        sys.exit(__doc__)
    status = 0
    for path, text in differing(WRITTEN):
        if sys.argv[1:]:
            status = 1
            print(f"{path.relative_to(ROOT)} is not what tests/stored/write.py writes")
        else:
            path.write_bytes(text)
    for path, _ in differing(BY_HAND):
        status = 1
        print(f"{path.relative_to(ROOT)}, written by hand, is not what the second implementation gives")
    sys.exit(status)


if __name__ == "__main__":
    main()
