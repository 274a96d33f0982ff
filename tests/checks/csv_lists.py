#!/usr/bin/env python3
"""Compares what the built `cvss score --csv` and `cvss find --csv` write with reference/csv_lists.py, over drawn CSV: quoted
fields, doubled quotes, line breaks, empty cells, ragged records, several vectors and marks. What is read back of the
answers by Python's csv module is compared with what it reads of the input.

With --reference, no program is needed: the implementation is compared with the csv module alone.

usage: tests/checks/csv_lists.py [--reference] [COUNT [SEED]]
"""
import csv
import io
import random
import subprocess
import sys
import tempfile
from pathlib import Path

ROOT = Path(__file__).resolve().parents[2]
sys.path[:0] = [str(ROOT / "reference"), str(ROOT / "tests/inputs")]

import csv_lists

PROGRAM = ROOT / "crates/cvss_command/out/cvss_command"

VECTORS = [
    b"CVSS:3.1/AV:N/AC:L/PR:N/UI:N/S:U/C:H/I:H/A:H", b"CVSS:3.1/AC:L/AV:N/PR:N/UI:N/S:U/C:H/I:H/A:H",
    b"CVSS:3.0/AV:L/AC:H/PR:L/UI:R/S:C/C:L/I:N/A:N/E:P", b"AV:N/AC:L/Au:N/C:N/I:N/A:P", b"(AV:N/AC:L/Au:N/C:N/I:N/A:P)",
    b"CVSS:4.0/AV:N/AC:L/AT:N/PR:N/UI:N/VC:H/VI:L/VA:L/SC:N/SI:N/SA:N/E:P", b"CVSS:3.1/AV:N/AC:L", b"CVSS:3.1/AV:X",
    b"AV:N/AC:L/PR:N/UI:N/S:U/C:H/I:H/A:H", b"CVSS:3.1/AV:N/AC:L/PR:N/UI:N/S:U/C:H/I:H/A:H/X:`,\"", b"cvss:3.1/AV:N/PR:L",
]
PLAIN = [b"", b"", b"CVE-2024-1", b"a b", b" ", b"\t", b"vector", b"x\ry", b"\x00", b"\xff", b'say "no"', b'"', b"7.5/", b"\r",
         b"=1+1", b"+7", b"-x", b"@SUM(A1)", b"'=1", b" =1"]
LINE_ENDS = [b"\n", b"\n", b"\n", b"\r\n", b"\r\n", b""]


def drawn_cell(draw):
    """A cell: a vector or other text, as it is, quoted, or quoted wrongly."""
    text = draw.choice(VECTORS) if draw.random() < 0.3 else draw.choice(PLAIN)
    if draw.random() < 0.2:
        text += draw.choice([b",", b"\n", b"\r\n", b'"', b" ", b"/"]) + draw.choice(VECTORS + PLAIN)
    kind = draw.random()
    if kind < 0.4:
        return csv_lists.field_of(text)
    if kind < 0.6:
        return b'"' + text.replace(b'"', b'""') + b'"'
    if kind < 0.65:
        return b'"' + text.replace(b'"', b'""') + b'"' + draw.choice([b" ", b"x", b'y"z', b'" "'])
    return text


def drawn_text(draw):
    """Records of some cells each, perhaps after a mark and a header."""
    mark = csv_lists.MARK if draw.random() < 0.2 else b""
    lines = [b'id,"vector",note' + draw.choice(LINE_ENDS[:5])] if draw.random() < 0.6 else []
    for _ in range(draw.randrange(6)):
        cells = [drawn_cell(draw) for _ in range(draw.choice([0, 1, 2, 3, 3, 3, 4]))]
        lines.append(b",".join(cells) + draw.choice(LINE_ENDS))
    return mark + b"".join(lines)


def expected_of(text, column, *flags):
    try:
        return csv_lists.answer(text, column, *flags)
    except csv_lists.UnknownColumn:
        return None


def read_back(text):
    """The records that Python's csv module reads."""
    return list(csv.reader(io.StringIO(text.removeprefix(csv_lists.MARK).decode("latin-1"), newline="")))


def try_each(given, answered):
    """Each record of the answers is one of the input with six values more, in their order."""
    left = iter(given)
    before = next(left, [])
    for after in answered:
        while before != after[:-6]:
            before = next(left)


def try_reference(text, expected, each):
    """The records of the answers are those of the input with six values more, where Python reads them alike."""
    if b"\r" in text.replace(b"\r\n", b"") or b"\x00" in text or b"a quoted field" in expected:
        return 0
    given, answered = read_back(text), read_back(expected)
    if each:
        try_each(given, answered)
        return 1
    assert len(given) == len(answered), (text, expected)
    for before, after in zip(given, answered):
        assert not before or (after[:-6] == before and len(after) == len(before) + 6), (text, expected)
    return 1


def has_rejected(expected):
    """Whether the last cell of a record is a reason: the five before it are empty then."""
    return any(fields[-1] and not any(fields[-6:-1]) for fields, _, _ in csv_lists.records(expected) if len(fields) > 6)


def compare(text, file, column, allow_incomplete, base, guard, each):
    """The program's answers to a text, in a file, are the expected ones."""
    words = ["find" if each else "score", "--csv"]
    if column is not None:
        words += ["--column", column.decode()]
    words += ["--allow-incomplete"] * allow_incomplete + ["--base"] * base + ["--guard"] * guard
    file.write_bytes(text)
    done = subprocess.run([PROGRAM, *words, file], capture_output=True)
    expected = expected_of(text, column, allow_incomplete, base, guard, each)
    assert done.stdout == (expected or b""), (words, text, expected, done)
    missing = csv_lists.missing_report(column) if expected is None else b""
    assert done.stderr == missing, (words, text, done)
    assert done.returncode == (2 if missing else int(has_rejected(expected))), (words, text, done)


def main():
    words = [word for word in sys.argv[1:] if word != "--reference"]
    count = int(words[0]) if words else 2_000
    draw = random.Random(int(words[1]) if len(words) > 1 else 4180)
    read = 0
    with tempfile.TemporaryDirectory() as folder:
        for _ in range(count):
            text, column = drawn_text(draw), draw.choice([None, None, b"vector", b"other", b"1", b"2", b"3", b"06"])
            flags = draw.random() < 0.3, draw.random() < 0.3
            guard, each = draw.random() < 0.3, draw.random() < 0.5
            expected = expected_of(text, column, *flags, False, each)
            read += expected is not None and try_reference(text, expected, each)
            if "--reference" not in sys.argv:
                compare(text, Path(folder) / "list.csv", column, *flags, guard, each)
    assert read > count / 4, f"Python reads only {read} of the drawn texts: that tries too little"
    print(f"cvss score and find --csv: {count} drawn texts, whose answers are those of csv_lists.py, of which csv reads {read}")


if __name__ == "__main__":
    main()
