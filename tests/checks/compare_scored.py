#!/usr/bin/env python3
"""Compares what the built `cvss score` and `cvss set` write with complete.py and rows.py, over drawn lines, many of
them almost vectors: as lines with all metrics counted or the base metrics, as columns and objects, with incomplete vectors
and without, from standard input, a file, several files and words. The metrics to set are drawn too.

usage: tests/checks/compare_scored.py [COUNT [SEED]]
"""
import json
import random
import subprocess
import sys
import tempfile
from itertools import product
from pathlib import Path

ROOT = Path(__file__).resolve().parents[2]
sys.path[:0] = [str(ROOT / "reference"), str(ROOT / "tests/inputs")]

import complete
import hostile
import lines
import reference
import rows

PROGRAM = ROOT / "crates/cvss_command/out/cvss_command"
HEADER = "\t".join(rows.COLUMNS).encode() + b"\n"
CUT = b"CVSS:3.1/AV:N/AC:L/PR:N/UI:N/S:U/C:H"
ODD = [b"", b"=1+1", b"+AV:N", b"-x", b"@x", b"'=1", b"a\tb\\c\rd:e/f", b'x:"\x01\x1f\x7f/AV:N', b"\xff\t\\", "AV:\u00e9/AC:L".encode(), CUT]
# Metrics by hand, and how drawn ones are made wrong.
METRICS = (["E:U"], ["E:A", "MAV:L"], ["c:h", "i:H", "A:N"], ["RL:OF"], ["MSI:S", "CR:H", "CR:L"], ["Q:Q"],
           ["S:C", "PR:L"])
FLAGS = (), (), ("--base",), ("--allow-incomplete", "--base"), ("--base", "--allow-incomplete")
WRONG = "x:y", "E:Q", "E::U", "CVSS:3.1", "E:\u00dc"
AT_ONCE = 5_000


def run(room, words, written):
    """What the program writes about these files, or about standard input."""
    done = subprocess.run([PROGRAM, *words, *written], input=written.get("-", b""), cwd=room, capture_output=True,
                          check=False)
    if not all(line.startswith(b"cvss: hint: ") for line in done.stderr.splitlines()):
        sys.exit(f"cvss {words}: {done.stderr[:300]}")
    return done


def parsed(text):
    return [json.loads(line, object_pairs_hook=list) if line else line for line in text.splitlines()]


def expect(words, done, expected, rejected):
    """Ends if other rows are written, or another status."""
    actual = done.stdout
    if actual != expected and "--json" in words:
        # a byte can be escaped in several ways
        actual, expected = parsed(actual), parsed(expected)
    if actual != expected:
        pairs = zip(*((text if isinstance(text, list) else text.splitlines() for text in (actual, expected))))
        here, there = next((pair for pair in pairs if pair[0] != pair[1]), (len(actual), len(expected)))
        sys.exit(f"cvss {words} writes {str(here)[:2000]}, and not {str(there)[:2000]}")
    if done.returncode != int(rejected):
        sys.exit(f"cvss {words}: status {done.returncode}")


def answers_of(written, answer):
    """The answers to each line of the files, after the name where there are several, and whether one is rejected."""
    answers, rejected = [], False
    for name, data in written.items():
        front = f"{complete.shown_name(name.encode())}:".encode() if len(written) > 1 else b""
        for line in reference.lines_of_file(data):
            text = answer(line)
            rejected |= text.startswith("error: ")
            answers.append(front + text.encode() + b"\n")
    return b"".join(answers), rejected


def row(form, line, allow, file, guard=False):
    text = complete.scored_text(line)
    return rows.row(form, text, allow, file, guard) if text else b""


def compare_score(room, written):
    """The forms of `cvss score` over files."""
    for allow, form in product((False, True), (None, "base", "tsv", "json")):
        words = ["score", *(["--allow-incomplete"] if allow else []), *([f"--{form}"] if form else [])]
        expected, rejected = answers_of(written, lambda line: complete.scored(line, None, allow, form == "base"))
        if form in ("tsv", "json"):
            several = len(written) > 1
            header = (b"file\t" if several else b"") + HEADER if form == "tsv" else b""
            expected = header + b"".join(row(form, line, allow, name.encode() if several else None) + b"\n"
                                         for name, data in written.items() for line in reference.lines_of_file(data))
            if form == "tsv":
                guarded = header + b"".join(row(form, line, allow, name.encode() if several else None, True) + b"\n"
                                            for name, data in written.items() for line in reference.lines_of_file(data))
                expect([*words, "--guard"], run(room, [*words, "--guard"], written), guarded, rejected)
        expect(words, run(room, words, written), expected, rejected)


def metrics(draw):
    """Words that set metrics of one version or several, and some that set nothing."""
    if draw.random() < 0.1:
        return draw.choice(METRICS)
    words = []
    for _ in range(draw.choice((1, 1, 1, 2, 3, 6))):
        _, parts = lines.components(draw, draw.choice(list(lines.VERSIONS)), 1)
        for word in draw.sample(parts, draw.choice((1, 1, 1, 2))):
            chance = draw.random()
            words.append(draw.choice(WRONG) if chance < 0.06 else lines.in_some_case(draw, word) if chance < 0.25 else word)
    return words


def compare_set(room, written, own, flags=()):
    """Metrics are set, with flags before the first and after it."""
    words = ["set", *flags[:1], *own[:1], *flags[1:], *own[1:], "--"]
    expected, rejected = answers_of(written, lambda line: complete.shown_answer(
        line, "/".join(own).encode(), "--allow-incomplete" in flags, "--base" in flags))
    expect(words, run(room, words, written), expected, rejected)


def try_files(draw, room, count, compare):
    """Compares over so many lines in files or on standard input."""
    written = hostile.files(draw, room, count)
    compare(room, written)
    return sum(len(reference.lines_of_file(data)) for data in written.values())


def try_odd(room):
    """Lines and names with what a row escapes."""
    names = ("one", 'two\t\n"')
    written = dict(zip(names, (b"".join(line + b"\n" for line in ODD), ODD[-1])))
    for name, data in written.items():
        (room / name).write_bytes(data)
    compare_score(room, written)


def is_word(line):
    """Whether a line can be an argument that is a vector."""
    return b":" in line.split(b"/")[0] and b"\0" not in line and not line.startswith(b"-") and len(line) < 1000


def try_words(draw, count):
    """Vectors as words, which are read like files of one line; a rejected one can have a hint."""
    words = list(filter(is_word, (hostile.line(draw) for _ in range(count))))
    done = subprocess.run([PROGRAM, "score", *words], capture_output=True, check=False)
    answers = [complete.scored(line) for word in words for line in reference.lines_of(word)]
    expect(["score", "WORDS"], done, "".join(answer + "\n" for answer in answers).encode(),
           any(answer.startswith("error: ") for answer in answers))
    if not all(line.startswith(b"cvss: hint: ") for line in done.stderr.splitlines()):
        sys.exit(f"cvss score: {done.stderr}")
    return len(words)


def main():
    count = int(sys.argv[1]) if len(sys.argv) > 1 else 2_000
    draw = random.Random(int(sys.argv[2]) if len(sys.argv) > 2 else 2)
    scored = of_words = set_lines = sets = 0
    with tempfile.TemporaryDirectory() as folder:
        room = Path(folder)
        try_odd(room)
        while scored < count:
            scored += try_files(draw, room, min(AT_ONCE, count - scored), compare_score)
            of_words += try_words(draw, min(AT_ONCE, count) // 10)
        for own in METRICS:
            try_files(draw, room, 20, lambda *files, own=own: compare_set(*files, own))
        while set_lines < count:
            size = draw.randrange(1, 200)
            own, flags = metrics(draw), draw.choice(FLAGS)
            set_lines += try_files(draw, room, size, lambda *files, own=own, flags=flags: compare_set(*files, own, flags))
            sets += 1
    print(f"cvss score: {scored} drawn lines in each form, and {of_words} words; cvss set: {set_lines} drawn lines,"
          f" with {sets} drawn settings: the answers are those of complete.py, the rows those of rows.py")


if __name__ == "__main__":
    main()
