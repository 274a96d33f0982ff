#!/usr/bin/env python3
"""Compares what the built `cvss score` and `cvss diff` write with reference/lists.py, over drawn lists of vectors, many of them
almost vectors: through gates, by their standard, with blanks around them, in all forms, and beside others of their version
or not. Thresholds are tried as arguments.

usage: tests/checks/compare_lists.py [COUNT [SEED]]
"""
import random
import subprocess
import sys
import tempfile
from pathlib import Path

ROOT = Path(__file__).resolve().parents[2]
sys.path[:0] = [str(ROOT / "reference"), str(ROOT / "tests/inputs")]

import hostile
import lines
import lists
import reference
import rows

PROGRAM = ROOT / "crates/cvss_command/out/cvss_command"
# Texts that stand for a score, and texts near to those that do.
NUMBERS = [f"{tenths // 10}.{tenths % 10}" for tenths in range(103)] + [str(whole) for whole in range(12)]
NAMES = ["none", "low", "medium", "high", "critical", "moderate", "lo", "highh"]
ODD = ["", "-", "-1", "+7", "7.", ".5", "07", "7.00", "7,0", "1e1", "100", " 7", "7 ", "10.00", "\u0667", "h\u0131gh"]


def vector(draw):
    """A line without a tab, often of a vector."""
    kind = draw.choice(("base", "full", "full", "any", "refused"))
    if draw.random() < 0.1:
        return hostile.line(draw).replace(b"\t", b" ").replace(b"\r", b" ").replace(b"\n", b" ")
    return lines.line(draw, draw.choice(list(lines.VERSIONS)), kind).encode()


def exchanged(draw, line):
    """The line with two components that stand side by side exchanged, or one in another case."""
    pieces = line.decode().split("/")
    at = draw.randrange(1, len(pieces))
    if draw.random() < 0.5:
        pieces[at] = lines.in_some_case(draw, pieces[at])
    elif at + 1 < len(pieces):
        pieces[at:at + 2] = reversed(pieces[at:at + 2])
    return "/".join(pieces).encode()


def beside(draw, line):
    """A line of the same version with some components of another one."""
    try:
        version, own = lists.vector_of(line, allow_incomplete=True)
    except reference.Refused:
        return vector(draw)
    front, metrics = lists.setting.VERSIONS[version][1:3]
    for name in draw.sample(list(metrics), draw.choice((0, 1, 1, 2, 5))):
        own = own | {name: draw.choice(list(metrics[name][1]))}
    return reference.canonical(front, metrics, own).encode()


def list_line(draw):
    """A line of a list: a vector, perhaps with blanks around it or in another order, or nothing."""
    line = vector(draw)
    if draw.random() < 0.3:
        line = exchanged(draw, lines.line(draw, draw.choice(("v3.1", "v4", "v4")), "full").encode())
    if draw.random() < 0.2:
        line = draw.choice((b"", b" ", b"\t", b" \t ")) + line + draw.choice((b"", b" ", b"\t\t"))
    return draw.choice((b"", b" ", b"\t ")) if draw.random() < 0.05 else line


def threshold_text(draw):
    return draw.choice((draw.choice(NUMBERS[:101]), lines.in_some_case(draw, draw.choice(NAMES[:5]))))


def options(draw):
    """Arguments of `cvss score`, and what they ask for."""
    arguments, asked = [], {}
    form = draw.choice((None, None, None, "tsv", "json"))
    if form:
        arguments.append(f"--{form}")
        asked["form"] = form
    for name in ("base", "standard"):
        if form is None and draw.random() < 0.3:
            arguments.append(f"--{name}")
            asked[name] = True
    for flag, name in (("--min", "minimum"), ("--fail-on", "fail_on")):
        if draw.random() < 0.5:
            text = threshold_text(draw)
            arguments += draw.choice(([flag, text], [f"{flag}={text}"]))
            asked[name] = lists.threshold(text)
    for name in ("quiet", "allow-incomplete"):
        if draw.random() < 0.2:
            arguments.append(f"--{name}")
            asked[name.replace("-", "_")] = True
    draw.shuffle(arguments) if not any(word in ("--min", "--fail-on") for word in arguments) else None
    return arguments, asked


def run(*arguments, given=b""):
    done = subprocess.run([PROGRAM, *arguments], input=given, capture_output=True, check=False)
    return done.returncode, done.stdout


def expect(actual, expected, what):
    if actual != expected:
        sys.exit(f"{what}: {actual}, and not {expected}")


def try_score(draw, room, count):
    """One run of `cvss score` over a list, on standard input or in two files."""
    arguments, asked = options(draw)
    files = draw.choice(([None], [None], [b"first", b"second"]))
    outcome, names, failed = [], [], False
    if asked.get("form") == "tsv" and not asked.get("quiet"):
        columns = rows.COLUMNS if files == [None] else ("file", *rows.COLUMNS)
        outcome.append("\t".join(columns).encode())
    for file in files:
        given = [list_line(draw).replace(b"\n", b"") for _ in range(count)]
        data = b"".join(line + b"\n" for line in given)
        if file is not None:
            (room / file.decode()).write_bytes(data)
            names.append(str(room / file.decode()))
        for line in reference.lines_of_file(data):
            printed, fails = lists.scored(line, file=names[-1].encode() if names else None, **asked)
            failed |= fails
            outcome += [] if printed is None else [printed]
    wanted = (int(failed), b"".join(line + b"\n" for line in outcome))
    expect(run("score", *arguments, *names, given=b"" if names else data), wanted, f"cvss score {arguments} {names} over {data}")
    return count * len(files)


def try_count(draw, count):
    """How many vectors of each severity there are."""
    arguments, asked = options(draw)
    while asked.pop("quiet", False) or asked.get("form"):
        arguments, asked = options(draw)
    data = b"".join(list_line(draw).replace(b"\n", b"") + b"\n" for _ in range(count))
    tally, failed = dict.fromkeys([*NAMES[4::-1], "rejected"], 0), False
    for line in reference.lines_of_file(data):
        printed, fails = lists.scored(line, **asked)
        failed |= fails
        if printed:
            tally["rejected" if printed.startswith(b"error: ") else printed.split(b" ")[2].decode()] += 1
    wanted = (int(failed), "".join(f"{name} {number}\n" for name, number in tally.items()).encode())
    expect(run("score", "--count", *arguments, given=data), wanted, f"cvss score --count {arguments} over {data}")
    return count


def try_diff(draw, count):
    """A vector beside others, which are lines of standard input."""
    first = vector(draw).replace(b"\n", b"").replace(b"\0", b"")
    given = [beside(draw, first) if draw.random() < 0.8 else vector(draw) for _ in range(count)]
    data = b"".join(line.replace(b"\n", b"") + b"\n" for line in given)
    flags = {name: True for name in ("base", "allow_incomplete") if draw.random() < 0.3}
    arguments = [f"--{name.replace('_', '-')}" for name in flags]
    outcome, accepted = [], True
    for line in reference.lines_of_file(data):
        texts, is_accepted = lists.difference(first, line, **flags)
        outcome += texts
        accepted &= is_accepted
    wanted = (int(not accepted), b"".join(line.encode("utf-8", "surrogateescape") + b"\n" for line in outcome))
    expect(run("diff", *arguments, "--", first, "-", given=data), wanted, f"cvss diff {arguments} {first} over {data}")
    return count


def try_threshold(text):
    """A text that is a score or a severity, or is no value of the option."""
    wanted = b"AV:N/AC:L/Au:N/C:N/I:N/A:C"
    tenths = lists.threshold(text)
    done = subprocess.run([PROGRAM, "score", "--min", text, wanted], capture_output=True, check=False)
    if tenths is None:
        error = f"cvss: '{text}' is not a score or a severity; see 'cvss help score'\n".encode("utf-8", "surrogateescape")
        expect((done.returncode, done.stdout, done.stderr), (2, b"", error), text)
    else:
        expect((done.returncode, done.stdout), (0, wanted + b" 7.8 high\n" if tenths <= 78 else b""), text)


def main():
    count = int(sys.argv[1]) if len(sys.argv) > 1 else 10_000
    draw = random.Random(int(sys.argv[2]) if len(sys.argv) > 2 else 5)
    for text in (*NUMBERS, *NAMES, *ODD, "High", "CRITICAL", "nOne"):
        try_threshold(text)
    tried = 0
    with tempfile.TemporaryDirectory() as room:
        while tried < count:
            tried += try_score(draw, Path(room), 100) + try_count(draw, 50) + try_diff(draw, 50)
    print(f"{tried} lines")


if __name__ == "__main__":
    main()
