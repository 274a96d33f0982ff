#!/usr/bin/env python3
"""Measures how the work of built programs grows with hostile input: each input at some sizes.

It counts instructions by valgrind's callgrind, minus those of a run over no line, and the time of a run
without it, and checks the answers. It ends with status 1 if an input takes more instructions per byte
than its bound, which is a quarter more than was measured.

usage: bench/growth.py [SIZE..]
"""
import json
import re
import subprocess
import sys
import tempfile
import time
from pathlib import Path

ROOT = Path(__file__).resolve().parents[1]
sys.path[:0] = [str(ROOT / name) for name in ("reference", "tests/inputs", "tests")]

import finding
from deep_documents import VECTOR, document
from reference import answer
from skipping import has

# Each input: the most instructions a byte, and what it is by its size: what is written on the left
# has that many bytes, pieces or lines.
INPUTS = {
    "a line of letters": (12.2, lambda size: b"a" * size),
    "a line of colons": (12.2, lambda size: b":" * size),
    "a name of letters": (35.5, lambda size: b"CVSS:3.1/" + b"a" * size + b":N"),
    "a value of letters": (28, lambda size: b"CVSS:4.0/AV:" + b"n" * size),
    "a line of bytes that are no UTF-8": (9.4, lambda size: b"\xff" * size),
    "a line of empty pieces": (3.4, lambda size: b"/" * size),
    "a line of v2 pieces": (21.8, lambda size: b"/".join([b"AV:N"] * size)),
    "a line of v3 pieces, the last without a colon":
        (22, lambda size: b"CVSS:3.1/" + b"AV:N/" * size + b"x"),
    "a line of v4 pieces": (22, lambda size: b"CVSS:4.0" + b"/av:n" * size),
    "empty lines": (714, lambda size: b"\n" * size),
    "lines of a carriage return": (360, lambda size: b"\r\n" * size),
}

PROSE = (b"The service parses the header of a request before its length is known, so a client that "
         b"sends more than 4,096 bytes writes behind the buffer; versions 2.3.1 and/or later are fixed.\n")

# The texts of `cvss find` in the same way: of that many bytes, or what is named that often.
TEXTS = {
    "prose without a vector": (8.3, lambda size: (PROSE * (size // len(PROSE) + 1))[:size]),
    "`CVSS:` again and again": (4.4, lambda size: b"CVSS:" * size),
    "the same, and a slash at the end": (391, lambda size: b"CVSS:" * size + b"/"),
    "`CVSS:/` again and again": (298, lambda size: b"CVSS:/" * size),
    "colons": (3.8, lambda size: b":" * size),
    "slashes": (22.3, lambda size: b"/" * size),
}

# An input has one document per line if its first line is one by itself, so that line is read twice.
FIRST_LINE = b"{}\n"
# The documents of `cvss audit`: the same bound, and by the size in bytes of what kind it is, and of
# how many places.
DOCUMENTS = {
    "vectors in an array under a name of ten letters":
        (611, lambda size: ("names", 10, size // 46)),
    "the same at depth 120": (811, lambda size: ("deep", size // 46)),
    "members that hold vectors": (584, lambda size: ("members", size // 53)),
    "the same without a vector": (207, lambda size: ("members", size // 53, "nameless")),
}


def made(told):
    """The document of this kind, as bytes."""
    *kind, last = told
    nameless = last == "nameless"
    return document(*(kind if nameless else told), nameless=nameless).encode()


def audited(data):
    """The answer to a document of `deep_documents.py`: one object for each of its places. Where no
    metric of a group is given, its score is the base score."""
    data = data.removeprefix(FIRST_LINE)
    text, score, severity = answer(VECTOR.encode()).split()
    scores = ",".join(f'"{group}":{score}' for group in ("base", "environmental", "score", "temporal"))
    members = (f'"given":"{VECTOR}","line":2,"scores":{{{scores}}},"severity":"{severity}",'
               f'"vector":"{text}"}}\n')
    return "".join(f'{{"at":"{place}",{members}' for place in places(json.loads(data), "")).encode()


def places(value, at):
    """Where vectors are: an object's own location before those in it, members by their names."""
    if isinstance(value, dict):
        if "vectorString" in value:
            yield at
        for name in sorted(value):
            yield from places(value[name], f"{at}/{name}")
    elif isinstance(value, list):
        for number, item in enumerate(value):
            yield from places(item, f"{at}/{number}")


def expected(data):
    """The answers, where equal lines that follow each other are answered once."""
    lines = data.split(b"\n")
    if lines[-1] == b"":
        lines.pop()
    known = {line: answer(line.removesuffix(b"\r")).encode() + b"\n" for line in set(lines)}
    return b"".join(known[line] for line in lines)


def run(program, data, prefix=()):
    """The answers, what was written on standard error, and the seconds taken."""
    with tempfile.TemporaryFile() as given, tempfile.TemporaryFile() as written:
        given.write(data)
        given.seek(0)
        began = time.monotonic()
        name, *arguments = program.split()
        path = ROOT / f"crates/{name}/out/{name}"
        done = subprocess.run([*prefix, path, *arguments], stdin=given, stdout=written,
                              stderr=subprocess.PIPE, check=False)
        seconds = time.monotonic() - began
        written.seek(0)
        return written.read(), done.stderr.decode(), seconds


def instructions(program, data):
    callgrind = ("valgrind", "--tool=callgrind", "--callgrind-out-file=/dev/null")
    _, log, _ = run(program, data, callgrind)
    return int(re.search(r"Collected : (\d+)", log).group(1))


def measure(program, inputs, answers, sizes):
    """Prints a row for each input and size, and returns which inputs take more than they may."""
    start, wrong = instructions(program, b""), []
    print(f"\n| input of `{program}` | size | bytes | instructions | a byte | milliseconds |")
    print("|---|---|---|---|---|---|")
    for name, (most, make) in inputs.items():
        for size in sizes:
            data = make(size)
            written, _, seconds = run(program, data)
            if written != answers(data):
                sys.exit(f"{name}, {size}: the answer is wrong")
            count = instructions(program, data) - start
            rate = count / len(data)
            print(f"| {name} | {size:,} | {len(data):,} | {count:,} | {rate:.1f} "
                  f"| {seconds * 1000:.0f} |", flush=True)
            if rate > most:
                wrong.append(f"{program}, {name}, {size:,}: {rate:.1f} instructions a byte, and "
                             f"the bound is {most}")
                # a larger input might take hours
                break
    return wrong


def main():
    if not has("valgrind", "how the work grows with hostile input"):
        return
    sizes = [int(size) for size in sys.argv[1:]] or [100_000, 1_000_000]
    wrong = measure("cvss_tool", INPUTS, expected, sizes)
    wrong += measure("cvss_command find", TEXTS, lambda data: "".join(finding.answers(data)).encode(),
                     sizes)
    documents = {name: (most, lambda size, kind=kind: FIRST_LINE + made(kind(size)))
                 for name, (most, kind) in DOCUMENTS.items()}
    wrong += measure("cvss_command audit --json", documents, audited, [size // 5 for size in sizes])
    sys.exit("\n".join(wrong) or None)


if __name__ == "__main__":
    main()
