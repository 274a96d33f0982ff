#!/usr/bin/env python3
"""Writes random lines of which many are almost vectors, and files of such lines.

A line is a vector, valid or rejected, or is made from one: a byte of it is dropped, doubled or replaced by any other,
its prefix is that of another version, it is cut off, in another case, among others or repeated into a long line; or it
is empty, blank, or one of texts.py. The same seed gives the same lines.

usage: tests/inputs/hostile.py COUNT [SEED]
"""
import random
import sys

import lines
import texts

KINDS = "base", "full", "every", "any", "refused"
PREFIXES = ("", "CVSS:2.0/", "CVSS:3.0/", "CVSS:3.1/", "CVSS:4.0/", "CVSS:3.2/", "CVSS:4.1/", "CVSS:31/", "CVSS:3.10/",
            "CVSS:/", "cvss:3.1/", "CVSS/", "CVSS:v3.1/", "CVSS:3.1//", "3.1/", "CVSS:CVSS:3.1/", "CVSS:\u0663.1/",
            "CVSS:3.1/CVSS:3.1/", "CVSS3.1/")
BLANK = b"", b" ", b"\t", b"\r", b" \t ", b"/", b":", b"\0", b"\xef\xbb\xbf", b"\xff"
AROUND = (b" ", b"\t", b"\r", b"(", b")", b'"', b"\xc2\xa0", b"\xef\xbb\xbf", b"\xff", b".", b"/", b"\\", b"\x1b[1m",
          b"\0")
JOINTS = b" ", b",", b"", b"/", b";", b"\t", b"\r", b"//", b"|", b"\xff"
NAMES = "list", "with space", "\u00e9", 'quo"te', "tab\there", "back\\slash"
LONG = 70_000


def vector(draw):
    return lines.line(draw, "all", draw.choice(KINDS)).encode()


def mutated(draw):
    """A vector of which some bytes are dropped, doubled or replaced."""
    line = bytearray(vector(draw))
    for _ in range(draw.choice((1, 1, 1, 2, 5))):
        at = draw.randrange(len(line))
        known, any_byte = bytes([draw.choice(b"/:.ACNHLX")]), bytes([draw.randrange(256)])
        other = draw.choice((b"", bytes(line[at:at + 1] * 2), any_byte, known))
        line[at:at + 1] = other.replace(b"\n", b"\r")
        if not line:
            break
    return bytes(line)


def misfit(draw):
    """The components of a version after the prefix of another."""
    parts = lines.components(draw, draw.choice(list(lines.VERSIONS)), 0.3)[1]
    return (draw.choice(PREFIXES) + "/".join(parts)).encode()


def cut(draw):
    line = vector(draw)
    return line[:draw.randrange(len(line) + 1)]


def incomplete(draw):
    """A vector that lacks some of its components, of any version."""
    front, parts = lines.components(draw, draw.choice(list(lines.VERSIONS)), 0.2)
    kept = [part for part in parts if draw.random() < 0.8]
    return "/".join(front + (kept or parts)).encode()


def in_other_case(draw):
    line = vector(draw)
    return draw.choice((line.lower, line.upper, line.swapcase))()


def surrounded(draw):
    return draw.choice((draw.choice(AROUND), b"")) + vector(draw) + draw.choice(AROUND)


def several(draw):
    return draw.choice(JOINTS).join(draw.choice((vector, incomplete))(draw) for _ in range(draw.randrange(2, 5)))


def long(draw):
    """A line that no buffer of a usual size holds, in one of fifty."""
    if draw.random() < 0.98:
        return vector(draw)
    own = vector(draw)
    return draw.choice((own * (LONG // 40), b"x" * LONG, own + b" " * LONG, b" " * LONG + own, b"AV:" + b"N" * LONG,
                        b"CVSS:3.1/" + b"E:X/" * (LONG // 4)))


def spread(draw):
    return draw.choice((draw.choice(BLANK), texts.text(draw).replace(b"\n", b" ")))


MAKERS = (vector, vector, vector, mutated, mutated, misfit, cut, incomplete, in_other_case, surrounded, several, long,
          spread)


def line(draw):
    return draw.choice(MAKERS)(draw)


def content(draw, given):
    """The bytes of a file of lines, whose last may have no end."""
    ends = draw.choice(([b"\n"], [b"\r\n"], [b"\n", b"\r\n"]))
    data = b"".join(each + draw.choice(ends) for each in given)
    return data.rstrip(b"\r\n") if draw.random() < 0.3 else data


def files(draw, room, count, make=line):
    """Writes so many lines to files of a folder, and returns the contents of these by their names, which are operands;
    or one content by a hyphen, for standard input."""
    names = draw.sample(NAMES, draw.choice((1, 1, 2, 3)))
    written = {}
    for left, name in zip(range(len(names), 0, -1), names):
        own = count if left == 1 else draw.randrange(count + 1)
        count -= own
        written[name] = content(draw, [make(draw) for _ in range(own)])
        (room / name).write_bytes(written[name])
    return written if len(names) > 1 or draw.random() < 0.5 else {"-": written[names[0]]}


def main():
    draw = random.Random(int(sys.argv[2]) if len(sys.argv) > 2 else 2)
    for _ in range(int(sys.argv[1])):
        sys.stdout.buffer.write(line(draw) + b"\n")


if __name__ == "__main__":
    main()
