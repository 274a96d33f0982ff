#!/usr/bin/env python3
"""Writes random texts that contain vectors, or almost.

A text is a line of parts: prose, links, scores, vectors of each version, valid and rejected, truncated
anywhere or in any case, `CVSS:` alone, letters of other scripts, bytes that are not UTF-8, and the bytes
of vectors in any order. The parts are joined by a space, by nothing, or by a byte that often is next to
vectors. One text in eight has only bytes of vectors. The same seed gives the same texts.

usage: tests/inputs/texts.py COUNT [SEED]
"""
import random
import sys

import lines

PROSE = """see the advisory of last week for what an attacker can do over a network without privileges
and/or with them e.g. by HTTP/1.1 on port 443: rated 9.8/10 at 10:15 (CVE-2024-12345) in 2.0:3 or
CVSSv3.1: critical AV:N/AC:L CVSS:3.1 CVSS:4.0/ CVSS CVSS:/ CVSS:// CVSS:3.1/. CVSS:2.0 cvss:3.1/AV:N
XCVSS:3.1/AV:N CVSS:CVSS:CVSS:3.1/AV:N VSS:3.1 /CVSS:. .:/ a:b ://""".split()
LOOSE = ["cvss:3.1/", "CVSS3.1/", "CVSSv3.0/", "Cvss:4.0/", "cvss4.0/", "CVSS:3.1%2F", "CVSS%3A3.1/", "CVSS%3A4.0%2F"]
LINKS = ["https://www.first.org/cvss/calculator/3.1#", "https://example.org/calculator?vector=",
         "https://example.org/CVSS:3.1/AV:N/", "[score](", "<a href=\"#", "score:", "9.8/", "v3:", "7.5/", "vector:", "score:10.0/", "x:7.5/", "?v=", "CVSS3#",
         "https://nvd.nist.gov/vuln-metrics/cvss/v3-calculator?vector="]
STRANGE = ["\u00e9", "\u017f", "\uff21\uff36:N", "\u201c", "\u00a0", "\u2215", "\U0001f600", "\0", "\r",
           "\x7f", "\x1b[1m"]
BROKEN = [b"\xff", b"\x80", b"\xc3", b"\xe2\x80", b"\xed\xa0\x80", b"\xc0\xaf"]
JOINTS = ([b" "] * 6 + [b""] * 3 + [mark.encode() for mark in "./:,;()[]{}<>\"'`#=&|_-\t\\"]
          + [b"\r", b"\0", b"/CVSS:", b"://", b"..."])
VECTOR_BYTES = "CVSS:", "CVSS:3.1/", "/", ":", ".", "AV:N", "av:n", "A:H", "C", "V", "S", "3.1", "x"
ENDS = ["", "", "", "", ".", ":", "/", "...", "/.", ":/", "//", "IGH", "/X:Y", "/E", "&version=3.1", "&version=3.0&x", "&version=2.0"]


def vector(draw):
    """A vector, most often valid; one in four is truncated, and some have more text after them."""
    kind = draw.choice(("base", "full", "any", "refused"))
    text = lines.line(draw, draw.choice(("v2", "v3.0", "v3.1", "v4")), kind)
    if draw.random() < 0.25:
        text = text[:draw.randrange(len(text) + 1)]
    if draw.random() < 0.1:
        text = text.partition("/")[2] if text.startswith("CVSS") else text
    if draw.random() < 0.2:
        text = draw.choice(LOOSE) + text.partition("/")[2] if draw.random() < 0.5 else text
        text = text.replace(":", draw.choice((":", "%3A", "%3a"))).replace("/", draw.choice(("/", "%2F", "%2f", "\\/")))
        text += draw.choice(("", "", "%20", "%26x%3Dy", "%2F", "%"))
    return text + draw.choice(ENDS)


def jumble(draw):
    return "".join(draw.choice(VECTOR_BYTES) for _ in range(draw.randrange(20)))


def piece(draw):
    chance = draw.random()
    if chance < 0.35:
        return vector(draw).encode()
    if chance < 0.8:
        return draw.choice(draw.choice((PROSE, PROSE, PROSE, LINKS, STRANGE))).encode()
    return draw.choice(BROKEN) if chance < 0.85 else jumble(draw).encode()


def text(draw):
    if draw.random() < 0.125:
        pieces = [draw.choice((vector, jumble))(draw).encode() for _ in range(draw.randrange(6))]
        return draw.choice((b"", b"", b".", b"/", b":")).join(pieces)
    return b"".join(piece(draw) + draw.choice(JOINTS) for _ in range(draw.randrange(9)))


def drawn(count, seed=2):
    draw = random.Random(seed)
    return [text(draw) for _ in range(count)]


def main():
    for each in drawn(int(sys.argv[1]), int(sys.argv[2]) if len(sys.argv) > 2 else 2):
        sys.stdout.buffer.write(each + b"\n")


if __name__ == "__main__":
    main()
