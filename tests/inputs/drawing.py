"""Draws texts, metrics and versions that are hostile to parsers: the same from a random generator in the same state."""
import sys
from pathlib import Path

ROOT = Path(__file__).resolve().parents[2]
sys.dont_write_bytecode = True  # leaves nothing in the tree
sys.path[:0] = [str(ROOT / folder) for folder in ("reference", "tests/inputs")]

import lines
import setting

# The number that the library has for a version.
VERSIONS = {"2.0": 20, "3.0": 30, "3.1": 31, "4.0": 40}

BYTES = [bytes([code]) for code in b"/:.CVSS:AVNHLPUXacegix0349 \t\n\r\"'\\`{}()-\x00\x01\x7f\x80\xc3\xa9\xff"]
PIECES = [b"CVSS:3.1", b"CVSS:4.0", b"CVSS:3.0", b"cvss:3.1", b"/", b"//", b":", b"::", b"AV:N", b"av:n", b"Au:N",
          b"AU:N", b"E:X", b"RL:ND", b"MSI:S", b"S:", b":N", b"CVSS:", b"CVSS:9.9", b"CVSS:\xc4\xb1.0", b"\\N", b"%s%n",
          b"'; --", b"\xef\xbb\xbf", b"\xed\xa0\x80", "ſ:Ｎ".encode(), "Á".encode()]


def spoilt(draw, text):
    """A text with some bytes put in, taken away or repeated."""
    for _ in range(draw.randrange(1, 4)):
        start = draw.randrange(len(text) + 1)
        end = min(len(text), start + draw.choice((0, 0, 1, 1, 2, 5, 30)))
        cut = text[start:end]
        put = draw.choice((b"", draw.choice(BYTES), draw.choice(PIECES), cut * 2, cut.swapcase()))
        text = text[:start] + put + text[end:]
    return text


def hostile(draw):
    """A text of one of some kinds."""
    kind = draw.randrange(20)
    if kind == 0:
        return bytes(draw.randrange(256) for _ in range(draw.randrange(40)))
    if kind == 1:
        return b"/".join(draw.choices(PIECES, k=draw.randrange(12)))
    if kind == 2:
        most = 100_000 if draw.random() < 0.001 else 300
        return draw.choice(PIECES) * draw.randrange(most // 4)
    line = lines.line(draw, "all", draw.choice(("base", "full", "any"))).encode()
    return line if kind < 5 else spoilt(draw, line)


def some_version(draw):
    return draw.choice(("5.0", "3", "", "v3.1")) if draw.random() < 0.03 else draw.choice(list(VERSIONS))


def in_some_form(draw, pieces):
    """Components in any order and case, some of them spoilt."""
    draw.shuffle(pieces)
    text = "/".join(pieces)
    text = draw.choice((text, text, text.lower(), lines.in_some_case(draw, text))).encode()
    return spoilt(draw, text) if draw.random() < 0.2 else text


def some_metrics(draw, version):
    """Components of a version's metrics, of any group; now and then of another version, or one metric twice."""
    if version is None or draw.random() < 0.05:
        version = draw.choice(list(VERSIONS))
    metrics = setting.VERSIONS[VERSIONS[version]][2]
    names = draw.sample(list(metrics), draw.choice((0, 1, 1, 1, 2, 2, 3, 5, len(metrics))))
    names += names[:1] if draw.random() < 0.05 else []
    return in_some_form(draw, [f"{name}:{draw.choice(list(metrics[name][1]))}" for name in names])


def some_components(draw, version):
    """Components of a vector of a version; now and then of another one, or without the first."""
    names = {"2.0": "v2", "3.0": "v3.0", "3.1": "v3.1", "4.0": "v4"}
    drawn = "all" if draw.random() < 0.1 else names.get(version, "all")
    pieces = lines.line(draw, drawn, draw.choice(("base", "full"))).split("/")
    pieces = pieces[pieces[0].startswith("CVSS:"):]
    return in_some_form(draw, pieces[draw.random() < 0.1:])
