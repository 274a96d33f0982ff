#!/usr/bin/env python3
"""A second implementation for lines of all versions, on fractions, written from the public standards
alone.

Reads lines on standard input and writes the answer to each on standard output. It shares no code
with the crates: its answers are expected values for them.
"""
import sys
from functools import lru_cache

import v2
import v3
import v4


# The kinds of error, in the order of the numbers that the C header gives them, from 1.
KINDS = ("component", "prefix", "version", "name", "value", "repeat", "missing", "encoding")


class Refused(Exception):
    """The first reason why a text is rejected, its kind, the metric that it names, if any, and the
    part of the text that it quotes, if it does."""

    def __init__(self, kind, reason, metric=None, part=""):
        super().__init__(reason)
        self.kind = kind
        self.metric = metric
        self.part = part


def raised(text):
    """The text with its ASCII letters in upper case."""
    return "".join(c.upper() if c.isascii() else c for c in text)


def spelled(metrics, name, value, any_case):
    """The spelling of the value that is read, if there is one."""
    return next((spelling for spelling in metrics[name][1]
                 if (raised(spelling) if any_case else spelling) == value), None)


def read_component(version, metrics, vector, piece, any_case=True):
    """Adds a component to the vector of those before it, or returns the reason why it is rejected."""
    name, value = (raised(piece) if any_case else piece).split(":")
    if name not in metrics:
        raise Refused("name", f"unknown CVSS metric name: `{name}`", part=name)
    spelling = spelled(metrics, name, value, any_case)
    if spelling is None:
        # A modified metric of v3 is reported by the name of its base metric.
        blamed = name.removeprefix("M") if version == "v3" else name
        words = f"invalid CVSS{version} {blamed} ({metrics[blamed][0]}) metric: `{value}`"
        raise Refused("value", words, blamed, value)
    if name in vector:
        words = f"duplicate CVSS{version} {name} ({metrics[name][0]}) metric"
        raise Refused("repeat", words, name)
    vector[name] = spelling


def find_missing(version, metrics, mandatory, vector):
    """Gives the reason that a mandatory metric is missing, if one is."""
    for name in mandatory:
        if name not in vector:
            words = f"missing mandatory CVSS{version} {name} ({metrics[name][0]}) metric"
            raise Refused("missing", words, name)


def read_components(version, metrics, mandatory, pieces, any_case=True):
    """The vector of the components, or the first reason why they are rejected."""
    vector = {}
    for piece in pieces:
        read_component(version, metrics, vector, piece, any_case)
    find_missing(version, metrics, mandatory, vector)
    return vector


def no_component(piece):
    return Refused("component", f"invalid CVSS metric group component: `{piece}`", part=piece)


def cut(text):
    pieces = text.split("/")
    for piece in pieces:
        if piece.count(":") != 1:
            raise no_component(piece)
    return pieces


def canonical(front, metrics, vector):
    return "/".join(front + [f"{name}:{vector[name]}" for name in metrics if name in vector])


def version_told(pieces, versions):
    """The version in the first segment, which has to be one of these."""
    prefix, version = pieces[0].split(":", 1)
    if prefix != "CVSS":
        raise Refused("prefix", f"invalid CVSS string prefix: `{prefix}`", part=prefix)
    if version not in versions:
        raise Refused("version", f"unsupported CVSS version: {version}", part=version)
    return version


def read_v2(text):
    """The canonical text, the score in tenths and the severity, or the reason of a rejection."""
    vector = read_components("v2", v2.METRICS, v2.MANDATORY, cut(text), any_case=False)
    score = v2.scores(vector)[0]
    return canonical([], v2.METRICS, vector), score, v2.severity(score)


def read_v3(text):
    """The same of v3, with the base score."""
    pieces = cut(text)
    version = version_told(pieces, ("3.0", "3.1"))
    vector = read_components("v3", v3.METRICS, [], pieces[1:])
    score = v3.base(int(version[2:]), vector)
    return canonical(pieces[:1], v3.METRICS, vector), score, v3.severity(score)


def read_v4(text):
    """The same of v4."""
    pieces = cut(text)
    version_told(pieces, ("4.0",))
    vector = read_components("v4", v4.METRICS, v4.MANDATORY, pieces[1:])
    score = v4.score(vector)
    return canonical(pieces[:1], v4.METRICS, vector), score, v3.severity(score)


@lru_cache(maxsize=100_000)
def read(text):
    """The same for the version in the text, which is v2 if it has none."""
    pieces = text.split("/")
    if len(pieces) == 1 or ":" not in pieces[0]:
        raise no_component(pieces[0])
    if "." not in pieces[0].split(":", 1)[1]:
        return read_v2(text)
    version = version_told(pieces, ("3.0", "3.1", "4.0"))
    return read_v4(text) if version == "4.0" else read_v3(text)


def text_of(line):
    """The text that these bytes are."""
    try:
        return line.decode("utf-8")
    except UnicodeDecodeError:
        raise Refused("encoding", "not UTF-8") from None


def answer(line):
    try:
        canonical_text, score, severity = read(text_of(line))
    except Refused as reason:
        return f"error: {reason}"
    return f"{canonical_text} {score // 10}.{score % 10} {severity}"


def lines_of(data):
    """The lines of bytes, each without its end, which is a line feed or a carriage return and one."""
    lines = data.split(b"\n")
    if lines[-1] == b"":
        lines.pop()
    return [line.removesuffix(b"\r") for line in lines]


def lines_of_file(data):
    """The lines of a file or of standard input, without a byte-order mark of UTF-8."""
    return lines_of(data.removeprefix(b"\xef\xbb\xbf"))


def main():
    for line in lines_of(sys.stdin.buffer.read()):
        sys.stdout.buffer.write(answer(line).encode("utf-8") + b"\n")


if __name__ == "__main__":
    main()
