#!/usr/bin/env python3
"""A second implementation of what `cvss score` and `cvss set` print, written from the public standards alone.

Reads lines on standard input and writes the score line of each on standard output.

usage: reference/complete.py [--allow-incomplete] [--base] [METRIC:VALUE..]
"""
import re
import sys

import reference
import scores
import setting
import v3
from reference import Refused


# Control characters, separators of lines, and marks of direction, which are not to be seen as themselves (RFC 8259, section
# 7, has the escapes).
HIDDEN = re.compile("[\0-\x1f\x7f-\x9f\u200e\u200f\u2028-\u202e\u2066-\u2069]")
SHORT = {"\b": "\\b", "\t": "\\t", "\n": "\\n", "\f": "\\f", "\r": "\\r"}


def shown(text):
    """A text with escapes for what breaks a line or a terminal."""
    return HIDDEN.sub(lambda hidden: SHORT.get(hidden[0], f"\\u{ord(hidden[0]):04x}"), text)


def shown_name(name):
    """The name of a file in a message or before an answer, by its bytes if it is not UTF-8."""
    try:
        return shown(name.decode("utf-8"))
    except UnicodeDecodeError:
        return "".join(chr(byte) if 0x20 <= byte <= 0x7e else f"\\x{byte:02x}" for byte in name)


def scored_text(line):
    """What `cvss score` reads of a line: its text without the spaces and tabs around it."""
    return line.strip(b" \t")


def scored(line, *options, **named):
    """What `cvss score` prints for a line, which is nothing where it has no text."""
    text = scored_text(line)
    return shown(answer(text, *options, **named)) if text else ""


def shown_answer(line, *options, **named):
    """What `cvss set` prints for a line."""
    return shown(answer(line, *options, **named))


def find_missing(text):
    """Gives the reason that a vector of v3 lacks a base metric, if it does (v3.1 specification, section 6)."""
    version, vector = setting.read(text)
    if version in (30, 31):
        reference.find_missing("v3", v3.METRICS, v3.BASE, vector)


def answer(line, metrics=None, allow_incomplete=False, base=False):
    """The score line of a line, whose vector may have metrics set: with the score of all metrics, or the base score."""
    try:
        if metrics is not None:
            text = setting.with_metrics(line, metrics)
        else:
            text = reference.text_of(line)
            reference.read(text)
        if not allow_incomplete:
            find_missing(text)
    except Refused as reason:
        return f"error: {str(reason).split(': ', 1)[1] if str(reason).startswith('metric ') else reason}"
    version, vector = setting.read(text)
    score, severity = (scores.base if base else scores.overall)(version, vector)
    return f"{reference.read(text)[0]} {score // 10}.{score % 10} {severity}"


def main():
    flags = {word for word in sys.argv[1:] if word in ("--allow-incomplete", "--base")}
    given = [word for word in sys.argv[1:] if word not in flags]
    metrics = "/".join(given).encode("utf-8") if given else None
    for line in reference.lines_of_file(sys.stdin.buffer.read()):
        options = metrics, "--allow-incomplete" in flags, "--base" in flags
        text = scored(line, *options) if metrics is None else shown_answer(line, *options)
        sys.stdout.buffer.write(text.encode("utf-8") + b"\n")


if __name__ == "__main__":
    main()
