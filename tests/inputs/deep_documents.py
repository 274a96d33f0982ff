#!/usr/bin/env python3
"""Prints a JSON document, on one line, that makes a reader keep much: many locations or long pointers,
long values, and nested objects.

- `names K N`: N vectors in an array under a name of K letters.
- `deep N`: N vectors in an array at depth 120.
- `members N`: an object of N members, each with a vector.
- `nested D`: a vector under D nested names of one letter.
- `said N`: a vector whose score is an object of N members, each an object in an object.
- `numbers N`: a vector whose score is an array of N numbers, which are written in more digits.
- `text N`: a text of N letters in place of a vector.
- `empty N`: N times 120 nested objects with empty names, and no vector.

With `nameless` the vectors' member has another name of the same length, so that none is found.
usage: tests/inputs/deep_documents.py KIND NUMBER.. [nameless]
"""
import sys

VECTOR = "AV:N/AC:L/Au:N/C:N/I:N/A:C"


def names(letters, count):
    return '{"%s":[%s]}' % ("n" * letters, ",".join([HOLDER] * count))


def deep(count):
    return '{"a":' * 118 + "[" + ",".join([HOLDER] * count) + "]" + "}" * 118


def members(count):
    return "{" + ",".join(f'"{number:x}":{HOLDER}' for number in range(count)) + "}"


def nested(depth):
    return '{"a":' * depth + HOLDER + "}" * depth


def said(count):
    score = ",".join('"%x":{"b":{"c":1}}' % number for number in range(count))
    return HOLDER[:-1] + ',"baseScore":{%s}}' % score


def numbers(count):
    return HOLDER[:-1] + ',"baseScore":[%s]}' % ",".join(["1e15"] * count)


def text(letters):
    return HOLDER.replace(VECTOR, "n" * letters)


def empty(count):
    return "[" + ",".join(['{"":' * 120 + "0" + "}" * 120] * count) + "]"


def document(kind, *sizes, nameless=False):
    """The document, as a line."""
    global HOLDER
    HOLDER = '{"%s":"%s"}' % ("vectorStrinG" if nameless else "vectorString", VECTOR)
    kinds = (names, deep, members, nested, said, numbers, text, empty)
    return {made.__name__: made for made in kinds}[kind](*sizes) + "\n"


if __name__ == "__main__":
    *given, last = sys.argv[1:]
    without = last == "nameless"
    kind, *sizes = given if without else [*given, last]
    sys.stdout.write(document(kind, *(int(size) for size in sizes), nameless=without))
