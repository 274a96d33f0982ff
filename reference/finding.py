#!/usr/bin/env python3
"""Finds the vectors in lines of any text, with the implementation in reference.py.

Reads lines on standard input, and writes on standard output for each match the line's number, its
column in bytes, both from 1, and its score line, as `cvss find` does. It shares no code with the
crates: its answers are expected values for them.

usage: reference/finding.py [--allow-incomplete] [--base] [--assume=VERSION] < TEXT
"""
import re
import sys

import complete
import lists
import reference
import rows

# A backslash belongs to a slash after it, as JSON may write it.
RUN = re.compile(rb"(?:[A-Za-z0-9:/.%]|\\(?=/))+")
# How the beginning of a vector is written by mistake, in any case, or percent-encoded.
LOOSE = rb"(?i:CVSS(?:[:V]?[0-9]\.[0-9]/AV:|:[0-9]\.[0-9]%2FAV(?::|%3A)|%3A[0-9]\.[0-9](?:/|%2F)AV(?::|%3A)))"
PREFIX = re.compile(rb"CVSS:|" + LOOSE)
FRONT = re.compile(rb"(?=CVSS:|" + LOOSE + rb")")
# What ends a label before a vector without a prefix.
LABEL = re.compile(rb"(?:.:|[0-9]/)(?=AV:)")
# What is percent-encoded up to the first byte that no vector has, and a slash in it.
ENCODED = re.compile(rb"(?:[^%]|%(?:3A|2F))*", re.IGNORECASE)
SLASH = re.compile(rb"/|%2F", re.IGNORECASE)
# How vectors without a prefix begin, what those of v3 and v4.0 have and those of v2 have not, and Au where the colon or the
# slash is percent-encoded or the slash is after a backslash.
METRICS = re.compile(rb"AV(?::|%3A)", re.IGNORECASE)
LATER = re.compile(rb"(?:/|%2F)(?:PR|UI)(?::|%3A)", re.IGNORECASE)
ENCODED_V2 = re.compile(rb"/Au%3A|%2FAu(?::|%3A)|\\/Au:", re.IGNORECASE)
# The version that a link says after a vector.
LINKED = re.compile(rb"&version=(3\.[01])")
HINTS = {
    "loose": "cvss: hint: write the prefix of a vector as `CVSS:3.1/`\n",
    "3.1": "cvss: hint: write `CVSS:3.1/` before a vector of v3.1, or use --assume=3.1\n",
    "4.0": "cvss: hint: write `CVSS:4.0/` before a vector of v4.0\n",
}


def mentions(text):
    """The offset and the bytes of each candidate, whether it is found or not.

    Each run of letters, digits, colons, slashes, full stops and percent signs, and of backslashes
    before slashes, is cut before each prefix. A part ends before its first percent sign or backslash
    if a slash is before that; or else, if it begins as a vector, before the first percent sign that
    encodes neither a colon nor a slash, if a slash is before that. It is taken without the colons, slashes, full stops and
    backslashes at its end. If it does not begin with a prefix, it is taken
    without a label such as `vector:` or `7.5/` before `AV:`.
    """
    for run in RUN.finditer(text):
        place = run.start()
        for part in filter(None, FRONT.split(run.group())):
            head, encoded = re.match(rb"[^%\\]*", part).group(), ENCODED.match(part).group()
            is_encoded = (PREFIX.match(part) or METRICS.match(part)) and SLASH.search(encoded)
            mention = (head if b"/" in head else encoded if is_encoded else part).rstrip(b".:/\\")
            label = None if PREFIX.match(mention) else LABEL.search(mention)
            start = label.end() if label else 0
            yield place + start, mention[start:]
            place += len(part)


def lacks_prefix(mention):
    """Whether a candidate begins as a vector of v3 or v4.0 without its prefix."""
    return bool(METRICS.match(mention) and LATER.search(mention))


def is_meant(mention):
    """Whether a candidate was meant as a vector."""
    return bool(mention.startswith(b"CVSS:") and SLASH.search(mention) or re.match(LOOSE, mention) or lacks_prefix(mention)
                or METRICS.match(mention) and ENCODED_V2.search(mention))


def found(text):
    """The offset, the bytes and the answer of each candidate that is valid or was meant as a
    vector."""
    for place, mention in mentions(text):
        answer = reference.answer(mention)
        if is_meant(mention) or not answer.startswith("error: "):
            yield place, mention, answer


def decoded(text):
    """The text with its percent-encoded colons and slashes decoded, and no backslash before a slash."""
    return re.sub(rb"(?i)%2F|\\/", b"/", re.sub(rb"(?i)%3A", b":", text))


def matches(line, allow_incomplete=False, assumed=None):
    """The offset and the bytes of each match in a line, and the text that is scored. A slash that
    ends the line after a match is read with it, unless vectors may be incomplete. The text is
    decoded, and begins with the prefix that it lacks if a link says its version or one is assumed."""
    for place, mention, _ in found(line):
        whole, end = line[place:], place + len(mention)
        match = whole if not allow_incomplete and whole[len(mention):] == b"/" else mention
        link = LINKED.match(line, end)
        version = link.group(1).decode() if link else assumed
        front = b"CVSS:%s/" % version.encode() if version and lacks_prefix(mention) else b""
        yield place, match, front + decoded(match)


def reported(line, allow_incomplete=False, base=False, assumed=None):
    """The offset and the score line of each match in a line."""
    for place, _, text in matches(line, allow_incomplete, assumed):
        yield place, complete.answer(text, allow_incomplete=allow_incomplete, base=base)


def gated(line, minimum=0, fail_on=None, quiet=False, allow_incomplete=False, base=False, assumed=None):
    """The offset of each match in a line, what is printed of it through a gate, if something is, and whether the match counts
    as rejected."""
    for place, answer in reported(line, allow_incomplete, base, assumed):
        yield place, *lists.gated(answer, minimum, fail_on, quiet)


def gated_objects(number, line, file=None, allow_incomplete=False, assumed=None, **gate):
    """The members of the object for each match that is printed through a gate, and whether the match counts as rejected."""
    found = objects(number, line, allow_incomplete, file, assumed)
    passed = gated(line, allow_incomplete=allow_incomplete, assumed=assumed, **gate)
    for members, (_, printed, fails) in zip(found, passed, strict=True):
        yield None if printed is None else members, fails


def annotated(line, is_all=False, allow_incomplete=False, base=False, assumed=None):
    """A line with a tab and the score line of its first match after it, or of each."""
    fields = [answer.encode("utf-8") for _, answer in reported(line, allow_incomplete, base, assumed)]
    return b"\t".join([line, *(fields if is_all else fields[:1])])


def objects(number, line, allow_incomplete=False, file=None, assumed=None):
    """The members of the object for each match in a line, with scores in tenths."""
    for place, match, text in matches(line, allow_incomplete, assumed):
        of_score = rows.members(text, allow_incomplete)
        del of_score["given"]
        yield ({} if file is None else {"file": file}) | {"line": number, "column": place + 1, "text": match} | of_score


def hint(lines, allow_incomplete=False, assumed=None, only_first=False):
    """The line on standard error for the first match that is rejected for its prefix, if there is one."""
    for line in lines:
        for (place, answer), (_, mention, _) in zip(reported(line, allow_incomplete, assumed=assumed), found(line)):
            if answer.startswith("error: "):
                if re.match(LOOSE, mention) and not mention.startswith((b"CVSS:", b"CVSS%")):
                    return HINTS["loose"]
                for version in ("3.1", "4.0") if lacks_prefix(mention) else ():
                    text = b"CVSS:%s/" % version.encode() + decoded(mention)
                    if not complete.answer(text, allow_incomplete=allow_incomplete).startswith("error: "):
                        return HINTS[version]
            if only_first:
                break
    return ""


def answers(data, allow_incomplete=False, base=False, assumed=None):
    """What is written for these lines."""
    for number, line in enumerate(reference.lines_of_file(data), 1):
        for place, answer in reported(line, allow_incomplete, base, assumed):
            yield f"{number}:{place + 1} {answer}\n"


def main():
    assumed = next((word.partition("=")[2] for word in sys.argv if word.startswith("--assume=")), None)
    for answer in answers(sys.stdin.buffer.read(), "--allow-incomplete" in sys.argv, "--base" in sys.argv, assumed):
        sys.stdout.buffer.write(answer.encode("utf-8"))


if __name__ == "__main__":
    main()
