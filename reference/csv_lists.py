#!/usr/bin/env python3
"""A second implementation of what `cvss score --csv` and `cvss find --csv` print, written from RFC 4180 and the public
standards alone.

Reads CSV on standard input and writes it on standard output with six cells after those of each record: the canonical
vector, its version, its score and severity, its base score, and why it is rejected. With --each, as `cvss find --csv`, a
record is written once for each vector in it, and not at all without one.

usage: reference/csv_lists.py [--column=NAME|N] [--allow-incomplete] [--base] [--guard] [--each] < TEXT
"""
import re
import sys

import complete
import finding
import reference
import rows
import scores
import setting

NAMES = b",vector,version,score,severity,base,error"
MARK = b"\xef\xbb\xbf"
BLANKS = b" \t\n\r\f"
# A quoted field, which the end of the text may leave open, with what follows the closing quote; or any other.
FIELD = re.compile(rb'"(?P<inner>(?:[^"]|"")*)(?:(?P<end>")(?P<tail>[^,\n]*))?|[^,\n]*')


class UnknownColumn(Exception):
    """No cell of the first record has the name."""


def value(field):
    """The text that a field stands for."""
    quoted = FIELD.fullmatch(field)
    if quoted is None or quoted["inner"] is None:
        return field
    return quoted["inner"].replace(b'""', b'"') + (quoted["tail"] or b"")


def records(text):
    """The fields and the line end of each record, and whether its last field is a quoted one that is not closed."""
    place = 0
    while place < len(text):
        fields = []
        while True:
            match = FIELD.match(text, place)
            fields.append(match.group())
            place = match.end() + 1
            if text[match.end():place] != b",":
                break
        is_open = match["inner"] is not None and match["end"] is None
        line_end = text[match.end():place]
        if line_end and fields[-1].endswith(b"\r"):
            fields[-1], line_end = fields[-1][:-1], b"\r\n"
        yield fields, line_end, is_open


def field_of(text):
    """The field that stands for a text."""
    return b'"' + text.replace(b'"', b'""') + b'"' if re.search(rb'[",\r\n]', text) else text


def guarded(field):
    """A field that no spreadsheet takes for a formula."""
    return b'"' + rows.guarded(field[1:]) if field.startswith(b'"') else rows.guarded(field)


def cells_of(answer, text):
    """The six cells of a score line, or of its error."""
    if answer.startswith("error: "):
        return b",,,,,," + field_of(answer.removeprefix("error: ").encode("utf-8"))
    vector, score, severity = answer.split(" ")
    version, metrics = setting.read(reference.text_of(text))
    base, _ = scores.base(version, metrics)
    return f",{vector},{version // 10}.{version % 10},{score},{severity},{base // 10}.{base % 10},".encode()


def canonical(text):
    """The canonical text of a vector, or the text itself if it is the text of none."""
    answer = reference.answer(text)
    return text if answer.startswith("error: ") else answer.split(" ")[0].encode()


def vectors_in(fields):
    """The texts of the vectors that are found in some fields, whether they are accepted or rejected."""
    return [mention for field in fields for _, mention, _ in finding.found(value(field))]


def cells_each(fields, index, allow_incomplete, base):
    """The six cells of each vector of a record, of those that count as one vector for the first."""
    found = {}
    for text in vectors_in(fields if index is None else fields[index:index + 1]):
        found.setdefault(canonical(text), text)
    return [cells_of(complete.answer(text, allow_incomplete=allow_incomplete, base=base), text) for text in found.values()]


def cells(fields, index, allow_incomplete, base):
    """The six cells of a record, whose vector is in any field or in that with the index."""
    searched = fields if index is None else fields[index:index + 1]
    found = vectors_in(searched)
    if not found and index is None:
        return b",,,,,,no vector"
    if not found:
        found = [value(field).strip(BLANKS) for field in searched]
        if not any(found):
            return b",,,,,,"
    if len({canonical(text) for text in found}) > 1:
        return b",,,,,,several vectors"
    return cells_of(complete.answer(found[0], allow_incomplete=allow_incomplete, base=base), found[0])


def number_of(column):
    """The number, 1 to 999, that a column is given by, if it is none of a name."""
    return int(column) if re.fullmatch(rb"[0-9]{1,3}", column) and int(column) else None


def missing_report(column):
    """What is reported of a text that lacks the column."""
    words = b"is named '%s'" if number_of(column) is None else b"has the number %s"
    return b"cvss: no column " + words % complete.shown_name(column).encode() + b"\n"


def said_by(fields, column):
    """Which index has the column, if one is given, by the first record, and whether that is a header."""
    if column is None:
        return None, not vectors_in(fields)
    number = number_of(column)
    if number is not None:
        if number > len(fields):
            raise UnknownColumn(column)
        return number - 1, not vectors_in(fields)
    for index, field in enumerate(fields):
        if value(field) == column:
            return index, True
    raise UnknownColumn(column)


def answer(text, column=None, allow_incomplete=False, base=False, guard=False, each=False):
    """The text, without the mark with which it may begin, and six cells after those of each record, which may be written
    once for each vector. The column is a name, a number from 1, or none. Fields may be guarded."""
    index, written = None, []
    for number, (fields, line_end, is_open) in enumerate(records(text.removeprefix(MARK))):
        is_header = False
        if number == 0:
            index, is_header = said_by(fields, column)
        body = b",".join(fields)
        if not body:
            appended = [] if each else [b""]
        elif is_open:
            appended = [b'",,,,,,a quoted field is not closed']
        elif is_header:
            appended = [NAMES]
        elif each:
            appended = cells_each(fields, index, allow_incomplete, base)
        else:
            appended = [cells(fields, index, allow_incomplete, base)]
        shown = b",".join(map(guarded, fields)) if guard else body
        each_row = [shown + six for six in appended]
        written += (line_end or b"\n").join(each_row), line_end if each_row else b""
    return b"".join(written)


def main():
    column = next((word.partition("=")[2] for word in sys.argv if word.startswith("--column=")), None)
    if column is not None:
        column = column.encode()
    try:
        answered = answer(sys.stdin.buffer.read(), column, "--allow-incomplete" in sys.argv, "--base" in sys.argv,
                          "--guard" in sys.argv, "--each" in sys.argv)
    except UnknownColumn:
        sys.exit(missing_report(column).decode())
    sys.stdout.buffer.write(answered)


if __name__ == "__main__":
    main()
