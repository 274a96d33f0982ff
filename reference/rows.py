#!/usr/bin/env python3
"""A second implementation of what `cvss score --tsv` and `cvss score --json` print, written from the public standards
alone.

Reads lines on standard input and writes a row for each on standard output, without the header.

usage: reference/rows.py tsv | json [--allow-incomplete]
"""
import json
import sys

import complete
import reference
import setting
import v2
import v3
import v4

COLUMNS = ("given", "vector", "version", "base", "temporal", "environmental", "score", "severity", "nomenclature",
           "error")
ESCAPES = str.maketrans({"\t": "\\t", "\n": "\\n", "\r": "\\r", "\\": "\\\\"})


def scores_of(version, vector):
    """The base, temporal and environmental score in tenths; of v4.0 the score of CVSS-B alone."""
    if version == 40:
        return v4.score_by(vector, "CVSS-B"), None, None
    return v2.scores(vector) if version == 20 else v3.scores(version - 30, vector)


def members(line, allow_incomplete=False):
    """The members of a row, of which those that there are not are None. Scores are in tenths."""
    row = dict.fromkeys(COLUMNS)
    row["given"] = line
    answer = complete.answer(line, allow_incomplete=allow_incomplete)
    if answer.startswith("error: "):
        return row | {"error": answer.removeprefix("error: ")}
    row["vector"], score, row["severity"] = answer.split(" ")
    row["score"] = int(score.replace(".", ""))
    version, vector = setting.read(reference.text_of(line))
    row["version"] = f"{version // 10}.{version % 10}"
    row["base"], row["temporal"], row["environmental"] = scores_of(version, vector)
    row["nomenclature"] = v4.nomenclature(vector) if version == 40 else None
    return row


# What a spreadsheet takes for a formula begins with one of these.
FORMULA = b"=+-@"


def guarded(text):
    """A cell that no spreadsheet takes for a formula."""
    return b"'" + text if text[:1] and text[:1] in FORMULA else text


def tsv_cell(value, guard=False):
    if isinstance(value, int):
        value = f"{value // 10}.{value % 10}"
    if isinstance(value, bytes):
        return (guarded(value) if guard else value).decode("utf-8", "surrogateescape").translate(ESCAPES)
    return (value or "").translate(ESCAPES)


def json_value(value):
    if isinstance(value, bytes):
        try:
            return value.decode("utf-8")
        except UnicodeDecodeError:
            return None
    return value / 10 if isinstance(value, int) else value


def row(form, line, allow_incomplete=False, file=None, guard=False):
    """The bytes of a row. Where several files are read, it names the file first. Columns may be guarded."""
    of_file = {} if file is None else {"file": file}
    values = of_file | members(line, allow_incomplete)
    if form == "tsv":
        return "\t".join(tsv_cell(value, guard) for value in values.values()).encode("utf-8", "surrogateescape")
    return json.dumps({name: json_value(value) for name, value in values.items()}, ensure_ascii=False,
                      separators=(",", ":")).encode("utf-8")


def main():
    form, allow_incomplete = sys.argv[1], sys.argv[2:] == ["--allow-incomplete"]
    for line in reference.lines_of_file(sys.stdin.buffer.read()):
        sys.stdout.buffer.write(row(form, line, allow_incomplete) + b"\n")


if __name__ == "__main__":
    main()
