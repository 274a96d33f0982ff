#!/usr/bin/env python3
"""A second implementation of what `cvss triage` prints, written from the public standards alone.

usage: reference/ranking.py [--set METRIC:VALUE].. [--profile FILE].. [--keep-going] [--header] [--prefer VERSION|highest]
                            [--base] [--min SCORE] [--fail-on SCORE] [--count] [--quiet] [--allow-incomplete]
                            [--csv [--column NAME|N] [--guard]] [FILE]..
"""
import sys

import complete
import csv_lists
import finding
import lists
import reference
import setting
from reference import Refused
from scores import base as base_score, overall

# A vector of each version, by the number of its family.
EXAMPLES = {2: b"AV:N/AC:L/Au:N/C:N/I:N/A:N", 3: b"CVSS:3.1/AV:N",
            4: b"CVSS:4.0/AV:N/AC:L/AT:N/PR:N/UI:N/VC:N/VI:N/VA:N/SC:N/SI:N/SA:N"}
PREFIXES = {b"CVSS:4.0/": 4, b"CVSS:3.1/": 3, b"CVSS:3.0/": 3}
VERSIONS = {b"4.0": 40, b"3.1": 31, b"3.0": 30, b"2.0": 20}
NOT_METRICS = b"not v2 metrics, nor v3 or v4.0 metrics after their prefix: "


def family(text):
    return setting.read(text)[0] // 10


def override(line):
    """The family and the metrics of a line of a profile."""
    for prefix, of in PREFIXES.items():
        if line.startswith(prefix):
            return of, line[len(prefix):]
    return 2, line


def holds(given, metrics, text):
    """The vector with the metrics set for which the override holds, or None."""
    if given not in (None, family(text)):
        return None
    try:
        return setting.with_metrics(text.encode("utf-8"), metrics)
    except Refused:
        return None


def canonical(text):
    """The canonical text of a vector, or none if the text is rejected."""
    try:
        return reference.read(reference.text_of(text))[0]
    except Refused:
        return None


def picked(texts, prefer, score):
    """The one of the vectors that is preferred, by the score of each that has one, or None."""
    if None in texts or prefer is None:
        return None
    if prefer == b"highest":
        scores = [score(text) for text in texts]
        return None if None in scores else texts[scores.index(max(scores))]
    of_version = {text for text in texts if setting.read(text)[0] == VERSIONS[prefer]}
    return of_version.pop() if len(of_version) == 1 else None


def vector_of(line, prefer, score):
    """The canonical text of the vector that each match in the line is, or the one that is preferred of several, or the
    reason why there is none."""
    found = list(finding.found(line))
    if not found:
        raise Refused("none", "no vector")
    texts = [canonical(text) for _, text, *_ in found]
    if len(found) == 1 or (None not in texts and len(set(texts)) == 1):
        return reference.read(reference.text_of(found[0][1]))[0]
    text = picked(texts, prefer, score)
    if text is None:
        raise Refused("several", "more than one vector on this line")
    return text


def with_overrides(text, overrides, allow_incomplete):
    """The vector with the metrics set, or the first base metric that it still lacks."""
    for given, metrics in overrides:
        text = holds(given, metrics, text) or text
    if not allow_incomplete:
        complete.find_missing(text)
    return text


def rank(lines, overrides, allow_incomplete, base=False, prefer=None):
    """The rows of the lines in their order, and the lines that have none with their indices. A line is its bytes and the
    text that has its vector, and `None` is a record that is not closed."""

    def rated(text):
        return (base_score if base else overall)(*setting.read(text))

    def score(text):
        try:
            return rated(with_overrides(text, overrides, allow_incomplete))[0]
        except Refused:
            return None

    rows, bad = [], []
    for index, line in enumerate(lines):
        try:
            if line is None:
                raise Refused("open", "a quoted field is not closed")
            written, searched = line
            text = with_overrides(vector_of(searched, prefer, score), overrides, allow_incomplete)
        except Refused as reason:
            bad.append((index, str(reason)))
            continue
        tenths, severity = rated(text)
        rows.append((-tenths, written, severity, text))
    return sorted(rows), bad


def is_known(override):
    """Whether some vector takes the override."""
    return any(holds(*override, text.decode()) is not None for text in EXAMPLES.values())


def count_text(rows, bad):
    """How many rows there are of each severity, and how many lines have none."""
    severities = [severity for _, _, severity, _ in rows]
    counts = [(name, severities.count(name)) for name in ("critical", "high", "medium", "low", "none")]
    return b"".join(b"%s %d\n" % (name.encode(), count) for name, count in [*counts, ("rejected", len(bad))])


def row_text(row):
    score, line, severity, text = row
    return f"{-score // 10}.{-score % 10} {severity} {text}\t".encode("utf-8") + line + b"\n"


def guarded_fields(record):
    """A record with guarded fields."""
    (fields, _, _), = csv_lists.records(record)
    return b",".join(map(csv_lists.guarded, fields))


def record_text(row, guard, line_end):
    """The record of a row, and the six cells of its vector."""
    score, record, severity, text = row
    version, metrics = setting.read(text)
    base, _ = base_score(version, metrics)
    cells = f",{text},{version // 10}.{version % 10},{-score // 10}.{-score % 10},{severity},{base // 10}.{base % 10},"
    return (guarded_fields(record) if guard else record) + cells.encode() + line_end


def options(words):
    """The settings in their order, the other options with their values if they have any, and the operands."""
    words, settings, given = list(words), [], {}
    while words and words[0].startswith(b"-") and words[0] not in (b"-", b"--"):
        word = words.pop(0)
        if word in (b"--set", b"--profile"):
            settings.append((word, words.pop(0)))
        elif word in (b"--min", b"--fail-on"):
            given[word] = lists.threshold(words.pop(0).decode())
        elif word in (b"--prefer", b"--column"):
            given[word] = words.pop(0)
        else:
            given[word] = True
    return settings, given, words[words[:1] == [b"--"]:]


def overrides_of(settings, read):
    """Each override with what is reported of it if no vector takes it."""
    for kind, word in settings:
        if kind == b"--set":
            yield b"no CVSS version has " + complete.shown_name(word).encode(), (None, word)
            continue
        for number, line in enumerate(reference.lines_of_file(read(word)), 1):
            if line.strip(b" \t"):
                yield complete.shown_name(word).encode() + b": line %d: " % number + NOT_METRICS + complete.shown_name(line).encode(), override(line)


def records_in(text, column):
    """The header of a table and what its rows end with, and each record that is to be ranked with its number. Its vector is
    in its bytes, or in the value of its cell in the column."""
    records = list(csv_lists.records(text.removeprefix(csv_lists.MARK)))
    header, line_end, index, lines = None, b"\n", None, []
    for number, (fields, end, is_open) in enumerate(records, 1):
        body = b",".join(fields)
        if number == 1:
            line_end = b"\r\n" if end == b"\r\n" else b"\n"
            index, is_header = (None, not list(finding.found(body))) if column is None else csv_lists.said_by(fields, column)
            header = body if is_header and body and not is_open else None
        if is_open:
            lines.append((number, None))
        elif body and (number > 1 or header is None):
            cell = csv_lists.value(b"".join(fields[index:index + 1])) if column is not None else body
            lines.append((number, (body, cell)))
    return header, line_end, lines


def lines_in(text, headers):
    """The header of a list, and each other line with its number."""
    lines = list(enumerate(reference.lines_of_file(text), 1))
    return lines[0][1] if headers and lines else None, b"\n", [(number, (line, line)) for number, line in lines[headers:]]


def shown(rows, bad, top, text_of, given):
    """What is printed of ranked rows after a header, and whether one that is shown scores as much as triage fails on."""
    kept = [row for row in rows if -row[0] >= given.get(b"--min", 0)]
    fails = any(-row[0] >= given.get(b"--fail-on", 101) for row in kept)
    if b"--quiet" in given:
        return b"", fails
    return count_text(kept, bad) if b"--count" in given else top + b"".join(map(text_of, kept)), fails


def run(words, read):
    """The status, standard output and standard error for these arguments, where a call reads an operand."""
    settings, given, operands = options(words)
    overrides = list(overrides_of(settings, read))
    unknown = [report for report, override in overrides if not is_known(override)]
    if unknown:
        return 2, b"", b"".join(b"cvss: " + report + b"\n" for report in unknown)
    csv, guard, missing = b"--csv" in given, b"--guard" in given, []
    column = given.get(b"--column")
    places, lines, tops = [], [], []
    for name in operands or [b"-"]:
        try:
            header, line_end, own = records_in(read(name), column) if csv else lines_in(read(name), b"--header" in given)
        except csv_lists.UnknownColumn:
            header, line_end, own, missing = None, b"\n", [], [column]
        tops.append((header, line_end))
        front = (name + b": " if len(operands) > 1 else b"") + (b"record" if csv else b"line")
        places += [front + b" %d: " % number for number, _ in own]
        lines += [line for _, line in own]
    header, line_end = tops[0]
    top = b"" if header is None else b"score severity vector\t" + header + b"\n"
    if csv and header is not None:
        top = (guarded_fields(header) if guard else header) + csv_lists.NAMES + line_end
    rows, bad = rank(lines, [override for _, override in overrides], b"--allow-incomplete" in given, b"--base" in given,
                     given.get(b"--prefer"))
    reasons = [reason.replace("on this line", "in this record") if csv else reason for _, reason in bad]
    reports = b"".join(map(csv_lists.missing_report, missing))
    reports += b"".join(b"cvss: " + places[index] + reason.encode("utf-8") + b"\n" for (index, _), reason in zip(bad, reasons))
    text_of = (lambda row: record_text(row, guard, line_end)) if csv else row_text
    is_shown = not (bad or missing) or b"--keep-going" in given
    written, fails = shown(rows, bad, top, text_of, given) if is_shown else (b"", False)
    return 2 if missing else int(bool(bad) or fails), written, reports


def read(name):
    if name == b"-":
        return sys.stdin.buffer.read()
    with open(name, "rb") as file:
        return file.read()


def main():
    status, written, reports = run([word.encode("utf-8", "surrogateescape") for word in sys.argv[1:]], read)
    sys.stdout.buffer.write(written)
    sys.stderr.buffer.write(reports)
    sys.exit(status)


if __name__ == "__main__":
    main()
