#!/usr/bin/env python3
"""Writes texts with the expected results of the calls of SQL and Java, from the second implementation in reference/.

usage: expected.py kit|COUNT
       expected.py calls COUNT      prints the first column and those of CALLS, for other texts
       expected.py columns          prints the columns with their types, as CREATE TABLE reads them
       expected.py utf-8 < ROWS     passes on the rows that are UTF-8

The texts are those of the conformance kit, or COUNT hostile ones, random but always the same. Each text comes with random
metrics to set in its vector, and a version and components to make a vector of. The columns of COLUMNS are separated by
tabs, as COPY of PostgreSQL reads them: NULL is \\N, and a byte that is no visible ASCII character is written as \\x and
two digits. The tests of Python, Rust, Go and Java read rows of `calls`, of which some are in tests/stored/calls.

A result is that for vectors that may be incomplete. Of errors there are two columns: `error` is NULL if the text is a
complete vector, and `incomplete_error` if it is any vector; likewise for the errors of metrics.
"""
import random
import re
import sys
from pathlib import Path

ROOT = Path(__file__).resolve().parents[2]
sys.dont_write_bytecode = True  # leaves nothing in the tree
sys.path[:0] = [str(ROOT / folder) for folder in ("reference", "tests/inputs", "conformance")]

import accounts
import complete
import finding
import lines
import records
import reference
import scores
import setting
import v3
import v4
from drawing import VERSIONS, hostile, some_components, some_metrics, some_version, spoilt
from run import read_table, text_of

NOMENCLATURES = {"b": "CVSS-B", "be": "CVSS-BE", "bt": "CVSS-BT", "bte": "CVSS-BTE"}
RATED = ("score", "base", "temporal", "environmental")
# The metrics to set, the version and components to make a vector of, the results, and why there is none: a message, and of
# it the number of the kind, the metric and what is quoted.
CALLS = ("metrics", "asked", "components", "changed", "metrics_refusal", "built", "build_refusal", "refusal",
         "strict_reason", *NOMENCLATURES)
SEVERITIES = {name: "severity" if name == "score" else f"{name}_severity" for name in RATED}
COLUMNS = ("text", "canonical", "version", *RATED, *SEVERITIES.values(), "nomenclature", "defined", "record",
           "explanation", "error", "incomplete_error", "found", "found_bytes", "incomplete_found", "incomplete_found_bytes",
           "changed_error", "incomplete_changed_error", "made_error", "incomplete_made_error", *CALLS)
SCORES = (*RATED, *NOMENCLATURES)
# What functions are given, which may be any bytes.
GIVEN = ("text", "metrics", "components")


def explanation(canonical):
    """The explanation of a vector; none if a number has more than seven decimals, since its digits may differ."""
    explained = accounts.account(canonical)
    return accounts.written(explained) if accounts.is_exact(explained) else None


def defined(version, vector):
    """The canonical text without the metrics that are not defined; the whole, if none is left."""
    kept = {name: value for name, value in vector.items() if value not in ("X", "ND")}
    return setting.canonical_text(version, kept or vector)


def outcome(call, *given):
    """What a call returns; the message of its error; and of that the number of the kind, the metric and what is quoted."""
    try:
        return call(*given), None, None
    except reference.Refused as error:
        kind = reference.KINDS.index(error.kind) + 1
        # the index of the rejected metric is no part of the message
        message = re.sub(r"^metric \d+: ", "", str(error))
        return None, message, f"{kind} {error.metric or '-'} {error.part}"


def missing(canonical):
    """Why a vector is incomplete, if it is."""
    return canonical and outcome(complete.find_missing, canonical)[1]


def tenths(count):
    return f"{count // 10}.{count % 10}"


def rated(version, vector):
    """The scores with their severities."""
    own = {"score": scores.overall(version, vector)}
    if version == 40:
        return own | {"base": scores.base(version, vector)}
    of_groups = (scores.rated(version, score) for score in scores.by_group(version, vector))
    return own | dict(zip(RATED[1:], of_groups))


def accepted(text):
    """The results for a text that is a vector, which may be incomplete."""
    version, vector = setting.read(text)
    canonical, own = setting.canonical_text(version, vector), rated(version, vector)
    values = {"canonical": canonical, "version": tenths(version), "defined": defined(version, vector),
              "record": records.record(version, canonical, vector, own), "explanation": explanation(canonical)}
    for name, (score, severity) in own.items():
        values |= {name: tenths(score), SEVERITIES[name]: severity}
    if version == 40:
        values["nomenclature"] = v4.nomenclature(vector)
        values |= {name: tenths(v4.score_by(vector, of)) for name, of in NOMENCLATURES.items()}
    return values


def made(version, components):
    """The canonical text of the vector of a version with these components."""
    if version not in VERSIONS:
        raise reference.Refused("version", f"unsupported CVSS version: {version}", part=version)
    return setting.build(VERSIONS[version], components)


def is_complete(canonical):
    """Whether a vector has all base metrics, of which one of v3 may lack some."""
    return not canonical.startswith("CVSS:3.") or all(f"/{name}:" in canonical for name in v3.BASE)


# A character, as SQLite counts them also in what is not UTF-8.
CHARACTER = re.compile(rb"[\xc0-\xff][\x80-\xbf]*|.", re.S)


def match_of(mention, allow_incomplete):
    """A match, its vector, whether that is complete, and why it is rejected."""
    vector, error, _ = outcome(lambda: reference.read(reference.text_of(mention))[0])
    if not allow_incomplete:
        error = error or missing(vector)
    if error:
        return f"{mention.decode()} - - {error}"
    return f"{mention.decode()} {vector} {'complete' if is_complete(vector) else 'incomplete'} -"


def found(text):
    """The vectors in a text, with their offsets in characters and in bytes."""
    values = {}
    for name, allow_incomplete in (("found", False), ("incomplete_found", True)):
        matches = [(place, match_of(mention, allow_incomplete)) for place, mention, _ in finding.found(text)]
        by_characters = [f"{len(CHARACTER.findall(text[:place])) + 1} {match}" for place, match in matches]
        values[name] = ";".join(by_characters) or None
        values[f"{name}_bytes"] = ";".join(f"{place + 1} {match}" for place, match in matches) or None
    return values


def called(draw, canonical, version, error):
    """The results for random metrics: set in a vector, unless its text is rejected; and made a vector of."""
    given, asked = some_metrics(draw, version), some_version(draw)
    components = some_components(draw, asked)
    values = {"metrics": given, "asked": asked, "components": components}
    changed = (None, *error) if error else outcome(setting.with_metrics, canonical.encode(), given)
    values["changed"], values["incomplete_changed_error"], values["metrics_refusal"] = changed
    values["changed_error"] = changed[1] or missing(changed[0])
    values["built"], values["incomplete_made_error"], values["build_refusal"] = outcome(made, asked, components)
    values["made_error"] = values["incomplete_made_error"] or missing(values["built"])
    return values


def results(draw, text):
    """The results for a text, and for metrics that are drawn, if any are."""
    own, error, refusal = outcome(lambda: accepted(reference.text_of(text)))
    own = own or {}
    values = {"text": text, **own, "incomplete_error": error, "refusal": refusal, **found(text)}
    values["error"] = values["strict_reason"] = error or missing(own["canonical"])
    if draw:
        values.update(called(draw, own.get("canonical"), own.get("version"), error and (error, refusal)))
    return [values.get(name) for name in COLUMNS]


def escaped(column):
    """A column as it is in a file."""
    if column is None:
        return "\\N"
    code = column if isinstance(column, bytes) else column.encode("utf-8")
    if code.isalnum():
        return code.decode()
    return "".join(chr(byte) if 33 <= byte < 127 and byte != 92 else f"\\x{byte:02x}" for byte in code)


def columns_of(line):
    """The bytes of a row's columns by their names."""
    return {name: None if column == "\\N" else text_of(column)
            for name, column in zip(COLUMNS, line.rstrip("\n").split("\t"))}


def is_utf8(row):
    try:
        return all(row[name] is None or row[name].decode("utf-8") is not None for name in GIVEN)
    except UnicodeDecodeError:
        return False


def kit():
    """The texts of the kit, of which one in ten has metrics."""
    draw = random.Random(62)
    for name in ("scores.tsv", "rejected.tsv"):
        for number, row in enumerate(read_table(ROOT / "conformance" / name)):
            yield results(draw if number % 10 == 0 else None, text_of(row["text"]))


def rows(texts):
    if texts == "kit":
        return kit()
    draw = random.Random(39)
    return (results(draw, hostile(draw)) for _ in range(int(texts)))


def calls(count):
    """Rows of texts that are mostly accepted, since metrics are set in these alone."""
    draw = random.Random(62)
    for _ in range(count):
        line = lines.line(draw, "all", draw.choice(("base", "full", "any", "refused"))).encode()
        row = dict(zip(COLUMNS, results(draw, spoilt(draw, line) if draw.random() < 0.1 else line)))
        yield [row[name] for name in ("text", *CALLS)]


def main(asked, count=None):
    if asked == "calls":
        for row in calls(int(count)):
            print("\t".join(map(escaped, row)))
    elif asked == "columns":
        print(", ".join(f"{name} {'numeric' if name in SCORES else 'text'}" for name in COLUMNS))
    elif asked == "utf-8":
        sys.stdout.writelines(line for line in sys.stdin if is_utf8(columns_of(line)))
    else:
        for row in rows(asked):
            print("\t".join(map(escaped, row)))


if __name__ == "__main__":
    main(*sys.argv[1:])
