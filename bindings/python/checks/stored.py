"""The results over stored texts are those of the second implementation, and of FIRST's documents."""

from __future__ import annotations

import json
from typing import List, Optional, Tuple

from cvss_proved import CvssError, Match, Text, Vector, find, metrics, score, score_line, score_lines, scores, values

from .shared import BASES, KINDS, SHORT, STORED, accepted_vectors, given_lines, lines_of, outcome, raises

# The columns of the stored facts of a vector: the text, the version, the nomenclature, whether it is complete, four scores
# with their severities, four scores by nomenclature, and the metrics.
SCORE = slice(4, 6)
BASE = slice(6, 8)
METRICS = 16


def scored(score: Optional[float], severity: Optional[str]) -> str:
    return "- -" if score is None else f"{score:.1f} {severity}"


def facts(text: bytes) -> str:
    """What is known of a text, as tests/stored/facts.py writes it."""
    try:
        vector = Vector(text, allow_incomplete=True)
    except CvssError as error:
        return f"{KINDS.index(error.kind)} {error.metric or '-'} {error.message}"
    own = [str(vector), vector.version, vector.nomenclature or "-"]
    own.append("complete" if vector.is_complete else "incomplete")
    own.append(scored(vector.score, vector.severity))
    own += map(scored, vector.scores, vector.severities)
    own += [f"{score:.1f}" for score in vector.nomenclature_scores.values()] or 4 * ["-"]
    own += [f"{name}={value}" for name, value in vector.metrics.items()]
    return " ".join(own)


def check_names_of_scores(vector: Vector) -> None:
    """The tuples and the properties say the same."""
    assert vector.tenths == round(10 * vector.score) and vector.score == vector.tenths / 10, vector
    assert vector.scores == (vector.base_score, vector.temporal_score, vector.environmental_score), vector
    assert vector.severities == (vector.base_severity, vector.temporal_severity, vector.environmental_severity), vector
    if vector.version == "4.0":
        assert vector.nomenclature and vector.nomenclature_scores[vector.nomenclature] == vector.score, vector
        assert vector.nomenclature_scores["CVSS-B"] == vector.base_score, vector


def check_row(line: bytes, row: str) -> None:
    """The facts of a line, and what the calls without a `Vector` know of them."""
    assert facts(line) == row, line
    words = row.split(" ")
    # a rejected text has the number of a kind in place of the canonical text
    if words[0].isdigit():
        assert score(line, allow_incomplete=True) is None and values(line, allow_incomplete=True) is None, line
        assert score_line(line, allow_incomplete=True) == f"error: {row.split(' ', 2)[2]}", line
        return
    assert score_line(line, allow_incomplete=True) == " ".join([words[0], *words[SCORE]]), line
    own = values(line, allow_incomplete=True)
    assert own and score(line, allow_incomplete=True) == own.score, line
    assert list(own.metrics) == [metric.name for metric in metrics(own.version)], line
    given = [f"{name}={value}" for name, value in own.metrics.items() if value is not None]
    assert [own.version, own.nomenclature or "-", f"{own.score:.1f}", *given] == [
        words[1], words[2], words[SCORE][0], *words[METRICS:]], line
    check_names_of_scores(Vector(line, allow_incomplete=True))
    complete = values(line)
    assert score(line) == (complete and complete.score) == (own.score if words[3] == "complete" else None), line


def check_stored_lines() -> None:
    lines, rows = given_lines(), [row.decode() for row in lines_of(STORED / "facts")]
    expected = [line.decode() for line in lines_of(STORED / "score_lines")]
    assert len(lines) == len(rows) == len(expected)
    for line, row, printed in zip(lines, rows, expected):
        check_row(line, row)
        assert score_line(line) == printed, line
        assert raises(CvssError, lambda: Vector(line)) == printed.startswith("error: "), line
    assert score_lines(lines) == expected
    own = [None if line.startswith("error: ") else float(line.split()[1]) for line in expected]
    assert scores(lines) == own and None in own
    with_incomplete = [None if row[1] == " " else float(row.split(" ")[4]) for row in rows]
    assert scores(lines, allow_incomplete=True) == with_incomplete != own
    assert score_lines(lines, allow_incomplete=True) == [score_line(line, allow_incomplete=True) for line in lines]
    print(f"Python: {len(lines)} lines, 0 wrong results")


def check_incomplete() -> None:
    """A v3 vector that lacks base metrics is rejected, by words that were written by hand, and no others are."""
    rows = [line.partition(b" ") for line in lines_of(STORED / "incomplete")]
    for text, _, row in rows:
        number, metric, message = row.decode().split(" ", 2)
        assert score_line(text) == f"error: {message}" and score(text) is None and values(text) is None, text
        assert outcome(lambda: Vector(text)) == (None, f"{number} {metric} "), text
        assert not Vector(text, allow_incomplete=True).is_complete, text
    for text, vector in accepted_vectors():
        assert raises(CvssError, lambda: Vector(text)) != vector.is_complete, text
    texts = [row[0] for row in rows]
    assert scores(texts) == [None] * len(texts) and None not in scores(texts, allow_incomplete=True)
    prose = " ".join(text.decode() for text in [*texts, SHORT.encode(), BASES["2.0"].encode(), b"AV:N"])
    messages = [row[2].decode().split(" ", 2)[2] for row in rows] + [
        "missing mandatory CVSSv3 PR (Privileges Required) metric", BASES["2.0"]]
    both: Tuple[Text, ...] = (prose, prose.encode())
    for given in both:
        assert [str(match.vector or match.error) for match in find(given)] == messages, given
        found = [match.vector for match in find(given, allow_incomplete=True)]
        assert [vector and vector.is_complete for vector in found] == [False] * (len(rows) + 1) + [True], given


def printed(match: Match[bytes]) -> str:
    """What `cvss find` prints for a match."""
    assert (match.vector is None) != (match.error is None), match
    if match.vector is None:
        return f"error: {match.error}"
    return f"{match.vector} {match.vector.score:.1f} {match.vector.severity}"


def check_finding() -> None:
    """The matches in the stored texts are those of the second implementation, by bytes and by characters."""
    texts = (STORED / "texts").read_bytes().split(b"\n")[:-1]
    by_bytes: List[str] = []
    by_characters: List[str] = []
    for number, line in enumerate(texts, 1):
        for match in find(line):
            assert line[match.offset : match.offset + len(match.text)] == match.text
            by_bytes.append(f"{number}:{match.offset + 1} {printed(match)}")
        for other in (bytearray(line), memoryview(line)):
            assert list(map(repr, find(other))) == list(map(repr, find(line)))
        # each byte that is no UTF-8 is one lone surrogate
        text = line.decode("utf-8", "surrogateescape")
        for offset, part, vector, error in find(text):
            assert text[offset : offset + len(part)] == part
            start = len(text[:offset].encode("utf-8", "surrogateescape"))
            by_characters.append(f"{number}:{start + 1} {printed(Match(offset, part.encode(), vector, error))}")
    expected = [line.decode() for line in lines_of(STORED / "found")]
    assert by_bytes == by_characters == expected
    print(f"Python: {len(texts)} texts, {len(expected)} matches, 0 wrong results")


def check_records() -> None:
    """The records are those that were written by hand from FIRST's JSON schemas; all have the vector's scores."""
    for line in lines_of(STORED / "records"):
        record = json.loads(line)
        assert Vector(record["vectorString"]).record() == record, line
    for line, vector in accepted_vectors():
        record = vector.record()
        base: Tuple[float, str] = (vector.base_score, vector.base_severity)
        if vector.version == "4.0":
            base = vector.score, vector.severity
        assert (record["vectorString"], record["version"], record["baseScore"]) == (vector.text, vector.version, base[0])
        assert record.get("baseSeverity", base[1].upper()) == base[1].upper(), line
        others = (record.get("temporalScore"), record.get("environmentalScore"))
        assert all(score in (None, own) for score, own in zip(others, vector.scores[1:])), line
        names = ("vectorString", "version", "Score", "Severity")
        assert len([name for name in record if not name.endswith(names)]) == len(vector.metrics), line


def check_explanations() -> None:
    """The explanations are those of the second implementation, where no number has more than seven decimal places."""
    explanations = lines_of(STORED / "explanations")
    for line in explanations:
        explanation = json.loads(line)
        assert Vector(explanation["vector"], allow_incomplete=True).explain() == explanation, line
    for line, vector in accepted_vectors():
        own = vector.explain()
        assert (own["vector"], own["version"]) == (vector.text, vector.version), line
        assert (own["score"], own["severity"]) == (vector.score, vector.severity), line
    print(f"Python: {len(explanations)} explanations, 0 wrong numbers")
