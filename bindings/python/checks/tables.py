"""The names and words of metrics and values."""

from __future__ import annotations

from string import ascii_uppercase
from typing import Any, Dict, Set

from cvss_proved import CvssError, MetricType, Vector, metrics

from .shared import BASES, STORED, accepted_vectors, error_of, lines_of, message_of, raises, with_component


def is_accepted(text: str) -> bool:
    return not raises(CvssError, lambda: Vector(text))


def check_values_of(text: str, metric: MetricType) -> None:
    """The library reads each value of a metric, and no other word of two letters."""
    words = {first + second for first in ["", *ascii_uppercase] for second in ascii_uppercase}
    own = [value.value for value in metric.values]
    assert len(set(own)) == len(own) and all(value.title and value.description for value in metric.values), metric
    for word in words.union(own):
        assert is_accepted(with_component(text, metric.name, word)) == (word in own), (text, metric.name, word)


def check_title_of(text: str, metric: MetricType) -> None:
    """The name in words is that of the library's messages, where v3 and v4.0 have requirements in the plural; a modified
    metric of v3 is reported by its base metric."""
    reported_as = metric.name[1:] if text.startswith("CVSS:3") and metric.name.startswith("M") else metric.name
    title = metric.title.replace("Modified ", "") if reported_as != metric.name else metric.title
    title += "s" if title.endswith(" Requirement") and text.startswith("CVSS:") else ""
    # v3.1 specification, section 4.2: Modified Confidentiality; section 2.3: Confidentiality Impact
    title += " Impact" if metric.name in ("MC", "MI", "MA") else ""
    error = error_of(lambda: Vector(with_component(text, metric.name, "?")))
    assert f" {reported_as} ({title}) metric" in error.message and error.metric == reported_as, (error.message, title)


def check_words_of(text: str, metric: MetricType) -> None:
    """The words of the values are those of FIRST's JSON schemas, which call a rank between two by both."""
    records = [Vector(with_component(text, metric.name, value.value)).record() for value in metric.values]
    no_words = ("vectorString", "Score", "Severity")
    members = {name for name in records[0] if not name.endswith(no_words)}
    differing = [name for name in members if len({record[name] for record in records}) == len(records)]
    assert len(differing) == 1, (metric, differing)
    for value, record in zip(metric.values, records):
        word = value.title.upper().replace(" ", "_").replace("_TO_", "_")
        # v3.1 specification, section 2.1.1: Adjacent; FIRST's schema of v3.1 keeps the word of v3.0
        word += "_NETWORK" if word == "ADJACENT" and text.startswith("CVSS:3") else ""
        assert record[differing[0]] == word, (metric.name, value, record)


def metrics_of_stored_lines() -> Dict[str, Set[str]]:
    """The metrics that occur in the vectors of each version."""
    stored: Dict[str, Set[str]] = {}
    for line in lines_of(STORED / "facts"):
        _, version, *words = line.decode().split(" ")
        stored.setdefault(version, set()).update(word.partition("=")[0] for word in words if "=" in word)
    return stored


def check_metric_types() -> None:
    """The table has the metrics of the stored lines in the order of canonical texts, and says of each what the library
    does."""
    stored = metrics_of_stored_lines()
    for version, text in BASES.items():
        types = metrics(version)
        names = [metric.name for metric in types]
        assert set(names) == stored[version], version
        reverse = [f"{metric.name}:{metric.values[0].value}" for metric in reversed(types)]
        full = "/".join(reverse if version == "2.0" else [f"CVSS:{version}", *reverse])
        assert list(Vector(full).metrics) == names, version
        mandatory = [metric.name for metric in types if metric.is_mandatory]
        assert mandatory == list(Vector(text).metrics) == [metric.name for metric in types if metric.group == "base"]
        for metric in types:
            check_values_of(text, metric)
            check_title_of(text, metric)
            check_words_of(text, metric)
            assert metric.question.endswith("?"), metric
            without = "/".join(part for part in text.split("/") if not part.startswith(f"{metric.name}:"))
            assert is_accepted(without) != metric.is_mandatory, without
    for line, vector in accepted_vectors():
        assert {metric.name: value.value for metric, value in vector.described} == vector.metrics, line
    number: Any = 3.1
    for other in ("5.0", number):
        message = message_of(ValueError, lambda: metrics(other))
        assert message == f"expected version '2.0', '3.0', '3.1' or '4.0', got {other!r}"


def check_groups() -> None:
    """A metric of a group brings the group's score into the record of v2 and v3, and is what `score` is then; of v4.0 it
    brings its letter into the nomenclature (specification, section 1.3)."""
    for version, text in BASES.items():
        for metric in metrics(version):
            own = Vector(with_component(text, metric.name, metric.values[-1].value))
            if version == "4.0":
                letters = {"threat": "T", "environmental": "E"}.get(metric.group, "")
                assert own.nomenclature == f"CVSS-B{letters}", own
                assert metric.group in ("base", "threat", "environmental", "supplemental"), own
                continue
            given = [name for name in ("temporal", "environmental") if f"{name}Score" in own.record()]
            assert given == [metric.group] * (metric.group != "base"), own
            is_defined = metric.values[-1].value not in ("X", "ND")
            group = metric.group if is_defined else "base"
            assert (own.score, own.severity) == (getattr(own, f"{group}_score"), getattr(own, f"{group}_severity")), own
