"""Vectors: their order, metrics that are set, vectors made of metrics, and incomplete vectors."""

from __future__ import annotations

from typing import Any, Callable, List, Tuple

from cvss_proved import CvssError, Text, Vector, find, metrics, severity_of

from .shared import (BASES, LACKS, SHORT, TEXT, V4, Own, accepted_vectors, copies, error_of, message_of, outcome, raises)


def check_values() -> None:
    """The two vectors have the base scores 7.8 and 10.0 (CVSS v2 guide, sections 3.3.1 and 3.3.2)."""
    lower, higher = Vector(TEXT), Vector("AV:N/AC:L/Au:N/C:C/I:C/A:C")
    assert sorted([higher, lower]) == [lower, higher] and lower <= higher and lower != higher
    assert lower != TEXT and raises(TypeError, lambda: lower < TEXT)  # type: ignore[operator]
    assert f"{lower:>30}" == "    " + TEXT
    assert len({lower, Vector("A:C/I:N/C:N/Au:N/AC:L/AV:N")}) == 1
    # the temporal score of the second is 7.4 (10.0 * 0.85 * 0.87 * 1.0, rounded), which is less than 7.8
    assert higher.with_metrics(E="U", RL="OF") < lower < higher


def check_scores() -> None:
    """The scores are those of the examples in the CVSS v2 guide, sections 3.3.1 and 3.3.2. Metrics that are not defined do
    not count."""
    first = "AV:N/AC:L/Au:N/C:N/I:N/A:C/E:F/RL:OF/RC:C"
    rows = (
        (TEXT, 7.8, "high", (7.8, 7.8, 7.8)),
        (first, 6.4, "medium", (7.8, 6.4, 6.4)),
        (f"{first}/CDP:H/TD:H/CR:M/IR:M/AR:H", 9.2, "high", (7.8, 6.4, 9.2)),
        (f"{first}/CDP:N/TD:N/CR:M/IR:M/AR:H", 0.0, "low", (7.8, 6.4, 0.0)),
        (f"{first}/CDP:ND/TD:ND/CR:ND", 6.4, "medium", (7.8, 6.4, 6.4)),
        (f"{TEXT}/E:ND/RL:ND/CDP:ND", 7.8, "high", (7.8, 7.8, 7.8)),
    )
    for text, score, severity, scores in rows:
        vector = Vector(text)
        assert (vector.score, vector.severity, vector.scores) == (score, severity, scores), text
        assert (vector.base_severity, vector.severities.base) == ("high", "high"), text
    threatened = Vector("CVSS:4.0/AV:N/AC:L/AT:N/PR:N/UI:N/VC:H/VI:H/VA:H/SC:N/SI:N/SA:N/E:U")
    # FIRST's calculator gives these
    assert (threatened.score, threatened.severity) == (8.1, "high")
    assert (threatened.scores, threatened.severities) == ((9.3, None, None), ("critical", None, None))
    assert (threatened.temporal_score, threatened.environmental_severity) == (None, None)


def check_changes() -> None:
    """What is not defined scores as what is absent (CVSS v2 guide, section 2.2; v3.1, section 3; v4.0, section 3)."""
    for line, vector in accepted_vectors():
        shorter = vector.without_not_defined()
        assert (shorter.score, shorter.scores, shorter.severities) == (vector.score, vector.scores, vector.severities), line
        defined = {name: value for name, value in vector.metrics.items() if value not in ("X", "ND")}
        assert shorter.metrics == defined or (not defined and shorter == vector), line
        assert vector.with_metrics({}) == vector
        assert vector.with_metrics({"IR": "H"}).metrics == {**vector.metrics, "IR": "H"}, line


def check_made_of_incomplete() -> None:
    """A vector that was accepted as incomplete stays so, and what is made of it is not rejected either."""
    for kind in (Vector, Own):
        vector = kind(SHORT + "/E:X", allow_incomplete=True)
        made = [vector.with_metrics(E="H"), vector.with_metrics(), vector.without_not_defined(), *copies(vector),
                kind.from_metrics("3.1", vector.metrics, allow_incomplete=True),
                kind.from_rh_vector(f"0.0/{vector}", allow_incomplete=True)]
        for other in made:
            assert type(other) is kind and not other.is_complete, other
            assert other.record()["vectorString"] == other.explain()["vector"] == other.text
            assert all(copied == other and copied.scores == other.scores for copied in copies(other))
        assert [str(other) for other in made[:3]] == [SHORT + "/E:H", SHORT + "/E:X", SHORT], made
        completed = vector.with_metrics(PR="N", UI="N", S="U", C="H", I="H", A="H")
        assert completed.is_complete and (completed.score, type(completed)) == (9.8, kind)
        rejecting: Tuple[Callable[[], Vector], ...] = (
            lambda: kind(SHORT), lambda: kind.from_metrics("3.1", AV="N", AC="L"), lambda: kind.from_rh_vector(f"0.0/{SHORT}"))
        for call in rejecting:
            assert outcome(call) == (None, f"7 {LACKS} "), kind


def check_metrics_by_name() -> None:
    """No metric has the name of an option."""
    names = {metric.name.lower() for version in BASES for metric in metrics(version)}
    assert names and "allow_incomplete" not in names and "self" not in names and "cls" not in names
    for name in ("allow_incomplete", "ALLOW_INCOMPLETE"):
        assert error_of(lambda: Vector.from_metrics("3.1", {name: "X"})).kind == "unknown metric", name
        assert error_of(lambda: Vector(BASES["3.1"]).with_metrics({name: "X"})).kind == "unknown metric", name
    assert error_of(lambda: Vector(BASES["3.1"]).with_metrics(allow_incomplete="X")).value == "ALLOW_INCOMPLETE"


def check_setting() -> None:
    """Metrics are given as a mapping or by name. FIRST's calculator gives 9.3 and 8.1 for the vectors of v4.0."""
    vector = Vector("CVSS:4.0/AV:N/AC:L/AT:N/PR:N/UI:N/VC:H/VI:H/VA:H/SC:N/SI:N/SA:N")
    threatened = vector.with_metrics(E="U")
    assert (vector.score, threatened.score, threatened.nomenclature) == (9.3, 8.1, "CVSS-BT")
    assert threatened.nomenclature_scores == {"CVSS-B": 9.3, "CVSS-BE": 9.3, "CVSS-BT": 8.1, "CVSS-BTE": 8.1}
    assert Vector(TEXT).nomenclature_scores == {}
    assert vector.with_metrics({"e": "u"}) == vector.with_metrics({"E": "A"}, E="U") == threatened
    assert vector.with_metrics() == vector
    assert vector.with_metrics({}, AV="P", MSI="S").metrics == {**vector.metrics, "AV": "P", "MSI": "S"}
    assert str(Vector(TEXT).with_metrics(E="ND", Au="M")) == "AV:N/AC:L/Au:M/C:N/I:N/A:C/E:ND"
    assert Vector.from_metrics("4.0", vector.metrics, E="U") == threatened
    assert type(Own(TEXT).with_metrics(E="H")) is type(Own.from_metrics("2.0", Vector(TEXT).metrics)) is Own
    rows = (
        (TEXT + "/TD:L", {"TD": "H"}, TEXT + "/TD:H"),
        (BASES["3.0"] + "/MAV:L", {"mav": "p"}, BASES["3.0"] + "/MAV:P"),
        (BASES["3.1"] + "/CR:L", {"Cr": "h"}, BASES["3.1"] + "/CR:H"),
        (V4, {"msi": "s", "CR": "l"}, V4 + "/CR:L/MSI:S"),
    )
    for text, given, expected in rows:
        assert str(Vector(text).with_metrics(given)) == expected, text


def check_rejected_metrics() -> None:
    """A metric that is rejected is reported alone, whichever it is, and each wrong type is a TypeError."""
    vector = Vector("CVSS:4.0/AV:N/AC:L/AT:N/PR:N/UI:N/VC:H/VI:H/VA:H/SC:N/SI:N/SA:N")
    for name, value in (("E", "A/RC:C"), ("E/RC:C/E", "A"), ("/", ""), ("E", "A:B"), ("E:A", "B")):
        given, component = {name: value}, f"{name}:{value}"
        assert outcome(lambda: vector.with_metrics(given)) == (None, f"1 - {component}"), component
        assert outcome(lambda: Vector.from_metrics("3.1", given)) == (None, f"1 - {component}"), component
    for quoted in ("`", "a`b", "``", "a\n`"):
        assert outcome(lambda: vector.with_metrics(E=quoted)) == (None, f"5 E {quoted.upper()}"), quoted
        assert outcome(lambda: Vector.from_metrics("2.0", {quoted: ""})) == (None, f"4 - {quoted}"), quoted
    for given, error in (({"E": "A", "MAV": "Q"}, "5 MAV Q"), ({"E": "A", "e": "P"}, "6 E "), ({"XX": "N", "E": "Q"}, "4 - XX"),
                         ({"M\u017f": "U"}, "4 - M\u017f"), ({"CR": "\u210d"}, "5 CR \u210d"), ({"CR": ""}, "5 CR ")):
        assert outcome(lambda: vector.with_metrics(given)) == (None, error), given
    message = "invalid CVSSv4 MAV (Modified Attack Vector) metric: `Q`"
    assert error_of(lambda: vector.with_metrics(E="A", MAV="Q")).message == message
    no_metrics: Tuple[Any, ...] = ("E:A", b"E:A", 5, ["E"], [("E", "A")], {"E"})
    for other in no_metrics:
        expected = f'expected a mapping of metric names to values, such as {{"MSI": "S"}}, got {type(other).__name__}'
        assert message_of(TypeError, lambda: vector.with_metrics(other)) == expected, other
        assert message_of(TypeError, lambda: Vector.from_metrics("3.1", other)) == expected, other
    no_pairs: Tuple[Any, ...] = ({"E": None}, {"E": 5}, {"E": b"A"}, {5: "A"}, {b"E": "A"}, {None: "A"})
    for other in no_pairs:
        assert raises(TypeError, lambda: vector.with_metrics(other)), other
        assert raises(TypeError, lambda: Vector.from_metrics("3.1", other)), other
    assert message_of(TypeError, lambda: vector.with_metrics(E=None)) == (  # type: ignore[arg-type]
        "expected str for the name and the value of a metric, got 'E' and None")
    versions: Tuple[Any, ...] = ("5.0", 3.1, None)
    for version in versions:
        expected = f"expected version '2.0', '3.0', '3.1' or '4.0', got {version!r}"
        assert message_of(ValueError, lambda: Vector.from_metrics(version, {})) == expected


def check_values_of_errors() -> None:
    """An error has the part of the text that its message quotes, as the message has it."""
    rows = (
        ("AV:N", "invalid component", "", "AV:N"), ("AV/N", "invalid component", "", "AV"),
        ("CVS:3.1/AV:N", "invalid prefix", "", "CVS"), ("CVSS:3.2/AV:N", "unsupported version", "", "3.2"),
        ("CVSS:3.1/xx:N", "unknown metric", "", "XX"), ("CVSS:3.1/av:a`b", "invalid value", "AV", "A`B"),
        ("AV:/AC:L", "invalid value", "AV", ""), ("AV:``/AC:L", "invalid value", "AV", "``"),
        ("CVSS:3.1/AV:N/MAC:\u20ac", "invalid value", "AC", "\u20ac"),
        ("CVSS:3.1/AV:N/av:n", "duplicate metric", "AV", ""), ("AV:N/AC:L", "missing metric", "Au", ""),
        (SHORT, "missing metric", LACKS, ""), ("\ud800", "not UTF-8", "", ""),
    )
    # each error is of its own call, whichever was before
    for text, kind, metric, value in [*rows, *reversed(rows)]:
        error = error_of(lambda: Vector(text))
        assert (error.kind, error.metric, error.value) == (kind, metric, value), text
        assert str(error) == error.message == error.args[0] and isinstance(error, ValueError)
        assert [rejected.value for rejected in copies(error)] == [value] * len(copies(error))
    found = next(match.error for match in find("CVSS:3.1/AV:Q") if match.error)
    assert (found.value, CvssError("words", "invalid value").metric, CvssError("words", "invalid value", "AV").value) == (
        "Q", "", "")


def check_red_hat_notation() -> None:
    """The scores are those of section 3.3.1 of the CVSS v2 guide, and of FIRST's calculator."""
    assert Vector.from_rh_vector("7.8/" + TEXT) == Vector(TEXT)
    assert Vector.from_rh_vector("10/" + V4) == Vector.from_rh_vector("10.0/" + V4) == Vector(V4)
    assert type(Own.from_rh_vector("7.8/" + TEXT)) is Own
    # the base score precedes a vector of v2, and the score with all metrics one of v4.0
    assert Vector.from_rh_vector(f"7.8/{TEXT}/E:F/RL:OF/RC:C").score == 6.4
    v4 = "CVSS:4.0/AV:N/AC:L/AT:N/PR:N/UI:N/VC:H/VI:H/VA:H/SC:N/SI:N/SA:N/E:U"
    assert Vector.from_rh_vector(f"8.1/{v4}").base_score == 9.3 and raises(ValueError, lambda: Vector.from_rh_vector(f"9.3/{v4}"))
    for score in ("7.9", "78", "7", "0", "6.4"):
        assert raises(ValueError, lambda: Vector.from_rh_vector(f"{score}/{TEXT}/E:F/RL:OF/RC:C")), score
    for other in (TEXT, "", "/", "7.8", "/" + TEXT, " 7.8/" + TEXT, "7.80/" + TEXT, "07.8/" + TEXT, "7,8/" + TEXT, "+7.8/" + TEXT,
                  "\u0667.8/" + TEXT, "7.8\n/" + TEXT, "nan/" + TEXT, "-7.8/" + TEXT):
        assert raises(ValueError, lambda: Vector.from_rh_vector(other)), other
    assert message_of(ValueError, lambda: Vector.from_rh_vector("x/" + TEXT)) == (
        "expected a score and a slash before the vector, as in '7.8/AV:N/..', got 'x'")
    for rejected in ("7.8/", "7.8", "7.8/AV:N"):
        assert raises(ValueError, lambda: Vector.from_rh_vector(rejected)), rejected
    assert raises(CvssError, lambda: Vector.from_rh_vector("7.8/AV:N"))
    code = b"7.8/" + TEXT.encode()
    texts: Tuple[Text, ...] = (code, bytearray(code), memoryview(code))
    for text in texts:
        assert Vector.from_rh_vector(text) == Vector(TEXT)
    no_utf8: Tuple[Text, ...] = (code + b"\xff", "7.8/" + TEXT + "\ud800")
    for text in no_utf8:
        assert outcome(lambda: Vector.from_rh_vector(text)) == (None, "8 - "), text
    short = f"0.0/{SHORT}"
    assert not Vector.from_rh_vector(short, allow_incomplete=True).is_complete
    for given in (short, short.replace("0.0/", "9.8/")):
        assert outcome(lambda: Vector.from_rh_vector(given)) == (None, f"7 {LACKS} "), given


def check_types() -> None:
    """A comparison that cannot hold is an error of mypy: it calls each comment here that is needless an error, too."""
    vector, error = Vector(V4), error_of(lambda: Vector("AV:N"))
    assert vector.severity != "High"  # type: ignore[comparison-overlap]
    assert vector.severities.base != "CRITICAL"  # type: ignore[comparison-overlap]
    assert vector.base_severity != "Low"  # type: ignore[comparison-overlap]
    assert vector.version != "4"  # type: ignore[comparison-overlap]
    assert vector.nomenclature != "B"  # type: ignore[comparison-overlap]
    assert metrics("3.1")[0].group != "Base"  # type: ignore[comparison-overlap]
    assert severity_of(7.5) != "High"  # type: ignore[comparison-overlap]
    assert error.kind != "invalid"  # type: ignore[comparison-overlap]
    assert next(find(TEXT)).text != TEXT.encode()  # type: ignore[comparison-overlap]
    assert vector.severity == "critical" and vector.version == "4.0" and vector.nomenclature == "CVSS-B"
    assert error.kind == "invalid component"
    versions: List[str] = [vector.version]
    assert versions == ["4.0"]
