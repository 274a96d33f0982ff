"""Severities of scores, and exact numbers."""

from __future__ import annotations

from decimal import Decimal
from fractions import Fraction
from functools import partial
from typing import Any, Tuple, Union

from cvss_proved import CvssError, Vector, numbers, rounded, severity_of, temporal_with_impact

from .shared import BASES, TEXT, TEXT_METRICS, error_of, message_of, raises


def check_severities() -> None:
    """The bounds are those of the tables in section 5 of the v3.1 specification, and of NVD for v2; v4.0 has those of
    v3.1."""
    since_v3 = {"none": (0, 0), "low": (1, 39), "medium": (40, 69), "high": (70, 89), "critical": (90, 100)}
    v2 = {"low": (0, 39), "medium": (40, 69), "high": (70, 100)}
    for version in BASES:
        for tenths in range(101):
            bounds = v2 if version == "2.0" else since_v3
            word = next(word for word, (least, most) in bounds.items() if least <= tenths <= most)
            assert severity_of(tenths / 10, version) == severity_of(Decimal(tenths) / 10, version) == word
            assert version != "4.0" or severity_of(tenths / 10) == word
    assert severity_of(10) == "critical" and severity_of(7) == "high"
    others: Tuple[Union[float, Decimal], ...] = (-0.1, 10.1, 9.85, 98, float("nan"), float("inf"), Decimal("9.85"),
                                                 Decimal("9.8" + 30 * "0" + "1"), Decimal("NaN"), Decimal("sNaN"))
    for other in others:
        message = f"expected a score from 0 to 10 with at most one decimal place, got {other}"
        assert message_of(ValueError, partial(severity_of, other)) == message, other
    no_scores: Tuple[Any, ...] = ("9.8", None, [9.8])
    for wrong in no_scores:
        message = f"expected float or Decimal, got {type(wrong).__name__}"
        assert message_of(TypeError, partial(severity_of, wrong)) == message, wrong
    assert raises(ValueError, lambda: severity_of(9.8, "5.0"))  # type: ignore[arg-type]


def check_numbers() -> None:
    """Vectors that need not be complete have scores and exact sub-scores."""
    impact = Fraction("10.41") * (1 - (1 - Fraction("0.275") * Fraction("1.51")) ** 3)
    own = numbers("2.0", {"C": "P", "I": "P"}, A="P", CR="H", IR="H", AR="H")
    assert own[:3] == (2.8, 2.8, 4.1) and own.adjusted_impact == impact and own.exploitability == 0
    assert not any(numbers("3.0")) and not any(numbers("2.0", {}))
    assert numbers("3.1", c="h", s="c").impact == Fraction("0.56")
    assert numbers("2.0", Vector(TEXT).metrics)[:3] == Vector(TEXT).scores
    assert temporal_with_impact(1) == -1.1 and temporal_with_impact(Decimal(10), TEXT_METRICS, E="U") == 8.5
    error = error_of(lambda: numbers("3.1", AV="N", E="Q"))
    assert (error.kind, error.metric, error.value) == ("invalid value", "E", "Q")
    error = error_of(lambda: temporal_with_impact(1, av="N"))
    assert (error.kind, error.metric, error.value) == ("unknown metric", "", "av")
    assert raises(CvssError, lambda: numbers("2.0", AV="Q")) and raises(ValueError, lambda: numbers("4.0"))


def check_rounding() -> None:
    """Numbers are rounded to tenths as each version rounds scores, up to a million from 0."""
    rows = (("4.000001", 4.1, 4.0), ("4.000005", 4.1, 4.1), ("-0.1", -0.1, 0), ("-0.05", 0, 0))
    for number, v30, v31 in rows:
        assert (rounded(Fraction(number), "3.0"), rounded(Decimal(number), "3.1")) == (v30, v31), number
    assert (rounded(4.02, "3.1"), rounded(4, "3.1")) == (4.1, 4)
    assert rounded(Fraction(-(10**30 - 1), 10**24), "2.0") == -1000000
    # as a fraction these would have a billion digits
    assert [rounded(Decimal(number), "3.0") for number in ("1e-999999999", "-1e-999999999", "0e999999999")] == [0, 0, 0]
    assert all(raises(ValueError, partial(rounded, Decimal(number), "3.0")) for number in ("1e999999999", "-1e999999999"))
    assert rounded(Decimal("6e-25"), "3.0") == 0.1 and rounded(Decimal("4e-25"), "3.0") == 0
    for value in (1e6, -(10**6)):
        assert message_of(ValueError, partial(rounded, value, "3.1")) == (
            f"expected a number between -1,000,000 and 1,000,000, got {value}")
        assert message_of(ValueError, partial(temporal_with_impact, value)) == (
            f"expected an impact between -1,000,000 and 1,000,000, got {value}")
    for value in (float("inf"), float("nan")):
        assert message_of(ValueError, partial(rounded, value, "3.1")) == f"expected a finite number, got {value}"
        assert raises(ValueError, partial(temporal_with_impact, value)), value
    no_numbers: Tuple[Any, ...] = (None, b"4", [4], 4j)
    for other in no_numbers:
        message = f"expected int, float, Decimal or Fraction, got {type(other).__name__}"
        assert message_of(TypeError, partial(rounded, other, "3.1")) == message, other
        assert message_of(TypeError, partial(temporal_with_impact, other)) == message, other
    assert raises(ValueError, lambda: rounded(1, "4.0"))
