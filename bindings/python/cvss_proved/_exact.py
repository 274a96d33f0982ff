"""Scores and sub-scores of vectors that need not be complete, and numbers that are rounded."""

from __future__ import annotations

from decimal import Decimal
from fractions import Fraction
from typing import Mapping, NamedTuple, NoReturn, Optional, Union

from . import _library
from ._given import joined
from ._numbers import number_of
from ._words import Version

_UNITS = 10**24


class Numbers(NamedTuple):
    """The scores of a vector of v2 or v3, and its sub-scores, which are exact: of v2 Impact, Exploitability and
    AdjustedImpact; of v3 ISS, before the scope counts, Exploitability and MISS."""

    base: float
    temporal: float
    environmental: float
    impact: Fraction
    exploitability: Fraction
    adjusted_impact: Fraction


def numbers(version: Version, metrics: Optional[Mapping[str, str]] = None, /, **values: str) -> Numbers:
    """The scores and sub-scores of the vector of v2 or v3 with these metrics, as a mapping or by name, in any order.

    Any metric may be missing; a missing base metric has no weight. Raises `CvssError` if a metric is rejected, and
    `ValueError` for v4.0.

    >>> numbers("2.0", C="P", I="P", A="P").impact
    Fraction(41235051, 6400000)
    >>> numbers("3.1", AV="N", C="H").base
    3.6
    """
    number, given = _version(version), joined(metrics, values)
    own = _library.numbers(number, given)
    if own is None:
        _raise_error(number, given)
    base, temporal, environmental, *counts = own
    impact, exploitability, adjusted = (Fraction(count, _UNITS) for count in counts)
    return Numbers(base / 10, temporal / 10, environmental / 10, impact, exploitability, adjusted)


def rounded(number: Union[int, float, Decimal, Fraction], version: Version) -> float:
    """The number rounded to tenths as v2 or v3 rounds scores.

    Raises `ValueError` for anything but a number between -1,000,000 and 1,000,000, and for v4.0.

    >>> rounded(4.02, "3.1"), rounded(4.02, "2.0")
    (4.1, 4.0)
    """
    tenths = _library.rounded(_version(version), _count(number))
    if tenths is None:
        raise ValueError(f"expected a number between -1,000,000 and 1,000,000, got {number}")
    return tenths / 10


def temporal_with_impact(
    impact: Union[int, float, Decimal, Fraction], metrics: Optional[Mapping[str, str]] = None, /, **values: str
) -> float:
    """The temporal score of the vector of v2 with these metrics, given as for `numbers`, and with an impact in place of its
    own. It may be below 0.

    >>> temporal_with_impact(10, AV="N", AC="L", Au="N", E="U")
    8.5
    """
    count, given = _count(impact), joined(metrics, values)
    tenths = _library.temporal_with_impact(given, count)
    if tenths is not None:
        return tenths / 10
    if _library.numbers(20, given) is None:
        _raise_error(20, given)
    raise ValueError(f"expected an impact between -1,000,000 and 1,000,000, got {impact}")


def _raise_error(version: int, metrics: bytes) -> NoReturn:
    """Raises the error for which metrics are rejected, which `from_metrics` rejects too."""
    _library.from_metrics(version, metrics, allow_incomplete=True)
    raise AssertionError("from_metrics accepts what numbers rejects")


def _version(version: Version) -> int:
    """The library's number of v2 or v3."""
    number = number_of(version)
    if number == 40:
        raise ValueError("expected version '2.0', '3.0' or '3.1', got '4.0', which has no sub-scores and no rounding here")
    return number


def _count(number: Union[int, float, Decimal, Fraction]) -> int:
    """The nearest count of 10^-24; for a number with more than 30 digits before the point, one that is out of range."""
    # a Decimal as a fraction could have as many digits as its exponent says
    if isinstance(number, Decimal) and number.is_finite() and (number == 0 or abs(number.adjusted()) > 30):
        return 0 if number == 0 or number.adjusted() < 0 else 10**6 * _UNITS
    try:
        return round(Fraction(number) * _UNITS)
    except TypeError:
        raise TypeError(f"expected int, float, Decimal or Fraction, got {type(number).__name__}") from None
    except (OverflowError, ValueError):
        raise ValueError(f"expected a finite number, got {number}") from None


Numbers.__module__ = "cvss_proved"
