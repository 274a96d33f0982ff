"""What the library's numbers mean: versions, severities, nomenclatures and scores."""

from __future__ import annotations

from decimal import Decimal
from fractions import Fraction
from typing import Dict, Literal, Optional, Tuple, Union

from . import _library
from ._words import Version, check_version

Severity = Literal["none", "low", "medium", "high", "critical"]
"""The qualitative severity of a score."""

Nomenclature = Literal["CVSS-B", "CVSS-BE", "CVSS-BT", "CVSS-BTE"]
"""Which groups of metrics a v4.0 score counts: base, environmental, threat."""

VERSIONS: Dict[int, Version] = {20: "2.0", 30: "3.0", 31: "3.1", 40: "4.0"}
SEVERITIES: Tuple[Severity, ...] = ("none", "low", "medium", "high", "critical")
NOMENCLATURES: Tuple[Nomenclature, ...] = ("CVSS-B", "CVSS-BE", "CVSS-BT", "CVSS-BTE")


def number_of(version: Version) -> int:
    """The library's number of a version."""
    return next(number for number, own in VERSIONS.items() if own == check_version(version))


def _tenths_of(score: Union[float, Decimal]) -> Optional[int]:
    """The tenths of a score, or None for a number that is no score."""
    try:
        is_within = 0 <= score <= 10
    except ArithmeticError:  # a Decimal that is no number cannot be compared
        return None
    except TypeError:
        raise TypeError(f"expected float or Decimal, got {type(score).__name__}") from None
    if not is_within:
        return None
    tenths = round(10 * score)
    # a Decimal has to be the tenth itself, and a float the nearest to it
    is_tenth = score == Fraction(tenths, 10) if isinstance(score, Decimal) else float(score) == tenths / 10
    return tenths if is_tenth else None


def severity_of(score: Union[float, Decimal], version: Version = "4.0") -> Severity:
    """The severity of a score by the bounds of a version, which v3.0, v3.1 and v4.0 share.

    Raises `ValueError` for anything but a number from 0 to 10 with at most one decimal place.

    >>> severity_of(7.5), severity_of(9.8), severity_of(9.8, "2.0")
    ('high', 'critical', 'high')
    """
    tenths = _tenths_of(score)
    if tenths is None:
        raise ValueError(f"expected a score from 0 to 10 with at most one decimal place, got {score}")
    return SEVERITIES[_library.severity(number_of(version), tenths)]
