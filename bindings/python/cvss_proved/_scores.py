"""The scores of a vector by groups of metrics, and their severities."""

from __future__ import annotations

from typing import NamedTuple, Optional

from ._library import NOTHING
from ._numbers import SEVERITIES, Severity


class Scores(NamedTuple):
    """The base, the temporal and the environmental score of a vector. For v4.0 `base` is the score of CVSS-B, and there are
    no others: `Vector.nomenclature_scores` has the four scores of v4.0.

    >>> Vector("CVSS:4.0/AV:N/AC:L/AT:N/PR:N/UI:N/VC:H/VI:H/VA:H/SC:N/SI:N/SA:N/E:U").scores
    Scores(base=9.3, temporal=None, environmental=None)
    """

    base: float
    temporal: Optional[float]
    environmental: Optional[float]


class Severities(NamedTuple):
    """The severities of the three scores: none, low, medium, high or critical.

    >>> Vector("CVSS:3.1/AV:N/AC:L/PR:N/UI:N/S:U/C:H/I:H/A:H/E:U/RL:O").severities
    Severities(base='critical', temporal='high', environmental='high')
    """

    base: Severity
    temporal: Optional[Severity]
    environmental: Optional[Severity]


def score_of(tenths: int) -> Optional[float]:
    return None if tenths == NOTHING else tenths / 10


def severity_named(number: int) -> Optional[Severity]:
    return None if number == NOTHING else SEVERITIES[number]


# Pickles name the classes by their public path.
for _public in (Scores, Severities):
    _public.__module__ = "cvss_proved"
