"""CVSS vectors of v2, v3.0, v3.1 and v4.0: parsed, normalized and scored.

The results come from a library whose functions are proved up to the call. This package calls it through ctypes and
computes no score itself. Python 3.8 and later, on Linux on x86-64 and ARM64.

>>> vector = Vector("CVSS:3.1/AV:N/AC:L/PR:N/UI:N/S:U/C:H/I:H/A:H")
>>> vector.score, vector.severity
(9.8, 'critical')
>>> vector = Vector("E:U/A:C/I:N/C:N/Au:N/AC:L/AV:N")
>>> vector.text
'AV:N/AC:L/Au:N/C:N/I:N/A:C/E:U'
>>> vector.score, vector.scores
(6.6, Scores(base=7.8, temporal=6.6, environmental=6.6))
>>> vector.metrics["AC"]
'L'
>>> Vector("AV:N/AC:q")
Traceback (most recent call last):
    ...
cvss_proved.CvssError: invalid CVSSv2 AC (Access Complexity) metric: `q`
"""

from ._error import CvssError, Kind
from ._exact import Numbers, numbers, rounded, temporal_with_impact
from ._find import Match, find
from ._lines import score_line, score_lines, scores
from ._numbers import Nomenclature, Severity, severity_of
from ._scores import Scores, Severities
from ._texts import Text
from ._values import Values, score, values
from ._vector import Vector
from ._words import Described, Group, MetricType, MetricValue, Version, metrics

__version__ = "2.0.0"

__all__ = [
    "CvssError",
    "Described",
    "Group",
    "Kind",
    "Match",
    "MetricType",
    "MetricValue",
    "Nomenclature",
    "Numbers",
    "Scores",
    "Severities",
    "Severity",
    "Text",
    "Values",
    "Vector",
    "Version",
    "find",
    "metrics",
    "numbers",
    "rounded",
    "score",
    "score_line",
    "score_lines",
    "scores",
    "severity_of",
    "temporal_with_impact",
    "values",
    "__version__",
]
