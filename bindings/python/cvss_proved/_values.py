"""The score of a text, and the values of its metrics, without a `Vector`."""

from __future__ import annotations

from typing import Dict, NamedTuple, Optional

from . import _library, _words
from ._library import ALLOW_INCOMPLETE, COMPLETE, NOTHING, cvss_score, size_of
from ._numbers import NOMENCLATURES, VERSIONS, Nomenclature
from ._texts import Text, bytes_of
from ._words import Version


class Values(NamedTuple):
    """A vector as the values of its metrics. `metrics` has each metric of the version, in the order of canonical texts, and
    None for one that the vector lacks."""

    version: Version
    score: float
    nomenclature: Optional[Nomenclature]
    metrics: Dict[str, Optional[str]]


def score(text: Text, *, allow_incomplete: bool = False) -> Optional[float]:
    """The score of a text, as `Vector.score`, or None if the text is rejected. It is faster than `Vector`, and computes no
    other score.

    >>> score("AV:N/AC:L/Au:N/C:N/I:N/A:C"), score("AV:N")
    (7.8, None)
    """
    code = bytes_of(text)
    # no function of `_library` is between, since this call is to be fast
    tenths: int = cvss_score(code, size_of(len(code)), ALLOW_INCOMPLETE if allow_incomplete else COMPLETE)
    return None if tenths == NOTHING else tenths / 10


def values(text: Text, *, allow_incomplete: bool = False) -> Optional[Values]:
    """The values of the vector that a text denotes, one for each metric of its version, or None if the text is rejected.

    >>> own = values("CVSS:3.1/AV:N/AC:L/PR:N/UI:N/S:U/C:H/I:H/A:H/E:U")
    >>> own.version, own.score, own.metrics["E"], own.metrics["RL"], len(own.metrics)
    ('3.1', 9.0, 'U', None, 22)
    """
    read = _library.values(bytes_of(text), allow_incomplete)
    if read is None:
        return None
    number, tenths, nomenclature, spellings = read
    version = VERSIONS[number]
    own = {metric.name: spelling or None for metric, spelling in zip(_words.metrics(version), spellings)}
    name = None if nomenclature == NOTHING else NOMENCLATURES[nomenclature]
    return Values(version, tenths / 10, name, own)


Values.__module__ = "cvss_proved"
