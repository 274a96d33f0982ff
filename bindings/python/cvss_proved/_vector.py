"""Vectors, and what is known of them."""

from __future__ import annotations

import json
import re
from functools import total_ordering
from types import MemberDescriptorType
from typing import Any, Dict, List, Mapping, Optional, Tuple, Type, TypeVar

from . import _library, _words
from ._given import joined
from ._library import NOTHING
from ._numbers import NOMENCLATURES, SEVERITIES, VERSIONS, Nomenclature, Severity, number_of
from ._scores import Scores, Severities, score_of, severity_named
from ._texts import Text, bytes_of
from ._words import Described, Version

_Own = TypeVar("_Own", bound="Vector")


@total_ordering
class Vector:
    """The vector that a text denotes.

    Two vectors are equal if their canonical texts are. They are ordered by score, and vectors with the same score by text.
    The vectors that a subclass makes of its own are of this subclass. Its constructor is called with a text alone, and for a
    vector that may lack base metrics also with `allow_incomplete=True`.

    >>> vector = Vector("CVSS:4.0/AV:N/AC:L/AT:N/PR:N/UI:N/VC:H/VI:H/VA:H/SC:H/SI:H/SA:H")
    >>> vector.version, vector.tenths, vector.nomenclature
    ('4.0', 100, 'CVSS-B')
    >>> vector == Vector(vector.text)
    True
    """

    __slots__ = ("_code", "_decoded", "_numbers", "__weakref__")

    _code: bytes
    _decoded: Optional[str]
    _numbers: Tuple[int, ...]

    def __init__(self, text: Text, *, allow_incomplete: bool = False) -> None:
        """Parses a text. Raises `CvssError` if it is no valid vector.

        A v3 vector that lacks base metrics, which FIRST's document makes mandatory, is rejected for the first missing one.
        With `allow_incomplete` it is accepted, and the missing ones have no weight.

        >>> Vector("CVSS:3.1/AV:N/AC:L/PR:N/UI:N/S:U")
        Traceback (most recent call last):
            ...
        cvss_proved.CvssError: missing mandatory CVSSv3 C (Confidentiality Impact) metric
        """
        self._numbers, self._code = _library.parse(bytes_of(text), allow_incomplete)
        self._decoded = None

    @classmethod
    def _made(cls: Type[_Own], text: Text, allow_incomplete: bool) -> _Own:
        """Calls the constructor, which of a subclass need not know `allow_incomplete`."""
        return cls(text, allow_incomplete=True) if allow_incomplete else cls(text)

    @classmethod
    def from_rh_vector(cls: Type[_Own], text: Text, *, allow_incomplete: bool = False) -> _Own:
        """Parses Red Hat's notation, in which a score and a slash precede the vector: for v2 and v3 the base score, for v4.0
        the score with all metrics in the vector.

        Raises `ValueError` for a text without a score and for a score that is not the vector's, and `CvssError` for a vector
        that is rejected.

        >>> Vector.from_rh_vector("9.8/CVSS:3.1/AV:N/AC:L/PR:N/UI:N/S:U/C:H/I:H/A:H").severity
        'critical'
        >>> Vector.from_rh_vector("7.5/CVSS:3.1/AV:N/AC:L/PR:N/UI:N/S:U/C:H/I:H/A:H")
        Traceback (most recent call last):
            ...
        ValueError: expected the score 9.8 before CVSS:3.1/AV:N/AC:L/PR:N/UI:N/S:U/C:H/I:H/A:H, got 7.5
        """
        given = text if isinstance(text, str) else bytes_of(text).decode("utf-8", "surrogateescape")
        score, _, rest = given.partition("/")
        parts = re.fullmatch(r"(10|[0-9])(?:\.([0-9]))?", score)
        if parts is None:
            raise ValueError(f"expected a score and a slash before the vector, as in '7.8/AV:N/..', got {score!r}")
        vector = cls._made(rest, allow_incomplete)
        own = vector.score if vector.version == "4.0" else vector.base_score
        if own != float(score):
            raise ValueError(f"expected the score {own} before {vector}, got {score}")
        return vector

    @classmethod
    def from_metrics(
        cls: Type[_Own],
        version: Version,
        metrics: Optional[Mapping[str, str]] = None,
        /,
        *,
        allow_incomplete: bool = False,
        **values: str,
    ) -> _Own:
        """The vector of a version with these metrics, as a mapping or by name, in any order.

        Raises `CvssError` if a metric is rejected, or a mandatory one is missing: as everywhere, v3 vectors may lack base
        metrics with `allow_incomplete`.

        >>> Vector.from_metrics("3.1", A="H", I="H", C="H", S="U", UI="N", PR="N", AC="L", AV="N").text
        'CVSS:3.1/AV:N/AC:L/PR:N/UI:N/S:U/C:H/I:H/A:H'
        """
        text = _library.from_metrics(number_of(version), joined(metrics, values), allow_incomplete)
        return cls._made(text, allow_incomplete)

    @property
    def _text(self) -> str:
        """The canonical text, which is made at its first use."""
        text = self._decoded
        if text is None:
            text = self._decoded = self._code.decode()
        return text

    @property
    def text(self) -> str:
        """The vector's one canonical text."""
        return self._text

    @property
    def version(self) -> Version:
        """The version of the standard: 2.0, 3.0, 3.1 or 4.0."""
        return VERSIONS[self._numbers[_library.VERSION]]

    @property
    def tenths(self) -> int:
        """The score in tenths, which is exact."""
        return self._numbers[_library.SCORE]

    @property
    def score(self) -> float:
        """The score with all metrics in the vector.

        For v2 and v3 it is the environmental score if an environmental metric is defined, otherwise the temporal score if a
        temporal one is, otherwise the base score. A metric is defined if its value is not `X`, in v2 `ND`.

        >>> vector = Vector("CVSS:3.1/AV:N/AC:L/PR:N/UI:N/S:U/C:H/I:H/A:H/E:U/RL:O")
        >>> vector.score, vector.base_score
        (8.5, 9.8)
        """
        return self.tenths / 10

    @property
    def severity(self) -> Severity:
        """The severity of `score`: none, low, medium, high or critical."""
        return SEVERITIES[self._numbers[_library.SEVERITY]]

    @property
    def base_score(self) -> float:
        """The score of the base metrics alone, for v4.0 that of CVSS-B."""
        return self._numbers[_library.BASE] / 10

    @property
    def base_severity(self) -> Severity:
        """The severity of `base_score`."""
        return SEVERITIES[self._numbers[_library.BASE_SEVERITY]]

    @property
    def temporal_score(self) -> Optional[float]:
        """The temporal score of v2 and v3; without temporal metrics it is the base score. None for v4.0."""
        return score_of(self._numbers[_library.TEMPORAL])

    @property
    def temporal_severity(self) -> Optional[Severity]:
        """The severity of `temporal_score`."""
        return severity_named(self._numbers[_library.TEMPORAL_SEVERITY])

    @property
    def environmental_score(self) -> Optional[float]:
        """The environmental score of v2 and v3, which counts all metrics. None for v4.0."""
        return score_of(self._numbers[_library.ENVIRONMENTAL])

    @property
    def environmental_severity(self) -> Optional[Severity]:
        """The severity of `environmental_score`."""
        return severity_named(self._numbers[_library.ENVIRONMENTAL_SEVERITY])

    @property
    def scores(self) -> Scores:
        """The base, the temporal and the environmental score."""
        return Scores(self.base_score, self.temporal_score, self.environmental_score)

    @property
    def severities(self) -> Severities:
        """The severities of the three scores."""
        return Severities(self.base_severity, self.temporal_severity, self.environmental_severity)

    @property
    def nomenclature(self) -> Optional[Nomenclature]:
        """The groups of metrics that a v4.0 score counts; None for v2 and v3."""
        number = self._numbers[_library.NOMENCLATURE]
        return None if number == NOTHING else NOMENCLATURES[number]

    @property
    def nomenclature_scores(self) -> Dict[Nomenclature, float]:
        """For v4.0 the score of each of these groups of metrics; empty for v2 and v3.

        CVSS-B is the score of the base metrics alone, and CVSS-BTE that of all metrics, which is `score`.

        >>> vector = Vector("CVSS:4.0/AV:N/AC:L/AT:N/PR:N/UI:N/VC:H/VI:H/VA:H/SC:N/SI:N/SA:N/E:U")
        >>> vector.score, vector.nomenclature, vector.nomenclature_scores["CVSS-B"]
        (8.1, 'CVSS-BT', 9.3)
        """
        if self.nomenclature is None:
            return {}
        return {name: own / 10 for name, own in zip(NOMENCLATURES, self._numbers[_library.BY_NOMENCLATURE])}

    @property
    def is_complete(self) -> bool:
        """Whether all base metrics are present. A v3 vector that lacks some is scored without them.

        >>> Vector("CVSS:3.1/AV:N/S:C", allow_incomplete=True).is_complete
        False
        """
        return bool(self._numbers[_library.IS_COMPLETE])

    @property
    def metrics(self) -> Dict[str, str]:
        """The value of each metric in the vector, by its abbreviation, in the order of the text.

        >>> Vector("AV:N/AC:L/Au:N/C:N/I:N/A:C").metrics
        {'AV': 'N', 'AC': 'L', 'Au': 'N', 'C': 'N', 'I': 'N', 'A': 'C'}
        """
        words = self._text.replace("/", ":").split(":")
        # a prefix is two words too
        first = 2 if words[0] == "CVSS" else 0
        return dict(zip(words[first::2], words[first + 1 :: 2]))

    @property
    def described(self) -> List[Described]:
        """Each metric in the vector with its value, and their names in words, in the order of the text.

        >>> for metric, value in Vector("AV:N/AC:L/Au:N/C:N/I:N/A:C").described[:2]:
        ...     print(metric.title, "is", value.title)
        Access Vector is Network
        Access Complexity is Low
        """
        known = _words.by_letters(self.version)
        return [known[letters] for letters in self.metrics.items()]

    @property
    def _is_incomplete(self) -> bool:
        """Whether the vector was accepted without all base metrics. Then the vectors that are made of it may lack some."""
        return not self.is_complete

    def without_not_defined(self: _Own) -> _Own:
        """The vector without the metrics that are not defined (`X`, in v2 `ND`): it has the same scores.

        A v3 vector in which no metric is defined is returned as it is. The nomenclature of v4.0 may change, since it counts
        a metric that is given as X.

        >>> str(Vector("AV:N/AC:L/Au:N/C:N/I:N/A:C/E:ND/TD:H").without_not_defined())
        'AV:N/AC:L/Au:N/C:N/I:N/A:C/TD:H'
        """
        text = _library.without_not_defined(self._code, self._is_incomplete)
        return self._made(text, self._is_incomplete)

    def with_metrics(self: _Own, metrics: Optional[Mapping[str, str]] = None, /, **values: str) -> _Own:
        """The vector with these metrics, as a mapping or by name, which replace its own or are added.

        Any metric of the version can be set. In v3 and v4.0 the names and values may be in any ASCII case. `X` and `ND`
        are values like others: they do not remove a metric. Raises `CvssError` if a metric is rejected.

        >>> vector = Vector("CVSS:4.0/AV:N/AC:L/AT:N/PR:N/UI:N/VC:H/VI:H/VA:H/SC:N/SI:N/SA:N")
        >>> vector.score, vector.with_metrics(E="P").score, vector.with_metrics({"AV": "P", "E": "U"}).score
        (9.3, 8.9, 4.0)
        """
        text = _library.with_metrics(self._code, joined(metrics, values), self._is_incomplete)
        return self._made(text, self._is_incomplete)

    def record(self) -> Dict[str, Any]:
        """The JSON object of FIRST's schema of the version: the text, the metrics, the scores and their severities.

        For v4.0 `baseScore` is the score with all metrics in the vector, as publishers write it.

        >>> record = Vector("AV:N/AC:L/Au:N/C:N/I:N/A:C").record()
        >>> record["version"], record["accessVector"], record["baseScore"]
        ('2.0', 'NETWORK', 7.8)
        """
        return _object(_library.record(self._code, self._is_incomplete))

    def explain(self) -> Dict[str, Any]:
        """How the score is computed.

        For v2 and v3 it has the weights, the sub-scores and the number before the rounding of each score; for v4.0 the
        values that count, the MacroVector with its listed score, the share of each group of metrics, and the number before
        the rounding. A number is less than 10^-6 from the exact one. It is exact if that has at most seven decimal places,
        except for those of v3 with a changed scope, which have a power.

        >>> explanation = Vector("CVSS:4.0/AV:N/AC:L/AT:N/PR:N/UI:N/VC:L/VI:H/VA:N/SC:N/SI:N/SA:N/E:P").explain()
        >>> [explanation[name] for name in ("macroVector", "value", "mean", "number", "score")]
        ['001210', 7.8, 0.05, 7.75, 7.8]
        """
        return _object(_library.explain(self._code, self._is_incomplete))

    def __str__(self) -> str:
        return self._text

    def __format__(self, spec: str) -> str:
        return format(self._text, spec)

    def __repr__(self) -> str:
        return f"Vector({self._text!r})"

    @classmethod
    def _copied(cls: Type[_Own], text: Text) -> _Own:
        """A vector without the constructor of a subclass, which may take other arguments. An incomplete vector that was
        accepted stays so."""
        vector = object.__new__(cls)
        Vector.__init__(vector, text, allow_incomplete=True)
        return vector

    def __reduce__(self) -> Tuple[Any, ...]:
        """A copy is parsed anew from the text. It keeps the attributes that a subclass adds."""
        if type(self) is not Vector:
            return (self._copied, (self._text,), _state_of_subclass(self))
        return (Vector if self.is_complete else Vector._copied, (self._text,))

    def __setstate__(self, state: Any) -> None:
        """Sets the attributes of a subclass, and parses the text again: a pickle cannot bring scores that are not its text's."""
        members, slots = state if isinstance(state, tuple) else (state, None)
        if members:
            self.__dict__.update(members)
        for name, value in (slots or {}).items():
            setattr(self, name, value)
        Vector.__init__(self, self._code, allow_incomplete=True)

    def __eq__(self, other: object) -> bool:
        if not isinstance(other, Vector):
            return NotImplemented
        return self._text == other._text

    def __hash__(self) -> int:
        return hash(self._text)

    def __lt__(self, other: Vector) -> bool:
        if not isinstance(other, Vector):
            return NotImplemented
        return (self.tenths, self._text) < (other.tenths, other._text)


# Pickles name the class by its public path.
Vector.__module__ = "cvss_proved"


def _state_of_subclass(vector: Vector) -> Tuple[Optional[Dict[str, Any]], Dict[str, Any]]:
    """The attributes that a subclass keeps in the instance's dict, and those in slots of its own."""
    members = (member for kind in type(vector).__mro__ if kind is not Vector for member in vars(kind).items())
    slots = [name for name, member in members if isinstance(member, MemberDescriptorType) and hasattr(vector, name)]
    return getattr(vector, "__dict__", None), {name: getattr(vector, name) for name in slots}


_DECODER = json.JSONDecoder()


def _object(text: str) -> Dict[str, Any]:
    """The JSON object that the library writes."""
    # what json.loads does, without looking for spaces around the object
    members: Dict[str, Any] = _DECODER.raw_decode(text)[0]
    return members
