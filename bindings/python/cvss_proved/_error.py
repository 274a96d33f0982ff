"""Why a text is rejected."""

from __future__ import annotations

from typing import Any, Literal, Tuple

Kind = Literal[
    "invalid component",
    "invalid prefix",
    "unsupported version",
    "unknown metric",
    "invalid value",
    "duplicate metric",
    "missing metric",
    "not UTF-8",
]
"""The kind of error for which a text is rejected."""

# In the order of the library's numbers, which begin at 1.
KINDS: Tuple[Kind, ...] = (
    "invalid component",
    "invalid prefix",
    "unsupported version",
    "unknown metric",
    "invalid value",
    "duplicate metric",
    "missing metric",
    "not UTF-8",
)


class CvssError(ValueError):
    """A text or metrics that are rejected.

    `message` names the first error, and `kind` is its kind: invalid component, invalid prefix, unsupported version,
    unknown metric, invalid value, duplicate metric, missing metric or not UTF-8.
    `metric` is the abbreviation of the metric that has an invalid value, is there twice or is missing; for other kinds it
    is empty. `value` is the part of the text that the message quotes: the component, the prefix, the version, the unknown
    name or the invalid value; for other kinds it is empty.

    >>> from cvss_proved import Vector
    >>> try:
    ...     Vector("CVSS:3.1/AV:Q")
    ... except CvssError as error:
    ...     (error.kind, error.metric, error.value, error.message)
    ('invalid value', 'AV', 'Q', 'invalid CVSSv3 AV (Attack Vector) metric: `Q`')
    """

    def __init__(self, message: str, kind: Kind, metric: str = "", value: str = "") -> None:
        super().__init__(message)
        self.message = message
        self.kind = kind
        self.metric = metric
        self.value = value

    @classmethod
    def _copied(cls, message: str, kind: Kind, metric: str) -> CvssError:
        """Makes an error without the constructor of a subclass, which may take other arguments."""
        error = cls.__new__(cls)
        CvssError.__init__(error, message, kind, metric)
        return error

    def __reduce__(self) -> Tuple[Any, ...]:
        """Copies and pickles keep the notes of an error, and the attributes of a subclass."""
        made = CvssError if type(self) is CvssError else self._copied
        return (made, (self.message, self.kind, self.metric), self.__dict__)


CvssError.__module__ = "cvss_proved"
