"""Vectors in any text."""

from __future__ import annotations

from typing import TYPE_CHECKING, Generic, Iterator, NamedTuple, Optional, Tuple, TypeVar, Union, overload

from . import _library
from ._error import CvssError
from ._texts import Text, bytes_of
from ._vector import Vector

# Python itself has generic named tuples since 3.11.
if TYPE_CHECKING:
    _Text = TypeVar("_Text", str, bytes)

    class Match(NamedTuple, Generic[_Text]):
        offset: int
        text: _Text
        vector: Optional[Vector]
        error: Optional[CvssError]

else:

    class Match(NamedTuple):
        """A vector in a text.

        `offset` is where it begins, from 0: in characters of a `str`, otherwise in bytes. `text` is the part of the text, a
        `str` or `bytes`. `vector` is its `Vector`; if it is rejected, `vector` is None and `error` is the `CvssError`.
        Exactly one of the two is None.
        """

        offset: int
        text: Union[str, bytes]
        vector: Optional[Vector]
        error: Optional[CvssError]


_Outcome = Tuple[Optional[Vector], Optional[CvssError]]


def _read(part: bytes, allow_incomplete: bool) -> _Outcome:
    try:
        return Vector(part, allow_incomplete=allow_incomplete), None
    except CvssError as error:
        return None, error


def _found_in_characters(code: bytes, allow_incomplete: bool) -> Iterator[Match[str]]:
    offset = last = 0
    for start, end in _library.find(code):
        offset += len(code[last:start].decode("utf-8", "surrogatepass"))
        part = code[start:end]
        yield Match(offset, part.decode(), *_read(part, allow_incomplete))
        # a match is ASCII
        offset += end - start
        last = end


def _found_in_bytes(code: bytes, allow_incomplete: bool) -> Iterator[Match[bytes]]:
    for start, end in _library.find(code):
        part = code[start:end]
        yield Match(start, part, *_read(part, allow_incomplete))


@overload
def find(text: str, *, allow_incomplete: bool = False) -> Iterator[Match[str]]: ...


@overload
def find(
    text: Union[bytes, bytearray, memoryview], *, allow_incomplete: bool = False
) -> Iterator[Match[bytes]]: ...


def find(text: Text, *, allow_incomplete: bool = False) -> Union[Iterator[Match[str]], Iterator[Match[bytes]]]:
    """The vectors in any text, in order: in a sentence, in parentheses, in a link.

    Each is a `Match` with `offset`, from 0, in characters of a `str` and otherwise in bytes; `text`; and `vector`. If the
    text of the match was probably meant as a vector and is rejected, `vector` is None, and `error` says why. That is so if it
    begins with `CVSS:` and has a slash, if its prefix is spelled in another way (`cvss:3.1/AV:N`, `CVSS3.1/AV:N`) or missing
    (`AV:N/AC:L/PR:N`), or if it is encoded as in a link or in JSON. A v3 vector that was cut off is rejected, too, unless `allow_incomplete` is true.

    >>> for match in find("scored 7.8 (AV:N/AC:L/Au:N/C:N/I:N/A:C), or CVSS:3.1/AV:Q."):
    ...     print(match.offset, match.text, repr(match.vector or match.error))
    12 AV:N/AC:L/Au:N/C:N/I:N/A:C Vector('AV:N/AC:L/Au:N/C:N/I:N/A:C')
    44 CVSS:3.1/AV:Q CvssError('invalid CVSSv3 AV (Attack Vector) metric: `Q`')
    """
    code = bytes_of(text)
    if isinstance(text, str):
        return _found_in_characters(code, allow_incomplete)
    return _found_in_bytes(code, allow_incomplete)


# Pickles name the class by its public path.
Match.__module__ = "cvss_proved"
