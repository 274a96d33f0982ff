"""The calls of the library, by ctypes. Pointers and structs are known here and in `_load` alone."""

from __future__ import annotations

import ctypes
import struct
from typing import Any, Callable, Iterator, List, Optional, Tuple

from ._error import KINDS, CvssError
from ._load import Match, Number, Numbers, library

# Bound once, since they are called most.
_parse = library.cvss_parse
cvss_score = library.cvss_score

NOTHING = -1
size_of: Callable[[int], Any] = ctypes.c_size_t.from_param
# The flags of a call: none, and CVSS_ALLOW_INCOMPLETE of cvss.h.
COMPLETE: Any = ctypes.c_uint32.from_param(0)
ALLOW_INCOMPLETE: Any = ctypes.c_uint32.from_param(1)

# The struct CvssVector of cvss.h without its size, and the indexes of its numbers.
_VECTOR = struct.Struct("4x15i")
VERSION = 0
SCORE = 1
SEVERITY = 2
BASE = 3
BASE_SEVERITY = 4
TEMPORAL = 5
TEMPORAL_SEVERITY = 6
ENVIRONMENTAL = 7
ENVIRONMENTAL_SEVERITY = 8
NOMENCLATURE = 9
BY_NOMENCLATURE = slice(10, 14)
IS_COMPLETE = 14

# The struct CvssError of cvss.h: its kind alone; and the metric, and what of the message is quoted.
_KIND = struct.Struct("4xi")
# Both structs, of the second the kind alone.
_PARSED = struct.Struct("4x15i4xi")
_KIND_OF_PARSED = 15
_ERROR = struct.Struct("4xi8x8sNN")

# The struct CvssValues of cvss.h without its size: version, score, nomenclature, and the spellings of 32 values.
_VALUES = struct.Struct("4x3i" + 32 * "8s")

# What a call writes into: a struct CvssVector, a struct CvssError and a text, one after the other; and the last arguments,
# which point to them, and the size for the text.
_Room = Tuple[Any, Any, Any, Any, Any]
_ERROR_AT = _VECTOR.size
_TEXT_AT = _VECTOR.size + _ERROR.size
_ROOM_FOR_TEXT = 4096


def _room(size: int) -> _Room:
    room = ctypes.create_string_buffer(_TEXT_AT + size)
    struct.pack_into("I", room, 0, _VECTOR.size)
    struct.pack_into("I", room, _ERROR_AT, _ERROR.size)
    vector, error, text = (ctypes.byref(room, start) for start in (0, _ERROR_AT, _TEXT_AT))
    return room, vector, error, text, size_of(size)


# The rooms that no call uses. A call takes one out, so that no other thread, and no handler of a signal during the call,
# writes into it.
_rooms: List[_Room] = []


def _own_room() -> _Room:
    try:
        return _rooms.pop()
    except IndexError:
        return _room(_ROOM_FOR_TEXT)


def _rejection(own: _Room, room: Any, length: int) -> CvssError:
    """The error that a call has written, with a message of this length. The room of the call is given back."""
    kind, metric, start, quoted = _ERROR.unpack_from(room, _ERROR_AT)
    message: bytes = room[_TEXT_AT : _TEXT_AT + length]
    _rooms.append(own)
    value = message[start : start + quoted].decode() if quoted else ""
    return CvssError(message.decode(), KINDS[kind - 1], metric.rstrip(b"\0").decode(), value)


def _flags(allow_incomplete: bool) -> Any:
    return ALLOW_INCOMPLETE if allow_incomplete else COMPLETE


def parse(text: bytes, allow_incomplete: bool) -> Tuple[Tuple[int, ...], bytes]:
    """The numbers of the vector that a text denotes, and its canonical text."""
    flags = ALLOW_INCOMPLETE if allow_incomplete else COMPLETE
    own = _own_room()
    room, vector, error, buffer, size = own
    length = _parse(text, size_of(len(text)), flags, vector, error, buffer, size)
    if length > _ROOM_FOR_TEXT:
        room, vector, error, buffer, size = _room(length)
        _parse(text, size_of(len(text)), flags, vector, error, buffer, size)
    numbers = _PARSED.unpack_from(room)
    # an error in a variable here would refer to itself by its traceback
    if numbers[_KIND_OF_PARSED]:
        raise _rejection(own, room, length)
    code: bytes = room[_TEXT_AT : _TEXT_AT + length]
    _rooms.append(own)
    return numbers, code


def _written(call: Callable[..., int], *arguments: Any) -> str:
    """The text that a call writes. Its arguments are these, and then an error, a buffer and its size."""
    own = _own_room()
    room, _, error, buffer, size = own
    length = call(*arguments, error, buffer, size)
    if length > _ROOM_FOR_TEXT:
        room, _, error, buffer, size = _room(length)
        call(*arguments, error, buffer, size)
    if _KIND.unpack_from(room, _ERROR_AT)[0]:
        raise _rejection(own, room, length)
    written: bytes = room[_TEXT_AT : _TEXT_AT + length]
    _rooms.append(own)
    return written.decode()


def values(text: bytes, allow_incomplete: bool) -> Optional[Tuple[int, int, int, List[str]]]:
    """The version, the score in tenths and the nomenclature of the vector that a text denotes, and how its values are
    spelled: 32, in the order of canonical texts, each empty where there is none."""
    flags = _flags(allow_incomplete)
    buffer = ctypes.create_string_buffer(_VALUES.size)
    struct.pack_into("I", buffer, 0, _VALUES.size)
    if not library.cvss_values(text, size_of(len(text)), flags, ctypes.byref(buffer)):
        return None
    version, tenths, nomenclature, *fields = _VALUES.unpack(buffer.raw)
    return version, tenths, nomenclature, [field.rstrip(b"\0").decode() for field in fields]


def with_metrics(text: bytes, metrics: bytes, allow_incomplete: bool) -> str:
    """The canonical text of the vector that a text denotes, with these metrics set."""
    flags = _flags(allow_incomplete)
    sizes = size_of(len(text)), size_of(len(metrics))
    return _written(library.cvss_with_metrics, text, sizes[0], metrics, sizes[1], flags)


def from_metrics(version: int, metrics: bytes, allow_incomplete: bool) -> str:
    """The canonical text of the vector of a version with these metrics."""
    flags = _flags(allow_incomplete)
    number = ctypes.c_int32.from_param(version)
    return _written(library.cvss_from_metrics, number, metrics, size_of(len(metrics)), flags)


def without_not_defined(text: bytes, allow_incomplete: bool) -> str:
    """The canonical text of the vector that a text denotes, without its metrics that are not defined."""
    return _written(library.cvss_without_not_defined, text, size_of(len(text)), _flags(allow_incomplete))


def record(text: bytes, allow_incomplete: bool) -> str:
    """The record of the vector that a text denotes."""
    return _written(library.cvss_record, text, size_of(len(text)), _flags(allow_incomplete))


def explain(text: bytes, allow_incomplete: bool) -> str:
    """The explanation of the score of the vector that a text denotes."""
    return _written(library.cvss_explain, text, size_of(len(text)), _flags(allow_incomplete))


def score_line(text: bytes, allow_incomplete: bool) -> str:
    """The line that `cvss score` prints for a text."""
    flags = _flags(allow_incomplete)
    own = _own_room()
    room, _, _, buffer, size = own
    length = library.cvss_score_line(text, size_of(len(text)), flags, buffer, size)
    if length > _ROOM_FOR_TEXT:
        room, _, _, buffer, size = _room(length)
        library.cvss_score_line(text, size_of(len(text)), flags, buffer, size)
    written: bytes = room[_TEXT_AT : _TEXT_AT + length]
    _rooms.append(own)
    return written.decode()


def score_lines(lines: bytes, allow_incomplete: bool) -> bytes:
    """The score lines of the lines of a text that ends with a newline, each with its newline."""
    flags = _flags(allow_incomplete)
    size = len(lines) + 120 * (lines.count(b"\n") + 1)
    while True:
        buffer = ctypes.create_string_buffer(size)
        read = ctypes.c_size_t()
        given = lines, size_of(len(lines)), flags
        written = library.cvss_score_lines(*given, ctypes.byref(buffer), size_of(size), ctypes.byref(read))
        if read.value == len(lines):
            return ctypes.string_at(buffer, written)
        size *= 2


def find(text: bytes) -> Iterator[Tuple[int, int]]:
    """Where each match in a text begins and ends."""
    match = Match(ctypes.sizeof(Match))
    while library.cvss_find(text, size_of(len(text)), ctypes.byref(match)):
        yield match.offset, match.offset + match.length


def severity(version: int, tenths: int) -> int:
    """The number of the severity of a score in tenths, by the bounds of a version."""
    return int(library.cvss_severity(version, tenths))


def numbers(version: int, metrics: bytes) -> Optional[Tuple[int, ...]]:
    """The scores of the vector of v2 or v3 with these metrics, in tenths, and the counts of 10^-24 of its sub-scores."""
    own = Numbers(ctypes.sizeof(Numbers))
    if not library.cvss_numbers(version, metrics, len(metrics), own):
        return None
    counts = (each.trillionths * 10**12 + each.rest for each in (own.impact, own.exploitability, own.adjusted_impact))
    return (own.base, own.temporal, own.environmental, *counts)


def _number(count: int) -> Optional[Number]:
    """The number with this count of 10^-24, if it is less than a million from 0."""
    sign = -1 if count < 0 else 1
    trillionths, rest = divmod(abs(count), 10**12)
    return Number(sign * trillionths, sign * rest) if trillionths < 10**18 else None


def rounded(version: int, count: int) -> Optional[int]:
    """The tenths of a number, rounded as a version rounds scores."""
    number, tenths = _number(count), ctypes.c_int32()
    return tenths.value if number and library.cvss_rounded(version, number, tenths) else None


def temporal_with_impact(metrics: bytes, count: int) -> Optional[int]:
    """The tenths of the temporal score of the vector of v2 with these metrics and this impact."""
    impact, tenths = _number(count), ctypes.c_int32()
    is_written = impact and library.cvss_temporal_with_impact(metrics, len(metrics), impact, tenths)
    return tenths.value if is_written else None
