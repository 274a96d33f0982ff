"""What the checks share: texts, files of expected results, and how a call ends."""

from __future__ import annotations

import copy
import pickle
import sys
from pathlib import Path
from typing import Any, Callable, Dict, List, Optional, Set, Tuple, Type, TypeVar

from cvss_proved import CvssError, Text, Vector, Version

ROOT = Path(sys.argv[1]).resolve()
STORED = ROOT / "tests" / "stored"

KINDS = (
    "",
    "invalid component",
    "invalid prefix",
    "unsupported version",
    "unknown metric",
    "invalid value",
    "duplicate metric",
    "missing metric",
    "not UTF-8",
)
TEXT = "AV:N/AC:L/Au:N/C:N/I:N/A:C"
TEXT_METRICS = {"AV": "N", "AC": "L", "Au": "N"}
V4 = "CVSS:4.0/AV:N/AC:L/AT:N/PR:N/UI:N/VC:H/VI:H/VA:H/SC:H/SI:H/SA:H"
# A v3 vector that was cut off, and the metric that it lacks first.
SHORT, LACKS = "CVSS:3.1/AV:N/AC:L", "PR"
# A vector of each version with all base metrics and no others.
BASES: Dict[Version, str] = {
    "2.0": TEXT,
    "3.0": "CVSS:3.0/AV:N/AC:L/PR:N/UI:N/S:U/C:H/I:H/A:H",
    "3.1": "CVSS:3.1/AV:N/AC:L/PR:N/UI:N/S:U/C:H/I:H/A:H",
    "4.0": V4,
}


def lines_of(path: Path) -> List[bytes]:
    lines = path.read_bytes().splitlines()
    if not lines:
        sys.exit(f"{path} has no lines")
    return lines


def given_lines() -> List[bytes]:
    """The first lines of the texts of test_vectors, as many as there are facts."""
    count = len(lines_of(STORED / "facts"))
    return (ROOT / "crates" / "test_vectors" / "stdin").read_bytes().split(b"\n")[:count]


def accepted_vectors() -> List[Tuple[bytes, Vector]]:
    """The lines that are vectors, of which those of v3 may lack base metrics."""
    accepted = []
    for line in given_lines():
        try:
            accepted.append((line, Vector(line, allow_incomplete=True)))
        except CvssError:
            continue
    assert any(vector.is_complete for _, vector in accepted) and not all(vector.is_complete for _, vector in accepted)
    return accepted


def raises(error: Type[Exception], call: Callable[[], object]) -> bool:
    try:
        call()
    except Exception as raised:
        return isinstance(raised, error)
    return False


def message_of(error: Type[Exception], call: Callable[[], object]) -> Optional[str]:
    """The message of the error of a call; None if it raises no such error."""
    try:
        call()
    except error as raised:
        return str(raised)
    return None


def error_of(call: Callable[[], object]) -> CvssError:
    """The error of a call, which has to raise one."""
    try:
        result = call()
    except CvssError as error:
        return error
    raise AssertionError(f"{result!r} is accepted")


def outcome(call: Callable[[], Vector]) -> Tuple[Optional[str], Optional[str]]:
    """The text of a vector; or the number of the kind of the error, the metric and what is quoted."""
    try:
        return str(call()), None
    except CvssError as error:
        return None, f"{KINDS.index(error.kind)} {error.metric or '-'} {error.value}"


def with_component(text: str, name: str, value: str) -> str:
    """A text with this value in place of its own, or added."""
    others = [segment for segment in text.split("/") if not segment.startswith(f"{name}:")]
    return "/".join([*others, f"{name}:{value}"])


Copied = TypeVar("Copied")


def copies(value: Copied) -> List[Copied]:
    """Each copy that Python makes of a value. None names a module that is not public."""
    pickled = [pickle.dumps(value, protocol) for protocol in range(pickle.HIGHEST_PROTOCOL + 1)]
    assert not any(b"cvss_proved._" in code for code in pickled), pickled[0]
    return [copy.copy(value), copy.deepcopy(value), *map(pickle.loads, pickled)]


class Own(Vector):
    """A vector to which an organisation adds a method and an attribute."""

    sources: List[str]

    def is_urgent(self) -> bool:
        return self.tenths >= 70


class Slotted(Vector):
    """A vector with attributes in slots, whose constructor takes a text alone."""

    __slots__ = ("sources", "__note", "never_set")

    def __init__(self, text: Text) -> None:
        super().__init__(text)
        self.sources: List[str] = []
        self.__note = ""

    def with_note(self, note: str) -> Slotted:
        self.__note = note
        return self

    @property
    def note(self) -> str:
        return self.__note


class Row(Vector):
    """A vector that is made with more than a text, and may be in a set."""

    def __init__(self, text: Text, name: str, others: Set[Row]) -> None:
        super().__init__(text)
        self.name, self.others = name, others
        others.add(self)


class RowError(CvssError):
    """An error that knows its line."""

    def __init__(self, line: int, message: str) -> None:
        super().__init__(message, "invalid value", "AV")
        self.line = line


class Forged:
    """Pickled as a vector that is made without its constructor, with a state that was not taken from one."""

    def __init__(self, kind: Type[Vector], state: object) -> None:
        self.kind, self.state = kind, state

    def __reduce__(self) -> Tuple[Any, ...]:
        return (object.__new__, (self.kind,), self.state)
