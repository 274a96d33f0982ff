"""Texts of each type and length, and many texts at once."""

from __future__ import annotations

from decimal import Decimal
from functools import partial
from typing import Any, Callable, List, Tuple

from cvss_proved import CvssError, Match, Text, Vector, find, score, score_line, score_lines, scores, values

from .shared import BASES, SHORT, TEXT, V4, error_of, message_of, raises


def check_texts() -> None:
    """Texts are str or bytes of any kind, and nothing else is taken for one."""
    code = TEXT.encode()
    accepted: Tuple[Text, ...] = (TEXT, code, bytearray(code), memoryview(code))
    for text in accepted:
        assert Vector(text).text == TEXT and score(text) == 7.8 and len(list(find(text))) == 1
    no_texts: Tuple[Any, ...] = (5, 3 * 10**9, None, [65], 1.5, [TEXT])
    for other in no_texts:
        message = f"expected str or bytes-like, got {type(other).__name__}"
        calls: Tuple[Callable[[Any], object], ...] = (Vector, Vector.from_rh_vector, score, values, score_line, find)
        for call in calls:
            assert message_of(TypeError, partial(call, other)) == message, (call, other)
    no_utf8: Tuple[Text, ...] = ("AV:\ud800", b"AV:\xff")
    for text in no_utf8:
        error = error_of(lambda: Vector(text))
        assert (error.kind, error.metric, error.value, error.message) == ("not UTF-8", "", "", "not UTF-8"), text
        assert score_line(text) == "error: not UTF-8" and score(text) is None and values(text) is None


def check_long_texts() -> None:
    """A result that is longer than the room which is kept for results is whole, and so are the next ones."""
    for length in (4000, 4096, 4097, 10**6):
        text = "AV:" + length * "N"
        message = f"invalid CVSS metric group component: `{text}`"
        error = error_of(lambda: Vector(text))
        assert (error.message, error.value) == (message, text), length
        assert score_line(text) == f"error: {message}", length
        assert error_of(lambda: Vector(V4).with_metrics(E=length * "N")).value == length * "N", length
        assert error_of(lambda: Vector.from_metrics("2.0", E=length * "N")).value == length * "N", length
        assert score_line(TEXT).startswith(f"{TEXT} ") and Vector(TEXT).text == TEXT, length
        assert error_of(lambda: Vector("CVSS:3.1/AV:Q/AC:L")).value == "Q", length


class Longer(bytes):
    """Bytes that are said to be more than they are."""

    def __len__(self) -> int:
        return 1 << 33

    def __bytes__(self) -> bytes:
        return self


class LongerArray(bytearray):
    """The same of a bytearray."""

    def __len__(self) -> int:
        return 1 << 33

    def __bytes__(self) -> bytes:
        return Longer(self)


class Recoded(str):
    """A text with an encoding of its own."""

    def encode(self, encoding: str = "utf-8", errors: str = "strict") -> bytes:
        return Longer(b"x")


def check_texts_of_subclasses() -> None:
    """A text of a subclass is read as it is, whatever its own methods return."""
    code = TEXT.encode()
    prose = f"scored 7.8 ({TEXT})"
    kinds: Tuple[Callable[[str], Text], ...] = (
        Recoded,
        lambda text: Longer(text.encode()),
        lambda text: LongerArray(text.encode()),
    )
    for of in kinds:
        texts: List[Text] = [of(TEXT), of("x")]
        assert Vector(texts[0]).text == TEXT
        assert [score_line(text) for text in texts] == score_lines(texts) == [score_line(TEXT), score_line("x")]
        assert str(error_of(lambda: Vector(texts[1]))) == str(error_of(lambda: Vector(b"x")))
        assert [match.offset for match in find(of(prose))] == [12]
        assert list(find(texts[1])) == []
    for kind in (str, bytes, bytearray, memoryview):
        # an object that claims to be a text
        posing: Any = type("Posing", (), {"__class__": property(lambda _: kind)})()
        assert raises(TypeError, lambda: Vector(posing)) and raises(TypeError, lambda: score_lines([posing])), kind
        assert scores([posing, TEXT]) == [None, 7.8], kind
    assert Vector(memoryview(code + code)[: len(code)]).text == TEXT
    assert Vector(memoryview(bytes(byte for pair in zip(code, code) for byte in pair))[::2]).text == TEXT


def check_many_texts() -> None:
    """Each text has the score line that it has alone, whatever bytes it has."""
    rows: Tuple[List[Text], ...] = (
        [],
        ["", TEXT, ""],
        [TEXT + "\n", "\n\n", TEXT + "\r", SHORT],
        ["\u2028", "x" * 200_000, SHORT],
        [b"\xff", TEXT],
    )
    for texts in rows:
        for allowed in (False, True):
            expected = [score_line(text, allow_incomplete=allowed) for text in texts]
            for given in (texts, iter(texts), tuple(texts)):
                assert score_lines(given, allow_incomplete=allowed) == expected, texts
    assert score_lines([SHORT]) != score_lines([SHORT], allow_incomplete=True) == [f"{SHORT} 0.0 none"]
    texts = [TEXT + "\n", b"\xff", TEXT]
    assert scores([]) == [] and scores(iter(texts)) == [None, None, 7.8]
    assert scores([SHORT, TEXT]) == [None, 7.8] and scores([SHORT, TEXT], allow_incomplete=True) == [0.0, 7.8]
    # what a column of a table has next to texts
    cells: Tuple[Any, ...] = (None, float("nan"), 7.8, 5, Decimal("NaN"), [TEXT], {TEXT: TEXT}, object())
    for cell in cells:
        assert scores([TEXT, cell, "AV:N", TEXT.encode()]) == [7.8, None, None, 7.8] and scores([cell]) == [None], cell
        assert scores(iter([cell, "x\n", TEXT])) == [None, None, 7.8], cell
        assert scores([cell, SHORT], allow_incomplete=True) == [None, 0.0], cell
    check_single_texts()


def check_single_texts() -> None:
    """A single text in place of many is reported, with the function for it."""
    code = TEXT.encode()
    one_text: Tuple[Any, ...] = (TEXT, "", code, b"", bytearray(code), memoryview(code))
    calls: Tuple[Tuple[Callable[[Any], object], str], ...] = ((score_lines, "score_line"), (scores, "score"))
    for other in one_text:
        for call, name in calls:
            message = message_of(TypeError, partial(call, other))
            expected = f"expected a list or another iterable of texts, got one {type(other).__name__}"
            assert message == f"{expected}: for one text call {name}", (message, other)
    no_texts: Tuple[Any, ...] = (None, 5, [5], [TEXT, None])
    for other in no_texts:
        assert raises(TypeError, lambda: score_lines(other)), other
    assert message_of(TypeError, lambda: score_lines([TEXT, None])) == (  # type: ignore[list-item]
        "expected str or bytes-like, got NoneType")


def check_matches() -> None:
    """A match has a vector or an error, and the type of its text is that of the text."""
    given = f"{TEXT}, {SHORT} and {V4}?"
    for match, part in zip(find(given), (TEXT, SHORT, V4)):
        # mypy knows the type of the part
        text: str = match.text
        assert text == part and given[match.offset :].startswith(part)
        assert (match.vector is None) == (part == SHORT) != (match.error is None), match
        assert match.vector == Vector(part) if match.error is None else match.error.metric == "PR", match
    code: List[bytes] = [found.text for found in find(given.encode())]
    assert code == [TEXT.encode(), SHORT.encode(), V4.encode()]
    assert [found.error for found in find(given, allow_incomplete=True)] == [None] * 3
    match = next(find(f"\u2028\u2028{BASES['3.1']}"))
    assert match == Match(2, BASES["3.1"], Vector(BASES["3.1"]), None) and match._fields[2:] == ("vector", "error")
    assert [found.offset for found in find(f"\u2028\u2028{BASES['3.1']}".encode())] == [6]


def check_options() -> None:
    """The option is given by name alone, and `strict` of version 1 is gone."""
    calls: Tuple[Callable[..., object], ...] = (Vector, score, values, score_line, find, score_lines, scores)
    for call in calls:
        assert raises(TypeError, lambda: call([TEXT] if call in (score_lines, scores) else TEXT, True)), call
        assert raises(TypeError, lambda: call([TEXT] if call in (score_lines, scores) else TEXT, strict=True)), call
    assert raises(TypeError, lambda: Vector.from_rh_vector(f"7.8/{TEXT}", True))  # type: ignore[misc]
    assert raises(CvssError, lambda: Vector(SHORT)) and Vector(SHORT, allow_incomplete=True).score == 0
    assert score(SHORT) is None and values(SHORT) is None and score(SHORT, allow_incomplete=True) == 0
    own = values(SHORT, allow_incomplete=True)
    assert own and own.metrics["AC"] == "L" and own.metrics["PR"] is None
