"""Score lines, and the scores of many texts."""

from __future__ import annotations

from typing import Iterable, List, Optional, cast

from . import _library
from ._texts import Text, bytes_of, lines_of, text_or_empty


def score_line(text: Text, *, allow_incomplete: bool = False) -> str:
    """The line that `cvss score` prints for a text, without its newline: the canonical text, the score and its severity; or
    why the text is rejected.

    >>> score_line("AV:N/AC:L/Au:N/C:N/I:N/A:C")
    'AV:N/AC:L/Au:N/C:N/I:N/A:C 7.8 high'
    >>> score_line(b"AV:\\xff")
    'error: not UTF-8'
    """
    return _library.score_line(bytes_of(text), allow_incomplete)


def _check_many(texts: Iterable[object], for_one: str) -> None:
    """Raises `TypeError` for a single text, with the name of the function for it."""
    if isinstance(texts, (str, bytes, bytearray, memoryview)):
        kind = type(texts).__name__
        raise TypeError(f"expected a list or another iterable of texts, got one {kind}: for one text call {for_one}")


def score_lines(texts: Iterable[Text], *, allow_incomplete: bool = False) -> List[str]:
    """The score line of each text, in one call of the library: faster than `score_line` for each.

    Raises `TypeError` for a single text: use `score_line`.

    >>> score_lines(["AV:N/AC:L/Au:N/C:N/I:N/A:C", "AV:N"])
    ['AV:N/AC:L/Au:N/C:N/I:N/A:C 7.8 high', 'error: invalid CVSS metric group component: `AV:N`']
    """
    _check_many(texts, "score_line")
    given = list(texts)
    lines = lines_of(given)
    # a text with a newline, or with a carriage return at its end, would be read as another
    if lines.count(b"\n") != len(given) or b"\r\n" in lines:
        return [score_line(text, allow_incomplete=allow_incomplete) for text in given]
    return _library.score_lines(lines, allow_incomplete).decode().split("\n")[:-1]


def scores(texts: Iterable[object], *, allow_incomplete: bool = False) -> List[Optional[float]]:
    """The score of each text, in one call of the library. It is None for a text that is rejected, and for what is no text,
    such as the NaN or None of a missing value in a column of pandas.

    Raises `TypeError` for a single text: use `score`.

    >>> scores(["AV:N/AC:L/Au:N/C:N/I:N/A:C", "AV:N", float("nan")])
    [7.8, None, None]
    """
    _check_many(texts, "score")
    given = list(texts)
    try:
        lines = score_lines(cast(List[Text], given), allow_incomplete=allow_incomplete)
    except TypeError:
        lines = score_lines([text_or_empty(text) for text in given], allow_incomplete=allow_incomplete)
    return [None if line.startswith("error: ") else float(line.split(" ")[1]) for line in lines]
