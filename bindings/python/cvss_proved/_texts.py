"""Texts, and the bytes that the library reads."""

from __future__ import annotations

from typing import List, Union, cast

Text = Union[str, bytes, bytearray, memoryview]


def bytes_of(text: Text) -> bytes:
    """The bytes of a text. A `str` that is not Unicode, such as a lone surrogate, becomes bytes that are not UTF-8.

    The library reads as many bytes as `len` returns. So the result is of the type `bytes` itself, and the text's own
    methods are not called: a subclass may override `encode`, `__bytes__` and `__len__`.
    """
    if isinstance(text, str):
        try:
            return str.encode(text)
        except UnicodeEncodeError:
            return str.encode(text, "utf-8", "surrogatepass")
    if type(text) is bytes:
        return text
    if isinstance(text, (bytes, bytearray, memoryview)):
        return memoryview(text).tobytes()
    raise TypeError(f"expected str or bytes-like, got {type(text).__name__}")


def text_or_empty(value: object) -> Text:
    """A value if it is a text, and otherwise the empty text, which is no vector."""
    return cast(Text, value) if issubclass(type(value), (str, bytes, bytearray, memoryview)) else ""


def lines_of(texts: List[Text]) -> bytes:
    """The texts, each followed by a newline."""
    strings = [text for text in texts if isinstance(text, str)]
    if len(strings) == len(texts):
        return bytes_of("\n".join(strings) + "\n")
    return b"".join(bytes_of(text) + b"\n" for text in texts)
