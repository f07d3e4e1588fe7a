"""Errors as text, also those of a handler whose own text can't be made."""

from __future__ import annotations

import traceback


def plain(text: str) -> str:
    """The text, with escapes in place of lone surrogates, as those of a file's name that isn't UTF-8."""
    return text.encode("utf-8", "backslashreplace").decode()


def storable(text: str) -> str:
    """A text that each database can store: without NUL, and without halves of surrogate pairs."""
    return plain(text).replace("\0", "\\0")


_MOST_SAID, _MOST_TRACED = 4_000, 20_000  # characters that are kept of an error's text, and of its stack


def _short(text: str, most: int) -> str:
    """A text of some `most` characters: the first ones and the last ones."""
    return text if len(text) <= most else f"{text[: most // 2]} .. {text[-most // 2 :]}"


def said(error: BaseException) -> str:
    """What an error says, with the name of its type. It is text for each error, also one whose own text can't be made."""
    try:
        return _short(plain(f"{type(error).__name__}: {error}").replace("\0", "\\0"), _MOST_SAID)
    except BaseException as second:  # whatever a handler's own `__str__` raises
        return f"{type(error).__name__}, whose text can't be made: it raises {type(second).__name__}"


def traced(error: BaseException) -> str:
    """The stack of an error."""
    try:
        return _short(plain("".join(traceback.format_exception(error))).replace("\0", "\\0"), _MOST_TRACED)
    except BaseException as second:
        return f"the stack of {type(error).__name__} can't be written: {type(second).__name__}"
