"""What an argument may be: its value, or what stands in a line.

Each function is given an argument's name and its value. A value of the wrong type is a `TypeError`, one that the VM can't read a `BadLine`;
both name the argument.
"""

from __future__ import annotations

import operator
from collections.abc import Collection, Iterable
from typing import cast

from palqytun.errors import BadLine

TIME = SEED = 2**64 - 1
"""The last millisecond, and the last seed."""
HANDLE = COUNT = 2**32 - 1
CODE = 2**16 - 1


def _wanted(name: str, what: str, value: object) -> TypeError:
    return TypeError(f"{name} must be {what}, not {type(value).__name__}")


def integer(name: str, value: object, most: int = TIME, least: int = 0) -> int:
    """A whole number from `least` to `most`."""
    if type(value) is int and least <= value <= most:
        return value
    if isinstance(value, bool) or not hasattr(value, "__index__"):
        raise _wanted(name, "an int", value)
    number = operator.index(value)
    if not least <= number <= most:
        raise BadLine(f"{name} must be from {least} to {most}, not {number if number.bit_length() < 100 else 'a number this long'}")
    return number


def whole(name: str, value: object, most: int = TIME, least: int = 0) -> str:
    """A whole number from `least` to `most`, as a line has it."""
    return str(integer(name, value, most, least))


def number(word: str, name: str, value: object, most: int = TIME) -> str:
    """An option `word=NUMBER`, or nothing for `None`."""
    return "" if value is None else f" {word}={whole(name, value, most)}"


def quoted(text: str) -> str:
    """A text in quotes."""
    return '"' + text.replace("\\", "\\\\").replace('"', '\\"').replace("\n", "\\x0a").replace("\r", "\\x0d") + '"'


def encoded(name: str, text: str) -> bytes:
    """The text's UTF-8. Half of a surrogate pair, as in a file's name that is no UTF-8, has none."""
    try:
        return text.encode()
    except UnicodeEncodeError as error:
        raise BadLine(f"{name} is no UTF-8: at {error.start} stands {text[error.start]!r}, half of a surrogate pair") from None


def utf8(name: str, value: object) -> bytes:
    """A text's UTF-8."""
    if not isinstance(value, str):
        raise _wanted(name, "a str", value)
    return encoded(name, value)


def text(name: str, value: object) -> str:
    """A text."""
    utf8(name, value)
    return quoted(cast(str, value))


def spoken(name: str, value: object) -> bytes:
    """The UTF-8 of a text that says what went wrong. Halves of surrogate pairs are written as `\\udcff`, for an error has to get through."""
    if not isinstance(value, str):
        raise _wanted(name, "a str", value)
    return value.encode(errors="backslashreplace")


def truth(name: str, value: object) -> bool:
    """Whether something holds."""
    if not isinstance(value, bool):
        raise _wanted(name, "a bool", value)
    return value


def flag(name: str, value: object) -> str:
    """An option that is one word."""
    return f" {name}" if truth(name, value) else ""


def one_of(name: str, value: object, words: Collection[str]) -> str:
    """One of these words."""
    if not isinstance(value, str):
        raise _wanted(name, "a str", value)
    if value not in words:
        raise BadLine(f"{name} must be one of {', '.join(words)}, not {value[:100]!r}")
    return value


def octets(name: str, value: object) -> bytes:
    """The bytes of an argument."""
    return value if isinstance(value, bytes) else bytes(view(name, value))


def view(name: str, value: object) -> memoryview:
    """The bytes of `bytes`, of a `bytearray`, or of what else has them."""
    try:
        return memoryview(value)  # type: ignore[arg-type]  # what has no bytes is refused here
    except TypeError:
        raise _wanted(name, "bytes", value) from None


def both(name: str, value: object) -> list[tuple[object, object]]:
    """Pairs."""
    if isinstance(value, str) or not isinstance(value, Iterable):
        raise _wanted(name, "pairs of str", value)
    found = []
    for pair in value:
        if not isinstance(pair, (tuple, list)) or len(pair) != 2:
            raise _wanted(f"each of {name}", "a pair of str", pair)
        found.append((pair[0], pair[1]))
    return found
