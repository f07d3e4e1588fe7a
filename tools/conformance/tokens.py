"""The tokens of a script's line, and of its answer: texts in quotes, words, and the signs between them."""

from __future__ import annotations

import re
from collections.abc import Iterator
from dataclasses import dataclass

_TOKEN = re.compile(r'\s+|"((?:[^"\\]|\\["\\]|\\x[0-9a-fA-F]{2})*)"|([(){}\[\],=])|([^\s"(){}\[\],=]+)')
_ESCAPE = re.compile(rb'\\(?:x([0-9a-fA-F]{2})|(["\\]))')


class Unreadable(Exception):
    """A line that isn't of the form that docs/VMSCRIPT.md gives."""


@dataclass(frozen=True)
class Quoted:
    """What stands in quotes: its bytes."""

    data: bytes


Token = Quoted | str


def tokens(line: str) -> list[Token]:
    """The tokens of a line, without the blanks.

    >>> tokens('sleep "a\\\\x0a" 1000 now=5')
    ['sleep', Quoted(data=b'a\\n'), '1000', 'now', '=', '5']
    """
    return list(_tokens(line))


def _tokens(line: str) -> Iterator[Token]:
    at = 0
    while at < len(line):
        found = _TOKEN.match(line, at)
        if found is None:
            raise Unreadable(f"at {at}: {line[at : at + 20]!r}")
        quoted, sign, word = found.groups()
        if quoted is not None:
            yield Quoted(_unescaped(quoted))
        elif sign or word:
            yield sign or word
        at = found.end()


def _unescaped(inside: str) -> bytes:
    return _ESCAPE.sub(lambda it: bytes.fromhex(it[1].decode()) if it[1] else it[2], inside.encode())


class Tokens:
    """The tokens of a line that are left."""

    def __init__(self, line: str) -> None:
        self._left = tokens(line)
        self._left.reverse()

    def __bool__(self) -> bool:
        return bool(self._left)

    def next_is(self, *signs: str) -> bool:
        """Whether the next tokens are these words or signs."""
        return len(self._left) >= len(signs) and all(self._left[-1 - at] == it for at, it in enumerate(signs))

    def next_is_option(self) -> bool:
        """Whether the next two tokens are a word and `=`."""
        return len(self._left) > 1 and isinstance(self._left[-1], str) and self._left[-2] == "="

    def take(self) -> Token:
        if not self._left:
            raise Unreadable("it ends too early")
        return self._left.pop()

    def sign(self, sign: str) -> None:
        """Takes this word or sign."""
        if (it := self.take()) != sign:
            raise Unreadable(f"{it!r} where {sign!r} is wanted")

    def word(self) -> str:
        it = self.take()
        if isinstance(it, Quoted):
            raise Unreadable(f"{it!r} where a word is wanted")
        return it

    def number(self) -> int:
        return int(self.word())

    def data(self) -> bytes:
        """Bytes, in quotes or in hex."""
        it = self.take()
        if isinstance(it, Quoted):
            return it.data
        if not it.startswith("0x"):
            raise Unreadable(f"{it!r} where bytes are wanted")
        return bytes.fromhex(it[2:])

    def text(self) -> str:
        return self.data().decode()

    def text_or_none(self) -> str | None:
        """A text, or `-`."""
        if self.next_is("-"):
            self.take()
            return None
        return self.text()

    def pairs(self) -> list[list[str]]:
        """Pairs of texts, each in braces."""
        found = []
        while self.next_is("{"):
            self.take()
            found.append([self.text(), self.text()])
            self.sign("}")
        return found
