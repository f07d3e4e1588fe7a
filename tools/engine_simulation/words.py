"""Words of lines: a text in quotes is one word, as are a name with `=` and its text, and all that stands in brackets."""

from __future__ import annotations

import re
from collections.abc import Iterable

WORD = re.compile(r'(?:[^\s"(\[]|"[^"]*"|\((?:[^()"]|"[^"]*"|\([^()]*\))*\)|\[[^\]]*\])+')


def words_of(line: str) -> list[str]:
    return WORD.findall(line)


def unquoted(word: str) -> str:
    """The text of a word in quotes. The simulation uses letters, digits and `_` alone."""
    if len(word) < 2 or word[0] != '"' or word[-1] != '"':
        raise ValueError(f"{word!r} is no text in quotes")
    return word[1:-1]


def fields_of(words: Iterable[str]) -> dict[str, str]:
    """The words with a name and `=`."""
    return dict(it.split("=", 1) for it in words if "=" in it.split('"')[0])


def text_field(fields: dict[str, str], name: str) -> str | None:
    return unquoted(fields[name]) if name in fields else None
