"""The VM's replies to lines, and the values that they show."""

from __future__ import annotations

import codecs
import re
from typing import cast

from palqytun.values import VOID, Failure, Input, InvocationId, Result

# One part of a reply: bytes in quotes, a bracket, or a word.
_PART = re.compile(r'"([^"]*)"|([\[\]{}])|([^\s"\[\]{}]+)')


def shown(inside: str) -> bytes:
    """The bytes between quotes in a reply: each character is printable ASCII, except `\\xHH`, which is one byte.

    `pickle` reads its own by the same function, which no manual has; it takes a quarter of the time of the codec `unicode_escape`.

    >>> shown(r"a\\x00\\xff")
    b'a\\x00\\xff'
    """
    plain = inside.encode("ascii")
    return cast(bytes, codecs.escape_decode(plain)[0]) if b"\\" in plain else plain


def texts(answer: str) -> list[str]:
    """The quoted texts of a reply, in order."""
    return [shown(it).decode() for it, bracket, word in _PART.findall(answer) if not bracket and not word]


def pairs(of: list[str]) -> tuple[tuple[str, str], ...]:
    """Each two texts as a pair."""
    return tuple(zip(of[::2], of[1::2]))


def result_of(answer: str) -> Result | None:
    """What `take` returned."""
    kind, _, rest = answer.partition(" ")
    if kind == "none":
        return None
    if kind == "void":
        return VOID
    if kind == "success":
        return shown(rest[1:-1])
    if kind == "keys":
        return texts(rest)
    if kind == "invocation":
        return InvocationId(texts(rest)[0])
    code, _, rest = rest.partition(" ")
    message, *metadata = texts(rest)
    return Failure(int(code), message, pairs(metadata))


def input_of(answer: str) -> Input:
    """What `sys_input` returned: a field is `name="bytes"`, `name=word`, in which `-` is none, or for the headers `headers=[{"text" "text"}]`."""
    data: dict[str, bytes] = {}
    words: dict[str, str] = {}
    headers: list[str] = []
    name = ""
    for inside, bracket, word in _PART.findall(answer):
        if word.endswith("="):
            name = word[:-1]
        elif word:
            key, _, words[key] = word.partition("=")
        elif not bracket and name == "headers":
            headers.append(shown(inside).decode())
        elif not bracket:
            data[name] = shown(inside)
    text = {key: value.decode() for key, value in data.items() if key != "value"}
    fields = text["id"], int(words["seed"]), text["key"], pairs(headers), data["value"]
    return Input(*fields, text.get("scope"), text.get("limit"), text.get("idem"))
