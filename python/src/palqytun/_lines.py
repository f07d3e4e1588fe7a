"""What a `VM` has to know of the lines that are sent to it (docs/VMSCRIPT.md)."""

from __future__ import annotations

import re

_ESCAPED = re.compile(rb'\\(?:x([0-9A-Fa-f]{2})|(["\\]))')
_WORD = re.compile(r"\s*(\S*)")
# A line that hands in an error, up to the error's text.
_HANDS_IN = re.compile(
    r"""\s* (?: error | propose \s+ [0-9]+ \s+ retryable \s+ [0-9]+ (?:ns)? ) \s+ ([0-9]+) \s+
    (?: "((?:[^"\\]|\\.)*)" | 0x([0-9A-Fa-f]*) )""",
    re.X,
)


def unescaped(quoted: str) -> bytes:
    """The bytes that stand in quotes on a line.

    >>> unescaped(r"a\\x00\\"\N{SNOWMAN}")
    b'a\\x00"\\xe2\\x98\\x83'
    """
    return _ESCAPED.sub(lambda it: it[2] or bytes([int(it[1], 16)]), quoted.encode())


def word_of(line: str) -> str:
    """The word with which a line begins."""
    found = _WORD.match(line)
    return found[1] if found else ""


def handed_in(line: str) -> tuple[int, bytes] | None:
    """The code and the text of the error that a line hands in, if it is such a line. What else stands on it isn't looked at.

    >>> handed_in('error 570 "no tea" behaviour=pause'), handed_in("propose 17 retryable 5ns 599 0x0a"), handed_in("end")
    ((570, b'no tea'), (599, b'\\n'), None)
    """
    found = _HANDS_IN.match(line)
    if found is None:
        return None
    code, text, digits = found.groups()
    return int(code), unescaped(text) if digits is None else bytes.fromhex(digits[: len(digits) // 2 * 2])
