"""How large a value may be: what is larger is refused before anything is stored. `names.py` has the limits of names."""

from __future__ import annotations

from .services import TerminalError

PAYLOAD = 4 << 20  # bytes of an argument or a value from outside, unless a setting says another number


def check_payload(what: str, size: int, most: int = PAYLOAD) -> None:
    """Refuses a value that is too large: a `TerminalError` with code 413.

    >>> check_payload("the argument", 5, most=4)
    Traceback (most recent call last):
    palqytun.runtime.services.TerminalError: the argument has 5 bytes, and may have 4
    """
    if size > most:
        raise TerminalError(f"{what} has {size} bytes, and may have {most}", 413)
