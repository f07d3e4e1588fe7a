"""What may be part of a key of the database: the same on SQLite and PostgreSQL."""

from __future__ import annotations

from .services import TerminalError

LONGEST = 1000  # bytes in UTF-8: what an index of PostgreSQL can hold, beside the names of a service and a handler


_ALLOWED = f"a name has at most {LONGEST} bytes in UTF-8, and no NUL"


class BadName(TerminalError):
    """A name, a key or an id that no database can have: it has more than 1,000 bytes in UTF-8, a NUL, or half of a surrogate pair. Nothing was asked of the
    database. Its code is 400."""

    def __init__(self, why: str):
        super().__init__(why, 400)


def check_name(what: str, name: str) -> None:
    """`BadName` if this can't be part of a key of the database: it is too long, has a NUL, or is no Unicode."""
    if not isinstance(name, str):
        raise BadName(f"{what} is a text, and not {name!r}"[:300])
    try:
        length = len(name.encode())
    except UnicodeEncodeError:
        raise BadName(f"{what} has half of a surrogate pair, and so no UTF-8") from None
    if length > LONGEST:
        raise BadName(f"{what} has {length} bytes in UTF-8, and {LONGEST} are allowed")
    if "\0" in name:
        raise BadName(f"{what} has the character NUL: {_ALLOWED}")
