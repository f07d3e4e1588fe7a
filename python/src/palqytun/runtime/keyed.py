"""The state of keys, for operators: which keys there are, what their state is, and a change of it, which the audit has.

While an invocation that may change a key's state is open, nobody else may: it was handed the state when it began.
"""

from __future__ import annotations

from . import audit
from .codec import BadValue, Codec, decoded
from .database import Database
from .invocations import state_of as state_of
from .names import check_name
from .services import TerminalError
from .texts import plain

_SAID = 200  # characters of a value in the audit


async def keys(db: Database, service: str, text: str = "", most: int = 100, after: str = "") -> list[tuple[str, int, int]]:
    """Keys of a service that have a state, in order: each with how many names its state has, and how many bytes. Only those with this text in them,
    and after this one."""
    pattern = "%" + text.replace("!", "!!").replace("%", "!%").replace("_", "!_") + "%"
    sql = (
        "SELECT key, COUNT(*), SUM(LENGTH(value)) FROM state WHERE service=? AND key>? AND key LIKE ? ESCAPE '!'"
        " GROUP BY key ORDER BY key LIMIT ?"
    )
    return [(str(key), int(many), int(size)) for key, many, size in await db.rows(sql, (service, after, pattern, most))]


async def services(db: Database) -> list[str]:
    """The services that have a state for some key."""
    found: list[str] = []
    while rows := await db.rows("SELECT service FROM state WHERE service>? ORDER BY service LIMIT 1", (found[-1] if found else "",)):
        found.append(rows[0][0])  # a step of the index for each, however many keys there are
    return found


async def holder(db: Database, service: str, key: str) -> str | None:
    """The invocation that has a key."""
    rows = await db.rows("SELECT holder FROM locks WHERE service=? AND key=?", (service, key))
    return str(rows[0][0]) if rows else None


def shown(value: bytes) -> str:
    """A value as text: as it is, if it is UTF-8, and else its bytes in hexadecimal."""
    try:
        return value.decode()
    except UnicodeDecodeError:
        return f"0x{value.hex()}"


def checked(codec: Codec, value: bytes) -> bytes:
    """A value that the codec understands. Raises a `TerminalError` with code 400 for another one."""
    try:
        decoded(codec, value, object)
    except BadValue as error:
        raise TerminalError(f"the state is no value, as 7 or \"a text\" in JSON: {error}", 400) from error
    return value


async def change(db: Database, service: str, key: str, name: str | None, value: bytes | None, who: str) -> int:
    """Sets a name of a key's state, or clears it (no value), or clears all names (no name); returns how many names were changed.

    Raises a `TerminalError` with code 409, and changes nothing, while an invocation has the key."""
    check_name("the service's name", service)
    check_name("the key", key)
    check_name("the name of a state", name or "")
    await _take(db, service, key)
    before = await state_of(db, service, key)
    names = sorted(before) if name is None else [name]
    for it in names:
        if value is not None:
            sql = "INSERT INTO state(service, key, name, value) VALUES (?,?,?,?) ON CONFLICT(service, key, name) DO UPDATE SET value=excluded.value"
            db.put(sql, (service, key, it, value))
        else:
            db.put("DELETE FROM state WHERE service=? AND key=? AND name=?", (service, key, it))
        was = f"was {_said(before[it])}" if it in before else "was not there"
        audit.record(db, who, "clear state" if value is None else "set state", service=service, key=key, name=it, detail=f"{_said(value)}{was}".removesuffix("; "))
    await db.change("DELETE FROM locks WHERE service=? AND key=? AND holder=''", (service, key))
    return len([it for it in names if value is not None or it in before])


def _said(value: bytes | None) -> str:
    if value is None:
        return ""
    text = plain(shown(value)).replace("\0", "\\0")
    return f"{text if len(text) <= _SAID else text[: _SAID - 1] + '…'}; "


async def _take(db: Database, service: str, key: str) -> None:
    """Takes the key until the commit."""
    if await db.change("INSERT INTO locks(service, key, holder) VALUES (?,?,'') ON CONFLICT(service, key) DO NOTHING", (service, key)):
        return
    other = await holder(db, service, key)
    raise TerminalError(f"{service}/{key} is held by {other}: wait until it has ended, or kill it", 409)
