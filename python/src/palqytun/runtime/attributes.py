"""What handlers say of their invocations, so that people find them: `ctx.set_attribute("customer", "ann")`."""

from __future__ import annotations

import urllib.parse
from collections.abc import Iterable
from typing import Any

from .database import Database
from .names import check_name
from .services import TerminalError

Value = str | int | float | bool
_AT_ONCE = 500  # invocations that are asked for together


def text(value: Value) -> str:
    """How a value is stored, and searched for.

    >>> text("ann"), text(5), text(0.5), text(True)
    ('ann', '5', '0.5', 'true')
    """
    return str(value).lower() if isinstance(value, bool) else str(value)


def checked(name: str, value: Value | None) -> str | None:
    """The text of the value of an attribute. Raises a `TerminalError` with code 400 for a name or a value that is none."""
    if not isinstance(name, str) or not name or "=" in name or "&" in name:
        raise TerminalError(f"the name of an attribute is a text without = and &, and not {name!r:.100}", 400)
    if value is not None and not isinstance(value, (str, int, float)):
        raise TerminalError(f"the attribute {name!r:.100} is a text, a number, a bool or None, and not of type {type(value).__name__}", 400)
    said = None if value is None else text(value)
    check_name("the name of an attribute", name)
    check_name(f"the attribute {name!r:.100}", said or "")
    return said


def asked(given: str) -> list[tuple[str, str]]:
    """The attributes that a search names, as `customer=ann&stage=paid`. In a value `%26` is an &, and `%25` a %. Raises a `TerminalError` with code 400
    for what names none.

    >>> asked("customer=ann&note=50%25 off")
    [('customer', 'ann'), ('note', '50% off')]
    """
    pairs = [it.partition("=") for it in given.split("&")]
    if not all(name and equals for name, equals, _ in pairs):
        raise TerminalError(f"attribute={given[:100]} names none: it is NAME=VALUE, or several such, with & between them", 400)
    return [(name, urllib.parse.unquote(value)) for name, _, value in pairs]


def query(name: str, value: str) -> str:
    """An attribute as a search names it.

    >>> query("note", "50% off & more")
    'note=50%25 off %26 more'
    """
    return f"{name}={value.replace('%', '%25').replace('&', '%26')}"


async def of(db: Database, ids: Iterable[str]) -> dict[str, dict[str, str]]:
    """The attributes of each of some invocations that has some."""
    found: dict[str, dict[str, str]] = {}
    left = list(ids)
    while left:
        some, left = left[:_AT_ONCE], left[_AT_ONCE:]
        rows: list[Any] = await db.rows(f"SELECT invocation, name, value FROM attributes WHERE invocation IN ({','.join('?' * len(some))}) ORDER BY name", some)
        for id, name, value in rows:
            found.setdefault(id, {})[name] = value
    return found


def go_over(db: Database, before: str, id: str) -> None:
    """An invocation that goes on instead of another one has its attributes."""
    db.put("INSERT INTO attributes(invocation, name, value) SELECT ?, name, value FROM attributes WHERE invocation=?", (id, before))


def put(db: Database, id: str, found: dict[str, str]) -> None:
    """Writes the attributes of a new invocation."""
    db.many("INSERT INTO attributes(invocation, name, value) VALUES (?,?,?)", [(id, name, value) for name, value in found.items()])
