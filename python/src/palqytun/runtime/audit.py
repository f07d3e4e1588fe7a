"""Who did what: a row for each act of an operator, written in the transaction of the act."""

from __future__ import annotations

from typing import Any

from .database import Database

_COLUMNS = ("seq", "at", "who", "what", "invocation", "service", "key", "name", "detail")


def record(db: Database, who: str, what: str, **about: str | None) -> None:
    """Writes it down: `about` has the invocation; or the service, the key and the name of a state; and a `detail` in words."""
    names = ("at", "who", "what", *about)
    db.put(f"INSERT INTO audit({', '.join(names)}) VALUES ({','.join('?' * len(names))})", (db.now(), who, what, *about.values()))


async def counted(db: Database, row: int | None, who: str, what: str, detail: str) -> int:
    """Writes down an act of several transactions: the first one makes the row, whose number this returns, and the others change its detail."""
    if row is None:
        sql = "INSERT INTO audit(at, who, what, detail) VALUES (?,?,?,?) RETURNING seq"
        return int((await db.rows(sql, (db.now(), who, what, detail)))[0][0])
    await db.change("UPDATE audit SET detail=? WHERE seq=?", (detail, row))
    return row


async def records(db: Database, invocation: str | None = None, most: int = 100, before: int | None = None) -> list[dict[str, Any]]:
    """The newest first, for one invocation or all. `before`: only those before the one with this number."""
    asked = [(sql, it) for sql, it in (("invocation=?", invocation), ("seq<?", before)) if it is not None]
    where = " AND ".join(sql for sql, _ in asked) or "1=1"
    rows = await db.rows(f"SELECT {', '.join(_COLUMNS)} FROM audit WHERE {where} ORDER BY seq DESC LIMIT ?", (*[it for _, it in asked], most))
    return [dict(zip(_COLUMNS, row)) for row in rows]
