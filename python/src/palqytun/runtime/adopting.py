"""Versions: an invocation goes on by the version of the code that began it. If no worker of that version is alive, those of another replay its
journal; if their code makes it, the invocation is theirs from then on. If it doesn't, the invocation waits for a worker of its version.
"""

from __future__ import annotations

import logging
from dataclasses import dataclass, field

from . import announced, journal
from .claiming import Claimer, orphaned
from .database import Database
from .invocations import CLAIMED, Claimable
from .replay import Stored, difference, stored

log = logging.getLogger("palqytun")
_PAGE = 50  # invocations whose journals are read at a time
_WAITS = "no worker has its version "


@dataclass
class Adopting:
    """What a worker knows of the versions whose workers have gone. `left` are versions that may have invocations without a worker; none as long as
    the database hasn't been asked for them."""

    claimer: Claimer
    left: set[str] | None = None
    lived: set[str] = field(default_factory=set)
    after: int = 0  # the place of the last invocation that was looked at
    # By its id, the epoch and the entries of each whose journal this code doesn't make: as this walk over all found them, and as the last one did.
    refused: dict[str, tuple[int, int]] = field(default_factory=dict)
    before: dict[str, tuple[int, int]] = field(default_factory=dict)

    async def sought(self, db: Database) -> list[Stored]:
        """Some invocations that have no worker of their version, each with its journal."""
        own = self.claimer.code
        live = set(await announced.versions(db))
        if self.left is None:
            self.left = {row[0] for row in await db.rows("SELECT DISTINCT code FROM invocations WHERE status<>'done' AND code IS NOT NULL")}
        self.left |= self.lived
        self.lived = live - {own}
        gone = sorted(self.left - live - {own})
        return await self._page(db, gone) if gone else []

    async def _page(self, db: Database, gone: list[str]) -> list[Stored]:
        assert self.left is not None
        can_go_on = f"(status IN ('ready','suspended') OR {orphaned(db)})"
        sql = f"SELECT {CLAIMED}, seq FROM invocations WHERE {can_go_on} AND seq>? AND code IN ({','.join('?' * len(gone))}) ORDER BY seq LIMIT {_PAGE}"
        rows = await db.rows(sql, (self.after, *gone))
        if not rows:
            if not self.after:
                self.left -= set(gone)
            self.after = 0
            self.before, self.refused = self.refused, {}
            return []
        self.after = rows[-1][-1]
        found = list[Stored]()
        for it in (Claimable(*row[:-1]) for row in rows):
            if self.before.get(it.id) == (it.epoch, it.entries):
                self.refused[it.id] = self.before[it.id]
                continue
            try:
                found.append(await stored(db, it))
            except journal.BrokenRule as broken:
                await self._refuse(db, it, f"the stored journal is broken: {broken}")
        return found

    def apart(self, it: Stored) -> str | None:
        """Where this code parts from a journal; none if it makes it."""
        return difference(self.claimer.app, it)

    async def judged(self, db: Database, it: Stored, apart: str | None) -> None:
        """Takes an invocation over, if nobody has gone on with it meanwhile; or writes down why not."""
        if apart is not None:
            await self._refuse(db, it.row, apart)
            return
        sql = f"UPDATE invocations SET code=?, error=CASE WHEN error LIKE '{_WAITS}%' THEN NULL ELSE error END {_SAME}"
        await db.change(sql, (self.claimer.code, *_same(it.row)))
        db.notify("ready")

    async def _refuse(self, db: Database, it: Claimable, why: str) -> None:
        self.refused[it.id] = (it.epoch, it.entries)
        text = f"{_WAITS}{it.code}, and {self.claimer.code} can't go on with it: {why}"
        if await db.change(f"UPDATE invocations SET error=? {_SAME}", (text, *_same(it))):
            log.warning("%s/%s %s waits: %s", it.service, it.handler, it.id, text)


_SAME = "WHERE id=? AND code=? AND epoch=? AND entries=? AND status=?"


def _same(it: Claimable) -> tuple[object, ...]:
    return it.id, it.code, it.epoch, it.entries, it.status
