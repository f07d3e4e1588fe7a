"""Awakeables from outside: which there are, what they wait for, and that each is completed once.

A journal has no entry of an awakeable that waits; its handler makes it anew in each attempt, with its type. So the attempt that runs here is
asked for it. Without one the stored journal is replayed in a thread, as `palqytun replay` does: nothing is executed, and nothing is stored.
"""

from __future__ import annotations

import asyncio
from collections.abc import Callable, Mapping
from concurrent.futures import ThreadPoolExecutor
from typing import Any

from . import effects, inbox, journal
from .codec import BadValue
from .database import Database
from .engine import Engine
from .journal import Result
from .outcome import Outcome
from .replay import replayed, stored_of
from .services import TerminalError

Read = Callable[[Any], Any]
_replays = ThreadPoolExecutor(2, thread_name_prefix="palqytun-replay")  # the loop's own threads may all wait for a reply of this worker


async def complete(engine: Engine, id: str, result: Result) -> None:
    """Completes an awakeable. Raises a `TerminalError`, and stores nothing: 404 if there is no such awakeable, 409 if it was completed before
    or its invocation has ended, 400 for a value that isn't of its type."""
    invocation, number = effects.awakeable_of(id)
    attempt = engine.live.get(invocation)
    made = None if attempt is None else attempt.awakeables
    _check(id, result, made if made is not None and id in made else await _readers(engine, invocation))
    out = Outcome()
    why = await engine.transact(lambda db: _delivered(db, out, invocation, number, result))
    if why is not None:
        raise TerminalError(why, 409)
    engine.tell(out)


def _check(id: str, result: Result, readers: Mapping[str, Read] | None) -> None:
    if readers is None:
        return
    if id not in readers:
        raise TerminalError("there is no such awakeable", 404)
    kind, value = journal.answer(result)
    if kind != "value":
        return
    try:
        readers[id](value)
    except BadValue as error:
        raise TerminalError(f"the value of the awakeable: {error}", 400) from error


async def _readers(engine: Engine, invocation: str) -> dict[str, Read] | None:
    """What reads the value of each awakeable that the invocation has made; none if its handler doesn't say any more."""
    found = await engine.transact(lambda db: stored_of(db, invocation))
    if found is None:
        raise TerminalError("there is no such awakeable", 404)
    it = await asyncio.get_running_loop().run_in_executor(_replays, replayed, engine.app, found)
    return None if it.context is None or it.error is not None else it.context.awakeables


async def _delivered(db: Database, out: Outcome, invocation: str, number: int, result: Result) -> str | None:
    """Puts the completion into the inbox; or returns why it can't. The invocation's row is kept until the commit, so two completions that come
    at once see each other."""
    rows = await db.rows(f"SELECT status FROM invocations WHERE id=?{db.lock}", (invocation,))
    if not rows or rows[0][0] == "done":
        return "the invocation of this awakeable has ended"
    frame = journal.signal(number, result)
    for table, where in (("inbox", ""), ("journal", " AND completes IS NULL")):
        same = f"SELECT frame FROM {table} WHERE invocation=?{where} AND substr(frame,1,2)=?"
        if any(_number(bytes(row[0])) == number for row in await db.rows(same, (invocation, frame[:2]))):
            return "the awakeable was completed before"
    await inbox.deliver(db, out, invocation, frame)
    return None


def _number(frame: bytes) -> int | None:
    """The number of the signal that a notification is; none if it is another one."""
    [it] = journal.messages_in(frame)
    return int(it.id[1]) if isinstance(it, journal.Notification) and it.id[0] == 1 else None
