"""What must hold of a database after crashes: everything, and just that which a run without faults leaves.

The workflows have given ids, so they and all that they call have the same ids, random numbers and commands in each run.
"""

from __future__ import annotations

import collections
import json
import pathlib
import time
from dataclasses import dataclass

import crash_app
from palqytun.runtime import acts, invocations, journal
from palqytun.runtime.database import Database
from palqytun.runtime.database.plain import Plain
from palqytun.runtime.invocations import New
from palqytun.runtime.journal import frames
from palqytun.runtime.outcome import Outcome

EARLY = 0.02  # seconds by which the clocks of a worker and of the database may be apart here
KINDS = list(crash_app.KINDS)
NO_TICK = "service<>'Ticks'"  # how many calls the clock has made isn't known, and the last one may not have ended
LEFTOVERS = ("inbox", "timers", "waiters", "locks", "promise_waiters")


class Wrong(Exception):
    """What a run left isn't what it must leave."""


async def _submitted(db: Database, first: int, count: int) -> None:
    if not first:
        await db.change("CREATE TABLE IF NOT EXISTS booked(id TEXT NOT NULL)")
        await db.change("DELETE FROM booked")
    for n in range(first, first + count):
        new = New("Load", KINDS[n % len(KINDS)], argument=json.dumps(n).encode(), id=f"inv_{n:06d}")
        await invocations.create(db, crash_app.app, Outcome(), new)


def submit(db: Plain, first: int, count: int) -> None:
    db.done(lambda to: _submitted(to, first, count))


def rows(db: Plain, sql: str) -> list:
    return db.done(lambda to: to.rows(sql))


def left(db: Plain) -> int:
    return rows(db, f"SELECT COUNT(*) FROM invocations WHERE status<>'done' AND {NO_TICK}")[0][0]


async def _resumed(db: Database) -> int:
    """Resumes what was paused because its attempts were lost so often in a row, as an operator does."""
    found = await db.rows("SELECT id FROM invocations WHERE status='paused' AND how='lost'")
    return len([await acts.resume(db, None, Outcome(), id, "the tests") for (id,) in found])


def wait(db: Plain, seconds: float) -> int:
    """Waits until all have ended; answers how many were resumed for that."""
    until, resumed = time.monotonic() + seconds, 0
    while left(db):
        resumed += db.done(_resumed)
        if time.monotonic() > until:
            found = rows(db, "SELECT id, service, handler, status, worker, retries, error FROM invocations WHERE status<>'done' LIMIT 5")
            raise Wrong(f"{left(db)} invocations haven't ended after {seconds} s, as {found}")
        time.sleep(0.1)
    return resumed


def _leftover(db: Plain) -> dict[str, int]:
    """How many rows there are of what is there only as long as something goes on, by table."""
    return {table: rows(db, f"SELECT COUNT(*) FROM {table}{f' WHERE {NO_TICK}' if table == 'locks' else ''}")[0][0] for table in LEFTOVERS}


def settle(db: Plain, seconds: float = 120.0) -> None:
    """All have ended: waits until the workers have removed what came for those that had ended already, which they look for by and by. What isn't
    removed in this time is left over, and `check` says so."""
    until = time.monotonic() + seconds
    while any(_leftover(db).values()) and time.monotonic() < until:
        time.sleep(0.05)


def _compared(frame: bytes, handler: str) -> str:
    """A command without what depends on time: when a sleep or a send is due; and for coroutines side by side, which go on in the order of what
    arrives, the ids of completions."""
    kind = int.from_bytes(frame[:2], "big")
    it = frames.read(kind, frame)
    if handler == "tasks":
        return f"{it.service}/{it.handler}" if isinstance(it, frames.Call) else frame[:-4].hex()
    if isinstance(it, frames.Sleep):
        frame = frame[:10] + bytes(8) + frame[18:]
    elif isinstance(it, frames.Call) and it.id is None:
        frame = frame[:-8] + bytes(8)
    return frame.hex()


@dataclass
class Found:
    """The commands of each invocation, and the keys of the effects that were executed, with how often."""

    commands: dict[str, list[str]]
    effects: dict[str, int]

    def save(self, file: pathlib.Path) -> None:
        file.write_text(json.dumps([self.commands, self.effects]))

    @staticmethod
    def saved(file: pathlib.Path) -> "Found":
        return Found(*json.loads(file.read_text()))


async def _commands(db: Database) -> dict[str, list[str]]:
    """The commands of each invocation. Loading a journal checks the rules of storing."""
    commands = {}
    for id, service, handler, entries in await db.rows(f"SELECT id, service, handler, entries FROM invocations WHERE {NO_TICK}"):
        try:
            await invocations.load(db, id, entries)
        except journal.BrokenRule as error:
            raise Wrong(f"a journal is broken: {error}") from error
        stream = b"".join(bytes(row[0]) for row in await db.rows("SELECT frame FROM journal WHERE invocation=? ORDER BY at", (id,)))
        kept = [_compared(frame, handler) for _, frame in journal.commands_in(stream)]
        # What these read depends on the order of their calls; and those that are cancelled may not have begun.
        is_any = service in ("Counter", "Line") or handler == "sleeps"
        commands[id] = [] if is_any else sorted(kept) if handler == "tasks" else kept
    return commands


def found(db: Plain, effects: pathlib.Path) -> Found:
    """What a run left."""
    return Found(db.done(_commands), dict(collections.Counter(effects.read_text().split())))


def check(db: Plain, count: int, effects: pathlib.Path, reference: Found | None, *, is_exact: bool = False, is_ordered: bool = True) -> Found:
    """Raises `Wrong` for anything that isn't as in a run without faults. `is_exact`: each effect was executed as often too. `is_ordered`: what one
    invocation has sent to a key came in its order, for which clocks may not jump."""
    for n, (kind, value) in enumerate(_results(db, count)):
        expected = crash_app.KINDS[KINDS[n % len(KINDS)]](n)
        if kind != "value" or json.loads(value) != expected:
            raise Wrong(f"workflow {n} ended with {kind} {value!r}, and not {expected!r}")
    _check_states(db, count)
    _check_attributes(db, count)
    _check_lines(db, count, is_ordered)
    _check_ticks(db)
    if is_ordered:
        _check_sleeps(db)
    leftover = _leftover(db)
    if any(leftover.values()):
        raise Wrong(f"something is left over: {leftover}")
    it = found(db, effects)
    if reference is not None:
        _compare(it, reference)
    if is_exact and reference is not None and it.effects != reference.effects:
        raise Wrong(f"effects were executed more often: {(collections.Counter(it.effects) - collections.Counter(reference.effects)).most_common(3)}")
    return it


def _results(db: Plain, count: int) -> list[tuple[str, bytes]]:
    ended = dict(rows(db, "SELECT id, result FROM invocations"))
    missing = [f"inv_{n:06d}" for n in range(count) if ended.get(f"inv_{n:06d}") is None]
    if missing:
        raise Wrong(f"{missing[:3]} have no result")
    return [journal.answer(journal.Result(bytes(ended[f"inv_{n:06d}"]))) for n in range(count)]


def _check_states(db: Plain, count: int) -> None:
    expected: collections.Counter[str] = collections.Counter()
    for n in range(0, count, len(KINDS)):
        expected.update({str((n + i) % 7): 1 for i in range(3)})
        expected.update({str(n % 7): 10})
    counters = {key: json.loads(bytes(value)) for key, value in rows(db, "SELECT key, value FROM state WHERE service='Counter'")}
    if counters != dict(expected):
        raise Wrong(f"the counters are {counters}, and not {dict(expected)}")
    booked, orders = sorted(id for (id,) in rows(db, "SELECT id FROM booked")), [f"inv_{n:06d}" for n in range(0, count, len(KINDS))]
    if booked != orders:
        raise Wrong(f"the transactions of {booked} were made, and not each of {orders} once")
    for id, key, entries in rows(db, "SELECT id, key, entries FROM invocations WHERE service='Gate' AND handler='main'"):
        by_commands = db.done(lambda to: invocations.load(to, id, entries)).state({})
        stored = db.done(lambda to: invocations.state_of(to, "Gate", key))
        if by_commands != stored:
            raise Wrong(f"the state of {key} is {stored}, and its journal's commands leave {by_commands}")


def _check_attributes(db: Plain, count: int) -> None:
    """Each invocation has those that its handler has set last, and one that goes on has those of the one before."""
    expected = []
    for n in (n for n in range(count) if KINDS[n % len(KINDS)] == "continues"):
        expected += [(f"inv_{n:06d}", "months", "3"), (f"inv_{n:06d}", "number", str(n))]
        chain = [id for (id,) in rows(db, f"SELECT id FROM invocations WHERE service='Months' AND key='{n}' ORDER BY seq")]
        if len(chain) != crash_app.LAST:
            raise Wrong(f"{n} has gone on as {chain}")
        expected += [(chain[0], "first", "true")] + [(id, "month", str(at)) for at, id in enumerate(chain, 1)]
    found = sorted(map(tuple, rows(db, "SELECT invocation, name, value FROM attributes")))
    if found != sorted(expected):
        raise Wrong(f"the attributes are {found}, and not {sorted(expected)}")


def _check_lines(db: Plain, count: int, is_ordered: bool) -> None:
    """Each sender's values came to its key once, and in their order."""
    senders = [n for n in range(count) if KINDS[n % len(KINDS)] == "fans"]
    lines = {key: json.loads(bytes(value)) for key, value in rows(db, "SELECT key, value FROM state WHERE service='Line'")}
    for n in senders:
        came = [i for sender, i in lines.get(str(n % 2), []) if sender == n]
        if (came if is_ordered else sorted(came)) != list(range(crash_app.PUSHED)):
            raise Wrong(f"what {n} has sent to a key came as {came}")


def _check_ticks(db: Plain) -> None:
    """Each time of the schedule made one call at most, and each call was made once. One that hasn't ended may have left its time."""
    results = [journal.answer(journal.Result(bytes(it[0]))) for it in rows(db, "SELECT result FROM invocations WHERE service='Ticks' AND status='done'")]
    ended = sorted(json.loads(value) for _, value in results)
    found = rows(db, "SELECT value FROM state WHERE service='Ticks'")
    times = sorted(json.loads(bytes(found[0][0]))) if found else []
    unended = rows(db, "SELECT COUNT(*) FROM invocations WHERE service='Ticks' AND status<>'done'")[0][0]
    is_left = set(ended) <= set(times) and len(times) - len(ended) <= unended
    if not is_left or len(set(times)) != len(times) or len(set(ended)) != len(ended):
        raise Wrong(f"the clock's calls ended as {ended}, and left {times}")


def _check_sleeps(db: Plain) -> None:
    """No sleep ends before its time, by the database's clock."""
    sleeps: dict[tuple[str, int], float] = {}
    for id, frame in rows(db, "SELECT invocation, frame FROM journal WHERE completes IS NULL"):
        kind = int.from_bytes(bytes(frame)[:2], "big")
        it = frames.read(kind, bytes(frame)) if kind == frames.TIMED else None
        if isinstance(it, frames.Sleep):
            sleeps[id, it.id] = it.due / 1000
    for id, completes, stored in rows(db, "SELECT invocation, completes, stored FROM journal WHERE completes IS NOT NULL"):
        if (id, completes) in sleeps and stored < sleeps[id, completes] - EARLY:
            raise Wrong(f"a sleep of {id} has ended {sleeps[id, completes] - stored:.3f} s too early")


def _compare(it: Found, reference: Found) -> None:
    if it.commands.keys() != reference.commands.keys():
        raise Wrong(f"other invocations were made: {sorted(it.commands.keys() ^ reference.commands.keys())[:3]}")
    different = [id for id, commands in reference.commands.items() if it.commands[id] != commands]
    if different:
        id = different[0]
        raise Wrong(f"{len(different)} journals have other commands, as {id}: {it.commands[id]} and not {reference.commands[id]}")
    if it.effects.keys() != reference.effects.keys():
        raise Wrong(f"other effects were executed: {sorted(it.effects.keys() ^ reference.effects.keys())[:3]}")
