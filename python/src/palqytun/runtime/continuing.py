"""An invocation goes on as a new one, of the same handler and with another argument: `ctx.continue_as_new`.

One transaction ends the first and makes the second, with an id that follows from the first one's. The second one takes over the key, the idempotency
key, those who wait for a result, the signals that came and weren't asked for, and a cancellation that the first one hasn't taken. What is meant for
the first one's own commands is dropped, as at each end. `chain` is the first of all that go on one after the other; by it an id of any of them leads to
the newest (`invocations.newest`). The transaction has taken the chain (`chains.take`), so all that is sent stands in the inbox or goes to the new one.
"""

from __future__ import annotations

import time
from collections import Counter

from . import announced, attributes, inbox, invocations, journal, sealing
from .database import Database
from .effects import child_of
from .invocations import VERSION, Claim
from .journal import Result
from .lease import Growth
from .meter import Ended
from .outcome import Outcome
from .services import App
from .turns import Turn

_TAKEN_OVER = "service, handler, key, exclusive, parent, trace, queue, queue_key, priority"


async def go_on(db: Database, app: App, out: Outcome, claim: Claim, growth: Growth, argument: Result) -> None:
    """Ends the invocation of an attempt, whose Output is the argument of the next one."""
    old, id, now = claim.invocation, child_of(claim.invocation, -1), db.now()
    [(idem, chain)] = await db.rows("SELECT idem, COALESCE(chain, id) FROM invocations WHERE id=?", (old,))
    await growth.write(db, status="done", ended=now, stopped=now, how="continued", idem=None, chain=chain, continued=id)
    await _make(db, app, claim, id, chain, idem, argument)
    attributes.go_over(db, old, id)
    db.put("UPDATE waiters SET invocation=? WHERE invocation=?", (id, old))
    if claim.exclusive:
        db.put("UPDATE locks SET holder=? WHERE service=? AND key=? AND holder=?", (id, claim.service, claim.key, old))
    left = [*await _unasked(db, claim), *await _arrived(db, old)]
    invocations.leave_nothing(db, old)
    for frame in left:
        inbox.put(db, out, id, frame)
    out.status, out.ended[old] = "done", None
    out.ends.append(Ended(claim.service, claim.handler, "continued", now - claim.created))
    out.is_due(time.time())
    db.ready(is_own=True)
    db.notify(f"ended {old}")


async def _make(db: Database, app: App, claim: Claim, id: str, chain: str, idem: str | None, argument: Result) -> None:
    """The new invocation. It is due when the server makes this statement, as all are."""
    now = db.now()
    deadline, expires = await announced.until(db, app, claim.service, claim.handler, now)
    due = None if db.is_shared else now
    sql = (
        f"INSERT INTO invocations({_TAKEN_OVER}, id, version, idem, seed, status, due, entries, created, deadline, expires, chain)"
        f" SELECT {_TAKEN_OVER}, ?, {VERSION}, ?, ?, 'ready', COALESCE(?,{db.clock}), 1, ?, ?, ?, ? FROM invocations WHERE id=?"
    )
    db.put(sql, (id, idem, invocations.seed_of(id), due, now, deadline, expires, chain, claim.invocation))
    _, given = journal.answer(argument)
    frame = journal.input_command(sealing.renewed(app.codec, given), () if claim.continues is None else claim.continues.headers)
    db.put("INSERT INTO journal(invocation, at, frame, stored) VALUES (?,0,?,?)", (id, frame, now))


async def _unasked(db: Database, claim: Claim) -> list[bytes]:
    """Signals by name that came to the journal, and for which the handler hasn't asked."""
    sql = "SELECT frame FROM journal WHERE invocation=? AND at>0 AND completes IS NULL ORDER BY at"
    asked, left, turn = Counter(claim.continues.asked if claim.continues is not None else {}), list[bytes](), Turn()
    for (frame,) in await db.rows(sql, (claim.invocation,)):
        name = journal.signal_name(bytes(frame))
        if name is not None and asked[name] > 0:
            asked[name] -= 1
        elif name is not None:
            left.append(bytes(frame))
        await turn.end()
    return left


async def _arrived(db: Database, id: str) -> list[bytes]:
    """What came, isn't in the journal yet, and is for the next one too."""
    [rows] = await db.several([inbox.peek(id, most=inbox.ALL)])
    return [bytes(frame) for _, frame in rows if invocations.goes_over(bytes(frame))]
