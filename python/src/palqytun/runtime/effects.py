"""What a stored row asks for is done, in the transaction that stores it; so it is done once.

What each row asks for is said by the core (`palqytun.effects`), or is an attribute, which is the runtime's own. No frame is read here.
"""

from __future__ import annotations

import base64
import hashlib
import struct
import time
from collections.abc import Sequence
from typing import Any

from palqytun.effects import Attach, Begin, Change, Effect, Promise, Read, Send, Wait

from . import announced, chains, inbox, invocations, journal, refused, sealing
from .database import Database, Each
from .invocations import New
from .journal import Attribute, Result
from .lease import KEPT, WAITING, Growth
from .outcome import Outcome
from .services import App, TerminalError
from .traces import Trace

_TIMER = Each(WAITING, "INSERT INTO timers(due, invocation, completes) SELECT ?,?,?{rows}", "double precision", "text", "bigint")
# The changes of a key's state stay in their order. Those of many keys are made together if each sets names, the last value of each.
_NO_STATE = Each(KEPT, "DELETE FROM state WHERE service=? AND key=?")
_NO_NAME = Each(KEPT, "DELETE FROM state WHERE service=? AND key=? AND name=?")
_SET = " ON CONFLICT(service, key, name) DO UPDATE SET value=excluded.value"
_NAME = Each(KEPT, f"INSERT INTO state(service, key, name, value) VALUES (?,?,?,?){_SET}")
_NAMES = Each(KEPT, _NAME.one)
_NAMES.many = (
    "INSERT INTO state(service, key, name, value) SELECT DISTINCT ON (service, key, name) service, key, name, value"
    " FROM unnest(?::text[], ?::text[], ?::text[], ?::bytea[]) WITH ORDINALITY AS asked(service, key, name, value, number)"
    f" ORDER BY service, key, name, number DESC{_SET}"
)

_AWAKEABLE = "sign_1"  # the beginning of each one's id


def awakeable_of(id: str) -> tuple[str, int]:
    """Whose signal completes an awakeable, and its number. No other text names the same, as in the core's engine (`journal_store`)."""
    text = id.removeprefix(_AWAKEABLE)
    try:
        data = base64.urlsafe_b64decode(text + "=" * (-len(text) % 4))
        invocation, number = data[:-4].decode(), struct.unpack(">I", data[-4:])[0]
        if id != _AWAKEABLE + base64.urlsafe_b64encode(data).decode().rstrip("=") or not _is_there(invocation):
            raise ValueError
        return invocation, number
    except (ValueError, struct.error):
        raise TerminalError(f"{id[:200]} is no awakeable", 400) from None


def _is_there(name: str) -> bool:
    """Whether something that is stored may have this name: an invocation by its id, or a value of the state. No text of PostgreSQL has a NUL."""
    return "\0" not in name


def child_of(invocation: str, completion: int) -> str:
    """The id of what a call makes. It follows from the call, so a call makes one invocation."""
    return "inv_" + hashlib.blake2b(f"{invocation}/{completion}".encode(), digest_size=12).hexdigest()


Asked = Effect | Attribute


class Performer:
    """Does what the rows of one attempt ask for, in one transaction."""

    def __init__(self, db: Database, app: App, out: Outcome, growth: Growth, service: str, key: str, trace: Trace):
        self.db, self.app, self.out, self.growth, self.service, self.key, self.trace = db, app, out, growth, service, key, trace
        self.own = growth.lease.invocation
        self.clears = False  # some command clears a name of the state

    def needs_fence(self, it: Asked) -> bool:
        """Whether the invocation's row has to be kept before this is done. On a server the changes of rows that are alike come after the
        fence of the last statement, whenever they are asked for; so what makes nothing else needs no fence before."""
        if self.db.is_remote and (isinstance(it, (Wait, Change)) or _is_direct(it) or (isinstance(it, Begin) and self._is_new(it))):
            return False
        return type(it) in _PERFORMED

    def _is_new(self, it: Begin) -> bool:
        """Whether a call makes an invocation of this app without a look at what is there."""
        target = announced.own(self.app, it.service, it.handler)
        return target is not None and it.idempotency_key is None and not target.is_main

    async def perform(self, asked: Sequence[Asked]) -> None:
        """Does what is asked for, in its order."""
        self.clears = any(isinstance(it, Change) and it.value is None for it in asked)
        for it in asked:
            method = _PERFORMED.get(type(it))
            if method is not None:
                await method(self, it)

    async def _wait(self, it: Wait) -> None:
        due = self.db.now() + it.time / 1000 - time.time()  # the command has it by this worker's clock
        self.db.each(_TIMER, (due, self.own, it.completes))
        self.out.is_due(it.time / 1000)

    async def _begin(self, it: Begin) -> None:
        id = child_of(self.own, it.id_completes)
        argument = sealing.renewed(self.app.codec, it.parameter)
        new = New(it.service, it.handler, it.key, argument, it.headers, it.idempotency_key, it.time / 1000, id, self.own, self.trace.header)
        try:
            id, is_new = await invocations.create(self.db, self.app, self.out, new)
        except TerminalError as error:
            self.growth.complete(it.id_completes, journal.invocation(id))
            if it.completes is not None:
                self.growth.complete(it.completes, journal.failure(error.code, error.message))
            else:
                await refused.keep(self.db, self.out, new, error)
            return
        self.growth.complete(it.id_completes, journal.invocation(id))
        if it.completes is not None and is_new:
            invocations.wait(self.db, self.growth, id, it.completes)
        elif it.completes is not None:
            await invocations.attach(self.db, self.growth, id, it.completes)

    async def _change(self, it: Change) -> None:
        place = (self.service, self.key)
        if it.name is None:
            self.db.each(_NO_STATE, place)
        elif it.value is None:
            if _is_there(it.name):
                self.db.each(_NO_NAME, (*place, it.name))
        else:
            self.db.each(_NAME if self.clears else _NAMES, (*place, it.name, it.value))

    async def _read(self, it: Read) -> None:
        place = (self.service, self.key)
        if it.name is None:
            names = [name for name, in await self.db.rows("SELECT name FROM state WHERE service=? AND key=?", place)]
            self.growth.complete(it.completes, journal.keys(sorted(names, key=str.encode)))
        else:
            sql = "SELECT value FROM state WHERE service=? AND key=? AND name=?"
            found = await self.db.rows(sql, (*place, it.name)) if _is_there(it.name) else []
            self.growth.complete(it.completes, journal.value(bytes(found[0][0])) if found else journal.void())

    async def _send(self, it: Send) -> None:
        try:
            target = it.target.decode()
        except UnicodeDecodeError:
            return  # an awakeable's id that names nobody
        if not _is_there(target):
            return
        if it.is_awakeable:
            inbox.put(self.db, self.out, target, it.notification)
        else:
            await chains.send(self.db, self.out, target, it.notification)

    async def _promise(self, it: Promise) -> None:
        place = (self.service, self.key, it.name)
        where = "service=? AND key=? AND name=?"
        # The row is made and kept until the commit, so nobody completes it while another begins to wait.
        sql = "INSERT INTO promises(service, key, name) VALUES (?,?,?) ON CONFLICT(service, key, name) DO UPDATE SET name=excluded.name"
        self.db.put(sql, place)
        [(found,)] = await self.db.rows(f"SELECT result FROM promises WHERE {where}", place)
        result = None if found is None else Result(bytes(found))
        if it.result is not None:
            await self._complete_promise(it.completes, Result(it.result), result is not None, place)
        elif result is not None or it.peeks:
            self.growth.complete(it.completes, journal.void() if result is None else result)
        else:
            sql = "INSERT INTO promise_waiters(service, key, name, waiter, completes) VALUES (?,?,?,?,?)"
            self.db.put(sql, (*place, self.own, it.completes))

    async def _complete_promise(self, id: int, result: Result, was_completed: bool, place: tuple[str, str, str]) -> None:
        if was_completed:
            self.growth.complete(id, journal.failure(409, "the promise was completed before"))
            return
        where = "service=? AND key=? AND name=?"
        self.db.put(f"UPDATE promises SET result=? WHERE {where}", (result, *place))
        for waiter, completes in await self.db.rows(f"SELECT waiter, completes FROM promise_waiters WHERE {where}", place):
            inbox.complete(self.db, self.out, waiter, completes, result)
        self.db.put(f"DELETE FROM promise_waiters WHERE {where}", place)
        self.growth.complete(id, journal.void())

    async def _attach(self, it: Attach) -> None:
        target = it.invocation or await self._named(it)
        target = target if target is not None and _is_there(target) else None
        if not it.peeks:
            await invocations.attach(self.db, self.growth, target, it.completes)
            return
        found = await self.db.rows("SELECT result FROM invocations WHERE id=?", (await invocations.newest(self.db, target or ""),))
        if not found:
            self.growth.complete(it.completes, journal.failure(404, "there is no such invocation"))
        else:
            self.growth.complete(it.completes, journal.void() if found[0][0] is None else Result(bytes(found[0][0])))

    async def _attribute(self, it: Attribute) -> None:
        place = (self.own, it.name)
        if it.value is None:
            self.db.put("DELETE FROM attributes WHERE invocation=? AND name=?", place)
            return
        sql = "INSERT INTO attributes(invocation, name, value) VALUES (?,?,?) ON CONFLICT(invocation, name) DO UPDATE SET value=excluded.value"
        self.db.put(sql, (*place, it.value))

    async def _named(self, it: Attach) -> str | None:
        """The invocation that an idempotency key names, or a workflow's key."""
        handler, idem = it.handler, it.idempotency_key
        if handler is None:
            known = self.app.services.get(it.service)
            handler = next((name for name, one in known.handlers.items() if one.exclusive), "") if known is not None else ""
            idem = ""
        sql = "SELECT id FROM invocations WHERE service=? AND handler=? AND key=? AND idem=?"
        found = await self.db.rows(sql, (it.service, handler, it.key, idem))
        return str(found[0][0]) if found else None


def _is_direct(it: Asked) -> bool:
    """Whether it goes to the invocation that it names, whichever goes on in that one's place."""
    return isinstance(it, Send) and it.is_awakeable


_PERFORMED: dict[type[Asked], Any] = {
    Wait: Performer._wait,
    Begin: Performer._begin,
    Change: Performer._change,
    Read: Performer._read,
    Send: Performer._send,
    Promise: Performer._promise,
    Attach: Performer._attach,
    Attribute: Performer._attribute,
}
