"""A worker as an SDK in another language would be: it has the core and PostgreSQL, and makes the statements of docs/PROTOCOL.md and no others.

Nothing of `palqytun.runtime` is used here. What the page doesn't say, this worker can't do.
"""

from __future__ import annotations

import base64
import hashlib
import json
import pathlib
import re
import secrets
import struct
import time
from collections.abc import Callable
from typing import Any

import psycopg
from palqytun import VM, VOID, ExecuteRun, Failure, Journal, Suspended, VMError
from palqytun.frames import Message, completion, frame_of, input_frame, is_awake, named_signal, signal, value_frame

PAGE = pathlib.Path(__file__).resolve().parents[3] / "docs/PROTOCOL.md"
_BLOCK = re.compile(r"^```sql\n-- ([\w-]+)\n(.*?)^```$", re.MULTILINE | re.DOTALL)
_VALUE = re.compile(r"(?<!:):(\w+)")
_LONG = 300.0  # seconds after which a test that waits has failed, however busy its host is
_SUSPENSION, _ERROR, _END, _SLEEP, _CALL, _SEND, _OUTPUT = 2, 3, 4, 18, 19, 20, 29
_NOTHING = frame_of("Notification id=completion(0) result=void")
_CANCEL = signal(1, _NOTHING)


def statements() -> dict[str, list[str]]:
    """The statements of the page by their names."""
    return {name: [_VALUE.sub(r"%(\1)s", it) for it in text.strip().split(";\n")] for name, text in _BLOCK.findall(PAGE.read_text(encoding="utf-8"))}


def failure(code: int, message: str) -> bytes:
    return frame_of(f"Notification id=completion(0) result=failure(code={code} message={json.dumps(message)})")


def split(stream: bytes) -> list[bytes]:
    """The frames of an output: a type in two bytes, a length in eight, and as many bytes."""
    found, at = [], 0
    while at < len(stream):
        end = at + 10 + struct.unpack_from(">Q", stream, at + 2)[0]
        found.append(stream[at:end])
        at = end
    return found


def awakeable(id: str) -> tuple[str, int] | None:
    """Whose signal completes an awakeable, and its number; none if this isn't the one text that names them."""
    try:
        data = base64.urlsafe_b64decode((text := id.removeprefix("sign_1")) + "=" * (-len(text) % 4))
        if id != "sign_1" + base64.urlsafe_b64encode(data).decode().rstrip("="):
            return None
        return data[:-4].decode(), struct.unpack(">I", data[-4:])[0]
    except (ValueError, struct.error):
        return None


class Fenced(Exception):
    """The lease is another's."""


class Store:
    """The statements of the page over one connection."""

    def __init__(self, url: str):
        self.db = psycopg.connect(url, autocommit=True)
        self.statements = statements()
        self.made("session")

    def made(self, name: str, /, **values: Any) -> list[Any]:
        """Makes the statements of a block; returns the last one's rows, or one for each row that it changed."""
        for it in self.statements[name]:
            cursor = self.db.execute(it, values)
        return cursor.fetchall() if cursor.description else [()] * max(0, cursor.rowcount)

    def now(self) -> float:
        return float(self.made("now")[0][0])

    def notify(self, word: str, channel: str = "palqytun") -> None:
        self.made("notify", channel=channel, word=word)

    def deliver(self, invocation: str, frame: bytes) -> None:
        if self.made("deliver", invocation=invocation, frame=frame):
            self.made("tell", ids=[invocation])

    def send(self, invocation: str, frame: bytes) -> None:
        """Delivers a signal, or a cancellation, to the newest of those that go on one after the other."""
        self.made("keep", invocation=invocation)
        for (newest,) in self.made("send", invocation=invocation, frame=frame):
            self.made("tell", ids=[newest])

    def served(self, service: str, handler: str) -> dict[str, Any] | None:
        """What the workers say of a handler."""
        for (said,) in self.made("serves"):
            if handler in json.loads(said).get(service, {}).get("handlers", {}):
                return dict(json.loads(said)[service])
        return None

    def create(self, id: str, service: str, handler: str, key: str, payload: bytes, *, parent: str, trace: str | None, due: float | None) -> None:
        found, now = self.served(service, handler), self.now()
        assert found is not None, (service, handler)
        seed = int.from_bytes(hashlib.blake2b(id.encode(), digest_size=7).digest(), "big")
        row = {"id": id, "service": service, "handler": handler, "key": key, "exclusive": int(found["handlers"][handler]), "seed": seed, "due": due}
        if self.made("create", **row, idem=None, now=now, parent=parent, trace=trace, deadline=None, expires=None, queue=None, queue_key=None, priority=0):
            self.made("input", id=id, frame=input_frame(frame_of("Input"), payload), now=now)
            self.notify("ready")


class Third(Store):
    """A worker with one handler of a service with keys. `handler` makes the calls of an attempt and returns its output."""

    def __init__(self, url: str, service: str, name: str, handler: Callable[[Attempt, Any], Any], code: str, lease: float = 600.0):
        super().__init__(url)
        self.service, self.name, self.handler, self.code, self.lease = service, name, handler, code, lease
        self.worker = f"third-{secrets.token_hex(6)}"
        self.own = {"service": service, "handlers": [name], "code": code, "most": 10}

    def enter(self) -> None:
        serves = {self.service: {"keyed": True, "workflow": False, "handlers": {self.name: True}}}
        with self.db.transaction():
            self.made("enter", worker=self.worker, lease=self.lease, code=self.code, serves=json.dumps(serves))
            self.notify("ready")

    def beat(self) -> None:
        assert self.made("beat", worker=self.worker, lease=self.lease)

    def leave(self) -> None:
        with self.db.transaction():
            self.made("leave", worker=self.worker)
            self.notify("ready")

    def look(self) -> list[Attempt]:
        """Fires the timers that are due, and claims what can go on."""
        with self.db.transaction():
            now = self.now()
            for invocation, completes, _ in self.made("timers", now=now):
                self.deliver(invocation, completion(completes, _NOTHING))
            found = [row[:4] for row in self.made("ready", **self.own, now=now)]
            found += [row[:4] for row in self.made("suspended", **self.own) if self._wakes(row)]
            found += [row[:4] for row in self.made("orphaned", **self.own)]
            claimed = [self._claim(*row, now) for row in found]
        return [it for it in claimed if it is not None]

    def _wakes(self, row: Any) -> bool:
        arrived = self.made("inbox", id=row[0])
        wakes = is_awake(row[4], [bytes(frame) for _, frame in arrived if not (row[5] and bytes(frame) == _CANCEL)])
        if not wakes:
            self.made("seen", id=row[0], seqs=[seq for seq, _ in arrived])
        return wakes

    def _claim(self, id: str, epoch: int, exclusive: int, key: str, now: float) -> Attempt | None:
        if exclusive and self.made("lock", service=self.service, key=key, id=id)[0][0] != id:
            return None
        [row] = self.made("lease", id=id, epoch=epoch, now=now, worker=self.worker, code=self.code)
        return Attempt(self, id, epoch + 1, row)

    def until(self, has_ended: Callable[[], bool]) -> None:
        """Works until something is so."""
        until = time.monotonic() + _LONG
        while time.monotonic() < until:
            self.beat()
            for it in self.look():
                it.run()
            if has_ended():
                return
            time.sleep(0.05)
        raise AssertionError(f"it took {_LONG:g} seconds")


class Attempt:
    """One attempt: the VM, the journal, and the transactions between them."""

    def __init__(self, worker: Third, id: str, epoch: int, row: Any):
        self.worker, self.id, self.epoch = worker, id, epoch
        self.key, seed, entries, self.retries, self.failing_since, idem, _, _, exclusive, self.trace, *_ = row
        self.began, frames = worker.now(), [bytes(it) for (it,) in worker.made("journal", id=id)]
        assert len(frames) == entries
        self.journal, self.vm = Journal(frames), VM("application/vnd.restate.invocation.v7", awaiting="never")
        self.runs: dict[int, Callable[[], Any]] = {}
        frames += self._arrived(entries)
        state = ", ".join(f"(0x{name.encode().hex()} 0x{bytes(value).hex()})" for name, value in self._state() if exclusive)
        named = f" idempotency_key={json.dumps(idem)}" if idem else ""
        line = f'Start id="{id}" debug_id="{id}" key="{self.key}" known_entries={len(frames)} random_seed={seed} retry_count={self.retries}{named}'
        self.journal.keep()
        self.vm.notify_input(frame_of(f"{line} state=[{state}]") + b"".join(frames))

    def _state(self) -> list[Any]:
        return self.worker.made("state", service=self.worker.service, key=self.key)

    # ---- the handler's calls

    def awaited(self, handle: int) -> Any:
        """The result of a handle. What was written is stored before the attempt waits; if nothing comes then, it is suspended."""
        while (it := self.vm.do_await(handle)) is not True:
            if isinstance(it, ExecuteRun):
                self.vm.propose_run_completion(it.handle, json.dumps(self.runs[it.handle]()).encode())
            elif not self.store() and not self.pull():
                self.vm.notify_input_closed()
        found = self.vm.take_notification(handle)
        assert not isinstance(found, Failure), found
        return None if found is VOID else json.loads(found) if isinstance(found, bytes) else found

    def run_step(self, name: str, does: Callable[[], Any]) -> Any:
        made = self.vm.sys_run(name)
        self.runs[made.handle] = does
        return self.awaited(made.handle)

    # ---- the attempt

    def run(self) -> None:
        """To its end, which is stored."""
        argument = self.vm.sys_input().value
        try:
            result = self.worker.handler(self, json.loads(argument))
            self.vm.sys_write_output(json.dumps(result).encode())
            self.vm.sys_end()
        except Suspended:
            pass
        except VMError as error:
            raise AssertionError(error) from error
        except ValueError as error:  # of the handler
            self.vm.notify_error(500, str(error), delay=100)
        self.store()

    def release(self) -> None:
        with self.worker.db.transaction():
            self.worker.made("release", id=self.id, epoch=self.epoch, now=self.worker.now())
            self.worker.notify("ready")

    def store(self) -> bool:
        """Stores what the VM wrote, with its effects, and feeds what that brings; returns whether it brought something."""
        output, before = self.vm.take_output(), self.journal.entries
        if not output:
            return False
        stored, now = self.journal.store(output), self.worker.now()
        with self.worker.db.transaction():
            if not self.worker.made("fence", id=self.id, epoch=self.epoch, before=before):
                raise Fenced(self.id)
            frames = split(output)
            fed = [it for frame in frames for it in self.effect(Message(frame), frame)]
            rows = [*stored.rows, *[self.journal.arrive(it) for it in fed]]
            self._append(rows, before, now)
            end = next((it for it in frames if Message(it).type in (_SUSPENSION, _ERROR, _END)), None)
            if stored.rows:
                self.worker.made("progress", id=self.id, epoch=self.epoch)
            self._stopped(end, frames, rows, before, now)
        self.journal.keep()
        if end is None:
            self.vm.notify_input(b"".join([stored.feed, *fed]))
        return end is None and bool(stored.feed or fed)

    def pull(self) -> bool:
        """Moves what came to the journal, and feeds it."""
        with self.worker.db.transaction():
            fed = self._arrived(self.journal.entries)
        self.journal.keep()
        self.vm.notify_input(b"".join(fed))
        return bool(fed)

    def _arrived(self, before: int) -> list[bytes]:
        """Moves the inbox to the journal; returns its frames. A cancellation stays there."""
        came = [(seq, bytes(frame)) for seq, frame in self.worker.made("inbox", id=self.id) if bytes(frame) != _CANCEL]
        if came:
            self._append([self.journal.arrive(frame) for _, frame in came], before, self.worker.now())
            self.worker.made("delivered", id=self.id, seqs=[seq for seq, _ in came])
            if not self.worker.made("grow", id=self.id, epoch=self.epoch, entries=self.journal.entries, before=before):
                raise Fenced(self.id)
        return [frame for _, frame in came]

    def _append(self, rows: list[Any], first: int, now: float) -> None:
        for at, row in enumerate(rows, first):
            self.worker.made("append", id=self.id, at=at, completes=row.completes, frame=row.frame, now=now)

    # ---- effects

    def effect(self, it: Message, frame: bytes) -> list[bytes]:
        """Does what a command asks for; returns the completions that it brings at once."""
        made, place = self.worker.made, {"service": self.worker.service, "key": self.key, "name": it.text(0)}
        match it.type:
            case 12:
                found = [value for name, value in self._state() if name == it.text(0)]
                return [completion(it.id, value_frame(bytes(found[0])) if found else _NOTHING)]
            case 15:
                made("set", **place, value=it.part(1) or b"")
            case 16:
                made("clear", **place)
            case 17:
                made("clear-all", service=self.worker.service, key=self.key)
            case 18:
                made("timer", id=self.id, completes=it.id, due=self.worker.now() + it.number / 1000 - time.time())
            case 19 | 20:
                return self._call(it)
            case 21:
                if (named := awakeable(it.text(0))) is not None:
                    self.worker.deliver(named[0], signal(named[1], frame))
            case 22:
                self.worker.send(it.text(0), named_signal(it.text(1), frame) if it.kind == 2 else signal(it.id, frame))
            case 23 | 24 | 25:
                return self._promise(it, frame, place)
            case 27 | 28:
                return self._awaits(it.text(0), it.id, it.type == 28)
        return []

    def _call(self, it: Message) -> list[bytes]:
        id = "inv_" + hashlib.blake2b(f"{self.id}/{it.second}".encode(), digest_size=12).hexdigest()
        due = self.worker.now() + it.number / 1000 - time.time() if it.number else None
        self.worker.create(id, it.text(1), it.text(2), it.text(3), it.part(0) or b"", parent=self.id, trace=self.trace, due=due)
        named = completion(it.second, frame_of(f'Notification id=completion(0) result=invocation_id("{id}")'))
        return [named, *(self._awaits(id, it.id) if it.type == _CALL else [])]

    def _awaits(self, target: str, completes: int, is_peek: bool = False) -> list[bytes]:
        found = self.worker.made("result", invocation=target)
        if not found:
            return [completion(completes, failure(404, "there is no such invocation"))]
        if found[0][0] is not None or is_peek:
            return [completion(completes, _NOTHING if found[0][0] is None else bytes(found[0][0]))]
        self.worker.made("wait", invocation=target, id=self.id, completes=completes)
        return []

    def _promise(self, it: Message, frame: bytes, place: dict[str, str]) -> list[bytes]:
        [(found,)] = self.worker.made("promise", **place)
        if it.type == 25 and found is None:
            for waiter, completes in self.worker.made("complete-promise", **place, result=frame):
                self.worker.deliver(waiter, completion(completes, frame))
        if it.type == 25:
            return [completion(it.id, _NOTHING if found is None else failure(409, "the promise was completed before"))]
        if found is None and it.type == 23:
            self.worker.made("await-promise", **place, id=self.id, completes=it.id)
            return []
        return [completion(it.id, _NOTHING if found is None else bytes(found))]

    # ---- how it stops

    def _stopped(self, end: bytes | None, frames: list[bytes], rows: list[Any], before: int, now: float) -> None:
        fence = {"id": self.id, "epoch": self.epoch, "before": before, "entries": self.journal.entries, "now": now}
        kind = None if end is None else Message(end).type
        if kind is None:
            changed = self.worker.made("grow", **{name: it for name, it in fence.items() if name != "now"})
        elif kind == _SUSPENSION:
            arrived = [bytes(frame) for _, frame in self.worker.made("inbox", id=self.id)]
            wakes = is_awake(end or b"", [row.frame for row in rows if row.frame[:2] == b"\0\x1e"]) or is_awake(end or b"", arrived)
            changed = self.worker.made("suspend", **fence, status="ready" if wakes else "suspended", suspension=end, shielded=0)
        elif kind == _END:
            changed = self._ended([it for it in frames if Message(it).type == _OUTPUT][0], fence)
        else:
            changed = self._failed(Message(end or b""), fence)
        if not changed:
            raise Fenced(self.id)

    def _ended(self, output: bytes, fence: dict[str, Any]) -> list[Any]:
        it = Message(output)
        failed = it.second if it.result == Message.FAILURE else None
        changed = self.worker.made("end", **fence, result=output, failed=failed, error=None if failed is None else f"{failed} {it.text(8)}")
        for waiter, completes in self.worker.made("ended", id=self.id):
            self.worker.deliver(waiter, completion(completes, output))
        self.worker.made("gone", id=self.id, service=self.worker.service, key=self.key)
        self.worker.notify("ready")
        self.worker.notify(f"ended {self.id}")
        return changed

    def _failed(self, it: Message, fence: dict[str, Any]) -> list[Any]:
        due, since = fence["now"] + it.number / 1000, self.began if self.failing_since is None else self.failing_since
        counted = {"retries": self.retries + 1, "failing_since": since, "failures": self.retries + 1, "failed_since": since}
        return self.worker.made("fail", **fence, **counted, status="ready", how="failed", due=due, error=f"{it.id} {it.text(0)}")
