"""One attempt of an invocation: its handler's coroutines, the VM, and the store between them."""

from __future__ import annotations

import asyncio
import logging
import time
from collections.abc import Awaitable, Callable, Mapping
from contextlib import AbstractContextManager
from types import TracebackType
from typing import Any, Protocol, TypeVar

from .. import core
from . import heartbeats, journal, replay, sealing, spans, storing, transactions
from .codec import BadValue, Codec, decoded, encoded
from .committer import Stopped
from .context import Action, AttemptEnds, CaughtTooMuch, Context, OutsideHandler, given_failure, running
from .contexts import kind_of
from .database import Database, StatementFailed
from .durable import Task
from .executions import Closed, Executions, Raised
from .invocations import TAKEN, WAITS, Claim, Continues
from .lease import Growth
from .meter import Ended
from .outcome import Outcome, Taker
from .services import App, Cancelled, Handler, TerminalError
from .storing import Reads, Writes
from .tasks import Tasks
from .texts import plain, said, traced
from .transactions import Transaction
from .turns import Turn

T = TypeVar("T")
log = logging.getLogger("palqytun")
_LONG = 0.0005  # seconds that a wide tree takes to be asked for
_FED = 1 << 16  # bytes of a journal that the core is fed at a time
_FORGOTTEN = 5  # runs and sleeps that a warning names, at most
_STORED = 256  # frames that are stored together, at most
_PERFORMED = 64  # of them, if they ask something of the runtime


class Worker(Protocol):
    """What an attempt needs of its worker."""

    app: App
    executions: Executions

    @property
    def drains(self) -> bool:
        """Whether no run begins any more, and what waits is suspended."""

    @property
    def patience(self) -> float:
        """For how many seconds an attempt may wait now, before it is suspended."""

    async def write(self, operation: Writes, claim: Claim, reads: Reads | None = None) -> Outcome:
        """Commits a transaction on the claim's journal. The operation is given what `reads` finds before it."""

    def taking(self, most: int) -> AbstractContextManager[Taker | None]:
        """Whether a transaction may begin at once what it makes, `most` of it, and by which worker."""

    async def append(self, growth: Growth) -> None:
        """Commits what is appended to a claim's journal, where nobody else is touched."""

    async def alone(self, operation: Callable[[Database], Awaitable[T]]) -> T:
        """Commits an operation in a transaction of its own."""

    async def beside(self, operation: Callable[[Database], Awaitable[T]]) -> T:
        """Commits an operation that isn't part of the attempt's journal, with others."""

    def now(self) -> float:
        """The database's time, in seconds since the epoch."""


class WithoutEnd(Exception):
    """An attempt ended and its core said nothing of it. This is a bug of the runtime."""


class HandlerFailed(Exception):
    """A handler's own code raised this error, `SystemExit` too."""

    def __init__(self, error: BaseException):
        super().__init__(said(error))
        self.error = error


class Released(Exception):
    """The worker stops, and the attempt has more to do: the next worker goes on with it."""


class _HandlersOwn:
    """What is raised within is the handler's, and not the runtime's. It is entered several times a step, so it is no generator."""

    def __enter__(self) -> None:
        pass

    def __exit__(self, kind: type[BaseException] | None, error: BaseException | None, trace: TracebackType | None) -> None:
        if error is not None and not isinstance(error, (AttemptEnds, CaughtTooMuch)):
            raise HandlerFailed(error) from error


_handlers_own = _HandlersOwn()


class Bell:
    """Rings if something came for the invocation (`poked`), or a run is done. A wait is one future, and no task for `asyncio.wait`: each step
    waits."""

    def __init__(self) -> None:
        self.poked = False
        self._waiter: asyncio.Future[None] | None = None

    def poke(self) -> None:
        self.poked = True
        self.ring()

    @property
    def is_awaited(self) -> bool:
        """Whether its attempt waits."""
        return self._waiter is not None

    def ring(self, _: object = None) -> None:
        if self._waiter is not None and not self._waiter.done():
            self._waiter.set_result(None)

    async def heard(self, patience: float | None) -> None:
        """Waits until it rings, or for `patience` seconds."""
        loop = asyncio.get_running_loop()
        self._waiter = loop.create_future()
        timer = None if patience is None else loop.call_later(patience, self.ring)
        try:
            await self._waiter
        finally:
            self._waiter = None
            if timer is not None:
                timer.cancel()


class Attempt:
    def __init__(self, worker: Worker, claim: Claim):
        self.worker, self.claim = worker, claim
        self.bell = Bell()
        self.status = "lost"  # what its last store has made of the invocation
        self.ended: Ended | None = None  # how the invocation has ended, if it has
        self.error: str | None = None  # the note of its failure
        self.codec: Codec = worker.app.codec  # that of the invocation, once its argument is known
        self.spans = spans.of(claim.trace, claim.service, claim.handler, claim.invocation, claim.lease.epoch)
        self.task: asyncio.Task[None] | None = None
        self._turn = Turn()
        self._executing: dict[int, asyncio.Task[Any]] = {}
        self._executed: list[int] = []  # handles of runs whose execution has ended
        self._raised: dict[int, BaseException] = {}  # what runs raised, by their handles
        self._has_dropped = False  # a run for which the core has asked didn't begin
        self._waiting: list[bytes] = []  # frames of output that aren't stored yet
        self._is_only_runs = True  # these frames are commands of runs
        self._written = 0  # how many bytes of output were handed to the store
        self._has_ended = False
        self._context: Context | None = None
        self.was_cancelled_within = False  # the handler has cancelled the task of its own attempt
        self._unawaited: list[int] = []  # sleeps that nobody can await any more
        known = worker.app.known(claim.service, claim.handler)
        self._limit = None if known is None else known.attempt_timeout  # seconds that the attempt may take
        self._begun_at = time.monotonic()
        self.awakeables: Mapping[str, Callable[[Any], Any]] | None = None  # that the handler has made: what reads the value of each

    @property
    def only_waits(self) -> bool:
        """Whether it waits for others: once its bell rings it is suspended."""
        return self.bell.is_awaited and not self._executing

    async def run(self) -> None:
        """To the attempt's end, which is stored."""
        try:
            with core.VM(self.claim.content_type, awaiting="never", mismatch="pause") as vm:
                self._vm = vm
                await self._begun(self.claim.input)
                self._patches = journal.patches_in(self.claim.input)
                self.claim.input = b""
                try:
                    fault = await self._guarded()
                except Released:
                    await self._rest()
                    await self._left(lambda db: storing.release(db, self.worker.app, self.claim))
                    return
                if fault is not None:
                    why, self.claim.fault = said(fault), fault
                    await self._left(lambda db: storing.pause(db, self.worker.app, self.claim, why))
                    return
                await self._part()
                await self._rest()
                if not self._has_ended:
                    raise WithoutEnd(self.claim.invocation)
        finally:
            for task in self._executing.values():
                task.cancel()

    async def _part(self) -> None:
        """If the core has refused a call as another one than is recorded, or an await at which one is recorded, says which ones they are. Only this attempt
        knows its call: another attempt of a handler that goes by the clock or by chance may make others."""
        context = self._context
        if context is not None and (context.refused_call is not None or isinstance(self.claim.fault, core.JournalMismatch)):
            found = await self.worker.alone(lambda db: replay.stored_of(db, self.claim.invocation))
            self.claim.parted = None if found is None else replay.parted(found, self._vm.last_command_index(), context)

    async def _begun(self, input: bytes) -> None:
        """Feeds the stored journal."""
        for at in range(0, len(input), _FED):
            self._vm.notify_input(input[at : at + _FED])
            await self._turn.end()

    async def _left(self, operation: Callable[[Database], Awaitable[Outcome]]) -> None:
        """The attempt stops without an end of its core."""
        out = await self.worker.write(lambda db, found: operation(db), self.claim)
        self.status = out.status
        self._noted(out)

    async def _guarded(self) -> Exception | None:
        """Drives the handler. What it raises ends the attempt. Returns an error for which the invocation is to be paused, whatever the core
        says."""
        try:
            return await self._drive(self._vm.sys_input())
        except (core.VMError, AttemptEnds) as ended:
            self.claim.fault = self.claim.fault or ended
            if isinstance(ended.__cause__, (core.BadLine, UnicodeError)):  # the core wasn't asked
                self._vm.notify_error(500, plain(f"a call that has no meaning: {ended.__cause__}"))
            # else the core has failed, or is suspended, and has said so
        except core.BadLine as error:
            self.claim.fault = error
            self._vm.notify_error(500, plain(f"a call that has no meaning: {error}"))
        except CaughtTooMuch as fault:
            return fault
        except HandlerFailed as failed:
            self.claim.fault = failed.error
            self._vm.notify_error(500, sealing.error(self.codec, said(failed.error)), stacktrace=sealing.text(self.codec, traced(failed.error)))
        return None

    async def _drive(self, input: core.Input) -> Exception | None:
        with _handlers_own:
            handler = self.worker.app.find(self.claim.service, self.claim.handler)
        kind = kind_of(handler.service, self.claim.exclusive)
        context = kind(self._vm, input, self.worker.app, self.claim.service, self.claim.trace, patches=self._patches, now=self.worker.now)
        self._context, self.awakeables = context, context.awakeables
        self.codec = codec = context.codec
        with _handlers_own:
            try:
                argument = decoded(codec, input.value, handler.takes)
            except BadValue as error:
                self._vm.sys_write_output(core.Failure(400, sealing.text(codec, f"the argument of {handler.path}: {error}")))
                self._vm.sys_end()
                return None
            main: Task[Any] = Task(handler.function(context, argument))  # type: ignore[arg-type]
        context.tasks = Tasks(main)
        try:
            await self._steps(context, context.tasks)
        except (core.VMError, AttemptEnds):
            fault = context.end()
            if fault is not None:
                return fault
            raise
        finally:
            context.end()
        if main.failure is None and context.forgotten:
            self._say_forgotten(handler.path, context.forgotten)
        with _handlers_own:
            ends = _ends(context, handler, main)
        has_next = main.continued is not None and isinstance(ends, bytes)
        context.write_output(ends, has_next)
        if has_next:
            self.claim.continues = Continues(tuple(input.headers), context.signals)
        self._vm.sys_end()
        return None

    def _say_forgotten(self, path: str, forgotten: list[str]) -> None:
        """Warns of what the handler made and never awaited."""
        names = ", ".join(dict.fromkeys(forgotten[:_FORGOTTEN]))
        more = f" and {len(forgotten) - _FORGOTTEN} more" if len(forgotten) > _FORGOTTEN else ""
        why = "without an await a run isn't executed, and a sleep doesn't wait"
        log.warning("%s %s has ended, and hasn't awaited %s%s: %s", path, self.claim.invocation, names, more, why)

    async def _steps(self, context: Context, tasks: Tasks) -> None:
        """Until the handler is done: its coroutines run, and then what they await is awaited."""
        thrown = None
        own = asyncio.current_task()
        assert own is not None
        while True:
            before = own.cancelling()
            with _handlers_own:
                try:
                    with context.entered():
                        tasks.run(thrown)
                    self.claim.is_shielded = context.is_shielded
                finally:
                    self.was_cancelled_within |= own.cancelling() > before
                if tasks.main.done:
                    return
                tree = tasks.tree()
            if context.left:
                self._leave(context)
            thrown = None
            await self._turn.end()
            try:
                await self._await(tree, context)
            except core.Cancelled:
                thrown = Cancelled()
                continue
            for leaf in tasks.taken(self._taken):
                if leaf is not None and context.actions.pop(leaf.handle, None) is not None:
                    context.asked.discard(leaf.handle)
                await self._turn.end()

    def _taken(self, handle: int) -> Any:
        """What came for a handle; the text of a failure in clear."""
        came = self._vm.take_notification(handle)
        return core.Failure(came.code, sealing.clear(self.codec, came.message), came.metadata) if isinstance(came, core.Failure) else came

    async def _await(self, tree: int | core.Future | core.AnyOf, context: Context) -> None:
        """Until the tree is awake. Meanwhile runs are executed, and what was written is stored."""
        while True:
            if self.claim.cancel_waits and not self.claim.is_shielded and self._vm.state() == "Processing":
                await self._pull()
            begun = time.monotonic()
            answer = self._vm.do_await(tree)
            asked = time.monotonic() - begun
            if answer is True:
                return
            if isinstance(answer, core.ExecuteRun):
                self._begin(answer.handle, context)
                await self._begin_others(context)
            if self._has_dropped and self.worker.drains and not self._executing:
                raise Released()
            await self._progress(context)
            if asked > _LONG:  # a wide tree is asked again after as long a time, so that what comes meanwhile is asked for at once
                await asyncio.sleep(asked)

    def _begin(self, handle: int, context: Context) -> None:
        """Begins to execute a run, for which the core has asked. It doesn't ask for this run again, so the attempt has to end if the run may not begin."""
        if self.worker.drains:
            self._has_dropped = True
            return
        context.asked.discard(handle)
        task = self._executing[handle] = asyncio.create_task(self._execute(handle, context.actions[handle]))
        task.add_done_callback(lambda _: self._has_executed(handle))

    async def _begin_others(self, context: Context) -> None:
        """Begins the other runs that the handler awaits. Each one is asked for alone: to ask for the next one of a whole tree takes a look at
        all of it. The tree isn't awake by what came, so these questions use nothing of that up."""
        assert context.tasks is not None
        for leaf in context.tasks.leaves() if context.asked else ():
            if leaf.came is None and leaf.handle in context.asked:
                if isinstance(self._vm.do_await(leaf.handle), core.ExecuteRun):
                    self._begin(leaf.handle, context)
            await self._turn.end()

    def _has_executed(self, handle: int) -> None:
        self._executed.append(handle)
        self.bell.ring()

    async def _execute(self, handle: int, action: Action) -> bytes | core.Failure | core.Retryable | None:
        """The result of a run, within a span of its own; none if it didn't begin."""
        running.set(action)
        if self.spans is None:
            return await self._done(handle, action)
        with self.spans.run(action.name) as fails:
            result = await self._done(handle, action)
            if isinstance(result, (core.Failure, core.Retryable)):
                fails(result.message)
            return result

    async def _done(self, handle: int, action: Action) -> bytes | core.Failure | core.Retryable | None:
        begun = time.monotonic()
        try:
            if action.is_transaction:
                return await self._transacted(action, action.index)
            heartbeats.pulse.set(pulse := await self._pulse(action))
            came = await self.worker.executions.execute(self, action.function, action.arguments, action.timeout, pulse)
        except Closed:
            return None
        lasted = int((time.monotonic() - begun) * 1000)
        if isinstance(came, Raised):
            self._raised[handle] = came.error
            return self._failed(came.error, lasted)
        try:
            return encoded(self.codec, came.value)
        except MemoryError as error:
            return self._failed(error, lasted)
        except BaseException as error:  # the effect has happened, and no other try of it would have another result
            return core.Failure(500, sealing.text(self.codec, f"the result of the run {plain(action.name)!r} can't be stored: {said(error)}"))

    def _failed(self, error: BaseException, lasted: int) -> core.Failure | core.Retryable:
        """What an effect that raised an error proposes. If another try would fail alike, the invocation is paused."""
        if isinstance(error, TerminalError):
            try:
                return given_failure(error, self.codec)
            except Exception:  # of a subclass that isn't made as its base is
                return core.Failure(500, sealing.text(self.codec, said(error)))
        then: core.Behaviour = "pause" if isinstance(error, OutsideHandler) else "retry"
        return core.Retryable(500, sealing.error(self.codec, said(error)), lasted, stacktrace=sealing.text(self.codec, traced(error)), behaviour=then)

    async def _pulse(self, action: Action) -> heartbeats.Pulse:
        """What a run beats by. If it has to beat, what its execution before said last is read first."""
        worker, lease = self.worker, self.claim.lease
        before = None if action.heartbeat is None else await worker.beside(lambda db: heartbeats.before(db, lease, action.index))

        async def keep(value: bytes) -> bool:
            try:
                return await worker.beside(lambda db: heartbeats.keep(db, lease, action.index, plain(action.name), value))
            except StatementFailed as error:
                log.warning("the progress of the run %r of %s isn't stored: %s", action.name, self.claim.invocation, error)
                return True
            except Stopped:  # the database is lost, and others go on
                return False

        return heartbeats.Pulse(self.codec, action.heartbeat, before, keep)

    async def _transacted(self, action: Action, run: int) -> bytes | core.Failure | core.Retryable:
        """The result of a step on the runtime's own database, which is committed with what the step did."""

        async def step(transaction: Transaction) -> bytes:
            return encoded(self.codec, await action.function(transaction, *action.arguments))

        begun = time.monotonic()
        try:
            return await self.worker.alone(lambda db: transactions.made(db, self.claim.lease, run, step, action.timeout))
        except (transactions.RolledBack, StatementFailed) as failed:
            error = failed.error if isinstance(failed, transactions.RolledBack) else failed
            return self._failed(error, int((time.monotonic() - begun) * 1000))

    async def _progress(self, context: Context) -> None:
        """Stores what was written, or waits until something comes; what comes is fed. If nothing comes the input is closed."""
        self._take()
        # A run's command is stored with its result, unless something else is to be stored before.
        if self._waiting and not (self._executing and self._is_only_runs):
            if await self._store():
                return
        if self.bell.poked:
            await self._pull()
            return
        patience, left = self.worker.patience, self._left_of_limit()
        if not self._executing and not patience:
            self._vm.notify_input_closed()
            return
        await self._wait(left if self._executing else patience if left is None else min(patience, left), context)

    def _left_of_limit(self) -> float | None:
        """How many seconds the attempt may still take, if there is a limit. An attempt that has taken them, and executes runs, has failed. One that only
        waits is suspended after its patience, so it takes nothing."""
        if self._limit is None:
            return None
        left = self._begun_at + self._limit - time.monotonic()
        if left <= 0 and self._executing:
            raise HandlerFailed(TimeoutError(f"the attempt took longer than its attempt_timeout of {self._limit:g} s"))
        return max(0.0, left)

    async def _wait(self, patience: float | None, context: Context) -> None:
        """Until a run has a result, which is stored, or something comes, or patience is over."""
        if not self.bell.poked and not self._executed:
            await self.bell.heard(patience)
        done, self._executed = self._executed, []
        if not done and not self.bell.poked and not self._executing:
            self._vm.notify_input_closed()
        await self._propose([(handle, self._executing.pop(handle)) for handle in done], context)
        if done:
            await self._rest()

    async def _propose(self, ended: list[tuple[int, asyncio.Task[Any]]], context: Context) -> None:
        """Proposes the results of runs. Those that another try is to be made of come last, since the first one fails the attempt."""
        failed: list[tuple[int, core.Retryable]] = []
        for handle, task in ended:
            result = self._failed(asyncio.CancelledError("the effect cancelled its own task"), 0) if task.cancelled() else task.result()
            raised = self._raised.pop(handle, None)
            if result is None:
                self._has_dropped = True
            elif isinstance(result, core.Retryable):
                if not failed:  # the first one fails the attempt
                    self.claim.run, self.claim.retry, self.claim.fault = context.actions[handle].name, context.actions[handle].retry, raised
                failed.append((handle, result))
            else:
                self._vm.propose_run_completion(handle, result, policy=context.actions[handle].policy)
            await self._turn.end()
        for handle, error in failed:
            policy = core.retry_forever() if error.behaviour == "pause" else context.actions[handle].policy
            self.claim.by_run = error.behaviour != "pause"  # such a failure of the attempt is none of the handler's
            self._vm.propose_run_completion(handle, error, policy=policy)

    async def _pull(self) -> None:
        self.bell.poked = False
        out = await self.worker.write(lambda db, found: storing.pull(db, self.claim, found), self.claim, storing.arrivals(self.claim))
        self.bell.poked |= out.has_more
        self.claim.was_cancelled |= out.cancel == TAKEN
        self.claim.cancel_waits = out.cancel == WAITS
        self._feed(out)

    async def _rest(self) -> None:
        """Stores all that was written, up to now."""
        self._take()
        if self._waiting:
            await self._store()

    def _take(self) -> None:
        """Takes what the core has written."""
        output = self._vm.take_output()
        if output:
            self._waiting += [frame for _, frame in journal.split(output)]
            self._is_only_runs = self._is_only_runs and journal.only_runs(output)

    async def _store(self) -> bool:
        """Stores what was taken of the output, and feeds what that brings; returns whether it brought something. Of much output some is stored
        at a time, so that neither the loop nor a transaction is kept for long."""
        frames, self._waiting, self._is_only_runs = self._waiting, [], True
        has_brought, at = False, 0
        while at < len(frames):
            most = _STORED if journal.only_steps(b"".join(frames[at : at + _STORED])) else _PERFORMED
            has_brought |= await self._stored(frames[at : at + most])
            at += most
            await self._turn.end()
        return has_brought

    async def _stored(self, frames: list[bytes]) -> bool:
        """Stores some frames of the output."""
        output, at, timers = b"".join(frames), self._written, self._timers()
        if not timers and journal.only_steps(output):
            growth = Growth(self.claim.lease)
            growth.store(output, at)
            await self.worker.append(growth)
            out = Outcome(feed=growth.feed)
        else:
            claim, app, reads = self.claim, self.worker.app, storing.reads(self.claim, output)
            with self.worker.taking(len(frames) if reads is None else 0) as taker:
                out = await self.worker.write(lambda db, found: storing.store(db, app, claim, output, at, timers, found, taker), claim, reads)
        self._written += len(output)
        return self._feed(out)

    def _leave(self, context: Context) -> None:
        """A step has ended, and the handler goes on without some sleeps. What is left when a handler fails or is suspended isn't: the next attempt
        may await it. In a replay nothing is left: what an earlier attempt stored after it was stored with that."""
        numbers, context.left = context.left, []
        if self._vm.state() != "Replaying":
            self._unawaited += numbers

    def _timers(self) -> list[int]:
        """The completion ids of stored sleeps that nobody can await any more: their timers are deleted with what is stored next."""
        ids, later = list[int](), list[int]()
        for number in self._unawaited:
            id = self.claim.lease.journal.timed(number)
            if id is None:
                later.append(number)
            else:
                ids.append(id)
        self._unawaited = later
        return ids

    def _noted(self, out: Outcome) -> None:
        """Keeps what the spans say of the attempt's end."""
        own = [it.error for it in out.notes if it.invocation == self.claim.invocation]
        self.error = own[-1] if own else self.error
        if out.ends and self._has_ended:
            self.ended = out.ends[-1]

    def _feed(self, out: Outcome) -> bool:
        if out.feed and out.status == "running":
            self._vm.notify_input(b"".join(out.feed))
        self._has_ended = out.status != "running"
        self._noted(out)
        self.status = out.status
        return bool(out.feed)


def _ends(context: Context, handler: Handler[Any, Any], main: Task[Any]) -> bytes | core.Failure:
    """What a handler has ended with: its result, its failure, or the argument with which it goes on as a new invocation."""
    codec = context.codec
    if context.continues is not main.continued:
        raise RuntimeError("the handler caught what ctx.continue_as_new raises, by `except BaseException` or a bare `except`; catch `Exception` instead")
    if main.failure is not None:
        return given_failure(main.failure, codec)
    if main.continued is None:
        return encoded(codec, main.value)
    try:
        decoded(codec, main.continued.argument, handler.takes)
    except BadValue as error:
        return core.Failure(400, sealing.text(codec, f"the argument of ctx.continue_as_new in {handler.path}: {error}"))
    return main.continued.argument
