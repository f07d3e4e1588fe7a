"""A handler's context: each call is one of the VM's, made at once. What it gives is awaited when the handler likes."""

from __future__ import annotations

import contextlib
import contextvars
import datetime
import functools
import inspect
import logging
import random
import threading
import time
import typing
import uuid
import weakref
from collections import Counter
from collections.abc import Awaitable, Callable, Coroutine, Iterator, Mapping, MutableMapping
from contextlib import AbstractContextManager
from dataclasses import dataclass
from types import TracebackType
from typing import TYPE_CHECKING, Any, Concatenate, NoReturn, ParamSpec, TypeVar, cast, overload

from .. import core
from . import attributes, queues, sealing
from .codec import BadValue, Codec, decoded, encoded
from .durable import ContinuedAsNew, Durable, Leaf, Run, Task, Timer, select
from .journal import CONTINUED, OWN, PATCHED, attribute
from .names import check_name
from .parting import Asked
from .services import App, Handler, I, O, Retry, TerminalError, TimedOut, named, to_text_headers
from .steps import Step
from .tasks import Tasks
from .traces import Trace
from .transactions import Transaction

T = TypeVar("T")
P = ParamSpec("P")
handler_log = logging.getLogger("palqytun.handler")


class AttemptEnds(BaseException):
    """The VM refused a call, or the attempt is over. A handler doesn't catch this: nothing that it does from here on counts."""


class CaughtTooMuch(Exception):
    """A handler caught what isn't its own."""

    def __init__(self) -> None:
        super().__init__("the handler caught AttemptEnds, by `except BaseException` or a bare `except`; catch `Exception` instead")


class OutsideHandler(RuntimeError):
    """The context is used outside the handler's own code, as within a run. The invocation is paused: no retry helps."""


class NoSuchUse(RuntimeError):
    """A handler of this kind of service has no such call."""


@dataclass
class Action:
    """What a run executes, and how it is retried. `key` names the run for systems outside, alike in each attempt. `index` is that of its command, and
    `is_transaction` whether it is a step on the runtime's own database. `timeout` and `heartbeat` are in seconds."""

    name: str
    function: Callable[..., Any]
    arguments: tuple[Any, ...]
    policy: core.RetryPolicy
    key: str
    index: int
    timeout: float | None = None
    heartbeat: float | None = None
    is_transaction: bool = False
    retry: Retry = Retry()


running: contextvars.ContextVar[Action | None] = contextvars.ContextVar("palqytun_run", default=None)
"""The run that this code is executed for; none in a handler."""


_FOREVER = core.retry_forever()


_LONGEST = 1e12  # seconds: 30,000 years


def _ms(seconds: float) -> int:
    return int(seconds * 1000)


def _seconds(what: str, seconds: float) -> float:
    """`TypeError` or `ValueError` for what is no number of seconds."""
    if not isinstance(seconds, (int, float)):
        instead = ", whose total_seconds() is one" if isinstance(seconds, datetime.timedelta) else ""
        raise TypeError(f"{what} takes a number of seconds, and not {seconds!r}{instead}")
    if not -_LONGEST < seconds < _LONGEST:
        raise ValueError(f"{what} takes a number of seconds below 10^12, and not {seconds}")
    return seconds


def _check_names(service: str, handler: str, key: str | None, idempotency_key: str | None) -> None:
    """`TerminalError` with code 400 for a call that no database can store."""
    for what, name in (("the service's name", service), ("the handler's name", handler), ("the key", key), ("the idempotency key", idempotency_key)):
        check_name(what, name or "")


def _check_name_of_run(call: str, name: object) -> None:
    """`TypeError` for a run that has no name, as when its function stands first."""
    if not isinstance(name, str):
        function = getattr(name, "__name__", "pay") if callable(name) else "pay"
        own = function if function.isidentifier() else "pay"
        raise TypeError(f"ctx.{call} takes a name and then a function, as ctx.{call}({own!r}, {own}), or a `step` alone; and its name isn't {name!r}")


def given_failure(error: TerminalError, codec: Codec) -> core.Failure:
    return core.Failure(error.code, sealing.text(codec, error.message), error.metadata)


def policy_of(retry: Retry) -> core.RetryPolicy:
    numerator, denominator = retry.factor
    longest, most = _ms(retry.longest), None if retry.duration is None else _ms(retry.duration)
    return core.retry_exponential(
        _ms(retry.initial), numerator, denominator, longest=longest, attempts=retry.attempts, duration=most, pause=retry.pause
    )


class ReplayLog(logging.LoggerAdapter):  # type: ignore[type-arg]
    """A logger that is silent while the journal is replayed, and names the invocation."""

    def __init__(self, context: Context, invocation: str):
        super().__init__(handler_log, {"invocation": invocation})
        self._context = context

    def isEnabledFor(self, level: int) -> bool:
        return super().isEnabledFor(level) and self._context._is_new("ctx.log")

    def process(self, msg: Any, kwargs: MutableMapping[str, Any]) -> tuple[Any, MutableMapping[str, Any]]:
        return f"{self.extra['invocation'] if self.extra else ''} {msg}", kwargs


class Call(Leaf[T]):
    """The result of a call, and the id of what was called."""

    def __init__(self, id: int, handle: int, read: Callable[[Any], T]):
        super().__init__(handle, read)
        self.invocation_id: Durable[str] = Leaf(id, lambda came: str(came.id))


class _Chance(random.Random):
    """Random numbers that are the same in each attempt. They are drawn in the handler's own code alone: a run isn't executed again in a replay,
    so what it drew would be drawn by the next one."""

    context: Context

    def random(self) -> float:
        self.context._own("ctx.random")
        return super().random()

    def getrandbits(self, k: int, /) -> int:
        self.context._own("ctx.random")
        return super().getrandbits(k)


class _Entered(AbstractContextManager[None]):
    """The handler's own code runs. It is entered once a step, so it is no generator."""

    def __init__(self, context: Context):
        self._context = context

    def __enter__(self) -> None:
        self._context._thread = threading.get_ident()

    def __exit__(self, kind: type[BaseException] | None, error: BaseException | None, trace: TracebackType | None) -> None:
        self._context._thread = None
        if kind is None and self._context.refused is not None:
            raise CaughtTooMuch()


_INSTEAD = {
    "ctx.uuid": "draw it before, in the handler, and give it to the run as an argument; or take `ctx.run_key`, which each run has of its own",
    "ctx.random": "draw it before, in the handler, and give it to the run as an argument",
    "ctx.log": "a run has a logger of its own, as logging.getLogger(__name__)",
    "ctx.key": "take it before, in the handler, and give it to the run as an argument",
    "ctx.headers": "take them before, in the handler, and give them to the run as an argument",
    "ctx.scheduled": "take it before, in the handler, and give it to the run as an argument",
}


_NO_STATE = "{service} is a Service, which has no key and so no state; a VirtualObject has one"
_ONLY_READS = "this handler only reads the state: one that is registered by `handler`, or a workflow's `main`, changes it"
_NO_PROMISE = {
    "ServiceContext": "{service} is a Service, which has no promises; a Workflow has them, and an awakeable belongs to its handler",
    **dict.fromkeys(("ObjectContext", "SharedObjectContext"), "{service} is a VirtualObject, which has no promises; a Workflow has them, and an awakeable is one's own"),
}
_READS, _WRITES = ("get", "keys"), ("set", "clear", "clear_all")
_ABSENT: dict[str, dict[str, str]] = {
    **{it: {"ServiceContext": _NO_STATE} for it in _READS},
    **{it: {"ServiceContext": _NO_STATE, **dict.fromkeys(("SharedObjectContext", "SharedWorkflowContext"), _ONLY_READS)} for it in _WRITES},
    "promise": _NO_PROMISE,
}
"""Why a kind of context lacks a call that another has."""


class Context:
    """The calls that each handler has. `ServiceContext`, `ObjectContext` and the others have those of their kind beside these."""

    def __init__(
        self,
        vm: core.VM,
        input: core.Input,
        app: App,
        service: str,
        trace: Trace | None = None,
        *,
        patches: Mapping[int, str] | None = None,
        now: Callable[[], float] = time.time,
    ):
        """`patches` are those that the journal has, by the indices of their commands. `now` gives the time in seconds since the epoch."""
        self._patches, self._is_patched = dict(patches or {}), dict[str, bool]()
        self._vm, self._app, self._now = vm, app, now
        self._service = app.services[service]
        self.codec = self._codec = sealing.of(app.codec, input.value)
        self._key, self._headers = input.key, dict(input.headers)
        self.invocation_id = input.invocation_id
        self.traceparent = (trace or Trace.of(input.invocation_id, None)).header
        """The W3C's header `traceparent` for what the invocation asks of others, also within a run."""
        self._seed = input.random_seed
        self._log = ReplayLog(self, input.invocation_id)
        self.actions: dict[int, Action] = {}
        self._slept = 0
        self.left: list[int] = []  # sleeps, by their numbers in this invocation, that nobody can await any more
        self.asked = set[int]()  # handles of runs whose execution hasn't begun
        self.forgotten: list[str] = []  # runs and sleeps that the handler has made and never awaited
        self.awakeables: dict[str, Callable[[Any], Any]] = {}  # by id: what reads the value
        self.tasks: Tasks | None = None
        self.refused: BaseException | None = None
        self.refused_call: Asked | None = None  # of the core, if another command is recorded in its place
        self._thread: int | None = None  # in which the handler's own code runs, while it does
        self._entered = _Entered(self)
        self._shields = 0
        self.signals = Counter[str]()  # how many signals of a name the handler has asked for
        self.continues: ContinuedAsNew | None = None  # the handler was asked to end by this

    # ---- what the attempt does with it

    def entered(self) -> AbstractContextManager[None]:
        """The handler's own code runs."""
        return self._entered

    def end(self) -> Exception | None:
        """The attempt is over. Coroutines that wait are closed: their `finally` parts run, and may not use the context any more. Returns
        what is wrong with a coroutine that doesn't let itself be closed."""
        self.refused = self.refused or RuntimeError("the attempt is over")
        wrong: Exception | None = None
        self._thread = threading.get_ident()
        for task in self.tasks.open() if self.tasks is not None else ():
            try:
                task.coroutine.close()
            except RuntimeError as error:
                if "ignored GeneratorExit" in str(error):
                    wrong = CaughtTooMuch()
            except BaseException:  # raised in a `finally` part, which counts as little as what it does
                pass
        self._thread = None
        self.actions.clear()
        return wrong

    def _own(self, what: str) -> None:
        """What is asked for belongs to the handler's own code."""
        if self._thread != threading.get_ident():
            where = f"within the run {run.name!r}" if (run := running.get()) is not None else "outside the handler's own code"
            instead = _INSTEAD.get(what, "the context belongs to the handler: make its calls there, and give a run what it needs as arguments")
            raise OutsideHandler(f"{what} is used {where}: {instead}")

    def _is_new(self, what: str) -> bool:
        """Whether the handler does something for the first time, which no attempt before did."""
        self._own(what)
        return self.refused is None and self._vm.state() == "Processing"

    def _vm_call(self, name: str, *arguments: Any, **options: Any) -> Any:
        if self._thread != threading.get_ident():
            self._own("the context")
        if self.refused is not None:
            raise AttemptEnds()
        if self._patches and name.startswith("sys_"):
            self.pass_patches()
        try:
            return getattr(self._vm, name)(*arguments, **options)
        except (core.VMError, core.BadLine, UnicodeError) as error:
            if isinstance(error, core.JournalMismatch):
                self.refused_call = Asked(name, arguments, options)
            self._end(error)

    def write_output(self, value: bytes | core.Failure, has_next: bool = False) -> None:
        """The handler has ended with this result, or it continues as a new invocation that has this argument."""
        self.pass_patches()
        if has_next:
            self._write("sys_run", CONTINUED)
        self._write("sys_write_output", value)

    def _write(self, name: str, argument: Any) -> None:
        """Makes a call that ends the handler."""
        try:
            getattr(self._vm, name)(argument)
        except core.JournalMismatch:
            self.refused_call = Asked(name, (argument,), {})
            raise

    def pass_patches(self, until: str | None = None) -> None:
        """Goes past the patches that are recorded next, up to that of a name. The code doesn't ask for them any more."""
        while (name := self._patches.get(self._vm.last_command_index() + 1)) is not None and name != until:
            self._vm.sys_run(PATCHED + name)

    def _end(self, error: Exception) -> NoReturn:
        self.refused = error
        raise AttemptEnds() from error

    def _only(self, is_allowed: bool, why: str) -> None:
        """What a handler of this kind has no use for ends the invocation by an error that says why."""
        if not is_allowed and self.refused is None:
            self._own("the context")
            self._vm.notify_error(500, why, behaviour="fail")
            self._end(NoSuchUse(why))

    def _reader(self, kind: Any) -> Callable[[Any], Any]:
        """Reads what the VM has for a value; there being none is None, for every type."""
        return lambda came: None if came is core.VOID else decoded(self._codec, came, kind)

    def _result(self, kind: Any) -> Callable[[Any], Any]:
        """As `_reader`, for what others gave: a value that isn't of its type is a failure at its await, by which the handler can undo what it
        did."""
        read = self._reader(kind)

        def result(came: Any) -> Any:
            try:
                return read(came)
            except BadValue as error:
                raise TerminalError(f"a result that can't be read as {getattr(kind, '__name__', kind)}: {error}") from error

        return result

    def _given(self, value: Any) -> bytes | core.Failure:
        if isinstance(value, TerminalError):
            return given_failure(value, self._codec)
        return encoded(self._codec, value)

    if not TYPE_CHECKING:  # a type checker says that there is no such attribute, and what runs says why

        def __getattr__(self, name: str) -> Any:
            why = _ABSENT.get(name, {}).get(type(self).__name__)
            if why is None:
                raise AttributeError(f"{type(self).__name__} has no {name}", name=name, obj=self)
            self._only(False, why.format(service=self._service.name))
            raise AttemptEnds()

    @property
    def key(self) -> str:
        """The key that the handler is called with; empty in a service."""
        self._own("ctx.key")
        return self._key

    @property
    def headers(self) -> dict[str, str]:
        """The headers that the handler is called with."""
        self._own("ctx.headers")
        return self._headers

    @property
    def scheduled(self) -> datetime.datetime | None:
        """The time, with its zone UTC, for which a schedule has made this call; none if none has."""
        self._own("ctx.scheduled")
        at = self._headers.get("scheduled-for")
        return datetime.datetime.fromisoformat(at) if at is not None and "schedule" in self._headers else None

    @property
    def log(self) -> ReplayLog:
        """A logger that is silent while the journal is replayed, and names the invocation."""
        self._own("ctx.log")
        return self._log

    @property
    def random(self) -> random.Random:
        """Random numbers, the same in each attempt."""
        self._own("ctx.random")
        return self._random

    @functools.cached_property
    def _random(self) -> _Chance:
        made = _Chance(self._seed)
        made.context = self
        return made

    @property
    def run_key(self) -> str:
        """Within a run, a key for systems outside: it is the run's own, and the same each time that it is executed.

        `await ctx.run("pay", lambda: pay(ctx.run_key, amount))`"""
        run = running.get()
        if run is None:
            raise OutsideHandler("ctx.run_key is known within a run only: `ctx.run(name, lambda: pay(ctx.run_key, amount))`")
        return run.key

    # ---- time, chance, effects

    def sleep(self, seconds: float) -> Durable[None]:
        """Ends after this number of seconds, across crashes."""
        handle = self._vm_call("sys_sleep", max(0, _ms(time.time() + _seconds("ctx.sleep", seconds))))
        self._slept += 1
        return Timer(handle, self._slept - 1, self._leave, self.forgotten.append)

    def _leave(self, number: int) -> None:
        self.left.append(number)

    @overload
    def run(self, step: Step[P, Awaitable[T]], /, *arguments: P.args, **named: P.kwargs) -> Durable[T]: ...
    @overload
    def run(self, step: Step[P, T], /, *arguments: P.args, **named: P.kwargs) -> Durable[T]: ...
    @overload
    def run(
        self, name: str, function: Callable[..., Awaitable[T]], /, *arguments: Any,
        retry: Retry | None = None, timeout: float | None = None, heartbeat: float | None = None, gives: Any = None, **named: Any,
    ) -> Durable[T]: ...  # fmt: skip
    @overload
    def run(
        self, name: str, function: Callable[..., T], /, *arguments: Any,
        retry: Retry | None = None, timeout: float | None = None, heartbeat: float | None = None, gives: Any = None, **named: Any,
    ) -> Durable[T]: ...  # fmt: skip
    def run(self, what: Any, /, *given: Any, **named: Any) -> Durable[Any]:
        """Executes an effect once it is awaited, and keeps its result.

        It is executed at least once: a crash before the result is stored executes it again, so give what is outside an idempotency key, as
        `ctx.run_key` or `ctx.uuid()`. A plain function runs in a thread. A `TerminalError` is its result; another error is tried again by
        `retry`, without which it is tried for ever. So is one that takes longer than `timeout` seconds; a plain function can't be stopped, and its thread
        goes on. So is one that calls `palqytun.runtime.heartbeat` not once in `heartbeat` seconds. A result that the codec can't write is a `TerminalError`, so that the effect isn't executed again. `gives` is the result's type, if
        the function's annotation doesn't say it. A `step` has name, retries and time limit of its own: `ctx.run(pay, order)`."""
        if isinstance(what, Step):
            return self._run(what, given, named, None)
        _check_name_of_run("run", what)
        retry, timeout, beats, gives = (named.pop(it, None) for it in ("retry", "timeout", "heartbeat", "gives"))
        function = given[0] if given else None
        if isinstance(function, Step):
            retry, timeout, beats, function = retry or function.retry, timeout or function.timeout, beats or function.heartbeat, function.function
        return self._run(self._step(what, function, retry, timeout, beats), given[1:], named, gives)

    @overload
    def transaction(
        self, step: Step[Concatenate[Transaction, P], Awaitable[T]], /, *arguments: P.args, **named: P.kwargs
    ) -> Durable[T]: ...  # fmt: skip
    @overload
    def transaction(
        self, name: str, function: Callable[Concatenate[Transaction, P], Awaitable[T]], /, *arguments: P.args, **named: P.kwargs
    ) -> Durable[T]: ...  # fmt: skip
    def transaction(self, what: Any, /, *given: Any, **named: Any) -> Durable[Any]:
        """Executes the statements of an `async` function once it is awaited, and commits them in one transaction with the record of its result. They
        are on the database of the runtime, and so exactly once.

            async def moves(to: Transaction, amount: int) -> int: ..
                await to.execute("UPDATE accounts SET amount=amount-? WHERE name=?", amount, "ann")

            await ctx.transaction("moves", moves, 5)

        If it raises an error nothing of it is stored. A `TerminalError` is its result; another error is tried again, for ever. So is one that takes
        longer than 30 seconds. A `step` has a name, retries and a time limit of its own:

            @step(retry=Retry(attempts=3), timeout=5)
            async def moves(to: Transaction, amount: int) -> int: ..

            await ctx.transaction(moves, 5)
        """
        step = what
        if not isinstance(what, Step):
            _check_name_of_run("transaction", what)
            step, given = Step(given[0] if given else None, what), given[1:]
        if not inspect.iscoroutinefunction(step.function):
            raise TypeError(f"ctx.transaction({step.name!r}, ..) takes an `async` function, whose first argument is the transaction, and not {step.function!r}")
        return self._run(step, given, named, None, is_transaction=True)

    @staticmethod
    def _step(name: str, function: Any, retry: Retry | None, timeout: float | None, heartbeat: float | None) -> Step[Any, Any]:
        if not callable(function):
            given = "its coroutine" if inspect.iscoroutine(function) else repr(function)
            raise TypeError(f"ctx.run({name!r}, ..) takes a function, and its arguments after it; and not {given}")
        return Step(function, name, retry, timeout, heartbeat)

    def _run(self, step: Step[Any, Any], given: tuple[Any, ...], named: dict[str, Any], gives: Any, *, is_transaction: bool = False) -> Durable[Any]:
        if step.name.startswith(OWN):
            raise ValueError(f"the name of a run doesn't begin with {OWN}, and {step.name[:100]!r} does")
        policy = _FOREVER if step.retry is None else policy_of(step.retry)
        run = self._vm_call("sys_run", step.name)
        index = self._vm.last_command_index()
        function: Callable[..., Any] = step.function
        if named:
            function = functools.partial(function, **named)
        key = f"{self.invocation_id}-{index}"
        action = Action(step.name, function, given, policy, key, index, step.timeout, step.heartbeat, is_transaction, step.retry or Retry())
        self.actions[run.handle] = action
        self.asked.add(run.handle)
        return Run(run.handle, self._result(_result_of(step.function) if gives is None else gives), step.name, self.forgotten.append)

    def uuid(self) -> str:
        """A random UUID, the same in each attempt."""
        self._own("ctx.uuid")
        return str(uuid.UUID(int=self._random.getrandbits(128), version=4))

    def now(self) -> Durable[float]:
        """The time in seconds since the epoch, as it was when this was first awaited."""
        return self.run("now", self._now)

    def timeout(self, awaited: Durable[T], seconds: float) -> Durable[T]:
        """The result, if it comes in that time, in seconds; else it raises `TimedOut`, which is a `TimeoutError` and a `TerminalError` with code 408.
        Then the calls that were awaited are cancelled, and a coroutine of `spawn` gets `Cancelled`. A run goes on, and its result isn't waited for."""
        _seconds("ctx.timeout", seconds)
        return self.spawn(self._timed(awaited, self.sleep(seconds), seconds))

    async def _timed(self, awaited: Durable[T], over: Durable[None], seconds: float) -> T:
        which, came = await select(awaited, over)
        if which == 0:
            return cast("T", came)
        await self._give_up(awaited)
        raise TimedOut(f"it took longer than {seconds:g} s")

    async def _give_up(self, awaited: Durable[Any]) -> None:
        """Cancels what nobody waits for any more."""
        for it in list(awaited.pending()):
            if isinstance(it, Call):
                self.cancel(await it.invocation_id)
            elif isinstance(it, Task):
                if it.waits is not None:
                    await self._give_up(it.waits)
                assert self.tasks is not None
                self.tasks.cancel(it)

    @contextlib.contextmanager
    def shield(self) -> Iterator[None]:
        """Within it the invocation isn't cancelled: a cancellation that comes meanwhile is raised by the first await after it. It holds for all
        coroutines of the handler. A `kill` isn't held up.

            with ctx.shield():
                await ctx.run("ship", ship)
                await ctx.run("book", book)
        """
        self._own("ctx.shield")
        self._shields += 1
        try:
            yield
        finally:
            self._shields -= 1

    @property
    def is_shielded(self) -> bool:
        """Whether a coroutine of the handler is within a `shield`."""
        return self._shields > 0

    def spawn(self, coroutine: Coroutine[Any, Any, T]) -> Durable[T]:
        """Runs a coroutine of durables beside the handler. It ends with the handler."""
        assert self.tasks is not None
        if not inspect.iscoroutine(coroutine):
            raise TypeError(f"ctx.spawn takes a coroutine, as ctx.spawn(one(ctx)) of an `async def one`, and not {coroutine!r}")
        task: Task[T] = Task(coroutine)
        self.tasks.add(task)
        return task

    def patched(self, name: str) -> bool:
        """Whether a change of the handler's code applies: `if ctx.patched("mail"): await ctx.run("mail", mail)`.

        It does if the handler gets here for the first time, and this is recorded. It doesn't if an attempt by the code before the change has been
        here, so that the handler makes the calls that are recorded. It is the same at each place and in each attempt of an invocation. Once
        no invocation is open that began before the change, the question can be taken out of the code, and what it asked for stays."""
        self._own("ctx.patched")
        if name not in self._is_patched and self.refused is None:
            self.pass_patches(until=name)
            is_recorded = self._patches.get(self._vm.last_command_index() + 1) == name
            self._is_patched[name] = is_recorded or self._vm.state() == "Processing"
            if self._is_patched[name]:
                self._patches.pop(self._vm.last_command_index() + 1, None)
                self._vm_call("sys_run", PATCHED + name)
        return self._is_patched.get(name, False)

    def set_attribute(self, name: str, value: attributes.Value | None) -> None:
        """Says something of this invocation by which people find it, on the page, by `palqytun invocations list --attribute customer=ann`, and in the view
        `palqytun_attributes`. It stays until it is set again; None takes it away. It can be seen at once.

            ctx.set_attribute("customer", order.customer)
            ctx.set_attribute("stage", "paid")

        It is recorded as a command, so it is made once, and a handler makes the same ones in each attempt. Name and value have at most 1,000 bytes; a name
        has no = and no &. Otherwise it raises a `TerminalError` with code 400. What is secret doesn't belong here."""
        self._own("ctx.set_attribute")
        self._vm_call("sys_run", attribute(name, attributes.checked(name, value)))

    def continue_as_new(self, argument: Any = None) -> NoReturn:
        """Ends this invocation, and begins a new one of the same handler with this argument in its place: with the same key, headers, idempotency key
        and caller, and an empty journal. It raises what ends the handler, so nothing after it is executed.

            async def month(ctx: ObjectContext, number: int) -> str:
                await ctx.run(send, ctx.key, number)
                await ctx.sleep(30 * 86400)
                ctx.continue_as_new(number + 1)

        Those who wait for this invocation get the result of the last one. A key stays held meanwhile, so no other invocation of it comes between. Signals
        that came and weren't asked for go over; what comes for this one's sleeps, calls and awakeables doesn't."""
        self._own("ctx.continue_as_new")
        self.continues = ContinuedAsNew(encoded(self._codec, argument))
        raise self.continues

    # ---- other handlers

    def _target(self, target: Handler[Any, Any] | str) -> tuple[str, str, Any]:
        """Service, name, and the type of the result."""
        service, name = named(target)
        handler = target if isinstance(target, Handler) else self._app.known(service, name)
        return service, name, Any if handler is None else handler.gives

    def call(
        self,
        target: Handler[I, O] | str,
        argument: I | Any = None,
        *,
        key: str | None = None,
        idempotency_key: str | None = None,
        headers: dict[str, str] | None = None,
        priority: int = 0,
        queue_key: str | None = None,
    ) -> Call[O]:
        """Calls a handler, or `"Service/handler"`. Awaited, it gives the handler's result. `priority` and `queue_key` are for its `Queue`, if it has one."""
        service, name, gives = self._target(target)
        _check_names(service, name, key, idempotency_key)
        told = to_text_headers(queues.headers(headers, priority, queue_key))
        options = {"key": key, "idempotency_key": idempotency_key, "headers": told}
        id, handle = self._vm_call("sys_call", service, name, encoded(self._codec, argument), **options)
        return Call(id, handle, self._result(gives))

    def send(
        self,
        target: Handler[I, Any] | str,
        argument: I | Any = None,
        *,
        key: str | None = None,
        delay: float = 0,
        idempotency_key: str | None = None,
        headers: dict[str, str] | None = None,
        priority: int = 0,
        queue_key: str | None = None,
    ) -> Durable[str]:
        """Calls a handler, at once or after a delay in seconds, and doesn't wait for it. Awaited, it gives the invocation's id. `priority` and
        `queue_key` are for its `Queue`, if it has one. If no worker that is alive serves the handler, the invocation waits for one."""
        service, name, _ = self._target(target)
        _check_names(service, name, key, idempotency_key)
        told = to_text_headers(queues.headers(headers, priority, queue_key))
        options = {"key": key, "idempotency_key": idempotency_key, "headers": told}
        at = _ms(time.time() + _seconds("the delay of ctx.send", delay)) if delay else None
        return Leaf(self._vm_call("sys_send", service, name, encoded(self._codec, argument), at=at, **options), lambda came: str(came.id))

    @overload
    def attach(self, invocation_id: str, gives: type[T]) -> Durable[T]: ...
    @overload
    def attach(self, invocation_id: str, gives: Any = Any) -> Durable[Any]: ...
    def attach(self, invocation_id: str, gives: Any = Any) -> Durable[Any]:
        """The result of another invocation, once it has ended."""
        return Leaf(self._vm_call("sys_attach_invocation", core.InvocationId(invocation_id)), self._result(gives))

    def cancel(self, invocation_id: str) -> None:
        """Cancels another invocation: what it awaits raises `Cancelled`."""
        self._vm_call("sys_cancel_invocation", invocation_id)

    # ---- what others complete

    @overload
    def awakeable(self, kind: type[T]) -> tuple[str, Durable[T]]: ...
    @overload
    def awakeable(self, kind: Any = Any) -> tuple[str, Durable[Any]]: ...
    def awakeable(self, kind: Any = Any) -> tuple[str, Durable[Any]]:
        """An id to hand out, and what comes once others complete it."""
        awakeable = self._vm_call("sys_awakeable")
        self.awakeables[awakeable.id] = self._reader(kind)
        return awakeable.id, Leaf(awakeable.handle, self._result(kind))

    def resolve_awakeable(self, id: str, value: Any = None) -> None:
        self._vm_call("sys_complete_awakeable", id, self._given(value))

    def reject_awakeable(self, id: str, message: str, code: int = 500) -> None:
        self.resolve_awakeable(id, TerminalError(message, code))

    @overload
    def signal(self, name: str, kind: type[T]) -> Durable[T]: ...
    @overload
    def signal(self, name: str, kind: Any = Any) -> Durable[Any]: ...
    def signal(self, name: str, kind: Any = Any) -> Durable[Any]:
        """The next signal of this name."""
        handle = self._vm_call("create_signal_handle", name)
        self.signals[name] += 1
        return Leaf(handle, self._result(kind))

    def send_signal(self, invocation_id: str, name: str, value: Any = None) -> None:
        self._vm_call("sys_complete_signal", invocation_id, name, self._given(value))


_results: weakref.WeakKeyDictionary[Any, Any] = weakref.WeakKeyDictionary()


def _result_of(function: Any) -> Any:
    """The type that a run's function says it returns."""
    try:
        if function not in _results:
            _results[function] = typing.get_type_hints(function).get("return", Any)
        return _results[function]
    except Exception:  # it can't be a key, or its annotations can't be evaluated here
        return Any
