"""Services and their handlers: what an app registers."""

from __future__ import annotations

import functools
import hashlib
import inspect
import math
import operator
import pathlib
import random
import typing
from collections.abc import Awaitable, Callable, Iterable, Mapping
from dataclasses import dataclass, field
from typing import TYPE_CHECKING, Any, Generic, Never, TypeVar

from . import headers as request_headers
from .codec import Codec, JsonCodec, decoded, encoded
from .extras import needed
from .texts import plain, said

if TYPE_CHECKING:
    from .contexts import ObjectContext, ServiceContext, SharedObjectContext, SharedWorkflowContext, WorkflowContext
    from .queues import Queue
    from .schedules import Schedule
    from .serving import Mountable

I = TypeVar("I")
O = TypeVar("O")
Function = Callable[[Any, I], Awaitable[O]]


def to_text_headers(headers: dict[str, str] | None) -> tuple[tuple[str, str], ...]:
    return () if headers is None else tuple(headers.items())


class TerminalError(Exception):
    """Ends the handler with a failure; nothing is tried again. A failed call, promise or signal raises it.

    `message` is text, or an error whose text is taken. `code` is a whole number from 0 to 65535, and `metadata` has texts by their names, as a
    mapping or as pairs."""

    def __init__(self, message: object, code: int = 500, metadata: Mapping[str, str] | Iterable[tuple[str, str]] = ()):
        text = message if isinstance(message, str) else said(message) if isinstance(message, BaseException) else str(message)
        super().__init__(text)
        self.message, self.code, self.metadata = plain(text), _code(code), _pairs(metadata)


def _code(code: object) -> int:
    try:
        number = operator.index(code)  # type: ignore[arg-type]
    except TypeError:
        raise TypeError(f"a failure's code is a whole number, and not {code!r}") from None
    if not 0 <= number <= 0xFFFF:
        raise ValueError(f"a failure's code must be from 0 to 65535, not {number}")
    return number


def _pairs(metadata: Mapping[str, str] | Iterable[tuple[str, str]]) -> tuple[tuple[str, str], ...]:
    pairs = tuple(tuple(it) for it in (metadata.items() if isinstance(metadata, Mapping) else metadata))
    for pair in pairs:
        if len(pair) != 2 or not all(isinstance(it, str) for it in pair):
            raise TypeError(f"a failure's metadata are pairs of texts, and not {pair!r}")
    return tuple((plain(name), plain(value)) for name, value in pairs)


class Cancelled(TerminalError):
    """The invocation was cancelled. What the handler does then, as undoing what it did, is its own."""

    def __init__(self, message: str = "cancelled"):
        super().__init__(message, 409)


class IdempotencyConflict(TerminalError):
    """The idempotency key is that of `invocation`, which was called with another argument. Nothing was stored."""

    def __init__(self, key: str, invocation: str):
        super().__init__(f"the idempotency key {key[:200]!r} is that of {invocation}, which was called with another argument", 409, {"invocation": invocation})
        self.invocation = invocation


class TimedOut(TerminalError, TimeoutError):
    """What was awaited didn't come in its time."""

    def __init__(self, message: str = "it took too long"):
        super().__init__(message, 408)


@dataclass(frozen=True)
class Retry:
    """When a failed run, or a failed attempt of a handler, is tried again. Times are in seconds.

    The first delay is `initial`. Each next one is larger by `factor` (numerator, denominator), up to `longest`. It is tried `attempts` times at most,
    and for `duration` seconds at most; without them there is no bound. Then `pause` pauses the invocation, and without it the error is the result.

    Each delay is shorter by chance, by at most this part of it (`jitter`), so that what failed together isn't tried again all at once."""

    initial: float = 0.05
    factor: tuple[int, int] = (2, 1)
    longest: float = 10.0
    attempts: int | None = None
    duration: float | None = None
    pause: bool = False
    jitter: float = 0.2

    def __post_init__(self) -> None:
        if not 0 <= self.jitter <= 1:
            raise ValueError(f"jitter is a part of a delay, from 0 to 1, and not {self.jitter}")
        times = {"initial": self.initial, "longest": self.longest, "duration": 0.0 if self.duration is None else self.duration}
        for name, seconds in times.items():
            if not 0 <= seconds < math.inf:
                raise ValueError(f"{name} is a number of seconds from 0, and not {seconds}")
        if self.attempts is not None and self.attempts < 1:
            raise ValueError(f"attempts is at least 1, and not {self.attempts}")
        numerator, denominator = self.factor
        if numerator < 0 or denominator < 1:
            raise ValueError(f"factor is a pair of whole numbers (numerator, denominator), and not {self.factor}")

    def delay(self, failures: int) -> float:
        """The delay in seconds after this number of failures."""
        numerator, denominator = self.factor
        try:
            return float(min(self.longest, self.initial * (numerator / denominator) ** (failures - 1)))
        except OverflowError:
            return self.longest

    def jittered(self, delay: float) -> float:
        """A delay in seconds, shortened by chance.

        >>> 0.8 <= Retry().jittered(1.0) <= 1.0, Retry(jitter=0).jittered(1.0)
        (True, 1.0)
        """
        return delay * (1 - self.jitter * random.random())

    def is_over(self, failures: int, failing: float) -> bool:
        """Whether it isn't tried again after this number of failures within `failing` seconds."""
        return (self.attempts is not None and failures >= self.attempts) or (self.duration is not None and failing >= self.duration)


ATTEMPTS = Retry(attempts=50, pause=True)  # of a handler that says nothing else
_LIMITS_OF_TIME = ("timeout", "queue_timeout", "attempt_timeout")


@dataclass
class Handler(Generic[I, O]):
    """A handler of a service. `exclusive` ones of a key run one at a time and may change its state. `limit` is how many of its attempts may run
    at once, over all workers; a `queue` limits more, also for several handlers. These are times in seconds: `timeout`, within which an invocation has to end after it was due to begin;
    `queue_timeout`, within which its first attempt has to begin; and `attempt_timeout`, which an attempt may take."""

    service: "Service"
    name: str
    function: Function[I, O]
    exclusive: bool = False
    retry: Retry = ATTEMPTS
    limit: int | None = None
    queue: Queue | None = None
    timeout: float | None = None
    queue_timeout: float | None = None
    attempt_timeout: float | None = None
    takes: Any = Any
    gives: Any = Any

    def __post_init__(self) -> None:
        self._check_kinds()
        if self.limit is not None and self.limit < 1:
            raise ValueError(f"{self.path} has the limit {self.limit}, so it would never run")
        if self.limit is not None and self.queue is not None:
            raise ValueError(f"{self.path} has a limit and a queue: give the queue the concurrency {self.limit}")
        for name in _LIMITS_OF_TIME:
            seconds = getattr(self, name)
            if seconds is not None and not 0 < seconds < math.inf:
                raise ValueError(f"{self.path} has the {name} {seconds}, and it is a number of seconds above 0")

    def _check_kinds(self) -> None:
        """`TypeError` for an option of another kind than is wanted."""
        if not isinstance(self.retry, Retry):
            raise TypeError(f"{self.path} has the retry {self.retry!r}, and it is a Retry, as Retry(attempts=5)")
        if self.queue is not None and not hasattr(self.queue, "limits"):
            raise TypeError(f"{self.path} has the queue {self.queue!r}, and it is a Queue, as Queue('mail', concurrency=10)")
        for name in ("limit", *_LIMITS_OF_TIME):
            it = getattr(self, name)
            if it is not None and (isinstance(it, bool) or not isinstance(it, (int, float))):
                raise TypeError(f"{self.path} has the {name} {it!r}, and it is a number")

    @property
    def path(self) -> str:
        return f"{self.service.name}/{self.name}"

    if not TYPE_CHECKING:  # for a type checker it can't be called

        def __call__(self, *arguments: object, **named: object) -> None:
            raise TypeError(f"{self.path} isn't called as a function: a handler calls it by `ctx.call({self.name}, ..)`, and a test by palqytun.testing")


_BY_POSITION = (inspect.Parameter.POSITIONAL_ONLY, inspect.Parameter.POSITIONAL_OR_KEYWORD)


def _without_types(signature: inspect.Signature) -> inspect.Signature:
    """The names of a function's parameters, as they are given."""
    plain = [it.replace(annotation=inspect.Parameter.empty) for it in signature.parameters.values()]
    return inspect.Signature(plain)


def _types_of(function: Callable[..., Any]) -> tuple[Any, Any, inspect.Signature]:
    """What a handler's annotations say of its argument and its result, and its parameters."""
    signature = inspect.signature(function)
    parameters = list(signature.parameters.values())
    try:
        hints = typing.get_type_hints(function)
    except NameError:  # a name that is only there for the type checker
        hints = {}
    takes = hints.get(parameters[1].name, Any) if len(parameters) > 1 else Any
    return takes, hints.get("return", Any), signature


def _source(function: Callable[..., Any]) -> bytes:
    """The file that defines a function; of one that has no file, what it is compiled to."""
    try:
        return pathlib.Path(inspect.getsourcefile(function) or "").read_bytes()
    except (OSError, TypeError):
        return repr(inspect.unwrap(function).__code__.co_code).encode()


@dataclass
class Service:
    """Handlers without a key, which run side by side."""

    name: str
    handlers: dict[str, Handler[Any, Any]] = field(default_factory=dict)
    keyed = False
    workflow = False

    def __post_init__(self) -> None:
        if not isinstance(self.name, str) or not self.name or "/" in self.name or self.name == "-":
            raise ValueError(f"a service has a name without /, as Service('Shop'), and {self.name!r} is none")

    def _add(self, exclusive: bool, bare: tuple[object, ...], **options: Any) -> Callable[[Function[I, O]], Handler[I, O]]:
        if bare:
            raise TypeError(f"a handler of {self.name} is registered by a call: @{self.name.lower()}.handler(), with brackets; its options have names")

        def added(function: Function[I, O]) -> Handler[I, O]:
            name = function.__name__
            if not inspect.iscoroutinefunction(function):
                raise TypeError(f"{self.name}/{name} is no `async def`")
            takes, gives, signature = _types_of(function)
            if len(signature.parameters) != 2 or any(it.kind not in _BY_POSITION for it in signature.parameters.values()):
                raise TypeError(f"{self.name}/{name} takes {_without_types(signature)}; a handler takes its context and one argument, both by position")
            if name in self.handlers:
                raise ValueError(f"{self.name} has two handlers with the name {name}")
            self.handlers[name] = handler = Handler(self, name, function, exclusive, takes=takes, gives=gives, **options)
            return handler

        return added

    def handler(self, *bare: Never, **options: Any) -> Callable[[Callable[[ServiceContext, I], Awaitable[O]]], Handler[I, O]]:
        """Registers a handler under its function's name. `retry` says when its attempts are tried again, and `limit` how many of them may run
        at once; `queue` is a `Queue`, with limits of more kinds. An invocation that hasn't ended `timeout` seconds after it was due, or hasn't begun within `queue_timeout`, ends with code 408, and its
        calls are cancelled. An attempt that takes longer than `attempt_timeout` has failed, and is tried again."""
        return self._add(self.keyed and not self.workflow, bare, **options)


class VirtualObject(Service):
    """Handlers with a key and its state. One handler of a key runs at a time, except for those that are `shared`, which only read."""

    keyed = True

    def handler(self, *bare: Never, **options: Any) -> Callable[[Callable[[ObjectContext, I], Awaitable[O]]], Handler[I, O]]:  # type: ignore[override]
        """Registers a handler that runs alone beside the others of its key, and may change the state."""
        return self._add(self.keyed and not self.workflow, bare, **options)

    def shared(self, *bare: Never, **options: Any) -> Callable[[Callable[[SharedObjectContext, I], Awaitable[O]]], Handler[I, O]]:
        """Registers a handler that reads the state and doesn't wait for others of its key."""
        return self._add(False, bare, **options)


class Workflow(VirtualObject):
    """A `main` that runs once a key, and handlers beside it, which look at its state and complete its promises."""

    workflow = True

    def handler(self, *bare: Never, **options: Any) -> Callable[[Callable[[SharedWorkflowContext, I], Awaitable[O]]], Handler[I, O]]:  # type: ignore[override]
        """Registers a handler that runs beside `main`: it reads the state and completes promises."""
        return self._add(False, bare, **options)

    def main(self, *bare: Never, **options: Any) -> Callable[[Callable[[WorkflowContext, I], Awaitable[O]]], Handler[I, O]]:
        """Registers the handler that runs once a key."""
        return self._add(True, bare, **options)


def _check_main(it: Workflow) -> None:
    mains = [handler.name for handler in it.handlers.values() if handler.exclusive]
    if len(mains) != 1:
        found = f"has {' and '.join(mains)}" if mains else "has none"
        raise ValueError(f"a workflow has one main, as @{it.name.lower()}.main(), which is registered before the app is made; {it.name} {found}")


def named(target: Handler[Any, Any] | str) -> tuple[str, str]:
    """The service and the name of what is called. `TerminalError` with code 400 for what is no handler, and no "Service/handler"."""
    if isinstance(target, Handler):
        return target.service.name, target.name
    service, slash, name = target.partition("/") if isinstance(target, str) else ("", "", "")
    if not (service and slash and name):
        raise TerminalError(f"{target!r} is no handler: it is one that `@service.handler()` has made, or a text as 'Service/handler'", 400)
    return service, name


class App:
    """The services of a program, its schedules, and the codec of its values. `headers` are names of request headers, as "x-tenant", which a handler
    gets by `ctx.headers` if a request has them; no others are stored."""

    def __init__(self, *services: Service, codec: Codec | None = None, schedules: Iterable[Schedule] = (), headers: Iterable[str] = ()):
        self.services: dict[str, Service] = {}
        for it in services:
            if not isinstance(it, Service):
                raise TypeError(f"an app has services, objects and workflows, as App(Service('Shop')), and not {it!r}")
            if it.name in self.services:
                raise ValueError(f"there are two services with the name {it.name}")
            if isinstance(it, Workflow):
                _check_main(it)
            self.services[it.name] = it
        self.queues = self._queues()
        self.codec: Codec = JsonCodec() if codec is None else codec
        self.headers = request_headers.checked(headers)
        self.schedules: dict[str, Schedule] = {}
        self.scheduled: dict[str, bytes] = {}  # the arguments of the schedules
        for one in schedules:
            if one.name in self.schedules:
                raise ValueError(f"there are two schedules with the name {one.name}")
            if self.services.get(one.target.service.name) is not one.target.service:
                raise ValueError(f"the schedule {one.name} calls {one.target.path}, which isn't of this app")
            self.schedules[one.name], self.scheduled[one.name] = one, self._argument(one)

    def _queues(self) -> dict[str, Queue]:
        """The queues of the handlers, by name."""
        found: dict[str, Queue] = {}
        for it in (handler.queue for service in self.services.values() for handler in service.handlers.values()):
            if it is not None and found.setdefault(it.name, it) != it:
                raise ValueError(f"there are two queues with the name {it.name}: {found[it.name]} and {it}")
        return found

    def _argument(self, it: Schedule) -> bytes:
        """A schedule's argument as it is stored, which its handler has to understand."""
        try:
            data = encoded(self.codec, it.argument)
            decoded(self.codec, data, it.target.takes)
        except Exception as error:
            raise ValueError(f"the argument of the schedule {it.name} is none that {it.target.path} takes: {error}") from error
        return data

    @functools.cached_property
    def version(self) -> str:
        """The version of this code, as long as nothing else names it: a hash of the files in which its handlers are defined, and of their names.
        What other modules do isn't in it."""
        found = hashlib.blake2b(digest_size=6)
        handlers = sorted((it for service in self.services.values() for it in service.handlers.values()), key=lambda it: it.path)
        for it in handlers:
            found.update(f"{it.path}\0{int(it.exclusive)}\0".encode())
        for source in sorted({_source(it.function) for it in handlers}):
            found.update(source)
        return found.hexdigest()

    def limited(self) -> list[Handler[Any, Any]]:
        """The handlers that have a limit, in the order of their paths."""
        found = [it for service in self.services.values() for it in service.handlers.values() if it.limit is not None]
        return sorted(found, key=lambda it: it.path)

    def known(self, service: str, handler: str) -> Handler[Any, Any] | None:
        """A handler by its name; none if there is no such one."""
        found = self.services.get(service)
        return None if found is None else found.handlers.get(handler)

    def has_limit(self, service: str, handler: str) -> bool:
        known = self.known(service, handler)
        return known is not None and (known.limit is not None or known.queue is not None)

    def retry_of(self, service: str, handler: str) -> Retry:
        """When attempts of a handler are tried again, even if there is no such handler any more."""
        known = self.known(service, handler)
        return ATTEMPTS if known is None else known.retry

    def find(self, service: str, handler: str) -> Handler[Any, Any]:
        """A handler by its name; there being none is a terminal error with code 404."""
        known = self.known(service, handler)
        if known is None:
            raise TerminalError(f"there is no handler {service}/{handler}", 404)
        return known

    def asgi(
        self, url: str = "palqytun.db", *, token: str | None = None, origins: Iterable[str] = (), wait: float = 60.0, payload: int | None = None, **worker: Any
    ) -> Mountable:
        """The ingress as an ASGI application, with a worker of this app on the database `url`. Whoever serves it runs the worker by its
        `lifespan`; mounted in another application, that one's lifespan has to do so:

            durable = app.asgi("postgresql://..")
            site = Starlette(routes=[Mount("/durable", durable)], lifespan=durable.lifespan)

        `token` is the bearer token that requests need, and `origins` are addresses under which browsers know it, as "https://ops.example": without a
        token, a request for another host than localhost and these is refused. A call waits `wait` seconds for its result, if it doesn't say, and a body has at
        most `payload` bytes (4 MiB). `worker` are options of `Engine`, such as `limit`. Raises `MissingExtra` if the extra `server` isn't installed."""
        engine = needed("palqytun.runtime.engine", "server", "the ingress").Engine(self, url, **worker)
        serving = needed("palqytun.runtime.serving", "server", "the ingress")
        limits = {"wait": wait} if payload is None else {"wait": wait, "payload": payload}
        made: Mountable = serving.Mountable(engine, serving.Settings(token, tuple(origins), **limits))
        return made
