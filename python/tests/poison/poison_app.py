"""The handlers of the poison tests: each kind is a handler, or a run of one, that does what no handler should. `healthy` stands beside them."""

import asyncio
import dataclasses
import json
import os
import threading
import time
from typing import Any

from palqytun.runtime import App, Context, JsonCodec, Retry, Service, TerminalError, VirtualObject, gather

poison, thing = Service("P"), VirtualObject("O")
FEW = Retry(initial=0.01, attempts=2, pause=True)
TWICE = Retry(initial=0.01, attempts=2)


class Unprintable(Exception):
    def __str__(self) -> str:
        raise RuntimeError("no text")


class Exits(Exception):
    def __str__(self) -> str:
        raise SystemExit(3)


class Own(BaseException):
    pass


class Unmade(TerminalError):
    """A subclass that doesn't make its base."""

    def __init__(self) -> None:
        pass


def _deep(levels: int) -> list:
    found: list = []
    for _ in range(levels):
        found = [found]
    return found


def _cyclic() -> list:
    found: list = []
    found.append(found)
    return found


def _caused() -> Exception:
    first, second = ValueError("first"), ValueError("second")
    first.__cause__, second.__cause__ = second, first
    return first


def _recurses(n: int = 0) -> int:
    return _recurses(n + 1) + 1


RAISED = {
    "SystemExit": lambda: SystemExit(3),
    "SystemExit without a status": lambda: SystemExit(),
    "KeyboardInterrupt": lambda: KeyboardInterrupt(),
    "CancelledError": lambda: asyncio.CancelledError("not yours"),
    "GeneratorExit": lambda: GeneratorExit(),
    "StopIteration": lambda: StopIteration(1),
    "StopAsyncIteration": lambda: StopAsyncIteration(),
    "an own BaseException": lambda: Own("mine"),
    "a group of exits": lambda: BaseExceptionGroup("both", [SystemExit(1), KeyboardInterrupt()]),
    "a group of errors": lambda: ExceptionGroup("both", [ValueError(1), Unprintable()]),
    "an error without a text": lambda: Unprintable(),
    "an error whose text exits": lambda: Exits(),
    "MemoryError": lambda: MemoryError("no room"),
    "an error with NUL": lambda: ValueError("a\0b"),
    "an error with surrogates": lambda: OSError("caf\udce9"),
    "an error with a long text": lambda: ValueError("x" * 5_000_000),
    "causes in a circle": _caused,
    "a terminal error of an error": lambda: TerminalError(ValueError("inner")),
    "a terminal error with a mapping": lambda: TerminalError("x", 400, {"a": "b"}),
    "a terminal error that isn't made": lambda: Unmade(),
}


async def raises(ctx: Context, what: str) -> None:
    raise RAISED[what]()


async def raises_later(ctx: Context, what: str) -> None:
    await ctx.run("before", lambda: 1)
    raise RAISED[what]()


async def run_raises(ctx: Context, what: str) -> None:
    def effect() -> None:
        raise RAISED[what]()

    await ctx.run("raises", effect, retry=TWICE)


async def async_run_raises(ctx: Context, what: str) -> None:
    async def effect() -> None:
        await asyncio.sleep(0)
        raise RAISED[what]()

    await ctx.run("raises", effect, retry=TWICE)


# ---- what handlers do


@dataclasses.dataclass
class Picky:
    name: str

    def __post_init__(self) -> None:
        if self.name == "exit":
            raise SystemExit(4)
        if self.name != "good":
            raise KeyError(self.name)


class Odd:
    """A value by which the codec does what no codec should."""

    def __init__(self, what: str):
        self.what = what


class OddCodec(JsonCodec):
    def encode(self, value: Any) -> bytes:
        if not isinstance(value, Odd):
            return super().encode(value)
        if value.what == "exit":
            raise SystemExit(5)
        if value.what == "str":
            return "text"  # type: ignore[return-value]
        if value.what == "none":
            return None  # type: ignore[return-value]
        return json.dumps({"odd": value.what}).encode()

    def decode(self, data: bytes, kind: Any) -> Any:
        value = super().decode(data, kind)
        if isinstance(value, dict) and value.get("odd") == "decode":
            raise SystemExit(6)
        if isinstance(value, dict) and value.get("odd") == "interrupt":
            raise KeyboardInterrupt
        return value


async def _catches_all(ctx: Context) -> None:
    other = ctx.sleep(3600)
    try:
        await ctx.sleep(3600)
    except BaseException:
        await other


async def _catches_always(ctx: Context) -> None:
    while True:
        try:
            await ctx.sleep(3600)
        except BaseException:
            await ctx.sleep(3600)


async def _finally_exits(ctx: Context) -> None:
    try:
        await ctx.sleep(0.05)
    finally:
        raise SystemExit(7)


async def _awaits_asyncio(ctx: Context) -> None:
    await asyncio.sleep(0.01)


async def _awaits_a_future(ctx: Context) -> None:
    await asyncio.get_running_loop().create_future()


async def _cancels_its_attempt(ctx: Context) -> None:
    task = asyncio.current_task()
    assert task is not None
    task.cancel()
    await ctx.run("after", lambda: 1)


async def _cancels_each_task(ctx: Context) -> None:
    mine = [it for it in asyncio.all_tasks() if "_attempt" in repr(it.get_coro())]
    for it in mine:
        it.cancel()


async def _stops_the_loop(ctx: Context) -> None:
    asyncio.get_running_loop().stop()


async def _spawns_an_exit(ctx: Context) -> None:
    async def part() -> None:
        raise SystemExit(8)

    await gather(ctx.spawn(part()), ctx.sleep(0.05))


async def _a_task_exits(ctx: Context) -> None:
    async def part() -> None:
        raise SystemExit(9)

    asyncio.get_running_loop().create_task(part())
    await ctx.sleep(0.05)


async def _waits_for_itself(ctx: Context) -> None:
    tasks: list = []

    async def part() -> None:
        await tasks[0]

    tasks.append(ctx.spawn(part()))
    await tasks[0]


async def _calls_itself(ctx: Context) -> None:
    await ctx.attach(ctx.invocation_id)


async def _blocks(ctx: Context) -> None:
    time.sleep(2.5)


async def _nests(ctx: Context) -> None:
    tree = ctx.sleep(0.01)
    for _ in range(20_000):
        tree = gather(tree)
    await tree


HANDLERS = {
    "catches BaseException": _catches_all,
    "catches BaseException again and again": _catches_always,
    "exits in finally": _finally_exits,
    "awaits asyncio.sleep": _awaits_asyncio,
    "awaits a future": _awaits_a_future,
    "cancels its attempt's task": _cancels_its_attempt,
    "cancels each attempt's task": _cancels_each_task,
    "stops the loop": _stops_the_loop,
    "spawns what exits": _spawns_an_exit,
    "a task of asyncio exits": _a_task_exits,
    "coroutines wait for each other": _waits_for_itself,
    "waits for its own end": _calls_itself,
    "blocks the loop for 2.5 s": _blocks,
    "nests 20,000 gathers": _nests,
    "recurses": lambda ctx: ctx.run("x", _recurses(0)),
    "returns an object": lambda ctx: _gives(object()),
    "returns NaN": lambda ctx: _gives(float("nan")),
    "returns a circle": lambda ctx: _gives(_cyclic()),
    "returns 100,000 nested lists": lambda ctx: _gives(_deep(100_000)),
    "returns surrogates": lambda ctx: _gives("\ud800"),
    "the codec exits": lambda ctx: _gives(Odd("exit")),
    "the codec gives text": lambda ctx: _gives(Odd("str")),
    "the codec gives nothing": lambda ctx: _gives(Odd("none")),
    "sleeps nan": lambda ctx: ctx.sleep(float("nan")),
    "sleeps for ever": lambda ctx: ctx.sleep(float("inf")),
    "sleeps too long": lambda ctx: ctx.sleep(1e300),
    "runs no function": lambda ctx: ctx.run("x", 5),
    "runs a coroutine": lambda ctx: ctx.run("x", _gives(1)),
    "a run's name with surrogates": lambda ctx: ctx.run("a\udc80", lambda: 1),
    "a run's name that is none": lambda ctx: ctx.run(None, lambda: 1),
    "calls nothing": lambda ctx: ctx.call("No/such", 1),
    "calls with a key that is a number": lambda ctx: ctx.call("O/add", 1, key=5),
    "calls without a key": lambda ctx: ctx.call("O/add", 1),
    "attaches to nothing": lambda ctx: ctx.attach("inv_none"),
    "a promise in a service": lambda ctx: ctx.promise("p").value(),
    "state in a service": lambda ctx: ctx.get("n"),
    "gathers what isn't durable": lambda ctx: gather(ctx.sleep(0), 5),
    "reads an odd value": lambda ctx: ctx.run("odd", lambda: Odd("decode")),
    "reads an interrupt": lambda ctx: ctx.run("odd", lambda: Odd("interrupt")),
}


async def _gives(value: Any) -> Any:
    return value


async def does(ctx: Context, what: str) -> Any:
    return await HANDLERS[what](ctx)


# ---- what effects do


def _a_thread() -> None:
    threading.Thread(target=threading.Event().wait).start()


async def _cancels_itself() -> None:
    task = asyncio.current_task()
    assert task is not None
    task.cancel()
    await asyncio.sleep(0)


async def _ends_cancelled() -> None:
    task = asyncio.current_task()
    assert task is not None
    task.cancel()


async def _inner_exits() -> None:
    async def inner() -> None:
        raise SystemExit(10)

    await asyncio.create_task(inner())


async def _inner_is_cancelled() -> None:
    inner = asyncio.create_task(asyncio.sleep(3600))
    await asyncio.sleep(0)
    inner.cancel()
    await inner


async def _called_back() -> None:
    asyncio.get_running_loop().call_soon(_exits)
    await asyncio.sleep(0.05)


def _exits() -> None:
    raise SystemExit(11)


def _misuses(ctx: Context) -> Any:
    return lambda: ctx.uuid()


EFFECTS = {
    "recurses": lambda ctx: _recurses,
    "returns an object": lambda ctx: object,
    "returns NaN": lambda ctx: lambda: float("nan"),
    "returns a coroutine that exits": lambda ctx: lambda: _inner_exits(),
    "the codec exits": lambda ctx: lambda: Odd("exit"),
    "the codec gives text": lambda ctx: lambda: Odd("str"),
    "cancels its task": lambda ctx: _cancels_itself,
    "ends cancelled": lambda ctx: _ends_cancelled,
    "a task of it exits": lambda ctx: _inner_exits,
    "a task of it is cancelled": lambda ctx: _inner_is_cancelled,
    "a callback of it exits": lambda ctx: _called_back,
    "leaves a thread": lambda ctx: _a_thread,
    "uses the context": _misuses,
    "next without a default": lambda ctx: lambda: next(iter(())),
}


async def has_effect(ctx: Context, what: str) -> Any:
    return await ctx.run(what, EFFECTS[what](ctx), retry=TWICE)


# ---- what doesn't end


async def _hangs_async() -> None:
    await asyncio.sleep(3600)


async def _swallows() -> None:
    while True:
        try:
            await asyncio.sleep(3600)
        except asyncio.CancelledError:
            pass


def _hangs() -> None:
    threading.Event().wait()


HANGING = {"a plain run": _hangs, "an async run": _hangs_async, "a run that swallows its cancellation": _swallows}


async def hangs(ctx: Context, what: str) -> None:
    await ctx.run(what, HANGING[what])


async def hangs_widely(ctx: Context, what: str) -> None:
    await gather(*[ctx.run(what, HANGING[what]) for _ in range(3000)])


async def dies(ctx: Context, what: str) -> None:
    await ctx.run("dies", lambda: os._exit(9))


async def takes(ctx: Context, argument: Picky) -> str:
    return argument.name


async def takes_any(ctx: Context, argument: Any) -> int:
    return len(json.dumps(argument))


for it in (raises, raises_later, run_raises, async_run_raises, does, has_effect, hangs, hangs_widely, dies, takes, takes_any):
    poison.handler(retry=FEW)(it)


# ---- the healthy one


@thing.handler()
async def add(ctx: Context, n: int) -> int:
    total = (await ctx.get("n", int) or 0) + n
    ctx.set("n", total)
    return total


@poison.handler()
async def healthy(ctx: Context, key: str) -> list:
    async def doubled(n: int) -> int:
        await asyncio.sleep(0.01)
        return 2 * n

    first = await ctx.run("plain", lambda: 1)
    both = await gather(ctx.run("async", doubled, first), ctx.call(add, 1, key=key))
    await ctx.sleep(0.02)
    return [first, *both]


app = App(poison, thing, codec=OddCodec())
