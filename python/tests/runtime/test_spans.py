"""Spans by OpenTelemetry's API. Debian has no package of it for Python, so a stand-in has the calls that are used, with the names, the parameters and the
types of version 1 of the API. It refuses every other call, and a value of another type, and keeps what was made."""

import asyncio
import contextvars
import enum
import sys
import types
import unittest
from dataclasses import dataclass, field
from typing import Any
from unittest import mock

import support  # isort: skip
import needs

if lacks := needs.lacks_server():
    raise unittest.SkipTest(lacks)
from palqytun.runtime import App, Context, Retry, Service, TerminalError, spans
from palqytun.runtime.serving import Settings
from palqytun.runtime.traces import Trace
from served import Served

GIVEN = "00-0af7651916cd43dd8448eb211c80319c-b7ad6b7169203331-01"
made: list = []


class Context(dict):
    """As the API's, it isn't changed once it is made."""

    def __setitem__(self, key, value):
        raise ValueError


current: contextvars.ContextVar[Context] = contextvars.ContextVar("current", default=Context())


class TraceFlags(int):
    pass


class TraceState(dict):
    pass


class SpanKind(enum.Enum):
    INTERNAL, SERVER, CLIENT, PRODUCER, CONSUMER = range(5)


class StatusCode(enum.Enum):
    UNSET, OK, ERROR = range(3)


@dataclass(frozen=True)
class Status:
    status_code: StatusCode = StatusCode.UNSET
    description: str | None = None

    def __post_init__(self):
        assert isinstance(self.status_code, StatusCode) and isinstance(self.description, str | None), self


@dataclass(frozen=True)
class SpanContext:
    trace_id: int
    span_id: int
    is_remote: bool
    trace_flags: TraceFlags | None = None
    trace_state: TraceState | None = None

    def __post_init__(self):
        assert isinstance(self.trace_flags, TraceFlags | None), self
        assert 0 < self.trace_id < 1 << 128 and 0 < self.span_id < 1 << 64, self  # else the API's is not valid, and no parent


class NonRecordingSpan:
    def __init__(self, context: SpanContext) -> None:
        self._context = context

    def get_span_context(self):
        return self._context


def checked(attributes):
    for key, value in attributes.items():
        assert isinstance(key, str) and isinstance(value, bool | str | bytes | int | float), (key, value)
    return dict(attributes)


@dataclass
class Span:
    name: str
    context: SpanContext
    parent: SpanContext | None
    kind: SpanKind
    attributes: dict
    start: int | None
    status: Status = Status()
    ends: list = field(default_factory=list)

    def get_span_context(self):
        return self.context

    def set_attribute(self, key: str, value: bool | str | bytes | int | float) -> None:
        self.attributes |= checked({key: value})

    def set_status(self, status: Status | StatusCode, description: str | None = None) -> None:
        assert isinstance(status, Status), status
        self.status = status

    def end(self, end_time: int | None = None) -> None:
        assert isinstance(end_time, int | None), end_time
        self.ends.append(end_time)


class Tracer:
    def __init__(self, ids):
        self.ids = ids

    def start_span(self, name, context=None, kind=SpanKind.INTERNAL, attributes=None, links=None, start_time=None, record_exception=True, set_status_on_exception=True):
        assert isinstance(name, str) and isinstance(context, Context | None) and isinstance(kind, SpanKind) and isinstance(start_time, int | None)
        above = (current.get() if context is None else context).get("span")
        parent = None if above is None else above.get_span_context()
        trace_id = self.ids.generate_trace_id() if parent is None else parent.trace_id
        span = Span(name, SpanContext(trace_id, self.ids.generate_span_id(), False, TraceFlags(1)), parent, kind, checked(attributes or {}), start_time)
        made.append(span)
        return span


def set_span_in_context(span, context=None):
    return Context({**(current.get() if context is None else context), "span": span})


def attach(context):
    assert isinstance(context, Context), context
    return current.set(context)


def detach(token):
    current.reset(token)


def installed(ids):
    """OpenTelemetry's API, as far as it is used."""

    def get_tracer(instrumenting_module_name, instrumenting_library_version=None, tracer_provider=None, schema_url=None, attributes=None):
        return Tracer(ids)

    trace, context, above = (types.ModuleType(f"opentelemetry.{it}".removesuffix(".")) for it in ("trace", "context", ""))
    for it in (TraceFlags, SpanKind, StatusCode, Status, SpanContext, NonRecordingSpan, get_tracer, set_span_in_context):
        setattr(trace, it.__name__, it)
    for it in (Context, attach, detach):
        setattr(context, it.__name__, it)
    above.trace, above.context = trace, context
    return mock.patch.dict(sys.modules, {"opentelemetry": above, "opentelemetry.trace": trace, "opentelemetry.context": context})


shop = Service("Shop")


def _within():
    """What a library of the run's own would make."""
    return f"{current.get()['span'].get_span_context().span_id:016x}"


@shop.handler(retry=Retry(initial=0.01, attempts=3))
async def order(ctx: Context, it: str) -> list:
    seen = await ctx.run("pay", _within)
    return [ctx.traceparent, seen, await ctx.call(parcel, it)]


@shop.handler(retry=Retry(initial=0.01, attempts=3))
async def parcel(ctx: Context, it: str) -> str:
    async def sends() -> str:
        if len([one for one in made if one.name == "run send"]) < 2:
            raise OSError("no van")
        return it

    return await ctx.run("send", sends, retry=Retry(initial=0.01, attempts=3))


@shop.handler()
async def plainly(ctx: Context, it: str) -> str:
    return await ctx.run("plain", lambda: it)


@shop.handler()
async def refuses(ctx: Context, it: str) -> None:
    raise TerminalError("no", 404)


app = App(shop)


@support.on_each_database
class Spans(support.OnADatabase):
    def setUp(self):
        super().setUp()
        made.clear()
        spans.api.cache_clear()
        self.addCleanup(spans.api.cache_clear)
        self.addCleanup(setattr, spans.SpanIds, "is_used", False)

    def ordered(self, ids):
        async def go():
            async with Served(app, self.url, Settings()) as served:
                _, reply, _ = await served.ask("/Shop/order", "pen", traceparent=GIVEN)
                await served.ask("/Shop/refuses", "pen")
                await served.until(lambda: not served.engine.live)
                return reply

        with installed(ids):
            return asyncio.run(go())

    def named(self, name):
        return [it for it in made if it.name == name]

    def test_each_is_within_the_one_above(self):
        own, seen, _ = self.ordered(spans.SpanIds())
        [order] = self.named("Shop/order")
        [parcel] = self.named("Shop/parcel")
        _, trace_id, caller, _ = GIVEN.split("-")
        self.assertEqual({f"{it.context.trace_id:032x}" for it in made if it.attributes["palqytun.handler"] != "refuses"}, {trace_id})
        self.assertEqual(f"{order.parent.span_id:016x}", caller)
        self.assertEqual(f"{order.context.span_id:016x}", own.split("-")[2])  # what is handed on is the span that is made
        self.assertEqual(parcel.parent.span_id, order.context.span_id)  # the call is the span of what it calls
        for it in self.named("Shop/order attempt 1"):
            self.assertEqual(it.parent.span_id, order.context.span_id)
        [pay] = self.named("run pay")
        self.assertIn(pay.parent.span_id, [it.context.span_id for it in made if it.name.startswith("Shop/order attempt")])
        self.assertEqual(f"{pay.context.span_id:016x}", seen)  # it is the current one in the run's function
        self.assertTrue(all(len(it.ends) == 1 for it in made), made)
        self.assertEqual((order.kind, order.attributes["palqytun.outcome"]), (SpanKind.SERVER, "done"))
        self.assertLess(order.start, order.ends[0])
        self.assertLessEqual(order.ends[0] - order.start, support.LONG * 1e9)

    def test_failures(self):
        self.ordered(spans.SpanIds())
        first, second = self.named("run send")
        self.assertEqual([first.status, second.status], [Status(StatusCode.ERROR, "OSError: no van"), Status()])
        failed = [it for it in made if it.name.startswith("Shop/parcel attempt") and it.status.status_code == StatusCode.ERROR]
        self.assertEqual([it.attributes["palqytun.status"] for it in failed], ["ready"])
        self.assertIn("OSError: no van", failed[0].status.description)
        [refused] = self.named("Shop/refuses")
        self.assertEqual((refused.status.status_code, refused.attributes["palqytun.outcome"]), (StatusCode.ERROR, "failed"))
        self.assertIsNone(refused.parent)  # it has begun its trace
        invocation = refused.attributes["palqytun.invocation"]
        self.assertEqual(f"{refused.context.trace_id:032x}", Trace.of(invocation, None).trace_id)

    def test_a_worker_that_is_begun_within_a_span_of_the_programs(self):
        """An invocation without a trace of its caller's begins one, and isn't within that span."""
        about = SpanContext(1, 1, False, TraceFlags(1))
        token = attach(set_span_in_context(NonRecordingSpan(about)))
        self.addCleanup(detach, token)
        self.ordered(spans.SpanIds())
        self.assertNotIn(about.trace_id, {it.context.trace_id for it in made})
        self.assertIsNone(self.named("Shop/refuses")[0].parent)

    def test_what_the_api_raises(self):
        """A program's exporter or its generator of ids may fail: spans are missing then, and nothing else. It is logged once."""

        async def go():
            async with Served(app, self.url, Settings()) as served:
                replies = [(await served.ask(f"/Shop/{it}", "pen"))[:2] for it in ("plainly", "plainly", "refuses")]
                await served.until(lambda: not served.engine.live)
                return replies

        def fails(*given, **named):
            raise RuntimeError(f"a bug of the program's own in {name}")

        for of, name in ((Tracer, "start_span"), (Span, "set_attribute"), (Span, "set_status"), (Span, "end")):
            with self.subTest(name), mock.patch.object(of, name, fails), installed(spans.SpanIds()):
                made.clear()
                spans.api.cache_clear()
                spans._logged.cache_clear()
                with self.assertLogs("palqytun", "WARNING") as logged:
                    self.assertEqual(asyncio.run(go()), [(200, "pen"), (200, "pen"), (404, {"code": 404, "message": "no"})])
                said = f"WARNING:palqytun:a span is missing, as OpenTelemetry fails: RuntimeError: a bug of the program's own in {name}"
                self.assertEqual([it for it in logged.output if "OpenTelemetry" in it], [said])
                self.assertEqual({len(it.ends) for it in made}, {"start_span": set(), "end": {0}}.get(name, {1}))  # what is there has ended all the same

    def test_with_ids_of_the_sdks_own(self):
        """An invocation's span can't have its own id then, and stays in the trace."""

        class Ids:
            last = 1000

            def generate_trace_id(self):
                raise AssertionError("each span has a parent")

            def generate_span_id(self):
                self.last += 1
                return self.last

        own, _, _ = self.ordered(Ids())
        [order] = self.named("Shop/order")
        self.assertNotEqual(f"{order.context.span_id:016x}", own.split("-")[2])
        self.assertEqual(f"{order.context.trace_id:032x}", GIVEN.split("-")[1])

    def test_without_the_api(self):
        with mock.patch.dict(sys.modules, {"opentelemetry": None, "opentelemetry.trace": None, "opentelemetry.context": None}):

            async def go():
                async with Served(app, self.url, Settings()) as served:
                    return await served.ask("/Shop/refuses", "pen")

            self.assertEqual(asyncio.run(go())[0], 404)
        self.assertEqual(made, [])


if __name__ == "__main__":
    unittest.main()
