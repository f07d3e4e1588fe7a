"""Spans of invocations, of their attempts and of runs, by OpenTelemetry's API, if that is installed. Without it nothing is made.

An invocation is a span, whose id follows from its own (`traces.Trace`), and which is handed on by `traceparent`. Its attempts are within it, runs
within their attempts, and a call is the span of the invocation that it makes. A run's span is the current one while its function is executed, so what
libraries make there is within it.

What the API raises, or a part of the SDK that the program has chosen, is logged once and hurts no attempt: then a span is missing.

The API makes the ids of spans by itself. With `TracerProvider(id_generator=SpanIds())` that of an invocation is its own; otherwise its span is
beside its attempts, in the same trace.
"""

from __future__ import annotations

import contextlib
import contextvars
import functools
import importlib
import logging
import random
from collections.abc import Callable, Iterator
from dataclasses import dataclass
from typing import Any

from .texts import said
from .traces import Trace

log = logging.getLogger("palqytun")
_NAME = "palqytun.runtime"
_wanted: contextvars.ContextVar[tuple[int, int] | None] = contextvars.ContextVar("palqytun_span", default=None)


class SpanIds:
    """An id generator for OpenTelemetry's SDK, by which the span of an invocation has the id that is handed on for it.

        trace.set_tracer_provider(TracerProvider(id_generator=SpanIds()))
    """

    is_used = False

    def __init__(self) -> None:
        SpanIds.is_used = True

    def generate_trace_id(self) -> int:
        wanted = _wanted.get()
        return wanted[0] if wanted is not None else random.getrandbits(128) or 1

    def generate_span_id(self) -> int:
        wanted = _wanted.get()
        return wanted[1] if wanted is not None else random.getrandbits(64) or 1


@functools.lru_cache(maxsize=100)
def _logged(text: str) -> None:
    """Logs each text once."""
    log.warning("a span is missing, as OpenTelemetry fails: %s", text)


@contextlib.contextmanager
def _harmless() -> Iterator[None]:
    try:
        yield
    except Exception as error:
        _logged(said(error))


def _harmlessly(call: Callable[..., object]) -> Callable[..., object]:
    return _harmless()(call)


@dataclass(frozen=True)
class _Api:
    """The two modules of OpenTelemetry's API."""

    trace: Any
    context: Any

    @property
    def tracer(self) -> Any:
        return self.trace.get_tracer(_NAME)

    def within(self, trace_id: str, span_id: str, flags: str) -> Any:
        """The context of a span that another process may have made."""
        api = self.trace
        place = api.SpanContext(int(trace_id, 16), int(span_id, 16), is_remote=True, trace_flags=api.TraceFlags(int(flags, 16)))
        return api.set_span_in_context(api.NonRecordingSpan(place))

    def fail(self, span: Any, error: str) -> None:
        with _harmless():
            span.set_status(self.trace.Status(self.trace.StatusCode.ERROR, error))


@functools.cache
def api() -> _Api | None:
    """OpenTelemetry's API, if it is installed."""
    try:
        return _Api(importlib.import_module("opentelemetry.trace"), importlib.import_module("opentelemetry.context"))
    except ImportError:
        return None


def _nanoseconds(seconds: float) -> int:
    return int(seconds * 1e9)


class Spans:
    """The spans of one attempt. Times are in seconds since the epoch."""

    def __init__(self, it: _Api, trace: Trace, attributes: dict[str, Any]):
        self._api, self._trace, self._attributes = it, trace, attributes
        name = f"{attributes['palqytun.service']}/{attributes['palqytun.handler']} attempt {attributes['palqytun.attempt']}"
        self._span = it.tracer.start_span(name, context=it.within(trace.trace_id, trace.span_id, trace.flags), attributes=attributes)

    @contextlib.contextmanager
    def run(self, name: str) -> Iterator[Any]:
        """That of a run, which is the current one meanwhile. Gives what says that it has failed."""
        span = None
        with contextlib.ExitStack() as ends:
            with _harmless():
                span = self._api.tracer.start_span(f"run {name}", context=self._api.trace.set_span_in_context(self._span), attributes=self._attributes)
                ends.callback(_harmlessly(span.end))
                token = self._api.context.attach(self._api.trace.set_span_in_context(span))
                ends.callback(_harmlessly(self._api.context.detach), token)
            yield lambda error: None if span is None else self._api.fail(span, error)

    @_harmless()
    def end(self, status: str, error: str | None) -> None:
        """The attempt has stopped."""
        if error is not None:
            self._api.fail(self._span, error)
        with _harmless():
            self._span.set_attribute("palqytun.status", status)
        self._span.end()

    @_harmless()
    def ended(self, created: float, ended: float, outcome: str) -> None:
        """The invocation has ended: its span is made."""
        it, own = self._trace, self._trace.parent_id
        has_own = SpanIds.is_used
        wanted = _wanted.set((int(it.trace_id, 16), int(it.span_id, 16)) if has_own else None)
        try:
            is_first = has_own and own is None  # of its trace, whatever span is the current one where the worker was begun
            above = self._api.context.Context() if is_first else self._api.within(it.trace_id, own or it.span_id, it.flags)
            attributes = {**self._attributes, "palqytun.outcome": outcome}
            del attributes["palqytun.attempt"]
            name, kind = f"{attributes['palqytun.service']}/{attributes['palqytun.handler']}", self._api.trace.SpanKind.SERVER
            options = {"context": above, "kind": kind, "attributes": attributes, "start_time": _nanoseconds(created)}
            span = self._api.tracer.start_span(name, **options)
        finally:
            _wanted.reset(wanted)
        if outcome == "failed":
            self._api.fail(span, outcome)
        span.end(end_time=_nanoseconds(ended))


def of(trace: Trace, service: str, handler: str, invocation: str, attempt: int) -> Spans | None:
    """Those of an attempt; none without OpenTelemetry's API, or if that fails."""
    it = api()
    names = {"service": service, "handler": handler, "invocation": invocation, "attempt": attempt}
    with _harmless():
        return None if it is None else Spans(it, trace, {f"palqytun.{name}": value for name, value in names.items()})
    return None
