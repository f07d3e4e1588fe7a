"""What Prometheus asks of a worker: what it has counted and measured since it began, and what the database has now."""

from __future__ import annotations

from collections.abc import Iterable, Iterator, Mapping
from dataclasses import dataclass
from typing import Any

from prometheus_client import CONTENT_TYPE_LATEST as CONTENT_TYPE
from prometheus_client import CollectorRegistry, Counter, Histogram, generate_latest
from prometheus_client.core import CounterMetricFamily, GaugeMetricFamily, Metric
from prometheus_client.registry import Collector

from .filters import STATUSES
from .meter import Ended

__all__ = ["CONTENT_TYPE", "Measured", "Now", "text"]

_OF = ("service", "handler")
_SHORT = (0.001, 0.0025, 0.005, 0.01, 0.025, 0.05, 0.1, 0.25, 0.5, 1, 2.5, 5, 10, 30, 60)
_LONG = (0.01, 0.05, 0.1, 0.5, 1, 5, 10, 60, 300, 1800, 3600, 21_600, 86_400, 604_800)


class Measured:
    """A `Meter` that keeps its observations for Prometheus."""

    def __init__(self) -> None:
        self.registry = it = CollectorRegistry()
        self._ended = Counter("palqytun_ended", "Invocations that have ended here.", (*_OF, "outcome"), registry=it)
        self._lasted = Histogram("palqytun_duration_seconds", "From an invocation's making to its end.", _OF, buckets=_LONG, registry=it)
        self._failed = Counter("palqytun_failures", "Attempts that failed or were lost, pauses, and ends by a failure.", (*_OF, "event"), registry=it)
        self._stopped = Counter("palqytun_handler_attempts", "Attempts that have stopped, by how.", (*_OF, "how"), registry=it)
        self._tried = Histogram("palqytun_attempt_seconds", "How long an attempt ran.", _OF, buckets=_SHORT, registry=it)
        self._late = Histogram("palqytun_claim_delay_seconds", "From when an invocation was due to its claim.", _OF, buckets=_SHORT, registry=it)
        self._lag = Histogram("palqytun_timer_lag_seconds", "From when a timer was due to when it fired.", buckets=_SHORT, registry=it)
        self._commits = Histogram("palqytun_commit_seconds", "A transaction of a group of operations.", buckets=_SHORT, registry=it)
        self._operations = Counter("palqytun_operations", "Operations that were committed.", registry=it)

    def ended(self, it: Ended) -> None:
        self._ended.labels(it.service, it.handler, it.outcome).inc()
        self._lasted.labels(it.service, it.handler).observe(max(0.0, it.seconds))

    def failed(self, handler: str, event: str) -> None:
        service, _, name = handler.partition("/")
        self._failed.labels(service, name, event).inc()

    def attempt(self, service: str, handler: str, how: str, seconds: float) -> None:
        self._stopped.labels(service, handler, how).inc()
        self._tried.labels(service, handler).observe(seconds)

    def claimed(self, service: str, handler: str, late: float) -> None:
        self._late.labels(service, handler).observe(max(0.0, late))

    def fired(self, late: float) -> None:
        self._lag.observe(max(0.0, late))

    def committed(self, operations: int, seconds: float) -> None:
        self._commits.observe(seconds)
        self._operations.inc(operations)


@dataclass(frozen=True)
class Now:
    """What holds at this moment: how many invocations have each status; of each handler how many are ready and due, and for how many seconds the
    first of them; each queue, as `operate.queues` gives it; how many attempts and connections this worker has; and how many seconds ago its lease was kept."""

    statuses: Mapping[str, int]
    waiting: Iterable[tuple[str, str, int, float]]
    queues: Iterable[Mapping[str, Any]]
    live: int
    connections: int
    lease_age: float
    counts: Mapping[str, int]


class _Moment(Collector):
    def __init__(self, now: Now):
        self._now = now

    def collect(self) -> Iterator[Metric]:
        rows = GaugeMetricFamily("palqytun_invocations", "Invocations in the database, by status.", labels=["status"])
        for status in STATUSES:
            rows.add_metric([status], self._now.statuses.get(status, 0))
        yield rows
        waiting = GaugeMetricFamily("palqytun_queue_ready", "Invocations that are ready and due, in the database.", labels=_OF)
        oldest = GaugeMetricFamily("palqytun_queue_oldest_seconds", "How long the first of them has been due.", labels=_OF)
        for service, handler, many, age in self._now.waiting:
            waiting.add_metric([service, handler], many)
            oldest.add_metric([service, handler], max(0.0, age))
        yield waiting
        yield oldest
        yield from self._queues()
        yield GaugeMetricFamily("palqytun_live_attempts", "Attempts of this worker.", self._now.live)
        yield GaugeMetricFamily("palqytun_connections", "Connections of this worker for transactions.", self._now.connections)
        yield GaugeMetricFamily("palqytun_lease_age_seconds", "How long ago this worker's lease was kept.", self._now.lease_age)
        for name, count in self._now.counts.items():
            yield CounterMetricFamily(f"palqytun_{name}", "Since this worker began.", count)

    def _queues(self) -> Iterator[Metric]:
        length = GaugeMetricFamily("palqytun_queue_length", "Invocations of a queue that are ready and due.", labels=["queue"])
        age = GaugeMetricFamily("palqytun_queue_age_seconds", "How long the first of them has been due.", labels=["queue"])
        running = GaugeMetricFamily("palqytun_queue_running", "Invocations of a queue that have an attempt.", labels=["queue"])
        limit = GaugeMetricFamily("palqytun_queue_limit", "What a queue lets through; a rate is by the second.", labels=["queue", "limit"])
        for it in self._now.queues:
            for family, number in ((length, it["length"]), (age, it["oldest"]), (running, it["running"])):
                family.add_metric([it["name"]], number)
            for name, most in it["limits"].items():
                limit.add_metric([it["name"], name], most[0] / most[1] if name == "rate" else most)
        yield from (length, age, running, limit)


def text(measured: Measured, now: Now) -> bytes:
    """The numbers of a worker and its database."""
    registry = CollectorRegistry()
    registry.register(_Moment(now))
    return generate_latest(registry) + generate_latest(measured.registry)
