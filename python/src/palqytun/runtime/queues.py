"""Queues: how many attempts of some handlers run at once, how many begin in a time, and in which order.

A queue's limits hold over all workers: whoever claims of it keeps its row until the commit. It is fair between keys: a claim takes one invocation of
each key in turn, from the key after the last one on, so one with thousands keeps no other out. What `call` and `send` say of an invocation goes by
two of its headers.
"""

from __future__ import annotations

import math
from collections.abc import Iterable, Mapping
from dataclasses import KW_ONLY, dataclass

from .names import check_name
from .services import TerminalError

PRIORITY, KEY = "palqytun-priority", "palqytun-queue-key"
_MOST = 1000  # priorities are from -1000 to 1000


@dataclass(frozen=True)
class Queue:
    """A queue of one handler or of several, `@service.handler(queue=Queue("mail", concurrency=10, rate=(100, 60)))`. Its name is one of its own in the
    database.

    `concurrency` is how many attempts run at once over all workers, `per_worker` how many of them on one worker, and `per_key` how many of one key: the
    `queue_key` with which an invocation is made, or else the key of its object. A suspended invocation has no attempt. `rate` is a pair (count,
    seconds): at most this number of invocations begin in each such time. What isn't given isn't limited. A key's greatest `priority` comes
    first, and then what was due first."""

    name: str
    _: KW_ONLY
    concurrency: int | None = None
    per_worker: int | None = None
    per_key: int | None = None
    rate: tuple[int, float] | None = None

    def __post_init__(self) -> None:
        try:
            check_name("the name of the queue", self.name)
        except TerminalError as error:
            raise ValueError(error.message) from None
        if not self.name:
            raise ValueError("the queue has no name")
        for name in ("concurrency", "per_worker", "per_key"):
            count = getattr(self, name)
            if count is not None and count < 1:
                raise ValueError(f"the queue {self.name} has the {name} {count}, and it is a whole number from 1 on")
        if self.rate is not None and not (len(self.rate) == 2 and self.rate[0] >= 1 and 0 < self.rate[1] < math.inf):
            raise ValueError(f"the queue {self.name} has the rate {self.rate}, and it is a pair (count from 1 on, seconds above 0)")

    @property
    def limits(self) -> dict[str, object]:
        """What is limited, by its name.

        >>> Queue("mail", concurrency=10, rate=(100, 60)).limits
        {'concurrency': 10, 'rate': [100, 60]}
        """
        found = {name: getattr(self, name) for name in ("concurrency", "per_worker", "per_key")}
        rate = None if self.rate is None else list(self.rate)
        return {name: it for name, it in {**found, "rate": rate}.items() if it is not None}

    def free(self, running: int, own: int, room: int) -> int:
        """How many more attempts may run beside those that are `running`, `own` of them on this worker, which has room for `room` more."""
        limits = ((self.concurrency, running), (self.per_worker, own))
        return min([room, *(most - now for most, now in limits if most is not None)])


def headers(given: Mapping[str, str] | None, priority: int, queue_key: str | None) -> dict[str, str] | None:
    """The headers of a call, with what its queue is to know. Raises a `TerminalError` with code 400 for what is none."""
    if not priority and queue_key is None:
        return None if given is None else dict(given)
    own = {PRIORITY: str(_priority(str(priority)))} if priority else {}
    if queue_key is not None:
        check_name("the queue key", queue_key)
        own[KEY] = queue_key
    return {**(given or {}), **own}


def asked(given: Iterable[tuple[str, str]], key: str) -> tuple[int, str]:
    """The priority and the queue key of an invocation, by its headers. Raises a `TerminalError` with code 400 for what is none."""
    found = dict(given)
    check_name("the queue key", found.get(KEY, ""))
    return _priority(found.get(PRIORITY, "0")), found.get(KEY, key)


def _priority(text: str) -> int:
    try:
        number = int(text)
    except ValueError:
        number = _MOST + 1
    if abs(number) > _MOST:
        raise TerminalError(f"the priority is {text[:40]!r}, and it is a whole number from -{_MOST} to {_MOST}", 400)
    return number

