"""The process of a worker: its event loop goes on whatever a task raises, signals end it, and each part of its end has a limit."""

from __future__ import annotations

import asyncio
import contextlib
import gc
import logging
import os
import signal
import sys
import threading
import time
from collections.abc import Callable, Coroutine
from types import FrameType
from typing import Any, TypeVar

from palqytun._library import library

T = TypeVar("T")
log = logging.getLogger("palqytun")
_LAST = 1.0  # seconds for what is left of tasks, and for threads
_BEYOND = 20.0  # seconds beside the grace, after which a shutdown is over


def warn_of_unproved() -> None:
    """Logs it if the library was built without a proof. A worker that a program is for asks this when it starts."""
    it = library()
    if not it.is_proved:
        log.warning("the library was built without a proof (%s): ./bindings/build makes one that is proved", it.build)


def collect_less() -> None:
    """What a program has loaded stays, so the collector of garbage needn't look at it again and again; and of new objects most die without it. Asked
    once, when the program's worker begins."""
    gc.collect()
    gc.freeze()
    gc.set_threshold(20_000, 20, 20)


def run(main: Coroutine[Any, Any, T]) -> T:
    """Runs a coroutine as `asyncio.run` does. But `SystemExit` and `KeyboardInterrupt` of another task, as one that an effect has made, don't end
    the loop, and neither does its `stop`; and tasks that don't end are left."""
    loop = asyncio.new_event_loop()
    asyncio.set_event_loop(loop)
    try:
        return _completed(loop, loop.create_task(main))
    finally:
        left = asyncio.all_tasks(loop)
        for task in left:
            task.cancel()
        if left:
            _completed(loop, loop.create_task(asyncio.wait(left, timeout=_LAST)))
        loop.close()


def _completed(loop: asyncio.AbstractEventLoop, task: asyncio.Task[T]) -> T:
    while True:
        try:
            return loop.run_until_complete(task)
        except (SystemExit, KeyboardInterrupt, RuntimeError) as error:  # the last one is raised if the loop was stopped
            if task.done() or loop.is_closed():
                raise
            log.exception("%s of a task would have ended the worker, which goes on", type(error).__name__)


def leave(status: int) -> None:
    """Ends the process if threads would keep it: those of effects that don't return."""
    until = time.monotonic() + _LAST
    own = threading.current_thread()
    for thread in [it for it in threading.enumerate() if it is not own and not it.daemon]:
        thread.join(max(0.0, until - time.monotonic()))
        if thread.is_alive():
            log.warning("the thread %s is still at work, and is left", thread.name)
            exit_now(status)


def exit_now(status: int) -> None:
    """Ends the process without waiting for anything."""
    with contextlib.suppress(Exception):
        logging.shutdown()
        sys.stdout.flush()
        sys.stderr.flush()
    os._exit(status)


class Signals:
    """What SIGTERM and SIGINT do: the first one calls `stop` in the loop, and the second one ends the process at once. The loop may be held
    meanwhile, so they are no signals of the loop. If the shutdown takes longer than the grace, by far, the process ends too."""

    def __init__(self, loop: asyncio.AbstractEventLoop, stop: Callable[[], None], grace: float):
        self._loop, self._stop, self._grace = loop, stop, grace
        self._is_asked = False
        for number in (signal.SIGTERM, signal.SIGINT):
            signal.signal(number, self._came)

    def _came(self, number: int, frame: FrameType | None) -> None:
        if self._is_asked:
            os._exit(128 + number)
        self._is_asked = True
        timer = threading.Timer(self._grace + _BEYOND, exit_now, (128 + number,))
        timer.daemon = True
        timer.start()
        self._loop.call_soon_threadsafe(self._stop)
