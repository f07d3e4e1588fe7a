"""Watches an event loop from a thread: a handler that computes or sleeps in it keeps all other attempts waiting, and nothing else would say so."""

from __future__ import annotations

import asyncio
import linecache
import logging
import os
import sys
import threading
import time
import traceback
from collections.abc import Iterator
from types import FrameType

from .invocations import Claim
from .places import is_own, is_users

log = logging.getLogger("palqytun")
_EVERY = 0.5  # seconds between questions
_SLICE = 0.25  # a process that was stopped as a whole hasn't waited for longer than two of these at a time
_SAID_AT = (2.0, 10.0, 30.0)  # seconds without a reply
_ENDED = 70  # the status of a process whose loop doesn't reply


def _frames(thread: int) -> Iterator[FrameType]:
    """The frames of a thread, the newest first."""
    frame = sys._current_frames().get(thread)
    while frame is not None:
        yield frame
        frame = frame.f_back


def holder(thread: int) -> str:
    """Who holds a loop, and in which line of its code. If the host has other work for its processors, that may be nobody."""
    frames = list(_frames(thread))
    if not frames:
        return "a thread that has ended"
    claims = (getattr(it.f_locals.get("self"), "claim", None) for it in frames if is_own(it))
    claim = next((it for it in claims if isinstance(it, Claim)), None)  # a `Claimer` has a method of this name
    who = "no handler, or the host is busy" if claim is None else f"{claim.service}/{claim.handler} of {claim.invocation}"
    at = next((it for it in frames if is_users(it)), frames[0])
    file, line = at.f_code.co_filename, at.f_lineno
    return f"{who}, in {file}:{line}: {linecache.getline(file, line).strip()}"


class Watchdog:
    """Logs it if the loop doesn't reply for some seconds, and who holds it. If it doesn't reply for `stuck` seconds the process ends, so that
    other workers go on with what it has."""

    def __init__(self, loop: asyncio.AbstractEventLoop, *, stuck: float | None = None):
        self._loop, self._stuck = loop, stuck
        self._held = threading.get_ident()
        self._ended = threading.Event()
        self._thread = threading.Thread(target=self._watch, name="palqytun-watchdog", daemon=True)
        self._thread.start()

    def end(self) -> None:
        self._ended.set()

    def _watch(self) -> None:
        while not self._ended.wait(_EVERY):
            answered = threading.Event()
            try:
                self._loop.call_soon_threadsafe(answered.set)
            except RuntimeError:  # the loop is closed
                return
            self._await(answered)

    def _await(self, answered: threading.Event) -> None:
        waited, left = 0.0, list(_SAID_AT)
        while True:
            begun = time.monotonic()
            if answered.wait(_SLICE) or self._ended.is_set():
                break
            waited += min(time.monotonic() - begun, 2 * _SLICE)
            if left and waited >= left[0]:
                log.warning("the event loop is held for %.0f s by %s", left.pop(0), holder(self._held))
            if self._stuck is not None and waited >= self._stuck:
                self._exit(waited)
        if waited >= _SAID_AT[0]:
            log.warning("the event loop replies again after %.1f s; give such work to ctx.run as a plain function, which runs in a thread", waited)

    def _exit(self, waited: float) -> None:
        stack = "".join(traceback.format_stack(next(_frames(self._held), None)))
        log.critical("the event loop didn't reply for %.0f s, so this worker ends. It is held by %s\n%s", waited, holder(self._held), stack)
        logging.shutdown()
        os._exit(_ENDED)
