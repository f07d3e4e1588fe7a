"""What typed calls return, as values: the numbers of a reply are at hand, and its texts and bytes are its parts."""

from __future__ import annotations

from collections.abc import Callable

from typing import Any

from palqytun import _abi, _library
from palqytun._abi import Replied
from palqytun._answers import pairs
from palqytun.commands import Related, type_of
from palqytun.values import VOID, Behaviour, EphemeralReady, ExecuteRun, Failure, Input, InvocationId, Result, Waiting


class Parts:
    """The parts of a session's last reply."""

    def __init__(self, part: Callable[[Any, int], bytes | int], session: object) -> None:
        self._part, self._session = part, session

    def data(self, at: int) -> bytes | None:
        """A part, if there is one."""
        found = self._part(self._session, at)
        if isinstance(found, bytes):
            return found
        if found == _abi.NO_PART:
            return None
        raise RuntimeError(_library.why(found))

    def bytes(self, at: int) -> bytes:
        """A part that is there. Only another thread's call takes it away."""
        found = self.data(at)
        if found is None:
            raise RuntimeError("another thread's call of this VM came between; let a lock guard it")
        return found

    def text(self, at: int) -> str:
        """A text that is there."""
        return self.bytes(at).decode()

    def optional(self, at: int) -> str | None:
        """A text, if there is one."""
        found = self.data(at)
        return None if found is None else found.decode()

    def pairs(self, at: int, rows: int) -> tuple[tuple[str, str], ...]:
        """So many pairs of texts from this part on."""
        return pairs([self.text(it) for it in range(at, at + 2 * rows)])


def related_of(replied: Replied, parts: Parts) -> Related | None:
    """The command that an error relates to, if it names one."""
    type = type_of(replied.third)
    return Related(replied.second, type, parts.text(2)) if replied.first and type is not None else None


_BEHAVIOURS: tuple[Behaviour, ...] = ("retry", "pause", "fail")


def retry_of(retry: _abi.Retry) -> tuple[Behaviour | None, int | None]:
    """What is done after an error, and the delay of the next try in ms."""
    if retry.status:
        return None, None
    return _BEHAVIOURS[retry.behavior], retry.delay_millis if retry.has_delay else None


WAITS = tuple(tuple(Waiting(input=bool(first), run=bool(second)) for second in (0, 1)) for first in (0, 1))
"""What an await returns that waits: for input or not, and for a run or not."""


def awaited_of(replied: Replied) -> ExecuteRun | EphemeralReady | Waiting:
    """What an await returns that isn't done."""
    if replied.kind == _abi.WAITING:
        return WAITS[replied.first][replied.second]
    return ExecuteRun(replied.first) if replied.kind == _abi.EXECUTE_RUN else EphemeralReady(replied.first)


def _failure(replied: Replied, parts: Parts) -> Failure:
    return Failure(replied.number, parts.text(0), parts.pairs(1, replied.rows))


def _keys(replied: Replied, parts: Parts) -> list[str]:
    return [parts.text(at) for at in range(replied.rows)]


_RESULTS: dict[int, Callable[[Replied, Parts], Result | None]] = {
    _abi.NOTHING: lambda replied, parts: None,
    _abi.VOID: lambda replied, parts: VOID,
    _abi.VALUE: lambda replied, parts: parts.bytes(0),
    _abi.FAILURE: _failure,
    _abi.KEYS: _keys,
    _abi.INVOCATION_ID: lambda replied, parts: InvocationId(parts.text(0)),
}


def result_of(replied: Replied, parts: Parts) -> Result | None:
    """What was taken of a handle."""
    return _RESULTS[replied.kind](replied, parts)


def input_of(replied: Replied, parts: Parts) -> Input:
    """What the handler was called with."""
    value, invocation_id, key = parts.bytes(0), parts.text(1), parts.text(2)
    more = parts.optional(3), parts.optional(4), parts.optional(5)
    return Input(invocation_id, replied.number, key, parts.pairs(6, replied.rows), value, *more)
