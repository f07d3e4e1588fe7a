"""What a stored row asks of a runtime, as values. The core says it (`palqytun_journal_effect`), by the same table as its engine of many invocations.

A runtime performs the effect of a row in the transaction that stores the row.

>>> from palqytun import frames, journals
>>> slept = journals.Journal().store(frames.frame_of("Sleep wake_up_time=1000 result_completion_id=1"))
>>> [row.effect for row in slept.rows]
[Wait(completes=1, time=1000)]
"""

from __future__ import annotations

from collections.abc import Callable
from dataclasses import dataclass

from palqytun import _abi

__all__ = ["Attach", "Begin", "Change", "Effect", "Output", "Promise", "Read", "Send", "Wait"]


@dataclass(frozen=True, slots=True)
class Begin:
    """An invocation is to begin, or one that began with the same idempotency key is attached to. `time` is when, in milliseconds since the Unix
    epoch; 0 is at once. Its id completes `id_completes`. Its result completes `completes`, or nobody waits for it."""

    service: str
    handler: str
    key: str
    idempotency_key: str | None
    headers: tuple[tuple[str, str], ...]
    parameter: bytes
    time: int
    id_completes: int
    completes: int | None


@dataclass(frozen=True, slots=True)
class Wait:
    """A completion id is completed with nothing at `time`, in milliseconds since the Unix epoch."""

    completes: int
    time: int


@dataclass(frozen=True, slots=True)
class Send:
    """A notification, as a frame, comes to the invocation whose id is `target`: a signal that is sent, or the result of one of its awakeables. The
    id in an awakeable's needn't be UTF-8."""

    target: bytes
    notification: bytes
    is_awakeable: bool


@dataclass(frozen=True, slots=True)
class Output:
    """The invocation's result, as a frame that has it: the row's own."""

    result: bytes


@dataclass(frozen=True, slots=True)
class Change:
    """The state of the invocation's key changes: without a value the name is cleared, without a name all of them are."""

    name: str | None
    value: bytes | None


@dataclass(frozen=True, slots=True)
class Read:
    """The state of the invocation's key is read: the value of a name, or all names without one."""

    completes: int
    name: str | None


@dataclass(frozen=True, slots=True)
class Promise:
    """A promise of the invocation's key is awaited, or it is looked whether it is completed (`peeks`), or it is completed with the result that a
    frame has: the row's own."""

    completes: int
    name: str
    peeks: bool
    result: bytes | None


@dataclass(frozen=True, slots=True)
class Attach:
    """The result of another invocation is awaited, or it is looked whether it has one (`peeks`). The invocation is named by its id; or by its service,
    handler, key and idempotency key, of which a workflow has only service and key."""

    completes: int
    invocation: str | None
    service: str
    handler: str | None
    key: str
    idempotency_key: str | None
    peeks: bool


Effect = Begin | Wait | Send | Output | Change | Read | Promise | Attach


class Asking:
    """A row that asks for something: the type of its message (docs/WIRE.md), its frame, what the core says of it, and how a part is read."""

    __slots__ = ("_part", "frame", "said", "type")

    def __init__(self, type: int, frame: bytes, said: _abi.Effect, part: Callable[[int], bytes | None]) -> None:
        self.type, self.frame, self.said, self._part = type, frame, said, part

    def part(self, place: int) -> bytes:
        return self._part(place) or b""

    def text(self, place: int) -> str:
        return self.part(place).decode()

    def if_any(self, place: int) -> str | None:
        part = self._part(place)
        return None if part is None else part.decode()


_HEADERS = 8  # the place of the first one's name


def _begin(it: Asking) -> Effect:
    texts = [it.text(place) for place in range(_HEADERS, _HEADERS + 2 * it.said.headers)]
    return Begin(
        service=it.text(1),
        handler=it.text(2),
        key=it.text(3),
        idempotency_key=it.if_any(4),
        headers=tuple(zip(texts[::2], texts[1::2], strict=True)),
        parameter=it.part(0),
        time=it.said.time,
        id_completes=it.said.id_completes,
        completes=it.said.completes if it.said.is_awaited else None,
    )


def _attach(it: Asking, peeks: bool) -> Effect:
    completes, target = it.said.completes, it.said.target
    if target == _abi.TARGET_INVOCATION_ID:
        return Attach(completes, it.text(0), "", None, "", None, peeks)
    if target == _abi.TARGET_WORKFLOW_ID:
        return Attach(completes, None, it.text(1), None, it.text(3), None, peeks)
    return Attach(completes, None, it.text(1), it.text(2), it.text(3), it.text(4), peeks)


# By the types of the messages.
_COMMANDS: dict[int, Callable[[Asking], Effect]] = {
    12: lambda it: Read(it.said.completes, it.text(0)),
    14: lambda it: Read(it.said.completes, None),
    15: lambda it: Change(it.text(0), it.part(1)),
    16: lambda it: Change(it.text(0), None),
    17: lambda it: Change(None, None),
    23: lambda it: Promise(it.said.completes, it.text(0), False, None),
    24: lambda it: Promise(it.said.completes, it.text(0), True, None),
    25: lambda it: Promise(it.said.completes, it.text(0), False, it.frame),
    27: lambda it: _attach(it, False),
    28: lambda it: _attach(it, True),
}

_KINDS: dict[int, Callable[[Asking], Effect]] = {
    _abi.EFFECT_BEGIN: _begin,
    _abi.EFFECT_WAIT: lambda it: Wait(it.said.completes, it.said.time),
    _abi.EFFECT_SEND: lambda it: Send(it.part(0), it.part(1), it.type == _abi.MESSAGE_COMPLETE_AWAKEABLE_COMMAND),
    _abi.EFFECT_RESULT: lambda it: Output(it.frame),
    _abi.EFFECT_COMMAND: lambda it: _COMMANDS[it.type](it),
}


def effect_of(it: Asking) -> Effect | None:
    """What a row asks for, if it asks for something."""
    reader = _KINDS.get(it.said.kind)
    return None if reader is None else reader(it)
