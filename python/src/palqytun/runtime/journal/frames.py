"""Frames as typed values, and back: what a runtime reads and writes of them.

The core writes and reads their bodies: it says what a frame is as numbers and parts (`palqytun.frames.Message`), and a payload never becomes
text. `split` cuts a stream into frames, each with its type, by which one sees which of them ask something of the runtime. What is small is written by the lines of docs/FRAMES.md. A result is kept as a whole frame that has it, so storing and
delivering one never reads it.
"""

from __future__ import annotations

import functools
import json
from collections.abc import Callable, Iterable, Iterator
from dataclasses import dataclass
from typing import Any, NewType

from palqytun import frames as core
from palqytun.errors import BadFrame
from palqytun.frames import Message as Said
from palqytun.frames import split as split

Result = NewType("Result", bytes)
"""A frame that has a result: an output, a notification of any id, a proposal, or the completion of an awakeable, a signal or a promise."""

CANCEL = 1  # the signal that cancels an invocation

_SUSPENSION, _ERROR, _END, _PROPOSAL, _AWAITING_ON = 2, 3, 4, 5, 7
_INPUT, _CALL, _RUN, _OUTPUT, _NOTIFICATION = 10, 19, 26, 29, 30
_EAGER_STATE, _EAGER_KEYS = 11, 13
TIMED = 18
"""The type of the command that a timer completes."""
_STEPS = frozenset([_PROPOSAL, _AWAITING_ON, _EAGER_STATE, _EAGER_KEYS, _RUN])
_COMMANDS = range(_INPUT, _OUTPUT + 1)
CHANGES = range(15, 18)
"""The types of the commands that change the state."""


# ---- writing


def _blob(data: bytes) -> str:
    return f"0x{data.hex()}" if data else '""'


def _text(text: str) -> str:
    return _blob(text.encode())


def _pairs(pairs: Iterable[tuple[str, str]]) -> str:
    return f"[{', '.join(f'({_text(one)} {_text(other)})' for one, other in pairs)}]"


def _result(shown: str) -> Result:
    return Result(core.frame_of(f"Notification id=completion(0) result={shown}"))


@functools.cache
def void() -> Result:
    return _result("void")


def value(data: bytes) -> Result:
    return Result(core.value_frame(data))


def failure(code: int, message: str, metadata: Iterable[tuple[str, str]] = ()) -> Result:
    return _result(f"failure(code={code} message={_text(message)} metadata={_pairs(metadata)})")


def keys(names: Iterable[str]) -> Result:
    return _result(f"state_keys([{', '.join(map(_text, names))}])")


def invocation(id: str) -> Result:
    return _result(f"invocation_id({_text(id)})")


def completion(id: int, result: Result) -> bytes:
    """The notification that completes an id."""
    return core.completion(id, result)


def signal(index: int, result: Result) -> bytes:
    """The notification of the signal with this number, as of an awakeable or of `CANCEL`."""
    return core.signal(index, result)


@functools.cache
def cancellation() -> bytes:
    """The notification that cancels an invocation."""
    return signal(CANCEL, void())


def named_signal(name: str, result: Result) -> bytes:
    return core.named_signal(name, result)


def input_command(data: bytes, headers: Iterable[tuple[str, str]] = ()) -> bytes:
    """A journal's first entry: what the handler is called with."""
    return core.input_frame(core.frame_of(f"Input headers={_pairs(headers)}"), data)


@dataclass(frozen=True)
class Begin:
    """What an attempt's Start says beside the journal. `duration` is how long the attempts have been failing, in milliseconds; `partial`
    says that `state` isn't all of it."""

    id: str
    key: str
    seed: int
    state: Iterable[tuple[str, bytes]] = ()
    partial: bool = False
    retries: int = 0
    duration: int = 0
    idempotency_key: str | None = None


def start(begin: Begin, known_entries: int) -> bytes:
    """The Start of a new attempt over a journal of `known_entries` entries."""
    id, state = _text(begin.id), ", ".join(f"({_text(name)} {_blob(data)})" for name, data in begin.state)
    line = f"Start id={id} debug_id={id} key={_text(begin.key)} known_entries={known_entries} state=[{state}]"
    line += f" partial={'true' if begin.partial else 'false'} retry_count={begin.retries} duration={begin.duration} random_seed={begin.seed}"
    return core.frame_of(line if begin.idempotency_key is None else f"{line} idempotency_key={_text(begin.idempotency_key)}")


# ---- reading

@dataclass(frozen=True)
class Command:
    """A command, as far as a runtime has something to do for it."""

    def carried(self) -> tuple[int, ...]:
        """The completion ids that it has."""
        return ()


@dataclass(frozen=True)
class Input(Command):
    """What the handler is called with."""

    headers: tuple[tuple[str, str], ...]
    value: bytes


@dataclass(frozen=True)
class _Completed(Command):
    id: int

    def carried(self) -> tuple[int, ...]:
        return (self.id,)


@dataclass(frozen=True)
class Sleep(_Completed):
    due: int  # in milliseconds since the epoch


@dataclass(frozen=True)
class Read(_Completed):
    """A read of the state; without a key, of the names of all keys."""

    key: str | None


@dataclass(frozen=True)
class Change(Command):
    """A change of the state: without a value the key is cleared, without a key all of them."""

    key: str | None
    value: bytes | None


@dataclass(frozen=True)
class Call(Command):
    """A call; without an `id` nobody waits for its result. `at` is when it is to begin, in milliseconds since the epoch; 0 is at once."""

    service: str
    handler: str
    key: str
    idempotency_key: str | None
    headers: tuple[tuple[str, str], ...]
    parameter: bytes
    invocation_id: int
    id: int | None
    at: int

    def carried(self) -> tuple[int, ...]:
        return (self.invocation_id,) if self.id is None else (self.invocation_id, self.id)


@dataclass(frozen=True)
class CompleteAwakeable(Command):
    awakeable: str
    result: Result


@dataclass(frozen=True)
class SendSignal(Command):
    """A signal to another invocation, by its number or its name."""

    target: str
    index: int | None
    name: str | None
    result: Result


@dataclass(frozen=True)
class Promise(_Completed):
    """Awaits a promise, looks whether it is completed (`peek`), or completes it, if there is a `result`."""

    key: str
    peek: bool
    result: Result | None


@dataclass(frozen=True)
class Run(Command):
    id: int
    name: str

    def carried(self) -> tuple[int, ...]:
        return (self.id,)


@dataclass(frozen=True)
class Attribute(Command):
    """Sets what a search finds the invocation by, or clears it if there is no value. It is a run that is never executed."""

    name: str
    value: str | None


@dataclass(frozen=True)
class Attach(_Completed):
    """Awaits the end of another invocation, or looks whether it has ended (`peek`). The invocation is named by its id; or by its service,
    handler, key and idempotency key, of which a workflow has only service and key."""

    invocation: str | None
    service: str
    handler: str | None
    key: str
    idempotency_key: str | None
    peek: bool


@dataclass(frozen=True)
class Output(Command):
    result: Result


@dataclass(frozen=True)
class Suspension:
    """The attempt has ended, and goes on once its future is awake."""

    frame: bytes


@dataclass(frozen=True)
class End:
    """The attempt has ended, and so has the invocation."""


@dataclass(frozen=True)
class Failed:
    """The attempt has ended by an error. `delay` is when it is to be tried again, in milliseconds, if the core says so."""

    code: int
    message: str
    stacktrace: str
    behaviour: str  # "retry", "pause" or "fail"
    delay: int | None


@dataclass(frozen=True)
class Proposal:
    """What a run of the attempt gave."""

    id: int
    result: Result


@dataclass(frozen=True)
class Notification:
    id: tuple[int, int | str]  # (0, completion), (1, signal) or (2, name)
    result: Result


@dataclass(frozen=True)
class AwaitingOn:
    """What the attempt waits for just now."""


Message = Command | Suspension | End | Failed | Proposal | Notification | AwaitingOn


_BEHAVIOURS = "retry", "pause", "fail"
_REST = 8  # the place at which headers, and the parts of a result, begin


def _call(it: Said, frame: bytes) -> Command:
    headers, parameter = it.pairs(_REST), it.part(0) or b""
    idempotency_key = it.part(4)
    return Call(
        service=it.text(1),
        handler=it.text(2),
        key=it.text(3),
        idempotency_key=None if idempotency_key is None else idempotency_key.decode(),
        headers=headers,
        parameter=parameter,
        invocation_id=it.second,
        id=it.id if it.type == _CALL else None,
        at=it.number,
    )


def _send_signal(it: Said, frame: bytes) -> Command:
    index, name = (it.id, None) if it.kind == 1 else (None, it.text(1))
    return SendSignal(it.text(0), index, name, Result(frame))


def _promise(is_peek: bool, has_result: bool) -> Callable[[Said, bytes], Command]:
    return lambda it, frame: Promise(it.id, it.text(0), is_peek, Result(frame) if has_result else None)


def _attach(is_peek: bool) -> Callable[[Said, bytes], Command]:
    def read(it: Said, frame: bytes) -> Command:
        if it.kind == 0:
            return Attach(it.id, it.text(0), "", None, "", None, is_peek)
        if it.kind == 1:
            return Attach(it.id, None, it.text(1), None, it.text(3), None, is_peek)
        return Attach(it.id, None, it.text(1), it.text(2), it.text(3), it.text(4), is_peek)

    return read


def _failed(it: Said, frame: bytes) -> Message:
    return Failed(it.id, it.text(0), it.text(1), _BEHAVIOURS[it.kind], it.number if it.second else None)


def _notification(it: Said, frame: bytes) -> Message:
    return Notification((it.kind, it.text(0) if it.kind == 2 else it.id), Result(frame))


_READERS: dict[int, Callable[[Said, bytes], Message]] = {
    _ERROR: _failed,
    _PROPOSAL: lambda it, frame: Proposal(it.id, Result(frame)),
    _INPUT: lambda it, frame: Input(it.pairs(_REST), it.part(0) or b""),
    12: lambda it, frame: Read(it.id, it.text(0)),
    14: lambda it, frame: Read(it.id, None),
    15: lambda it, frame: Change(it.text(0), it.part(1) or b""),
    16: lambda it, frame: Change(it.text(0), None),
    TIMED: lambda it, frame: Sleep(it.id, it.number),
    _CALL: _call,
    20: _call,
    21: lambda it, frame: CompleteAwakeable(it.text(0), Result(frame)),
    22: _send_signal,
    23: _promise(False, False),
    24: _promise(True, False),
    25: _promise(False, True),
    _RUN: lambda it, frame: Run(it.id, it.text(0)),
    27: _attach(False),
    28: _attach(True),
    _NOTIFICATION: _notification,
}

# What a frame says by its type alone.
_UNREAD: dict[int, Callable[[bytes], Message]] = {
    _SUSPENSION: Suspension,
    _END: lambda frame: End(),
    _AWAITING_ON: lambda frame: AwaitingOn(),
    17: lambda frame: Change(None, None),
    _OUTPUT: lambda frame: Output(Result(frame)),
}


def read(kind: int, frame: bytes) -> Message:
    """The message that a frame of this type is."""
    unread = _UNREAD.get(kind)
    if unread is not None:
        return unread(frame)
    reader = _READERS.get(kind)
    if reader is not None:
        return reader(Said(frame), frame)
    if kind in _COMMANDS:
        return Command()
    raise ValueError(f"an attempt writes no frame of type {kind}")


def timed(it: Message | None) -> int | None:
    """The completion id that a timer completes, if it is such a command."""
    return it.id if isinstance(it, Sleep) else None


def end_of(stream: bytes) -> Suspension | End | Failed | None:
    """How what an attempt wrote ends, if it does. What is no frame of an attempt is a `ValueError`, and so is an end that can't be read."""
    end = None
    for kind, frame in split(stream):
        if kind in _COMMANDS or kind in _STEPS or kind == _NOTIFICATION:
            continue
        if kind == _SUSPENSION:
            core.is_awake(frame, ())
        it = read(kind, frame)
        if isinstance(it, (Suspension, End, Failed)):
            end = it
    return end


OWN = "palqytun."
"""What the names of the runs begin with that a handler's other calls make. They are never executed: the command itself is the record."""

PATCHED, CONTINUED, ATTRIBUTE = f"{OWN}patched ", f"{OWN}continued", f"{OWN}attribute "
"""What a run's name begins with that stands for a patch of the handler's code; the name of one that stands before the Output of a handler that goes on as
a new invocation, whose argument that Output is; and what the name of one begins with that sets an attribute, which it has as JSON."""

_NAMED = 18  # the place of a run's name in its frame
_SETS = ATTRIBUTE.encode()
_OTHER = -1  # stands for a run that asks something of the runtime


def _is_attribute(kind: int, frame: bytes) -> bool:
    return kind == _RUN and frame.startswith(_SETS, _NAMED)


def attribute(name: str, value: str | None) -> str:
    """The name of the run that sets an attribute.

    >>> attribute("customer", "ann")
    'palqytun.attribute ["customer", "ann"]'
    """
    return ATTRIBUTE + json.dumps([name] if value is None else [name, value])


def attribute_in(kind: int, frame: bytes) -> Attribute | None:
    """What a command of this type sets, if it sets an attribute. One that can't be read is a `ValueError`."""
    return _attribute(frame) if _is_attribute(kind, frame) else None


def _attribute(frame: bytes) -> Attribute | None:
    it = read(_RUN, frame)
    assert isinstance(it, Run)
    try:
        name, *value = json.loads(it.name.removeprefix(ATTRIBUTE))
    except ValueError as error:
        raise ValueError(f"{it.name[:100]} sets no attribute") from error
    return Attribute(name, value[0] if value else None)


def attributes_in(frames: Iterable[bytes]) -> dict[str, str]:
    """The attributes that the commands of a stored journal leave."""
    found: dict[str, str] = {}
    for kind, frame in (it for part in frames for it in split(part)):
        it = attribute_in(kind, frame)
        if it is not None and it.value is not None:
            found[it.name] = it.value
        elif it is not None:
            found.pop(it.name, None)
    return found


def _kinds(output: bytes) -> Iterator[int]:
    return (_OTHER if _is_attribute(kind, frame) else kind for kind, frame in split(output))


def only_steps(output: bytes) -> bool:
    """Whether an output has neither an end nor a command that asks something of the runtime."""
    return all(kind in _STEPS for kind in _kinds(output))


_ENDING = _STEPS | {_OUTPUT}


def only_ends(output: bytes) -> bool:
    """Whether an output has an end, and no command that asks something else of the runtime."""
    kinds = set(_kinds(output))
    return _END in kinds and kinds <= _ENDING | {_END}


def only_suspends(output: bytes) -> bool:
    """Whether an output has a suspension, and no command that asks something of the runtime."""
    kinds = set(_kinds(output))
    return _SUSPENSION in kinds and kinds <= _ENDING | {_SUSPENSION}


def only_runs(output: bytes) -> bool:
    """Whether an output has no frame but commands of runs that are executed, or of patches."""
    return all(kind == _RUN for kind in _kinds(output))


def signal_name(frame: bytes) -> str | None:
    """The name of the signal that an entry or a notification is; none if it is something else, or a signal by its number."""
    [(kind, _)] = split(frame)
    it = read(kind, frame) if kind not in _COMMANDS else None
    return it.id[1] if isinstance(it, Notification) and isinstance(it.id[1], str) else None


def patches_in(stream: bytes) -> dict[int, str]:
    """The patches in a stored journal: their names by the indices of their commands, of which the Input has 0."""
    if PATCHED.encode() not in stream:
        return {}
    commands = enumerate(it for it in split(stream) if it[0] in _COMMANDS)
    runs = ((at, read(kind, frame)) for at, (kind, frame) in commands if kind == _RUN)
    return {at: it.name.removeprefix(PATCHED) for at, it in runs if isinstance(it, Run) and it.name.startswith(PATCHED)}


def commands_in(stream: bytes) -> Iterator[tuple[Command, bytes]]:
    """The commands of a stored journal, each with its bytes."""
    for kind, frame in split(stream):
        if kind in _COMMANDS:
            it = read(kind, frame)
            assert isinstance(it, Command)
            yield it, frame


def messages_in(output: bytes) -> Iterator[Message]:
    """What an attempt wrote, as typed values."""
    return (read(kind, frame) for kind, frame in split(output))


_NAMES = (
    "Input GetEagerState GetLazyState GetEagerStateKeys GetLazyStateKeys SetState ClearState ClearAllState Sleep Call OneWayCall"
    " CompleteAwakeable SendSignal GetPromise PeekPromise CompletePromise Run AttachInvocation GetInvocationOutput Output Notification"
).split()


@dataclass(frozen=True)
class Described:
    """An entry of a journal as a reader sees it: its name and its fields, the completion ids that it has, and the one that it completes."""

    name: str
    fields: tuple[tuple[str, str], ...]
    carries: tuple[int, ...] = ()
    completes: int | None = None
    is_failure: bool = False

    def __str__(self) -> str:
        return " ".join([self.name, *(f"{name}={shown}" for name, shown in self.fields)])


def described(frame: bytes) -> Described:
    [(kind, whole)] = split(frame)
    it = read(kind, whole)
    fields = tuple((name, _shown(name, part)) for name, part in vars(it).items())
    is_record = isinstance(it, Run) and it.name.startswith(OWN)  # nothing completes it
    carries = it.carried() if isinstance(it, Command) and not is_record else ()
    completes = int(it.id[1]) if isinstance(it, Notification) and it.id[0] == 0 else None
    has_failed = isinstance(it, (Notification, Output)) and is_failure(it.result)
    return Described(_NAMES[kind - _INPUT], fields, carries, completes, has_failed)


def line_of(frame: bytes) -> str:
    """An entry of a journal as a line to read."""
    return str(described(frame))


def _shown(name: str, part: Any) -> str:
    if name == "result" and isinstance(part, bytes):
        what, of_it = answer(Result(part))
        return what if of_it is None else f"{what}({of_it!r})"
    return repr(part)


def is_failure(result: Result) -> bool:
    return Said(result).result == Said.FAILURE


def answer(result: Result) -> tuple[str, Any]:
    """What a result is: `void`, `value` with its bytes, `failure` with code, message and metadata, `keys` or `invocation`."""
    it = Said(result)
    if it.result == Said.VALUE:
        return "value", it.part(_REST) or b""
    if it.result == Said.FAILURE:
        return "failure", (it.second, it.text(_REST), it.pairs(_REST + 1))
    if it.result == Said.KEYS:
        return "keys", list(it.texts(_REST, it.rows))
    if it.result == Said.INVOCATION_ID:
        return "invocation", it.text(_REST)
    if it.result == Said.VOID:
        return "void", None
    raise BadFrame("the frame has no result")


def is_awake(suspension: bytes, entries: Iterable[bytes]) -> bool:
    """Whether a suspension is awake by the notifications among some entries, of which the first of each id counts."""
    return core.is_awake(suspension, entries)
