"""Frames beside a journal: each as its line (docs/FRAMES.md) and back, its result as a notification, whether a suspension is awake, and in which
field two commands differ; and what a frame says as numbers and parts, without text.

The core reads and writes the bodies of frames. Only the head of one, its type and its length, is looked at here, to `split` a stream.

>>> output = frame_of('Output result=value("Till")')
>>> completed = completion(3, output)
>>> line_of(completed)
'Notification id=completion(3) result=value("Till")'
>>> suspension = frame_of("Suspension future=(kind=FirstCompleted completions=[3])")
>>> is_awake(suspension, []), is_awake(suspension, [completed])
(False, True)
"""

from __future__ import annotations

import struct
from collections.abc import Iterable, Iterator

from typing import cast

from palqytun import _abi, _library
from palqytun._words import COUNT, integer, octets, truth, utf8
from palqytun.errors import BadFrame, BadLine
from palqytun.values import Data

__all__ = ["Message", "completion", "difference", "frame_of", "input_frame", "is_awake", "line_of", "named_signal", "signal", "split", "value_frame"]

_COMPLETION, _SIGNAL, _NAMED = range(3)
_HEAD = struct.Struct(">HQ")


class _NoPart(Exception):
    """A message has no part at a place."""


def _refuse(status: int) -> None:
    if status == _abi.NO_PART:
        raise _NoPart
    if status == _abi.NO_MEMORY:
        raise MemoryError("the core found no memory")
    if status == _abi.BAD_LINE:
        raise BadLine(_abi.TEXTS[status])
    raise BadFrame(_abi.TEXTS[status])


def _written(name: str, *arguments: object) -> bytes:
    """What a call writes."""
    written = _library.library().calls[name](*arguments)
    if not isinstance(written, bytes):
        _refuse(written)
    return cast(bytes, written)


def split(stream: Data) -> Iterator[tuple[int, bytes]]:
    """The frames of a stream, each with the type of its message, as an attempt's output has them. Bytes that are no whole frame are a `BadFrame`,
    after the frames that stand before them.

    >>> [(type, line_of(frame)) for type, frame in split(frame_of("End") + frame_of('ClearState key="k"'))]
    [(4, 'End'), (16, 'ClearState key="k"')]
    >>> list(split(b"x"))
    Traceback (most recent call last):
    palqytun.errors.BadFrame: the stream ends within the head of a frame
    """
    at = 0
    while at < len(stream):
        if len(stream) - at < _HEAD.size:
            raise BadFrame("the stream ends within the head of a frame")
        type, length = _HEAD.unpack_from(stream, at)
        end = at + _HEAD.size + length
        if end > len(stream):
            raise BadFrame("the stream ends within a frame")
        yield type, bytes(stream[at:end])
        at = end


def line_of(frame: Data) -> str:
    """The line of a frame.

    >>> line_of(bytes.fromhex("001e0000000000000006000000000100"))
    'Notification id=completion(1) result=void'
    >>> line_of(b"x")
    Traceback (most recent call last):
    palqytun.errors.BadFrame: it isn't one whole frame
    """
    return _written("frame_line", octets("frame", frame)).decode("ascii")


def frame_of(line: str) -> bytes:
    """The frame that a line shows.

    >>> frame_of("Sleep wake_up_time=1000 result_completion_id=1").hex()
    '0012000000000000001400000000000003e8000000010000000000000000'
    >>> frame_of("Sleep soundly")
    Traceback (most recent call last):
    palqytun.errors.BadLine: the line has no meaning, and docs/FRAMES.md says which have one: 'Sleep soundly'
    """
    given = utf8("line", line)
    try:
        return _written("line_frame", given)
    except BadLine as error:
        raise BadLine(f"{error}, and docs/FRAMES.md says which have one: {line[:200]!r}") from None


def _notification(kind: int, id: int, name: bytes, frame: Data) -> bytes:
    return _written("notification", kind, id, name, octets("frame", frame))


def completion(id: int, frame: Data) -> bytes:
    """The notification that completes an id, with the result that a frame has: an output, a notification, the proposal of a run, or the
    completion of an awakeable, a signal or a promise.

    >>> completion(1, frame_of("End"))
    Traceback (most recent call last):
    palqytun.errors.BadFrame: the frame has no result
    """
    return _notification(_COMPLETION, integer("id", id, COUNT), b"", frame)


def signal(index: int, frame: Data) -> bytes:
    """The notification of the signal with this number, with the result that a frame has.

    >>> line_of(signal(17, frame_of("Notification id=completion(0) result=void")))
    'Notification id=signal(17) result=void'
    """
    return _notification(_SIGNAL, integer("index", index, COUNT), b"", frame)


def named_signal(name: str, frame: Data) -> bytes:
    """The notification of the signal with this name, with the result that a frame has.

    >>> line_of(named_signal("go", frame_of("Notification id=completion(0) result=void")))
    'Notification id=name("go") result=void'
    """
    return _notification(_NAMED, 0, utf8("name", name), frame)


class Message:
    """What a frame says: the type of its message (docs/WIRE.md), its numbers, and its parts, which are texts and bytes, by their places.
    `palqytun.h` has the meaning of each number and each place (`palqytun_frame_row`, `palqytun_frame_part`).

    >>> slept = Message(frame_of('Sleep wake_up_time=1000 result_completion_id=1 name="rest"'))
    >>> slept.type, slept.id, slept.number, slept.text(0)
    (18, 1, 1000, 'rest')
    >>> Message(frame_of('Output result=failure(code=409 message="no" metadata=[("k" "v")])')).pairs(9)
    (('k', 'v'),)
    >>> Message(b"x")
    Traceback (most recent call last):
    palqytun.errors.BadFrame: it isn't one whole frame
    """

    __slots__ = ("_frame", "id", "kind", "number", "result", "rows", "second", "type")

    VOID, VALUE, FAILURE, KEYS, INVOCATION_ID = range(1, 6)
    """What a `result` is; 0 is none."""

    def __init__(self, frame: Data) -> None:
        self._frame = octets("frame", frame)
        row: _abi.FrameRow = _library.library().calls["frame_read"](self._frame)
        if row.status:
            _refuse(row.status)
        self.type, self.kind, self.result = row.type, row.kind, row.result
        self.id, self.second, self.number, self.rows = row.id, row.second, row.number, row.rows

    def part(self, at: int) -> bytes | None:
        """The bytes at a place, if there are some.

        >>> Message(frame_of('SetState key="k" value="v"')).part(1)
        b'v'
        """
        try:
            return _written("frame_part", self._frame, integer("at", at))
        except _NoPart:
            return None

    def text(self, at: int) -> str:
        """The text at a place, empty if there is none."""
        return (self.part(at) or b"").decode()

    def texts(self, at: int, count: int) -> tuple[str, ...]:
        """The texts at `count` places, from `at` on."""
        return tuple(self.text(place) for place in range(at, at + count))

    def pairs(self, at: int) -> tuple[tuple[str, str], ...]:
        """The headers, or the metadata of a failure, of which the first key stands at this place."""
        texts = self.texts(at, 2 * self.rows)
        return tuple(zip(texts[::2], texts[1::2], strict=True))


def value_frame(value: Data) -> bytes:
    """A frame that has these bytes as its result: the notification of completion 0.

    >>> line_of(value_frame(b"Till"))
    'Notification id=completion(0) result=value("Till")'
    """
    return _written("value_frame", octets("value", value))


def input_frame(frame: Data, value: Data) -> bytes:
    """The frame of an input, with this value instead of its own.

    >>> line_of(input_frame(frame_of('Input headers=[("a" "b")]'), b"Till"))
    'Input headers=[("a" "b")] value="Till"'
    """
    return _written("input_frame", octets("frame", frame), octets("value", value))


def is_awake(suspension: Data, notifications: Iterable[Data]) -> bool:
    """Whether the future of a suspension is awake by these notifications, of which the first of each id counts.

    >>> suspension = frame_of("Suspension future=(kind=AllSucceededOrFirstFailed signals=[1] named=[\\"a\\"])")
    >>> came = frame_of('Notification id=signal(1) result=void')
    >>> failed = frame_of('Notification id=signal(1) result=failure(code=500 message="no")')
    >>> is_awake(suspension, [came]), is_awake(suspension, [failed]), is_awake(suspension, [came, failed])
    (False, True, False)
    """
    whole, stream = octets("suspension", suspension), b"".join(octets("notification", it) for it in notifications)
    judged: _abi.Judged = _library.library().calls["is_awake"](whole, stream)
    if judged.status:
        _refuse(judged.status)
    return bool(judged.is_awake)


def difference(recorded: Data, asked: Data, ignores_payloads: bool = False) -> str | None:
    """The first field in which the command of a call isn't as the recorded one, by its name on the line of a frame; none if replay takes the two
    for one. It is `type` if the two are of different types. Ids come last.

    >>> recorded = frame_of('Call service_name="Greeter" handler_name="greet" parameter="Ada" result_completion_id=2')
    >>> asked = frame_of('Call service_name="Greeter" handler_name="greet" parameter="Bob" result_completion_id=4')
    >>> difference(recorded, asked), difference(recorded, asked, True), difference(recorded, frame_of("Sleep"))
    ('parameter', 'result_completion_id', 'type')
    >>> difference(asked, asked) is None
    True
    """
    try:
        given = octets("recorded", recorded), octets("asked", asked), truth("ignores_payloads", ignores_payloads)
        return _written("difference", *given).decode("ascii")
    except _NoPart:
        return None
