"""The library by ctypes: its calls on plain values, as the module `_c` has them where it was built.

Bytes are `bytes`, nodes an `array.array("I")` of kinds and numbers in turn, and structs as `_abi` has them. A call that opens or writes something
returns that, or its status if it isn't done."""

from __future__ import annotations

import array
import ctypes
import threading
from collections.abc import Callable
from functools import partial
from typing import Any, cast

from palqytun import _abi
from palqytun._structs import FUNCTIONS, Node

KEPT = 65536
"""Bytes of the largest buffer that is kept between calls, and of the largest payload that is copied while no other thread runs."""
COPYING = ("feed", "take_output", "part", "state_set", "call", "call_with_deadline", "send", "propose", "write_output")
COMPLETING = ("complete_awakeable", "complete_signal", "complete_promise")
WRITING = ("answer", "take_output", "part", "describe", "journal_frame", "journal_effect_part", "journal_answer")
WRITING_FRAMES = ("frame_line", "line_frame", "notification", "frame_part", "value_frame", "input_frame", "difference", "mismatch_part")

Buffer = ctypes.Array[ctypes.c_char]
Call = Callable[..., Any]


class Room:
    """Where the library writes. It grows with what it has to hold, up to `KEPT`; for what is larger a buffer is made that isn't kept."""

    def __init__(self, size: int = 256) -> None:
        self._kept: Buffer = ctypes.create_string_buffer(size)

    def __len__(self) -> int:
        return len(self._kept)

    def written(self, call: Call, arguments: tuple[object, ...], large: Call | None = None) -> bytes | int:
        """What a call writes into a buffer, which with its size is its last arguments, or its status. `large` is made instead if the buffer isn't kept."""
        room = self._kept
        told = call(*arguments, room, len(room))
        while told.status == _abi.NO_ROOM:
            if told.len > KEPT:
                room, call = ctypes.create_string_buffer(told.len), large or call
            else:
                self._kept = room = ctypes.create_string_buffer(min(KEPT, 2 * told.len))
            told = call(*arguments, room, len(room))
        return cast(bytes, room[: told.len]) if told.status == _abi.DONE else int(told.status)


class _Own(threading.local):
    """Where the library writes frames for a thread."""

    def __init__(self) -> None:
        self.room = Room(1024)


_own = _Own()


class Handle(ctypes.c_void_p):
    """The handle of a VM or of a journal, which ends with its garbage, and where its calls write."""

    room: Room
    close: Call

    def __del__(self) -> None:
        if self.value:
            self.close(self)


# ---- How arguments are passed


class _Lent:
    """Plain values, as a struct."""

    def __init__(self, struct: Any) -> None:
        self.from_param = struct.of


class _Pointed:
    """Plain values, as a pointer to a struct."""

    def __init__(self, struct: Any) -> None:
        self._of = struct.of

    def from_param(self, it: object) -> object:
        return ctypes.byref(self._of(it))


def _passed(type_of: Any) -> Any:
    """How an argument of a type is passed."""
    if hasattr(type_of, "of"):
        return _Lent(type_of)
    pointed = getattr(type_of, "_type_", None)
    return _Pointed(pointed) if hasattr(pointed, "of") else type_of


def _with_lengths(arguments: tuple[object, ...]) -> tuple[object, ...]:
    """The arguments, each of bytes with its length."""
    given = list[object]()
    for it in arguments:
        given += (it, len(it)) if isinstance(it, bytes) else (it,)
    return tuple(given)


# ---- The calls on plain values


def _opened(open: Call, close: Call) -> Handle | int:
    handle = Handle()
    handle.room, handle.close = Room(), close
    status = open(ctypes.byref(handle))
    return handle if status == _abi.DONE else int(status)


def _lending(call: Call, *arguments: object) -> Any:
    return call(*_with_lengths(arguments))


def _lending_last(call: Call, handle: Handle, data: bytes) -> Any:
    return call(handle, data, len(data))


def _writing(call: Call, large: Call | None, handle: Handle, *arguments: object) -> bytes | int:
    return handle.room.written(call, (handle, *arguments), large)


def _writing_frames(call: Call, *arguments: object) -> bytes | int:
    return _own.room.written(call, _with_lengths(arguments))


def _awaiting(call: Call, handle: Handle, nodes: array.array[int]) -> Any:
    count = len(nodes) // 2
    return call(handle, (Node * count).from_buffer(nodes), count)


def _adapted(name: str, call: Call, large: Call | None) -> Call:
    if name == "await_tree":
        return partial(_awaiting, call)
    if name in WRITING:
        return partial(_writing, call, large)
    if name in WRITING_FRAMES:
        return partial(_writing_frames, call)
    taken = FUNCTIONS[name][0]
    if taken == [ctypes.c_void_p, ctypes.c_char_p, ctypes.c_size_t]:
        return partial(_lending_last, call)
    if ctypes.c_char_p in taken:
        return partial(_lending, call)
    return call


class Loaded:
    """The functions. None of them blocks, so they keep the interpreter's lock; those that copy payloads are also in `released`, and let other threads
    run meanwhile. `OSError` or `AttributeError`: they can't be loaded."""

    def __init__(self, path: str) -> None:
        library, beside = ctypes.PyDLL(path), ctypes.CDLL(path)
        abi = getattr(library, "palqytun_abi", None)
        if abi is None or abi() != _abi.ABI:
            found = "no number" if abi is None else f"the number {abi()}"
            raise OSError(f"{path}: its interface has {found}, and this package wants {_abi.ABI}")
        functions = {name: self._function(library, name) for name in FUNCTIONS}
        large = {name: self._function(beside, name) for name in (*COPYING, *COMPLETING)}
        self.calls = {name: _adapted(name, it, large.get(name)) for name, it in functions.items()}
        self.released = {name: _adapted(name, it, it) for name, it in large.items()}
        for name in ("", "journal_"):
            self.calls[f"{name}open"] = partial(_opened, functions[f"{name}open"], functions[f"{name}close"])
        self.build: str = functions["build"]().decode()
        self.version: str = functions["version"]().decode()
        self.is_proved: bool = functions["is_proved"]()

    def _function(self, library: ctypes.CDLL, name: str) -> Any:
        function = getattr(library, f"palqytun_{name}")
        taken, function.restype = FUNCTIONS[name]
        function.argtypes = [_passed(it) for it in taken]
        return function
