"""The frames that tests feed (docs/WIRE.md): an attempt of the invocation `abc`, and what comes for it."""

import struct

from palqytun import VM

CONTENT_TYPE = "application/vnd.restate.invocation.v7"


def frame(kind: int, body: bytes) -> bytes:
    return struct.pack(">HQ", kind, len(body)) + body


def text(data: bytes) -> bytes:
    return struct.pack(">Q", len(data)) + data


def start(known_entries: int = 1) -> bytes:
    """The Start of an attempt: this many entries are known, and the state is whole and empty."""
    return frame(1, text(b"abc") * 2 + text(b"") + struct.pack(">IQ", known_entries, 0) + bytes(1 + 4 + 8 + 8 + 3))


def input_frame(value: bytes = b"Till") -> bytes:
    return frame(10, struct.pack(">Q", 0) + text(value))


def sleep_frame(wake_up_time: int, completion: int) -> bytes:
    return frame(18, struct.pack(">QI", wake_up_time, completion) + text(b""))


def completion(id: int, result: bytes) -> bytes:
    """The notification that completes a command by its number."""
    return frame(30, b"\0" + struct.pack(">I", id) + result)


def cancel_signal() -> bytes:
    return frame(30, b"\1" + struct.pack(">I", 1) + b"\0")


def fed(*frames: bytes, **options: str) -> VM:
    """A VM that was fed these frames."""
    vm = VM(CONTENT_TYPE, **options)
    for it in frames:
        vm.notify_input(it)
    return vm


def begun(**options: str) -> VM:
    """A VM whose handler has its input, and whose journal has no more."""
    vm = fed(start(), input_frame(), **options)
    vm.sys_input()
    return vm
