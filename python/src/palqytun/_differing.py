"""In what the call that has failed a VM isn't as the journal has it. The library compares the two commands; here the call is made again."""

from __future__ import annotations

import contextlib
from collections.abc import Callable, Iterable
from dataclasses import dataclass
from typing import TYPE_CHECKING

from palqytun import _abi, _library, frames
from palqytun.commands import CommandType, Related, message_of
from palqytun.differences import Difference
from palqytun.errors import VMError

if TYPE_CHECKING:
    from palqytun.core import VM

_MISMATCHES = ("UnavailableEntryError", "CommandTypeMismatchError", "CommandMismatchError")
_TYPES = tuple(CommandType)


@dataclass(frozen=True)
class Call:
    """A call that can be made again on another VM, and whether replay compares no payloads of it."""

    make: Callable[[VM], object]
    ignores_payloads: bool


@dataclass(frozen=True)
class Refused:
    """What a call was refused by: the error's text and the command to which it relates. `fed` is what the VM was fed before the handler began, and
    `last` gives the index of the command that came last."""

    text: str
    related: Related | None
    fed: Iterable[bytes]
    last: Callable[[], int]

    def place(self) -> tuple[int, int] | None:
        """The index of the recorded command, the Input being 0, and the type of the call's message, 0 of an await; none if the error is about no such."""
        if self.text == "UncompletedDoProgressDuringReplay":
            return self.last() + 1, 0
        if self.related is None or self.text not in _MISMATCHES:
            return None
        return self.related.index, message_of(self.related.type)


def found(it: Refused, call: Call | None, fresh: Callable[[], VM]) -> Difference | None:
    """In what the refused call isn't as recorded, if the error is about that. It is made again on a fresh VM."""
    place = it.place()
    if place is None:
        return None
    fed, asked = b"".join(it.fed), b""
    compared: _abi.Compared = _library.library().calls["mismatch"](fed, *place)
    if compared.status:
        return None
    types = _type(compared.is_recorded, compared.recorded), _type(compared.is_asked, compared.asked)
    if types[0] is types[1] and call is not None:
        asked = _made_by(call, fresh, bool(compared.is_lazy))
    ignores_payloads = call is not None and call.ignores_payloads
    field, *values = (_part(fed, *place, asked, ignores_payloads, at) for at in range(3))
    return None if field is None else Difference(place[0], field, values[0], values[1], *types)


def _type(is_there: bool, number: int) -> CommandType | None:
    return _TYPES[number] if is_there else None


def _part(*given: object) -> str | None:
    part = _library.library().calls["mismatch_part"](*given)
    if part == _abi.NO_MEMORY:
        raise MemoryError("the library found no memory")
    return part.decode("ascii") if isinstance(part, bytes) else None


def _made_by(call: Call, fresh: Callable[[], VM], is_lazy: bool) -> bytes:
    """What a call writes on a new VM, whose journal has an input alone, and whose state is empty. A read of the state is made in one of its two forms."""
    start = f'Start id="-" debug_id="-" known_entries=1 partial={"true" if is_lazy else "false"}'
    with fresh() as vm:
        vm.notify_input(frames.frame_of(start) + frames.frame_of("Input"))
        vm.sys_input()
        with contextlib.suppress(VMError, MemoryError):
            call.make(vm)
        return vm.take_output()
