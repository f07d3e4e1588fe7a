"""How a call that the core has refused parts from the journal: the command that is recorded there, the one that the call makes, and the first
field in which they differ. Which field that is the core says (`palqytun.frames.difference`)."""

from __future__ import annotations

import contextlib
from collections.abc import Sequence
from dataclasses import dataclass, replace
from typing import Any

from .. import core, frames
from . import journal
from .journal import Begin, Described

_NAMING = ("name", "service", "handler", "key", "invocation", "target")  # what distinguishes one command from another at a glance
_IDS = ("invocation_id_notification_idx", "result_completion_id")  # they follow from the place
_READ = {"service_name": "service", "handler_name": "handler", "awakeable_id": "awakeable", "target_invocation_id": "target", "completion": "result"}
"""Fields that have another name where a reader sees them."""
_LONG = 120  # characters of a value


@dataclass(frozen=True)
class Asked:
    """A call of the core by a handler: its name, as `sys_run`, and its arguments."""

    name: str
    arguments: tuple[Any, ...]
    options: dict[str, Any]


@dataclass(frozen=True)
class Difference:
    """How a call parts from the recorded command with this index, the input being 0. `field` is the first one that isn't the same, by its name on
    the line of a frame, and `recorded` and `asked` are its two values, shortened. The field is `type` if the commands are of different types, and
    `recorded` and `asked` are the commands then; it is none if they differ in no field. `text` says it all."""

    command: int
    field: str | None
    recorded: str
    asked: str
    text: str

    def __str__(self) -> str:
        return self.text


def commands(entries: Sequence[bytes]) -> list[bytes]:
    """The commands among the entries of a journal. The first one is the input."""
    return [frame for frame in entries if journal.described(frame).name != "Notification"]


def made(call: Asked, input: bytes, version: int, begin: Begin) -> list[bytes]:
    """The commands that a call makes if only the input is recorded."""
    recorded = journal.Journal(version)
    recorded.entry(input)
    recorded.keep()
    with core.VM(f"application/vnd.restate.invocation.v{version}", awaiting="never") as vm:
        vm.notify_input(recorded.start(begin))
        vm.sys_input()
        with contextlib.suppress(core.VMError):
            getattr(vm, call.name)(*call.arguments, **call.options)
        return [frame for _, frame in journal.commands_in(vm.take_output())]


def named(it: Described) -> str:
    """A command by what names it."""
    names = {name: shown for name, shown in it.fields if name in _NAMING and shown not in ("None", "''")}
    if "handler" in names:
        names["service"] = f"{names['service']}/{names.pop('handler')}".replace("'", "")
    return " ".join([it.name, *names.values()])


def _found(recorded: bytes, asked: bytes, call: Asked) -> str | None:
    """The first field in which they differ. The made command has the ids of an empty journal, so a difference in ids alone is none."""
    ignores_payloads = bool(call.options.get("unstable")) or call.name.startswith("sys_state_get")
    found = frames.difference(recorded, asked, ignores_payloads)
    return None if found in _IDS else found


def _shortened(shown: str) -> str:
    return f"{shown:.{_LONG}}"


def between(at: int, recorded: bytes, asked: bytes, field: str | None) -> Difference:
    """The recorded command with this index, and the other one that the code makes there, which differ first in this field."""
    one, other = journal.described(recorded), journal.described(asked)
    if field == "type":
        here, there = named(one), named(other)
        return Difference(at, field, here, there, f"command {at} is recorded as {here}, and the code makes {there}")
    name = "" if field is None else _READ.get(field, field)
    here, there = (_shortened(dict(it.fields).get(name, "")) for it in (one, other))
    if here != there:
        text = f"command {at}, {named(one)}, is recorded with {name} {here}, and the code gives {there}"
        return Difference(at, field, here, there, text)
    here, there = _shortened(frames.line_of(recorded)), _shortened(frames.line_of(asked))
    by_field = "" if field is None else f", which differ in {field}"
    return Difference(at, field, here, there, f"command {at} is recorded as {here}, and the code makes {there}{by_field}")


def parted(entries: Sequence[bytes], at: int, call: Asked, version: int, begin: Begin) -> Difference | None:
    """How a call that was refused parts from the recorded command with this index, the input being 0; none if there is no such command, or the
    call makes none. A call may make two commands, of which the second is refused. A read of the state is made in the form that is recorded."""
    recorded = commands(entries)
    if at >= len(recorded):
        return None
    is_lazy = journal.described(recorded[at]).name.startswith("GetLazy")
    asked = made(call, entries[0], version, replace(begin, partial=is_lazy))
    if not asked:
        return None
    is_second = len(asked) > 1 and at > 0 and _found(recorded[at - 1], asked[0], call) is None
    it = asked[is_second]
    return between(at, recorded[at], it, _found(recorded[at], it, call))
