"""The five ways of data through the crates: where each passes, function by function. `tools/map` draws them, and checks that each stop is there."""

from __future__ import annotations

import re
from dataclasses import dataclass
from pathlib import Path

from .tree import House


@dataclass(frozen=True)
class Stop:
    """A function by which a way passes, in a crate or in a file of Python. `back` says that from here on it goes back."""

    place: str
    function: str
    back: bool = False

    @property
    def is_python(self) -> bool:
        return self.place.endswith(".py")

    @property
    def label(self) -> str:
        return Path(self.place).name if self.is_python else self.place


@dataclass(frozen=True)
class Course:
    """A way: what passes along it, and its stops in order."""

    title: str
    stops: tuple[Stop, ...]


PACKAGE = "python/src/palqytun"

COURSES = (
    Course(
        "Bytes of a journal into the VM, and its output: vmrun",
        (
            Stop("vmrun", "main"),
            Stop("program_vmrun", "feed_all"),
            Stop("vm_attempt", "feed"),
            Stop("invocation_vm", "notify_input"),
            Stop("journal_messages", "next_frame"),
            Stop("vm_inputs", "receive"),
            Stop("await_arrivals", "enqueue"),
            Stop("vm_attempt", "step", back=True),
            Stop("vm_attempt", "perform"),
            Stop("vm_asks", "ask_of"),
            Stop("invocation_vm", "command"),
            Stop("vm_machine", "issue"),
            Stop("vm_parts", "write"),
            Stop("vm_attempt", "take_output"),
            Stop("program_runs", "write_whole"),
        ),
    ),
    Course(
        "A line of a script, and its reply: vmscript",
        (
            Stop("vmscript", "main"),
            Stop("call_scripts", "run"),
            Stop("call_lines", "parse"),
            Stop("vm_calls", "perform_call"),
            Stop("invocation_vm", "command"),
            Stop("vm_machine", "issue"),
            Stop("call_lines", "show", back=True),
            Stop("program_runs", "write_whole"),
        ),
    ),
    Course(
        "A call from Python or C, and its reply",
        (
            Stop(f"{PACKAGE}/core.py", "sys_sleep"),
            Stop("ffi", "proved_sleep"),
            Stop("c_sessions", "call"),
            Stop("c_calls", "make"),
            Stop("invocation_vm", "sys_sleep"),
            Stop("vm_asks", "sleep"),
            Stop("vm_machine", "issue"),
            Stop("vm_parts", "write"),
            Stop("c_sessions", "keep_handle", back=True),
            Stop("c_sessions", "take_output"),
        ),
    ),
    Course(
        "An event of a round, and the report: vmrounds",
        (
            Stop("vmrounds", "main"),
            Stop("world_scripts", "play_text"),
            Stop("world_scripts", "script_of"),
            Stop("frame_lines", "frame_of_words"),
            Stop("world_rounds", "play_rounds"),
            Stop("world_rounds", "happen"),
            Stop("journal_store", "arrive"),
            Stop("vm_attempt", "feed"),
            Stop("world_rounds", "report", back=True),
            Stop("world_scripts", "report_of"),
        ),
    ),
    Course(
        "A step of the Python runtime to its row, and back at the next attempt",
        (
            Stop(f"{PACKAGE}/runtime/context.py", "sleep"),
            Stop(f"{PACKAGE}/core.py", "sys_sleep"),
            Stop(f"{PACKAGE}/runtime/attempt.py", "_store"),
            Stop(f"{PACKAGE}/runtime/lease.py", "store"),
            Stop(f"{PACKAGE}/runtime/journal/rules.py", "store"),
            Stop(f"{PACKAGE}/journals.py", "store"),
            Stop("c_journals", "store"),
            Stop("journal_store", "store_from"),
            Stop(f"{PACKAGE}/runtime/appending.py", "append"),
            Stop(f"{PACKAGE}/runtime/claiming.py", "claim", back=True),
            Stop(f"{PACKAGE}/runtime/journal/rules.py", "entry"),
            Stop("c_journals", "entry"),
            Stop(f"{PACKAGE}/core.py", "notify_input"),
        ),
    ),
)


def lacks(house: House, stop: Stop) -> str | None:
    """Returns what isn't there of a stop."""
    if stop.is_python:
        text = house.texts.get(Path(stop.place))
        found = text is not None and re.search(rf"\bdef {re.escape(stop.function)}\b", text)
        return None if found else f"{stop.place} has no function {stop.function}"
    texts = house.files(stop.place, "src").values()
    return None if any(re.search(rf"\bfn {re.escape(stop.function)}\b", it) for it in texts) else f"{stop.place} has no function {stop.function}"


def wrong(house: House) -> list[str]:
    """Returns the stops of the ways that aren't there."""
    return [f"tools/survey/courses.py: {why}" for course in COURSES for stop in course.stops if (why := lacks(house, stop))]


def passing(crates: list[str]) -> list[int]:
    """Returns the numbers of the ways that pass by one of these crates, from 1."""
    return [at for at, course in enumerate(COURSES, 1) if any(stop.place in crates for stop in course.stops)]
