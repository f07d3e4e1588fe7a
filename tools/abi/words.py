"""What the header's numbers are called in other languages, and what each status says. Each binding has these, so none is written twice."""

from __future__ import annotations

from collections.abc import Iterator
from dataclasses import dataclass

from tools.kit.errors import Refused

from .header import Header

PREFIX = "PALQYTUN_"

LIBRARY = "libpalqytun.so"
HOW_TO_MAKE_IT = "./bindings/build makes it, at the top of the repository, or, in some minutes and without a proof, ./bindings/build --unproved"
ANOTHER = "PALQYTUN_LIBRARY may name another"

TEXTS = {
    "DONE": "the call was made",
    "NO_MEMORY": "no memory was found",
    "NO_SESSION": "the VM was closed",
    "NO_VM": "there is no VM",
    "NO_ROOM": "the buffer is too short",
    "REFUSED": "the VM refused the call",
    "BAD_TEXT": "a text isn't UTF-8",
    "BAD_TREE": "the nodes aren't one tree",
    "BAD_NUMBER": "a number names no case of what it is to name",
    "NO_PART": "there is no such part",
    "BUSY": "a call of another thread has not ended; let a lock guard it",
    "BAD_HANDLE": "the handle is of something else",
    "BAD_POINTER": "a pointer is NULL that may not be",
    "NO_FRAME": "the next message has no frame in the layer of the peer",
    "LAYERED": "the peer speaks another layer, and the call is in the own bytes of the VM",
    "BAD_OUTPUT": "the output isn't whole frames",
    "NOT_A_NOTIFICATION": "it isn't one whole frame of a notification",
    "NO_SUCH_ID": "no stored command has the completion id",
    "SECOND_COMPLETION": "the completion id was completed before",
    "WRONG_KIND": "the id of an invocation is completed by something else",
    "RUN_IS_PROPOSED": "the result of a run is proposed by the attempt that ran it",
    "JOURNAL_FULL": "the journal is full",
    "BAD_JOURNAL": "it isn't one whole frame of a command or a notification, or the first one isn't an Input",
    "NO_JOURNAL": "the journal was closed",
    "NO_ROW": "the last store has no such row",
    "NOT_A_FRAME": "it isn't one whole frame",
    "BAD_LINE": "the line has no meaning",
    "NO_RESULT": "the frame has no result",
    "NOT_A_SUSPENSION": "the frame isn't one of a suspension",
    "NOT_FRAMES": "the notifications aren't whole frames",
}
"""What each status says."""


@dataclass(frozen=True)
class Group:
    """The cases of one thing, by their names and numbers: (`CallsAndSends`, 3)."""

    name: str
    about: str
    cases: tuple[tuple[str, int], ...]


_GROUPS = {
    "CANCEL_": ("ImplicitCancellation", "What a cancelled await cancels; or the cancel signal ends no await."),
    "CHECKS_": ("NonDeterministicChecks", "Whether replay compares payloads."),
    "AWAITING_": ("AwaitingOnPolicy", "When an await that waits for input says what it waits for."),
    "MISMATCH_": ("JournalMismatchRetryBehavior", "What becomes of an invocation whose journal doesn't fit its handler."),
    "REPLAY_": ("JournalReplay", "Whether recorded commands are replayed, or skipped."),
    "DELIVERY_": ("SignalDelivery", "Several deliveries of one signal queue up, or the newest replaces the others."),
    "BEHAVIOR_": ("ErrorBehavior", "What is done after an error."),
    "COMMAND_": ("CommandType", "What a command is."),
    "STATE_": ("State", "The state of a VM."),
    "MESSAGE_": ("MessageType", "The type of a message."),
}
_BESIDE = {"CANCEL_HANDLE"}  # a number of its own


def plain(name: str) -> str:
    """A name of the header without what all of them begin with."""
    return name.removeprefix(PREFIX)


def joined(name: str) -> str:
    """A name as a word: `CALLS_AND_SENDS` is CallsAndSends."""
    return "".join(word.capitalize() for word in name.split("_"))


def groups(header: Header) -> Iterator[Group]:
    """The things that have cases."""
    for prefix, (name, about) in _GROUPS.items():
        rows = [(plain(it), number) for it, number in header.enumerators.items() if plain(it).startswith(prefix) and plain(it) not in _BESIDE]
        yield Group(name, about, tuple((joined(it.removeprefix(prefix)), number) for it, number in rows))


def statuses(header: Header) -> list[tuple[str, int, str]]:
    """The statuses: the name, the number and the text of each, by number.

    Raises Refused if one has no text, or a text no status."""
    found: dict[int, str] = {}
    for enum in header.enums:
        if any(plain(it) in TEXTS for it in enum):
            for name, number in enum.items():
                found.setdefault(number, plain(name))
    if found.keys() and set(found.values()) != TEXTS.keys():
        raise Refused(f"tools/abi/words.py: these statuses have no text, or are none: {', '.join(sorted(set(found.values()) ^ TEXTS.keys()))}")
    return [(name, number, TEXTS[name]) for number, name in sorted(found.items())]


def codes(header: Header) -> list[tuple[str, int]]:
    """The codes of the VM's own errors: the name and the number of each."""
    found = ((plain(it), number) for it, number in header.enumerators.items())
    return [(it.removeprefix("CODE_"), number) for it, number in found if it.startswith("CODE_")]


def soname(header: Header) -> str:
    """The name by which the library is looked for."""
    return f"{LIBRARY}.{header.numbers['PALQYTUN_ABI']}"
