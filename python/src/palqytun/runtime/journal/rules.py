"""How a journal is stored: the rules that the core's theorem asks of whoever stores one, each with a check that no option turns off.

    BEGINNING  the new journal begins with the old one: entries are only appended, at the place after the last
    IN-ORDER   of what an attempt wrote the next bytes are stored, in order, none left out and none twice
    ONCE       an id is completed at most once, and only after a stored command that has it
    KIND       an invocation's id is completed by one, a run by what its attempt proposed, and nothing else completes these
    PROPOSAL   a proposal is stored as its run's completion; it is acknowledged only once that is stored
    WHOLE      an attempt is handed the whole journal, from its Input on

ONCE, KIND and PROPOSAL are kept by the core's `palqytun.Journal`, which is proved: it says what is stored, and refuses what may not be. The
others are kept here.

What is fed to an attempt is what these methods return, and each of them returns it for entries that it has just appended. So a command
stands after every notification that its attempt had been fed when it wrote the command, if a runtime feeds nothing before the commit.
"""

from __future__ import annotations

from collections.abc import Iterator
from contextlib import contextmanager
from dataclasses import dataclass, field
from typing import NamedTuple

import palqytun
from palqytun import Fault, JournalFault
from palqytun.effects import Effect, Wait
from palqytun.journals import DEFAULT_VERSION

from . import frames
from .frames import Attribute, Begin, Change, End, Failed, Suspension


class BrokenRule(Exception):
    """A rule would have been broken, and nothing was stored. `rule` is its name."""

    def __init__(self, rule: str, what: str):
        super().__init__(f"{rule}: {what}")
        self.rule = rule


_RULES = {
    Fault.BAD_OUTPUT: "IN-ORDER",
    Fault.NOT_A_NOTIFICATION: "KIND",
    Fault.NO_SUCH_ID: "ONCE",
    Fault.SECOND_COMPLETION: "ONCE",
    Fault.WRONG_KIND: "KIND",
    Fault.RUN_IS_PROPOSED: "KIND",
    Fault.JOURNAL_FULL: "WHOLE",
    Fault.BAD_JOURNAL: "WHOLE",
}


class Entry(NamedTuple):
    """An entry that is to be stored at this place. `completes` is the completion id, if it is a completion."""

    at: int
    completes: int | None
    frame: bytes


@dataclass
class Stored:
    """What the output of an attempt is to a journal."""

    entries: list[Entry] = field(default_factory=list)
    effects: list[Effect | Attribute] = field(default_factory=list)  # what the commands ask of the runtime, in their order
    feed: list[bytes] = field(default_factory=list)  # acknowledgements, to feed after the commit
    end: Suspension | End | Failed | None = None


class Journal:
    """A stored journal as its only writer knows it: the core's, the entries until `start` hands them out, and how much of this attempt's
    output is stored."""

    def __init__(self, version: int = DEFAULT_VERSION) -> None:
        """`version` is that of the attempts' VM, which says what is fed after a proposal."""
        self.version = version
        self.entries = 0
        self.written = 0  # how many bytes of this attempt's output are stored
        self._core = palqytun.Journal()
        self._loaded: list[tuple[int, bytes]] | None = []  # its entries, each with its type, until `start` hands them out
        self._timed: list[int | bytes] = []  # of each command that a timer completes, in order: the completion id, or the frame that has it
        self._kept = (0, 0, 0)

    @contextmanager
    def _ruled(self, what: str) -> Iterator[None]:
        """A fault of the core's journal names the rule that would have been broken. What wasn't committed is taken back, here as there."""
        try:
            yield
        except MemoryError:
            self.undo()
            raise
        except JournalFault as error:
            self.undo()
            raise BrokenRule(_RULES[error.fault], f"{what}: {error}") from error
        except ValueError as error:  # something can't be read
            self.undo()
            raise BrokenRule("IN-ORDER", f"{what}: {error}") from error

    def entry(self, frame: bytes) -> None:
        """The next entry of a journal that is being loaded, which ends by `keep`."""
        if self._loaded is None:
            raise BrokenRule("WHOLE", "an entry is loaded after the attempt has begun")
        with self._ruled(f"entry {self.entries}"):
            row = self._core.entry(frame)
        self._loaded.append((row.type, frame))
        if row.type == frames.TIMED:
            self._timed.append(frame)
        self.entries += 1

    def start(self, begin: Begin) -> bytes:
        """The bytes that a new attempt is fed: its Start, and the whole journal. It is asked once, before any output is stored."""
        if not self._loaded:
            raise BrokenRule("WHOLE", "the journal has no entries")
        begun = frames.start(begin, self.entries) + b"".join(frame for _, frame in self._loaded)
        self._loaded = None
        return begun

    def arrive(self, notification: bytes) -> Entry:
        """The entry that a notification is. It is fed to the attempt once it is stored."""
        with self._ruled("an arrival"):
            row = self._core.arrive(notification)
        if self._loaded is not None:
            self._loaded.append((row.type, notification))
        return self._placed(row)

    def store(self, output: bytes, at: int) -> Stored:
        """The entries of what an attempt wrote; `at` is how many bytes it had written before."""
        if at != self.written:
            raise BrokenRule("IN-ORDER", f"byte {at} of the output comes after byte {self.written}")
        with self._ruled("an output"):
            end = frames.end_of(output)
            made = self._core.store(output, self.version)
            effects = [it for row in made.rows if (it := _asked(row)) is not None]
        stored = Stored([self._placed(row) for row in made.rows], effects, [made.feed] if made.feed else [], end)
        self._timed += [it.completes for it in effects if isinstance(it, Wait)]
        self.written += len(output)
        return stored

    def state(self, base: dict[str, bytes]) -> dict[str, bytes]:
        """The keyed state as the commands of a loaded journal leave it, from what it was before the first of them."""
        state = dict(base)
        for kind, frame in self._loaded or []:
            it = frames.read(kind, frame) if kind in frames.CHANGES else None
            if not isinstance(it, Change):
                continue
            if it.key is None:
                state.clear()
            elif it.value is None:
                state.pop(it.key, None)
            else:
                state[it.key] = it.value
        return state

    def timed(self, number: int) -> int | None:
        """The completion id of a command that a timer completes, with this number, from 0 in the order of the journal; none if it isn't stored yet."""
        if number >= len(self._timed):
            return None
        it = self._timed[number]
        if isinstance(it, int):
            return it
        [read] = frames.messages_in(it)
        return frames.timed(read)

    def keep(self) -> None:
        """What was stored since the last `keep` is committed."""
        self._core.keep()
        self._kept = (self.entries, self.written, len(self._timed))

    def undo(self) -> None:
        """What was stored since the last `keep` isn't committed: it is taken back."""
        self._core.undo()
        if self._loaded is not None:
            del self._loaded[self._kept[0] :]
        self.entries, self.written, timed = self._kept
        del self._timed[timed:]

    def _placed(self, row: palqytun.Row) -> Entry:
        self.entries += 1
        return Entry(self.entries - 1, row.completes, row.frame)


def _asked(row: palqytun.Row) -> Effect | Attribute | None:
    """What a stored row asks of the runtime: what the core says, or an attribute, which only the runtime knows."""
    return row.effect if row.effect is not None else frames.attribute_in(row.type, row.frame)


def effect_of(command: bytes) -> Effect | None:
    """What the command that a frame is asks of a runtime, if it asks for something: what a journal says that has nothing else."""
    with palqytun.Journal() as alone:
        [row] = alone.store(command).rows
        return row.effect
