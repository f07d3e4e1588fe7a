"""A stored journal, as its only writer knows it without its entries: `Journal` says which bytes are to be appended, and refuses what may not be."""

from __future__ import annotations

from collections.abc import Iterable
from functools import partial
from types import TracebackType
from typing import NamedTuple, Self

from palqytun import _abi, _library
from palqytun._words import integer, octets
from palqytun.effects import Asking, Effect, effect_of
from palqytun.errors import BadFrame, BadLine, Fault, JournalFault
from palqytun.values import Data

__all__ = ["Journal", "Row", "Stored"]

DEFAULT_VERSION = 7
"""The version of a VM that is made without one."""
_VERSIONS = 5, 8
_SILENT = (_abi.MESSAGE_RUN_COMMAND, _abi.MESSAGE_NOTIFICATION)  # rows of these types ask for nothing


class Row(NamedTuple):
    """An entry to be appended: the type of its message (docs/WIRE.md), the completion id that it completes, and its bytes. `effect` is what a row that
    was stored asks of the runtime, which performs it in the same transaction."""

    type: int
    completes: int | None
    frame: bytes
    effect: Effect | None = None


class Stored(NamedTuple):
    """What is stored of an attempt's output: the rows, in order, and the bytes that the attempt is fed after the commit."""

    rows: list[Row]
    feed: bytes


class Journal:
    """A stored journal without its entries. It may stand in a `with`, whose end frees it.

    A journal whose handler has slept until one second after the Unix epoch, and what comes then:

    >>> journal = Journal(map(bytes.fromhex, [
    ...     "000a00000000000000140000000000000000000000000000000454696c6c",
    ...     "0012000000000000001400000000000003e8000000010000000000000000",
    ... ]))
    >>> journal.entries
    2
    >>> slept = bytes.fromhex("001e0000000000000006000000000100")
    >>> journal.arrive(slept).completes
    1
    >>> journal.undo()
    >>> row = journal.arrive(slept)
    >>> journal.keep()
    >>> journal.arrive(slept)
    Traceback (most recent call last):
    palqytun.errors.JournalFault: SECOND_COMPLETION: the completion id was completed before

    What may not be appended is a `JournalFault`, which says why; what came since the last `keep` is then taken back, in a `store` also by a `BadFrame`.
    """

    def __init__(self, entries: Iterable[Data] = ()) -> None:
        """A journal of these entries, each one whole frame, the first one an Input; they are kept.

        >>> Journal([slept])
        Traceback (most recent call last):
        palqytun.errors.JournalFault: NO_SUCH_ID: no stored command has the completion id
        """
        self._calls = _library.library().calls
        handle = self._calls["journal_open"]()
        if isinstance(handle, int):
            raise MemoryError("no memory for a journal")
        self._handle = handle
        loaded = False
        for entry in entries:
            self.entry(entry)
            loaded = True
        if loaded:
            self.keep()

    def __enter__(self) -> Self:
        return self

    def __exit__(self, kind: type[BaseException] | None, error: BaseException | None, trace: TracebackType | None) -> None:
        self.free()

    def free(self) -> None:
        """Lets the journal go, with its memory; each later call is a `RuntimeError`. It is done by itself if the journal is garbage."""
        status = self._calls["journal_close"](self._handle)
        if status not in (_abi.DONE, _abi.NO_JOURNAL):
            self._check(status)

    def _check(self, status: int) -> None:
        if status == _abi.NO_MEMORY:
            raise MemoryError("the journal found no memory")
        if status == _abi.NOT_A_FRAME:
            raise BadFrame(_abi.TEXTS[status])
        if status in (_abi.NO_JOURNAL, _abi.BUSY, _abi.BAD_HANDLE):
            raise RuntimeError(_library.why(status))
        if status == _abi.BAD_VERSION:
            raise BadLine(f"version must be from {_VERSIONS[0]} to {_VERSIONS[1]}")
        if status:
            raise JournalFault(Fault(status))

    @property
    def entries(self) -> int:
        """How many entries it has, those that aren't committed too."""
        told: _abi.Told = self._calls["journal_entries"](self._handle)
        if told.status:
            self._check(told.status)
        return told.len

    def _entered(self, row: _abi.Row, frame: bytes) -> Row:
        if row.status:
            self._check(row.status)
        return Row(row.type, row.completes if row.is_completion else None, frame)

    def entry(self, frame: Data) -> Row:
        """The next entry of a journal that is loaded."""
        frame = octets("frame", frame)
        return self._entered(self._calls["journal_entry"](self._handle, frame), frame)

    def arrive(self, notification: Data) -> Row:
        """The entry that a notification is. The attempt is fed its bytes after the commit."""
        frame = octets("notification", notification)
        return self._entered(self._calls["journal_arrive"](self._handle, frame), frame)

    def store(self, output: Data, version: int = DEFAULT_VERSION) -> Stored:
        """What is stored of what an attempt wrote since the last `store`, as `VM.take_output` gave it: its commands, and the completions
        that its proposals are. `version` is that of the VM. A command whose message can't be read is a `BadFrame`, and what came since the
        last `keep` is taken back.

        >>> run = bytes.fromhex("001a000000000000000d00000000000000016100000002")
        >>> proposal = bytes.fromhex("0005000000000000000e0000000200000000000000000178")
        >>> stored = journal.store(run + proposal)
        >>> [(row.type, row.completes) for row in stored.rows]
        [(26, None), (30, 2)]
        >>> stored.feed.hex()
        '0006000000000000000400000002'

        Each row has its effect:

        >>> from palqytun.frames import frame_of
        >>> [row.effect for row in journal.store(frame_of('ClearState key="color"')).rows]
        [Change(name='color', value=None)]
        """
        output = octets("output", output)
        told: _abi.Stored = self._calls["journal_store"](self._handle, integer("version", version, _VERSIONS[1], _VERSIONS[0]), output)
        if told.status:
            self._check(told.status)
        try:
            rows = [self._row(at) for at in range(told.rows)]
        except BadFrame:
            self.undo()
            raise
        return Stored(rows, self._written("journal_answer") if told.feed else b"")

    def _row(self, at: int) -> Row:
        row: _abi.Row = self._calls["journal_row"](self._handle, at)
        if row.status:
            self._check(row.status)
        frame = self._written("journal_frame", at)
        effect = None if row.type in _SILENT else self._effect(at, row.type, frame)
        return Row(row.type, row.completes if row.is_completion else None, frame, effect)

    def _effect(self, at: int, type: int, frame: bytes) -> Effect | None:
        """What a row of the last store asks for."""
        said: _abi.Effect = self._calls["journal_effect"](self._handle, at)
        if said.status:
            self._check(said.status)
        return effect_of(Asking(type, frame, said, partial(self._part, at)))

    def _part(self, at: int, place: int) -> bytes | None:
        """A part of what a row of the last store asks for, if it has one there."""
        part = self._calls["journal_effect_part"](self._handle, at, place)
        return None if part == _abi.NO_PART else self._made(part)

    def _written(self, name: str, *arguments: int) -> bytes:
        """What a call writes."""
        return self._made(self._calls[name](self._handle, *arguments))

    def _made(self, written: bytes | int) -> bytes:
        """What a call has written, which returned that or its status."""
        if isinstance(written, int):
            self._check(written)
            raise RuntimeError(_library.why(written))
        return written

    def keep(self) -> None:
        """What came since the last `keep` is committed. After a `MemoryError` the journal is dropped, and has to be loaded again."""
        status = self._calls["journal_keep"](self._handle)
        if status:
            self._check(status)

    def undo(self) -> None:
        """What came since the last `keep` isn't committed: the journal is again as it was then."""
        status = self._calls["journal_undo"](self._handle)
        if status:
            self._check(status)
