"""Whether the handlers of an app still make the stored journals: each journal is replayed; nothing is executed, and nothing is stored.

The core refuses the first call that isn't as recorded. So what is found here before a deployment is what an attempt would meet after it.
The handler's own code between its calls does run, as it does in each attempt.
"""

from __future__ import annotations

import enum
from collections.abc import AsyncIterator, Iterator, Sequence
from dataclasses import dataclass
from itertools import groupby
from typing import Any

from palqytun.errors import Code, in_words

from .. import core
from . import journal, parting, sealing
from .codec import BadValue, Unreadable, decoded, encoded
from .context import AttemptEnds, CaughtTooMuch, Context, ReplayLog, given_failure
from .contexts import kind_of
from .database import Database
from .durable import Task
from .invocations import CLAIMED, Claimable, load
from .journal import Begin, Failed
from .parting import Difference
from .services import App, Cancelled, Handler, TerminalError
from .tasks import Tasks
from .traces import Trace


class ReplayOutcome(enum.Enum):
    """What the replay of a stored journal has shown."""

    GOES_ON = "goes on"
    """The code makes each recorded command."""
    DIFFERS = "differs"
    """The code makes another call than the recorded one, or raises before it makes it."""
    UNSUPPORTED_VERSION = "unsupported version"
    """The core makes no attempt in the protocol version of the journal."""
    STOPS_EARLY = "stops early"
    """The code stops while recorded commands are left, and the core has refused no call of it."""


@dataclass(frozen=True)
class Checked:
    """A stored journal, and what its replay has shown. `difference` says it in words, and is none if the invocation goes on. `command` is the
    index, from 0, of the command at which code and journal part; -1 is before any. `is_open`: the invocation hasn't ended. `detail` has the
    field that differs and both of its values, if the code makes another call than is recorded."""

    invocation: str
    handler: str
    is_open: bool
    command: int
    difference: str | None
    outcome: ReplayOutcome
    detail: Difference | None = None


@dataclass(frozen=True)
class Stored:
    """An invocation, and the bytes that an attempt over its stored journal is fed."""

    row: Claimable
    start: bytes

    @property
    def entries(self) -> list[bytes]:
        """The frames of the journal's entries."""
        return [frame for _, frame in journal.split(self.start)][1:]


@dataclass(frozen=True)
class Replayed:
    """How far a handler went over a stored journal: up to the command with this index, and what was wrong there, if the invocation doesn't go on.
    `context` is that of the handler, if it was called."""

    command: int
    error: str | None
    context: Context | None = None
    outcome: ReplayOutcome = ReplayOutcome.DIFFERS


class _Silent(ReplayLog):
    """Says nothing: the attempts have said it."""

    def isEnabledFor(self, level: int) -> bool:
        return False


def _begin(it: Claimable) -> Begin:
    return Begin(it.id, it.key, it.seed, idempotency_key=it.idem or None)


async def stored(db: Database, it: Claimable) -> Stored:
    """What is stored of an invocation."""
    return Stored(it, (await load(db, it.id, it.entries, it.version)).start(_begin(it)))


async def stored_of(db: Database, invocation: str) -> Stored | None:
    """The same of the invocation with this id, if there is one, at one moment: nothing is stored of it until the commit."""
    rows = await db.rows(f"SELECT {CLAIMED} FROM invocations WHERE id=?{db.lock}", (invocation,))
    return await stored(db, Claimable(*rows[0])) if rows else None


def replayed(app: App, it: Stored) -> Replayed:
    """Replays the journal of one invocation."""
    row = it.row
    try:
        handler = app.find(row.service, row.handler)
    except TerminalError as error:
        return Replayed(-1, error.message)
    try:
        made = core.VM(f"application/vnd.restate.invocation.v{row.version}", awaiting="never")
    except core.VMError as refused:
        least, most = core.SUPPORTED_VERSIONS[0], core.SUPPORTED_VERSIONS[-1]
        text = f"the journal has protocol version {row.version}, and this package supports {least} to {most}: {in_words(refused.code, refused.text)}"
        return Replayed(-1, text, outcome=ReplayOutcome.UNSUPPORTED_VERSION)
    with made as vm:
        vm.notify_input(it.start)
        vm.notify_input_closed()
        input = vm.sys_input()
        kind, trace = kind_of(handler.service, bool(row.exclusive)), Trace.of(row.id, row.trace)
        context = kind(vm, input, app, row.service, trace, patches=journal.patches_in(it.start))
        context._log = _Silent(context, row.id)
        raised = _replayed(app, vm, context, handler, input.value)
        is_left = vm.state() == "Replaying"
        said = [one for one in journal.messages_in(vm.take_output()) if isinstance(one, Failed)]
        wrong = in_words(said[0].code, said[0].message, is_own=said[0].code != Code.INTERNAL) if said else raised
        return _found(vm.last_command_index(), wrong, context, is_left)


def _found(last: int, error: str | None, context: Context, is_left: bool) -> Replayed:
    """How far a handler went that was called. `last` is the index of the last command. `is_left`: recorded commands are left, and the VM has refused
    no call."""
    if error is not None:
        return Replayed(_parts_at(last, context) if error.startswith(_MISMATCH) else last, error, context)
    if is_left:
        return Replayed(last, f"the code stops after command {last}, and recorded commands are left", context, ReplayOutcome.STOPS_EARLY)
    return Replayed(last, None, context, ReplayOutcome.GOES_ON)


def _parts_at(last: int, context: Context) -> int:
    """The index of the command from which a handler parts that the core has refused: that of its call, which counts as the last one; or of the one after
    the last, since an await makes none."""
    return last if context.refused_call is not None else last + 1


def _replayed(app: App, vm: core.VM, context: Context, handler: Handler[Any, Any], given: bytes) -> str | None:
    """Runs the handler as far as the journal goes; returns what it raised while it was replayed."""
    try:
        argument = decoded(context.codec, given, handler.takes)
    except (BadValue, Unreadable) as error:
        return f"the argument: {error}"
    main: Task[Any] = Task(handler.function(context, argument))  # type: ignore[arg-type]
    context.tasks = Tasks(main)
    try:
        _drive(app, vm, context, context.tasks)
    except (core.VMError, AttemptEnds):
        pass  # suspended at the journal's end, or refused, and then the core has said so
    except CaughtTooMuch as error:
        return str(error)
    except Unreadable as error:  # also of the last result: an attempt couldn't go on
        return f"a value that can't be read: {error}"
    except BaseException as error:  # a handler's `sys.exit()` ends no command, and no worker
        return f"{type(error).__name__}: {error}" if vm.state() == "Replaying" else None
    finally:
        context.end()
    return None


def _taken(vm: core.VM, context: Context, handle: int) -> Any:
    came = vm.take_notification(handle)
    return core.Failure(came.code, sealing.clear(context.codec, came.message), came.metadata) if isinstance(came, core.Failure) else came


def _drive(app: App, vm: core.VM, context: Context, tasks: Tasks) -> None:
    """Until the journal says no more, or the handler is done."""
    thrown: Cancelled | None = None
    while True:
        with context.entered():
            tasks.run(thrown)
        if tasks.main.done:
            failure, continued = tasks.main.failure, tasks.main.continued
            if continued is not None:
                context.write_output(continued.argument, has_next=True)
            else:
                context.write_output(encoded(context.codec, tasks.main.value) if failure is None else given_failure(failure, context.codec))
            return
        thrown = None
        try:
            if vm.do_await(tasks.tree()) is not True:
                return
        except core.Cancelled:
            thrown = Cancelled()
            continue
        for _ in tasks.taken(lambda handle: _taken(vm, context, handle)):
            pass


# ---- both commands


def difference(app: App, it: Stored) -> str | None:
    """How the code parts from a journal, with both commands; none if the invocation goes on by this code."""
    return _in_words(it, replayed(app, it))[0]


_MISMATCH = f"{Code.JOURNAL_MISMATCH.value} "


def _in_words(it: Stored, found: Replayed) -> tuple[str | None, Difference | None]:
    if found.error is None or found.command < 0 or found.context is None or not found.error.startswith(_MISMATCH):
        return found.error, None
    said, detail = _parted(it, found.command, found.context)
    return said or found.error, detail


def parted(it: Stored, last: int, context: Context) -> str | None:
    """How a handler that the core has refused parts from its journal, if `last` is the index of its last command."""
    return _parted(it, _parts_at(last, context), context)[0]


def _parted(it: Stored, command: int, context: Context) -> tuple[str | None, Difference | None]:
    """The same in words and, if it is by a call that makes a command, as a value."""
    if context.refused_call is None:
        return _awaited(it, command), None
    detail = parting.parted(it.entries, command, context.refused_call, it.row.version, _begin(it.row))
    return (detail.text if detail else None), detail


def _awaited(it: Stored, command: int) -> str | None:
    """What is recorded where the code awaits."""
    recorded = parting.commands(it.entries)
    if command >= len(recorded):
        return None
    name = parting.named(journal.described(recorded[command]))
    return f"command {command} is recorded as {name}, and the code awaits what hasn't come"


# ---- all journals of a database


async def _all(app: App, db: Database, status: str | None, ended: bool) -> AsyncIterator[Checked]:
    where, values = ("WHERE status=?", (status,)) if status else ("" if ended else "WHERE status<>'done'", ())
    for row in await db.rows(f"SELECT {CLAIMED} FROM invocations {where} ORDER BY seq", values):
        it = await stored(db, Claimable(*row))
        found = replayed(app, it)
        handler, is_open = f"{it.row.service}/{it.row.handler}", it.row.status != "done"
        said, detail = _in_words(it, found)
        yield Checked(it.row.id, handler, is_open, found.command, said, found.outcome, detail)


async def replay_all(app: App, db: Database, status: str | None = None, ended: bool = False) -> list[Checked]:
    """Replays the journals of the invocations that haven't ended, and of the others too if they are asked for; or of those with a status."""
    return [it async for it in _all(app, db, status, ended)]


PROVES = (
    "What this shows: a journal without a difference was replayed to its end, so an attempt by this code that is given the same results makes each recorded"
    " command again and goes on after the last. It shows nothing about calls that aren't recorded yet. docs/DEPLOYING.md says what is proved of it."
)


def report(found: Sequence[Checked]) -> Iterator[str]:
    """The lines of a report: by handler, those that are open first."""
    for is_open, what in ((True, "open"), (False, "ended")):
        ordered = sorted((it for it in found if it.is_open == is_open), key=lambda it: it.handler)
        for handler, group in groupby(ordered, key=lambda it: it.handler):
            yield from _of_handler(handler, what, list(group))
    count = sum(it.difference is not None for it in found)
    yield f"{len(found)} journals are replayed, {count} differ"
    yield PROVES


def _of_handler(handler: str, what: str, found: list[Checked]) -> Iterator[str]:
    apart: dict[str, list[str]] = {}
    for it in found:
        if it.difference is not None:
            apart.setdefault(it.difference, []).append(it.invocation)
    count = sum(map(len, apart.values()))
    yield f"{handler}: {len(found) - count} of {len(found)} {what} {'invocations go on' if what == 'open' else 'journals are those of this code'}"
    for text, invocations in apart.items():
        yield f"  {text}"
        yield f"    {', '.join(invocations)}"
