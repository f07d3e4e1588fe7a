"""What a call is refused by: the errors that the VM returns, and their codes."""

from __future__ import annotations

import enum
import functools
from typing import TYPE_CHECKING

from palqytun import _abi
from palqytun.commands import NO_NAMES, Names, Related
from palqytun.differences import Difference

if TYPE_CHECKING:
    from palqytun.values import Behaviour

_ERRORS = ["BadFrame", "BadLine", "Cancelled", "Closed", "JournalFault", "JournalMismatch", "Suspended", "VMError"]
__all__ = [*_ERRORS, "Code", "Difference", "Fault", "Related", "error_of", "in_words"]


class Code(enum.IntEnum):
    """The codes of the VM's own errors, and the one that a cancelled handler fails with by custom.

    An error's code may be another number: that of the handler's own error, as `VM.notify_error` was given it.

    >>> Code.SUSPENDED == 599
    True
    """

    BAD_REQUEST = 400
    """The invocation isn't as the version of the VM has it."""
    CANCELLED = 409
    """The handler was cancelled. The VM returns no such error: a handler writes it, as `Failure(Code.CANCELLED, "cancelled")`."""
    UNSUPPORTED_MEDIA_TYPE = 415
    """The content type names no version that the VM has."""
    INTERNAL = 500
    """An argument or a count is out of its bounds, or a run's result was given that nobody waits for."""
    JOURNAL_MISMATCH = 570
    """The handler makes another call than the journal has recorded."""
    PROTOCOL_VIOLATION = 571
    """The bytes that were fed aren't what may come, or a call came when it may not."""
    UNSUPPORTED_FEATURE = 573
    """The version of the VM has no such call or argument."""
    CLOSED = 598
    """The handler has ended."""
    SUSPENDED = 599
    """The invocation is suspended."""


_NAMES = {it.value: it.name for it in Code if it is not Code.CANCELLED}


def in_words(code: int, text: str, is_own: bool = True) -> str:
    """An error in words: its code, with its name if the error is the VM's own, and its text.

    >>> in_words(570, "CommandTypeMismatchError"), in_words(599, "SUSPENDED"), in_words(418, "no tea")
    ('570 JOURNAL_MISMATCH: CommandTypeMismatchError', '599 SUSPENDED', '418 no tea')
    >>> in_words(570, "no tea", is_own=False)
    '570 no tea'
    """
    name = _NAMES.get(code, text) if is_own else text
    return f"{code} {text}" if name == text else f"{code} {name}: {text}"


class VMError(Exception):
    """An error that the VM returned: its `code`, its `text`, its `stacktrace`, which is empty if there is none, and the command to which it is
    `related`, or `None`. The VM has failed, and returns the same from each later call. By lines of text only code and text are known.

    `behaviour` is what is done after it, `retry`, `pause` or `fail`, and `delay` is that of the next try in ms, or `None`. By lines neither is known, and
    both are `None`.

    `difference` says in what the call isn't as the journal has it, if the error is about that; its text stands in the message. `hint` says what to do
    in its place, if the call came out of order, what is allowed, or which version has what the call needs. Each is `None` if there is none. `is_own` is
    whether the error is the VM's own, and none that was handed in. Only then its code is a `Code`, whose name stands in the message.

    >>> from palqytun import CommandType
    >>> error = VMError(500, "no seat", related=Related(3, CommandType.RUN, "seat"))
    >>> str(error), str(error.related)
    ('500 no seat', 'command 3, Run "seat"')
    """

    def __init__(
        self,
        code: int,
        text: str,
        hint: str | None = None,
        stacktrace: str = "",
        related: Related | None = None,
        *,
        is_own: bool = False,
        difference: Difference | None = None,
        behaviour: Behaviour | None = None,
        delay: int | None = None,
    ) -> None:
        self.code = code
        self.text = text
        self.hint = hint
        self.stacktrace = stacktrace
        self.related = related
        self.is_own = is_own
        self.difference = difference
        self.behaviour = behaviour
        self.delay = delay
        super().__init__(self.in_words())

    def in_words(self, names: Names = NO_NAMES) -> str:
        """The message, by an SDK's own names of commands.

        >>> from palqytun import CommandType
        >>> recorded = Difference(4, "parameter", '"Ada"', '"Bob"', CommandType.CALL, CommandType.CALL)
        >>> print(error_of(570, "CommandMismatchError", difference=recorded).in_words({CommandType.CALL: "ctx.service_call"}))
        570 JOURNAL_MISMATCH: CommandMismatchError: command 4, ctx.service_call, is recorded with parameter "Ada", and the call gives "Bob"
        """
        about = "" if self.difference is None else f": {self.difference.in_words(names)}"
        return in_words(self.code, self.text, self.is_own) + about + (f" ({self.hint})" if self.hint else "")

    def __reduce__(self) -> tuple[object, ...]:
        named = dict(is_own=self.is_own, difference=self.difference, behaviour=self.behaviour, delay=self.delay)
        made = functools.partial(type(self), **named)
        return made, (self.code, self.text, self.hint, self.stacktrace, self.related)


class JournalMismatch(VMError):
    """The handler makes another call than the journal has recorded: its code has changed, or doesn't depend on its results alone. `difference` says
    in what."""


class Closed(VMError):
    """The handler has ended, so no call comes after."""


class Suspended(VMError):
    """The invocation is suspended: what is awaited can't come in this attempt. The output says what it waits for."""


class Cancelled(Exception):
    """The invocation was cancelled: the await has ended, and its children were sent the cancel signal. What the handler does then is its own."""


class BadLine(ValueError):
    """An argument, or a line, that the VM can't read: a text that is no UTF-8, a number that is too large, a word that isn't known.
    Nothing was done."""


class BadFrame(ValueError):
    """Bytes that aren't one whole frame, or a frame that hasn't what was asked of it."""


class Fault(enum.IntEnum):
    """Why an entry can't stand in a journal."""

    BAD_OUTPUT = 10
    """What an attempt wrote isn't whole frames."""
    NOT_A_NOTIFICATION = 11
    """What arrives isn't one whole frame of a notification."""
    NO_SUCH_ID = 12
    """No stored command has the completion id."""
    SECOND_COMPLETION = 13
    """The id was completed before."""
    WRONG_KIND = 14
    """The id of an invocation is completed by something else."""
    RUN_IS_PROPOSED = 15
    """The result of a run arrives: it is proposed by the attempt that ran it."""
    JOURNAL_FULL = 16
    """The journal has 4,294,967,295 entries."""
    BAD_JOURNAL = 17
    """What is loaded can't stand there: the first entry is an Input, each other one a command or a notification."""


class JournalFault(ValueError):
    """An entry can't stand in a journal: `fault` is why. What came since the last `keep` is taken back.

    >>> JournalFault(Fault.NO_SUCH_ID)
    JournalFault('NO_SUCH_ID: no stored command has the completion id')
    """

    def __init__(self, fault: Fault) -> None:
        super().__init__(f"{fault.name}: {_abi.TEXTS[fault]}")
        self.fault = fault

    def __reduce__(self) -> tuple[object, ...]:
        return type(self), (self.fault,)


_CLASSES: dict[int, type[VMError]] = {
    Code.JOURNAL_MISMATCH: JournalMismatch,
    Code.CLOSED: Closed,
    Code.SUSPENDED: Suspended,
}


def error_of(
    code: int,
    text: str,
    hint: str | None = None,
    stacktrace: str = "",
    related: Related | None = None,
    difference: Difference | None = None,
    behaviour: Behaviour | None = None,
    delay: int | None = None,
) -> VMError:
    """The VM's own error of this code, by its class.

    >>> error_of(598, "ClosedError")
    Closed('598 CLOSED: ClosedError')
    """
    made = _CLASSES.get(code, VMError)
    return made(code, text, hint, stacktrace, related, is_own=True, difference=difference, behaviour=behaviour, delay=delay)
