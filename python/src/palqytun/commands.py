"""Commands as errors name them: what a command is, and to which one an error relates."""

from __future__ import annotations

import enum
from collections.abc import Mapping
from dataclasses import dataclass
from types import MappingProxyType

from palqytun import _abi

__all__ = ["LAST_COMMAND", "CommandType", "LastCommand", "NextCommand", "Related", "RelatedCommand"]


class CommandType(enum.Enum):
    """What a command is, in the order of the numbers of `palqytun.h`. As a text it is what a line writes.

    >>> str(CommandType.ONE_WAY_CALL), CommandType("Sleep")
    ('OneWayCall', <CommandType.SLEEP: 'Sleep'>)
    """

    INPUT = "Input"
    OUTPUT = "Output"
    GET_STATE = "GetState"
    GET_STATE_KEYS = "GetStateKeys"
    SET_STATE = "SetState"
    CLEAR_STATE = "ClearState"
    CLEAR_ALL_STATE = "ClearAllState"
    GET_PROMISE = "GetPromise"
    PEEK_PROMISE = "PeekPromise"
    COMPLETE_PROMISE = "CompletePromise"
    SLEEP = "Sleep"
    CALL = "Call"
    ONE_WAY_CALL = "OneWayCall"
    SEND_SIGNAL = "SendSignal"
    RUN = "Run"
    ATTACH_INVOCATION = "AttachInvocation"
    GET_INVOCATION_OUTPUT = "GetInvocationOutput"
    COMPLETE_AWAKEABLE = "CompleteAwakeable"
    CANCEL_INVOCATION = "CancelInvocation"

    def __str__(self) -> str:
        return self.value


Names = Mapping[CommandType, str]
"""What an SDK calls its commands, as `{CommandType.CALL: "ctx.service_call"}`. One that isn't there has its own name."""
NO_NAMES: Names = MappingProxyType({})

_MESSAGES = {
    _abi.MESSAGE_INPUT_COMMAND: CommandType.INPUT,
    _abi.MESSAGE_GET_EAGER_STATE_COMMAND: CommandType.GET_STATE,
    _abi.MESSAGE_GET_LAZY_STATE_COMMAND: CommandType.GET_STATE,
    _abi.MESSAGE_GET_EAGER_STATE_KEYS_COMMAND: CommandType.GET_STATE_KEYS,
    _abi.MESSAGE_GET_LAZY_STATE_KEYS_COMMAND: CommandType.GET_STATE_KEYS,
    _abi.MESSAGE_SET_STATE_COMMAND: CommandType.SET_STATE,
    _abi.MESSAGE_CLEAR_STATE_COMMAND: CommandType.CLEAR_STATE,
    _abi.MESSAGE_CLEAR_ALL_STATE_COMMAND: CommandType.CLEAR_ALL_STATE,
    _abi.MESSAGE_SLEEP_COMMAND: CommandType.SLEEP,
    _abi.MESSAGE_CALL_COMMAND: CommandType.CALL,
    _abi.MESSAGE_ONE_WAY_CALL_COMMAND: CommandType.ONE_WAY_CALL,
    _abi.MESSAGE_COMPLETE_AWAKEABLE_COMMAND: CommandType.COMPLETE_AWAKEABLE,
    _abi.MESSAGE_SEND_SIGNAL_COMMAND: CommandType.SEND_SIGNAL,
    _abi.MESSAGE_GET_PROMISE_COMMAND: CommandType.GET_PROMISE,
    _abi.MESSAGE_PEEK_PROMISE_COMMAND: CommandType.PEEK_PROMISE,
    _abi.MESSAGE_COMPLETE_PROMISE_COMMAND: CommandType.COMPLETE_PROMISE,
    _abi.MESSAGE_RUN_COMMAND: CommandType.RUN,
    _abi.MESSAGE_ATTACH_INVOCATION_COMMAND: CommandType.ATTACH_INVOCATION,
    _abi.MESSAGE_GET_INVOCATION_OUTPUT_COMMAND: CommandType.GET_INVOCATION_OUTPUT,
    _abi.MESSAGE_OUTPUT_COMMAND: CommandType.OUTPUT,
}


def type_of(message: int) -> CommandType | None:
    """What the command is whose message has this type; none if it is no command's. An invocation is cancelled by a signal that is sent."""
    return _MESSAGES.get(message)


def message_of(type: CommandType) -> int:
    """The type of the message of such a command, of two that it may have the first."""
    return next(message for message, it in _MESSAGES.items() if it is type)


def _named(type: CommandType, name: str, names: Names) -> str:
    own = names.get(type, type.value)
    return f'{own} "{name}"' if name else own


@dataclass(frozen=True)
class Related:
    """The command that an error relates to: its index in the journal, the Input being 0; what it is; and its name, which may be empty.

    >>> related = Related(3, CommandType.RUN, "seat")
    >>> str(related), related.in_words({CommandType.RUN: "ctx.run"})
    ('command 3, Run "seat"', 'command 3, ctx.run "seat"')
    """

    index: int
    type: CommandType
    name: str = ""

    def in_words(self, names: Names = NO_NAMES) -> str:
        """The same as a text, by an SDK's own names of commands."""
        return f"command {self.index}, {_named(self.type, self.name, names)}"

    def __str__(self) -> str:
        return self.in_words()


@dataclass(frozen=True)
class NextCommand:
    """The command that would have come next, to which a handler's error relates: what it is, and its name, which may be empty.

    >>> str(NextCommand(CommandType.SLEEP, "nap"))
    'the next command, Sleep "nap"'
    """

    type: CommandType
    name: str = ""

    def in_words(self, names: Names = NO_NAMES) -> str:
        """The same as a text, by an SDK's own names of commands."""
        return f"the next command, {_named(self.type, self.name, names)}"

    def __str__(self) -> str:
        return self.in_words()


class LastCommand:
    """The last command of the VM, to which a handler's error relates. There is one, `LAST_COMMAND`.

    >>> str(LAST_COMMAND)
    'the last command'
    """

    def __str__(self) -> str:
        return "the last command"

    def __repr__(self) -> str:
        return "LAST_COMMAND"

    def __reduce__(self) -> str:
        return "LAST_COMMAND"


LAST_COMMAND = LastCommand()

RelatedCommand = Related | NextCommand | LastCommand
"""The command that a handler's error relates to: that of an index, the next, or the last."""
