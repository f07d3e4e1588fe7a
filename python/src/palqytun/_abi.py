"""The numbers of the library for C, and what its calls take and return. `tools/header --write` writes this file, from `palqytun.h`."""

from __future__ import annotations

from dataclasses import dataclass
from typing import Final, Protocol

ABI: Final = 1
STACK: Final = 32768

DONE: Final = 0
NO_MEMORY: Final = 1
NO_SESSION: Final = 2
NO_VM: Final = 3
NO_ROOM: Final = 4
REFUSED: Final = 5
BAD_TEXT: Final = 6
BAD_TREE: Final = 7
BAD_NUMBER: Final = 8
NO_PART: Final = 9
BUSY: Final = 25
BAD_HANDLE: Final = 26
BAD_POINTER: Final = 27
NO_FRAME: Final = 28
LAYERED: Final = 29

LAYER_OWN: Final = 0
LAYER_SHORT: Final = 1
LAYER_SHORT_V6: Final = 2

SINGLE: Final = 0
FIRST_COMPLETED: Final = 1
ALL_COMPLETED: Final = 2
FIRST_SUCCEEDED_OR_ALL_FAILED: Final = 3
ALL_SUCCEEDED_OR_FIRST_FAILED: Final = 4
UNKNOWN: Final = 5

MINIMUM_VERSION: Final = 5
MAXIMUM_VERSION: Final = 8

CANCEL_CALLS: Final = 0
CANCEL_NOTHING: Final = 1
CANCEL_SENDS: Final = 2
CANCEL_CALLS_AND_SENDS: Final = 3
CANCEL_DISABLED: Final = 4

CANCEL_HANDLE: Final = 1

CHECKS_ENABLED: Final = 0
CHECKS_PAYLOAD_CHECKS_DISABLED: Final = 1

AWAITING_DONT_SEND_WHEN_EXECUTING_RUN: Final = 0
AWAITING_SEND_ALWAYS: Final = 1
AWAITING_DONT_SEND: Final = 2

MISMATCH_FOLLOW_RETRY_POLICY: Final = 0
MISMATCH_PAUSE: Final = 1
MISMATCH_FAIL_TERMINALLY: Final = 2

REPLAY_ENABLED: Final = 0
REPLAY_DISABLED: Final = 1

DELIVERY_QUEUED: Final = 0
DELIVERY_OVERWRITE: Final = 1

BEHAVIOR_RETRY: Final = 0
BEHAVIOR_PAUSE: Final = 1
BEHAVIOR_FAIL: Final = 2

CODE_BAD_REQUEST: Final = 400
CODE_UNSUPPORTED_MEDIA_TYPE: Final = 415
CODE_INTERNAL: Final = 500
CODE_JOURNAL_MISMATCH: Final = 570
CODE_PROTOCOL_VIOLATION: Final = 571
CODE_UNSUPPORTED_FEATURE: Final = 573
CODE_CLOSED: Final = 598
CODE_SUSPENDED: Final = 599

RELATED_TO_NONE: Final = 0
RELATED_TO_LAST: Final = 1
RELATED_TO_NEXT: Final = 2
RELATED_TO_SPECIFIC: Final = 3

COMMAND_INPUT: Final = 0
COMMAND_OUTPUT: Final = 1
COMMAND_GET_STATE: Final = 2
COMMAND_GET_STATE_KEYS: Final = 3
COMMAND_SET_STATE: Final = 4
COMMAND_CLEAR_STATE: Final = 5
COMMAND_CLEAR_ALL_STATE: Final = 6
COMMAND_GET_PROMISE: Final = 7
COMMAND_PEEK_PROMISE: Final = 8
COMMAND_COMPLETE_PROMISE: Final = 9
COMMAND_SLEEP: Final = 10
COMMAND_CALL: Final = 11
COMMAND_ONE_WAY_CALL: Final = 12
COMMAND_SEND_SIGNAL: Final = 13
COMMAND_RUN: Final = 14
COMMAND_ATTACH_INVOCATION: Final = 15
COMMAND_GET_INVOCATION_OUTPUT: Final = 16
COMMAND_COMPLETE_AWAKEABLE: Final = 17
COMMAND_CANCEL_INVOCATION: Final = 18

TARGET_INVOCATION_ID: Final = 0
TARGET_WORKFLOW_ID: Final = 1
TARGET_IDEMPOTENCY_ID: Final = 2

POLICY_INFINITE: Final = 0
POLICY_NONE: Final = 1
POLICY_FIXED_DELAY: Final = 2
POLICY_EXPONENTIAL: Final = 3

NOTHING: Final = 0
HANDLE: Final = 1
AWAKEABLE: Final = 2
RUN: Final = 3
EPHEMERAL: Final = 4
FLAG: Final = 5
STATE: Final = 6
INDEX: Final = 7
VERSION: Final = 8
HEAD: Final = 9
OUTPUT: Final = 10
INPUT: Final = 11
AWAKE: Final = 12
WAITING: Final = 13
EXECUTE_RUN: Final = 14
CANCELLED: Final = 15
VOID: Final = 16
VALUE: Final = 17
FAILURE: Final = 18
KEYS: Final = 19
INVOCATION_ID: Final = 20
ERROR: Final = 21
SUSPENDED: Final = 22
OUT_OF_MEMORY: Final = 23
CLOSED: Final = 24

STATE_WAITING_PRE_FLIGHT: Final = 0
STATE_REPLAYING: Final = 1
STATE_PROCESSING: Final = 2
STATE_CLOSED: Final = 3

BAD_VERSION: Final = 8
BAD_OUTPUT: Final = 10
NOT_A_NOTIFICATION: Final = 11
NO_SUCH_ID: Final = 12
SECOND_COMPLETION: Final = 13
WRONG_KIND: Final = 14
RUN_IS_PROPOSED: Final = 15
JOURNAL_FULL: Final = 16
BAD_JOURNAL: Final = 17
NO_JOURNAL: Final = 22
NO_ROW: Final = 23

EFFECT_NOTHING: Final = 0
EFFECT_BEGIN: Final = 1
EFFECT_WAIT: Final = 2
EFFECT_SEND: Final = 3
EFFECT_RESULT: Final = 4
EFFECT_COMMAND: Final = 5

NOT_A_FRAME: Final = 18
BAD_LINE: Final = 19
NO_RESULT: Final = 20
NOT_A_SUSPENSION: Final = 21
NOT_FRAMES: Final = 24

COMPLETION: Final = 0
SIGNAL: Final = 1
NAMED_SIGNAL: Final = 2

MESSAGE_START: Final = 1
MESSAGE_SUSPENSION: Final = 2
MESSAGE_ERROR: Final = 3
MESSAGE_END: Final = 4
MESSAGE_PROPOSE_RUN_COMPLETION: Final = 5
MESSAGE_PROPOSE_RUN_COMPLETION_ACK: Final = 6
MESSAGE_AWAITING_ON: Final = 7
MESSAGE_GET_STATE_EPHEMERAL_COMMAND: Final = 8
MESSAGE_GET_STATE_EPHEMERAL_NOTIFICATION: Final = 9
MESSAGE_INPUT_COMMAND: Final = 10
MESSAGE_GET_EAGER_STATE_COMMAND: Final = 11
MESSAGE_GET_LAZY_STATE_COMMAND: Final = 12
MESSAGE_GET_EAGER_STATE_KEYS_COMMAND: Final = 13
MESSAGE_GET_LAZY_STATE_KEYS_COMMAND: Final = 14
MESSAGE_SET_STATE_COMMAND: Final = 15
MESSAGE_CLEAR_STATE_COMMAND: Final = 16
MESSAGE_CLEAR_ALL_STATE_COMMAND: Final = 17
MESSAGE_SLEEP_COMMAND: Final = 18
MESSAGE_CALL_COMMAND: Final = 19
MESSAGE_ONE_WAY_CALL_COMMAND: Final = 20
MESSAGE_COMPLETE_AWAKEABLE_COMMAND: Final = 21
MESSAGE_SEND_SIGNAL_COMMAND: Final = 22
MESSAGE_GET_PROMISE_COMMAND: Final = 23
MESSAGE_PEEK_PROMISE_COMMAND: Final = 24
MESSAGE_COMPLETE_PROMISE_COMMAND: Final = 25
MESSAGE_RUN_COMMAND: Final = 26
MESSAGE_ATTACH_INVOCATION_COMMAND: Final = 27
MESSAGE_GET_INVOCATION_OUTPUT_COMMAND: Final = 28
MESSAGE_OUTPUT_COMMAND: Final = 29
MESSAGE_NOTIFICATION: Final = 30

NO_RESULT_THERE: Final = 0
RESULT_VOID: Final = 1
RESULT_VALUE: Final = 2
RESULT_FAILURE: Final = 3
RESULT_KEYS: Final = 4
RESULT_INVOCATION_ID: Final = 5

TEXTS: Final = {
    DONE: "the call was made",
    NO_MEMORY: "no memory was found",
    NO_SESSION: "the VM was closed",
    NO_VM: "there is no VM",
    NO_ROOM: "the buffer is too short",
    REFUSED: "the VM refused the call",
    BAD_TEXT: "a text isn't UTF-8",
    BAD_TREE: "the nodes aren't one tree",
    BAD_NUMBER: "a number names no case of what it is to name",
    NO_PART: "there is no such part",
    BAD_OUTPUT: "the output isn't whole frames",
    NOT_A_NOTIFICATION: "it isn't one whole frame of a notification",
    NO_SUCH_ID: "no stored command has the completion id",
    SECOND_COMPLETION: "the completion id was completed before",
    WRONG_KIND: "the id of an invocation is completed by something else",
    RUN_IS_PROPOSED: "the result of a run is proposed by the attempt that ran it",
    JOURNAL_FULL: "the journal is full",
    BAD_JOURNAL: "it isn't one whole frame of a command or a notification, or the first one isn't an Input",
    NOT_A_FRAME: "it isn't one whole frame",
    BAD_LINE: "the line has no meaning",
    NO_RESULT: "the frame has no result",
    NOT_A_SUSPENSION: "the frame isn't one of a suspension",
    NO_JOURNAL: "the journal was closed",
    NO_ROW: "the last store has no such row",
    NOT_FRAMES: "the notifications aren't whole frames",
    BUSY: "a call of another thread has not ended; let a lock guard it",
    BAD_HANDLE: "the handle is of something else",
    BAD_POINTER: "a pointer is NULL that may not be",
    NO_FRAME: "the next message has no frame in the layer of the peer",
    LAYERED: "the peer speaks another layer, and the call is in the own bytes of the VM",
}
"""What each status says."""

HOW_TO_MAKE_IT: Final = "./bindings/build makes it, at the top of the repository, or, in some minutes and without a proof, ./bindings/build --unproved"
ANOTHER: Final = "PALQYTUN_LIBRARY may name another"

Octets = bytes
Pairs = tuple[tuple[Octets, Octets], ...]


@dataclass(slots=True)
class Options:
    """palqytun_options."""

    cancellation: int
    checks: int
    awaiting: int
    mismatch: int
    replay: int
    delivery: int
    seed: int


@dataclass(slots=True)
class Target:
    """palqytun_target."""

    service: Octets
    handler: Octets
    key: Octets | None
    idempotency_key: Octets | None
    scope: Octets | None
    limit_key: Octets | None
    headers: Pairs


@dataclass(slots=True)
class Value:
    """palqytun_value."""

    is_failure: bool
    code: int
    bytes: Octets
    metadata: Pairs


@dataclass(slots=True)
class Error:
    """palqytun_error."""

    code: int
    behavior: int
    message: Octets
    stacktrace: Octets
    has_delay: bool
    delay_millis: int


@dataclass(slots=True)
class Command:
    """palqytun_command."""

    kind: int
    index: int
    type: int
    name: Octets | None


@dataclass(slots=True)
class Invocation:
    """palqytun_invocation."""

    kind: int
    name: Octets
    key: Octets
    handler: Octets
    service_key: Octets | None
    scope: Octets | None


@dataclass(slots=True)
class Policy:
    """palqytun_policy."""

    kind: int
    initial_millis: int
    numerator: int
    denominator: int
    has_interval: bool
    interval_millis: int
    has_attempts: bool
    attempts: int
    has_duration: bool
    duration_millis: int
    pauses: bool


class Told(Protocol):
    """palqytun_told."""

    @property
    def status(self) -> int: ...
    @property
    def len(self) -> int: ...


class Replied(Protocol):
    """palqytun_replied."""

    @property
    def status(self) -> int: ...
    @property
    def kind(self) -> int: ...
    @property
    def first(self) -> int: ...
    @property
    def second(self) -> int: ...
    @property
    def third(self) -> int: ...
    @property
    def number(self) -> int: ...
    @property
    def rows(self) -> int: ...
    @property
    def len(self) -> int: ...


class Retry(Protocol):
    """palqytun_retry."""

    @property
    def status(self) -> int: ...
    @property
    def behavior(self) -> int: ...
    @property
    def has_delay(self) -> bool: ...
    @property
    def delay_millis(self) -> int: ...


class Row(Protocol):
    """palqytun_row."""

    @property
    def status(self) -> int: ...
    @property
    def type(self) -> int: ...
    @property
    def is_completion(self) -> bool: ...
    @property
    def completes(self) -> int: ...
    @property
    def len(self) -> int: ...


class Stored(Protocol):
    """palqytun_stored."""

    @property
    def status(self) -> int: ...
    @property
    def rows(self) -> int: ...
    @property
    def feed(self) -> int: ...


class Effect(Protocol):
    """palqytun_effect."""

    @property
    def status(self) -> int: ...
    @property
    def kind(self) -> int: ...
    @property
    def is_awaited(self) -> bool: ...
    @property
    def completes(self) -> int: ...
    @property
    def id_completes(self) -> int: ...
    @property
    def target(self) -> int: ...
    @property
    def time(self) -> int: ...
    @property
    def headers(self) -> int: ...


class Judged(Protocol):
    """palqytun_judged."""

    @property
    def status(self) -> int: ...
    @property
    def is_awake(self) -> bool: ...


class FrameRow(Protocol):
    """palqytun_frame_row."""

    @property
    def status(self) -> int: ...
    @property
    def type(self) -> int: ...
    @property
    def kind(self) -> int: ...
    @property
    def result(self) -> int: ...
    @property
    def id(self) -> int: ...
    @property
    def second(self) -> int: ...
    @property
    def number(self) -> int: ...
    @property
    def rows(self) -> int: ...


class Compared(Protocol):
    """palqytun_compared."""

    @property
    def status(self) -> int: ...
    @property
    def is_recorded(self) -> bool: ...
    @property
    def recorded(self) -> int: ...
    @property
    def is_asked(self) -> bool: ...
    @property
    def asked(self) -> int: ...
    @property
    def is_lazy(self) -> bool: ...
