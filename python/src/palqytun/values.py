"""What goes into the VM and comes out of it, beside `bytes`, texts and numbers."""

from __future__ import annotations

from dataclasses import dataclass
from typing import Literal

__all__ = [
    "VOID",
    "Awakeable",
    "Behaviour",
    "Data",
    "EphemeralReady",
    "ExecuteRun",
    "Failure",
    "IdempotencyId",
    "Input",
    "InvocationId",
    "ResponseHead",
    "Result",
    "Retryable",
    "Run",
    "Target",
    "Void",
    "Waiting",
    "WorkflowId",
]

Data = bytes | bytearray | memoryview
"""What holds the bytes of an argument."""

Behaviour = Literal["retry", "pause", "fail"]
"""What the runtime does after an error: it begins a next attempt, pauses the invocation, or ends it by the error."""


class Void:
    """A result without a value, as a sleep's. There is one, `VOID`."""

    def __repr__(self) -> str:
        return "VOID"

    def __reduce__(self) -> str:
        return "VOID"


VOID = Void()


@dataclass(frozen=True)
class Failure:
    """A terminal failure: a result, or what a handler ends with. `code` is below 65536.

    >>> Failure(409, "cancelled", (("reason", "by hand"),)).metadata
    (('reason', 'by hand'),)
    """

    code: int
    message: str
    metadata: tuple[tuple[str, str], ...] = ()


@dataclass(frozen=True)
class InvocationId:
    """The result that names an invocation, or an invocation to attach to."""

    id: str


@dataclass(frozen=True)
class WorkflowId:
    """A workflow to attach to."""

    name: str
    key: str
    scope: str | None = None


@dataclass(frozen=True)
class IdempotencyId:
    """An invocation to attach to, by its idempotency key."""

    service: str
    handler: str
    idempotency_key: str
    service_key: str | None = None
    scope: str | None = None


Target = InvocationId | WorkflowId | IdempotencyId
"""An invocation to attach to."""

Result = bytes | Void | Failure | list[str] | InvocationId
"""The result of a handle. A list of texts is the keys of the state."""


@dataclass(frozen=True)
class Input:
    """What the handler was called with."""

    invocation_id: str
    random_seed: int
    key: str
    headers: tuple[tuple[str, str], ...]
    value: bytes
    scope: str | None = None
    limit_key: str | None = None
    idempotency_key: str | None = None


@dataclass(frozen=True)
class Awakeable:
    """An awakeable: the handle to await, and the id by which others complete it."""

    handle: int
    id: str


@dataclass(frozen=True)
class Run:
    """A run that the handler called: the handle of its result, and whether the journal has that result already."""

    handle: int
    replayed: bool


@dataclass(frozen=True)
class ExecuteRun:
    """What an await returns if a run is to be executed first: the run's handle. It counts as false, for nothing awaited is there yet."""

    handle: int

    def __bool__(self) -> Literal[False]:
        return False


@dataclass(frozen=True)
class EphemeralReady:
    """What an await returns if the value of an ephemeral read is there and wasn't taken yet: the read's id. It counts as false: take the value
    by `VM.take_ephemeral_notification` and await again."""

    id: int

    def __bool__(self) -> Literal[False]:
        return False


@dataclass(frozen=True)
class Waiting:
    """What an await returns if nothing awaited is there yet: whether `input` may bring it, and whether a `run` that executes may, whose result
    is to be proposed. It counts as false.

    >>> reply = Waiting(input=True, run=False)
    >>> "awake" if reply else "more input" if reply.input else "a run's result"
    'more input'
    """

    input: bool
    run: bool

    def __bool__(self) -> Literal[False]:
        return False


@dataclass(frozen=True)
class Retryable:
    """A failed execution of a run, which may be executed again: the error, and how long the execution took in ms. `code` is below 65536;
    `behaviour` and `delay` are those of `VM.notify_error`."""

    code: int
    message: str
    duration: int = 0
    stacktrace: str | None = None
    behaviour: Behaviour = "retry"
    delay: int | None = None


@dataclass(frozen=True)
class ResponseHead:
    """The head of the response to the runtime."""

    status_code: int
    version: str
    headers: tuple[tuple[str, str], ...] = ()
