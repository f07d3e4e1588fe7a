"""The invocation VM: `VM` has a method for each call, under the call's own name. Beside it `Journal` is a stored journal, for its writer.

A call that the VM refuses raises `VMError`, with the error's code and text; out of memory raises `MemoryError`. An argument of the wrong
type is a `TypeError`, and one that the VM can't read a `BadLine`; both name it, and nothing was done. Payloads are `bytes`, names and keys
are `str`, times are whole milliseconds since the Unix epoch, and a handle is an `int`, which the VM hands out.

This is an attempt whose handler sleeps until one second after the Unix epoch. It was fed a Start, which names the invocation `abc` with one
known entry and an empty state, and that entry: an Input, whose value is `Till`.

>>> journal = bytes.fromhex(
...     "0001000000000000004200000000000000036162630000000000000003616263"
...     "0000000000000000000000010000000000000000000000000000000000000000"
...     "000000000000000000000000"
...     "000a00000000000000140000000000000000000000000000000454696c6c"
... )
>>> vm = VM("application/vnd.restate.invocation.v7")
>>> vm.notify_input(journal)
>>> vm.sys_input().value
b'Till'
>>> slept = vm.sys_sleep(1000)
>>> vm.do_await(slept)
Waiting(input=True, run=False)
>>> vm.notify_input_closed()
>>> vm.do_await(slept)
Traceback (most recent call last):
palqytun.errors.Suspended: 599 SUSPENDED

The methods make the typed calls of the shared object. A line of text (docs/VMSCRIPT.md) can be sent by `VM.line`. A VM may go from thread to
thread, but has one call at a time: guard one that threads share by a lock of your own.

The shared object is in this package; `./bindings/build` puts it there. It is loaded by the first `VM`. The environment variable
`PALQYTUN_LIBRARY` may name another.
"""

from __future__ import annotations

import contextlib
from collections.abc import Callable, Iterable
from types import TracebackType
from typing import Any, Literal, Never, Self, cast

from palqytun import _abi, _answers, _differing, _features, _library
from palqytun._arguments import (
    lent_command,
    lent_content_type,
    lent_error,
    lent_invocation,
    lent_name,
    lent_options,
    lent_policy,
    lent_retryable,
    lent_target,
    lent_value,
)
from palqytun._abi import Replied
from palqytun._hastened import hastened
from palqytun._lines import handed_in, word_of
from palqytun._replies import Parts, awaited_of, input_of, related_of, result_of, retry_of
from palqytun._words import HANDLE, integer, octets, truth, utf8
from palqytun.commands import LAST_COMMAND, CommandType, LastCommand, NextCommand, Related, RelatedCommand
from palqytun.differences import Difference
from palqytun.errors import BadFrame, BadLine, Cancelled, Closed, Code, Fault, JournalFault, JournalMismatch, Suspended, VMError, error_of
from palqytun.futures import (
    AnyOf,
    Future,
    all_completed,
    all_succeeded_or_first_failed,
    first_completed,
    first_succeeded_or_all_failed,
    handle_of,
    unknown,
)
from palqytun.journals import Journal, Row, Stored
from palqytun.versions import CANCEL_HANDLE, SUPPORTED_VERSIONS, content_type, seed_of_start
from palqytun.retries import RetryPolicy, retry_exponential, retry_fixed, retry_forever, retry_never
from palqytun.values import (
    VOID,
    Awakeable,
    Behaviour,
    Data,
    EphemeralReady,
    ExecuteRun,
    Failure,
    IdempotencyId,
    Input,
    InvocationId,
    ResponseHead,
    Result,
    Retryable,
    Run,
    Target,
    Void,
    Waiting,
    WorkflowId,
)

__all__ = [
    "CANCEL_HANDLE",
    "LAST_COMMAND",
    "SUPPORTED_VERSIONS",
    "VM",
    "VOID",
    "AnyOf",
    "Awakeable",
    "BadFrame",
    "BadLine",
    "Behaviour",
    "Cancelled",
    "Closed",
    "Code",
    "CommandType",
    "Data",
    "Difference",
    "EphemeralReady",
    "ExecuteRun",
    "Failure",
    "Fault",
    "Future",
    "IdempotencyId",
    "Input",
    "InvocationId",
    "Journal",
    "JournalFault",
    "JournalMismatch",
    "LastCommand",
    "NextCommand",
    "Related",
    "RelatedCommand",
    "ResponseHead",
    "Result",
    "Retryable",
    "RetryPolicy",
    "Row",
    "Run",
    "State",
    "Stored",
    "Suspended",
    "Target",
    "VMError",
    "Void",
    "Waiting",
    "WorkflowId",
    "all_completed",
    "all_succeeded_or_first_failed",
    "content_type",
    "first_completed",
    "first_succeeded_or_all_failed",
    "retry_exponential",
    "retry_fixed",
    "retry_forever",
    "retry_never",
    "seed_of_start",
    "unknown",
]

State = Literal["WaitingPreFlight", "Replaying", "Processing", "Closed"]

# The options of a VM, each with its words, the default first; beside these there is `seed`, a number.
_OPTIONS = {
    "cancel": ("calls", "none", "sends", "both", "off"),
    "checks": ("on", "off"),
    "awaiting": ("norun", "always", "never"),
    "mismatch": ("follow", "pause", "fail"),
    "replay": ("on", "off"),
    "delivery": ("queued", "overwrite"),
}

_STATES: tuple[State, ...] = ("WaitingPreFlight", "Replaying", "Processing", "Closed")


def _has_failed(replied: Replied) -> bool:
    """Whether the VM that replied this has failed: only then an error that it returns is of this kind."""
    return replied.status == _abi.REFUSED and replied.kind == _abi.ERROR


@hastened(_STATES)
class VM:
    """One VM, for one attempt of an invocation. It may stand in a `with`, whose end frees it.

    The examples of the methods go on from the VM above, once `sys_input` was called.
    """

    version: str
    """The version of the VM's messages, as `V7`."""

    def __init__(
        self,
        content_type: str | None,
        *,
        cancel: Literal["calls", "none", "sends", "both", "off"] = "calls",
        checks: Literal["on", "off"] = "on",
        awaiting: Literal["norun", "always", "never"] = "norun",
        mismatch: Literal["follow", "pause", "fail"] = "follow",
        replay: Literal["on", "off"] = "on",
        delivery: Literal["queued", "overwrite"] = "queued",
        seed: int = 0,
        **unknown: Never,
    ) -> None:
        """A VM for the version that `content_type` names; `None` stands for an absent header.

        - `cancel`: what a cancelled await cancels too: its calls, none, its sends, or both; by `off` the cancel signal ends no await.
        - `checks`: whether replay compares payloads.
        - `awaiting`: when an await that waits for input says what it waits for: unless a run executes, always, or never.
        - `mismatch`: what becomes of an invocation whose journal doesn't fit its handler: it follows the retry policy, pauses, or fails.
        - `replay`: whether recorded commands are replayed or skipped.
        - `delivery`: whether several deliveries of one signal queue up, or the newest replaces the others.
        - `seed`: the handler's random seed, if the version hands none out, as `seed_of_start` makes one.

        >>> VM("application/vnd.restate.invocation.v7", awaiting="never").version
        'V7'
        >>> VM("application/vnd.restate.invocation.v7", wait="never")
        Traceback (most recent call last):
        TypeError: VM has no option wait; its options are cancel, checks, awaiting, mismatch, replay, delivery, seed
        >>> VM("text/plain")
        Traceback (most recent call last):
        palqytun.errors.VMError: 415 UNSUPPORTED_MEDIA_TYPE: BadContentType (the content type must be application/vnd.restate.invocation.vN with N from 5 to 8)
        """
        for name in unknown:
            raise TypeError(f"VM has no option {name}; its options are {', '.join(_OPTIONS)}, seed")
        options = dict(cancel=cancel, checks=checks, awaiting=awaiting, mismatch=mismatch, replay=replay, delivery=delivery)
        words = lent_options({name: (word, _OPTIONS[name]) for name, word in options.items()}, seed)
        asked = lent_content_type(content_type)
        self._library = _library.library()
        self._calls = self._library.calls
        session = self._calls["open"]()
        if isinstance(session, int):
            raise MemoryError("no memory for a VM")
        self._session = session
        self._parts = Parts(self._calls["part"], session)
        self._is_begun = False
        self._handed_in: int | None = None  # the code of the error that was handed in, if the VM has failed by it
        self._is_refused = False  # an error has failed the VM
        self._difference: Difference | None = None  # in what that call wasn't as recorded
        self._lacks: str | None = None  # what it needed that the version hasn't
        self._ignores_payloads = checks == "off"
        # What was fed, to say in what a call differs: a list until the handler begins, then a tuple. None once nothing is replayed any more.
        self._fed: list[bytes] | tuple[bytes, ...] | None = [] if replay == "on" else None
        self.version = f"V{self._made(self._calls['make'](self._session, asked, words)).first}"

    def __enter__(self) -> Self:
        return self

    def __exit__(self, kind: type[BaseException] | None, error: BaseException | None, trace: TracebackType | None) -> None:
        self.free()

    def free(self) -> None:
        """Lets the VM go, with its memory; each later call is a `RuntimeError`. It is done by itself if the VM is garbage. A `RuntimeError`
        says that a call of another thread has not ended: then it stays."""
        status = self._calls["close"](self._session)
        if status not in (_abi.DONE, _abi.NO_SESSION):
            self._check(status)
        self._fed = None

    def _check(self, status: int) -> None:
        if status == _abi.NO_MEMORY:
            raise MemoryError("the VM found no memory")
        if status in (_abi.NO_SESSION, _abi.NO_VM, _abi.BUSY, _abi.BAD_HANDLE):
            raise RuntimeError(_library.why(status))

    def line(self, line: str) -> str:
        """Performs a line of docs/VMSCRIPT.md, and returns its reply as it is.

        >>> vm.line("await 17")
        'ok wait true false'
        """
        given = utf8("line", line)
        error = handed_in(line)
        if error is not None and _has_failed(self._calls["is_ready"](self._session)):
            error = None  # it keeps its first error
        told: _abi.Told = self._calls["line"](self._session, given)
        if told.status:
            self._check(told.status)
        answer = self._written("answer").decode("ascii")
        if error is not None:
            self._handed_in = error[0] if self._has_failed_by(*error, self._calls["is_ready"](self._session)) else None
        self._note(word_of(line), answer)
        return answer

    def _note(self, word: str, answer: str) -> None:
        """Notes what a line that begins with this word has done to the VM. What a line feeds isn't kept."""
        if word == "vm":
            self._is_begun, self._handed_in = False, None
            self._is_refused, self._difference, self._lacks = False, None, None
            self.version = answer[3:] if answer.startswith("ok ") else ""
        elif word == "sys_input" and answer.startswith("ok "):
            self._begins()
        if word in ("vm", "input"):
            self._fed = None
        self._is_refused |= answer.startswith("err ")

    def _begins(self) -> None:
        """Notes that the handler begins: all recorded commands were fed."""
        self._is_begun = True
        self._fed = None if self._fed is None else tuple(self._fed)

    def _written(self, name: str) -> bytes:
        """What a call writes."""
        written = self._calls[name](self._session)
        if not isinstance(written, bytes):
            self._check(written)
            raise RuntimeError(_library.why(written))
        return written

    def call(self, line: str) -> str:
        """Performs a line that is a call, and returns what stands after `ok`; an error is raised. It is none of the VM's own if a call or a line has
        handed it in: a line says which error that is.

        >>> vm.call("await 17")
        'wait true false'
        """
        answer = self.line(line)
        kind, _, rest = answer.partition(" ")
        if kind == "ok":
            return rest
        if kind == "err":
            code, _, inside = rest.partition(" ")
            raise self._refusal(int(code), _answers.shown(inside[1:-1]).decode(), line == "sys_input")
        if kind == "none":
            raise RuntimeError("there is no VM")
        raise BadLine(f"the VM can't read this line: {line[:200]}")

    def _ask(self, name: str, *given: object) -> Replied:
        """Makes a typed call of a command, and gives its reply; an error is raised."""
        replied: Replied = self._calls[name](self._session, *given)
        if replied.status:
            self._check_asked(replied, name, given)
        return replied

    def _send(self, payload: object, name: str, *given: object) -> Replied:
        """Makes a typed call of a command with a payload. If that is large, other threads run meanwhile."""
        is_large = isinstance(payload, (bytes, bytearray, memoryview)) and len(payload) > _library.KEPT
        replied: Replied = (self._library.released if is_large else self._calls)[name](self._session, *given)
        if replied.status:
            self._check_asked(replied, name, given)
        return replied

    def _check_asked(self, replied: Replied, name: str, given: tuple[object, ...]) -> None:
        """Raises an error of a typed call with these arguments. The last one says whether it is unstable, if it is a `bool`."""
        self._note_lacking(replied, name, given)
        self._check_made(replied, lambda vm: vm._calls[name](vm._session, *given), bool(given) and given[-1] is True)

    def _note_lacking(self, replied: Replied, name: str, given: tuple[object, ...]) -> None:
        """Notes what the call needed by which the VM has failed, if the version hasn't that."""
        if not self._is_refused and replied.number == Code.UNSUPPORTED_FEATURE:
            self._lacks = _features.lacking(name, given, int(self.version[1:]))

    def _made(self, replied: Replied) -> Replied:
        """What a call without a command has returned; an error is raised."""
        if replied.status:
            self._check_made(replied)
        return replied

    def _check_method(self, replied: Replied, method: Callable[..., object], args: tuple[VM, ...], named: dict[str, Any]) -> None:
        """Raises what a method in C was refused by: this one in Python has the same arguments, and this VM before them. If the version lacks something,
        the method says what: a VM that has failed returns the same once more."""
        if not self._is_refused and replied.number == Code.UNSUPPORTED_FEATURE:
            method(*args, **named)
        self._check_made(replied, lambda vm: method(vm, *args[1:], **named), named.get("unstable") is True)

    def _check_made(
        self, replied: Replied, call: Callable[[VM], object] | None = None, is_unstable: bool = False, *, is_first: bool = False
    ) -> None:
        """Raises an error that a typed call returned."""
        if replied.status == _abi.REFUSED:
            text, stack = self._parts.text(0), self._parts.text(1)
            related = related_of(replied, self._parts)
            retry = retry_of(self._calls["next_retry"](self._session))
            if not self._is_refused and _has_failed(replied):
                self._is_refused = True
                with contextlib.suppress(MemoryError):  # then the error says less
                    self._difference = self._differs(text, related, call, is_unstable)
            raise self._refusal(replied.number, text, is_first, stack, related, retry)
        self._check(replied.status)
        if replied.status == _abi.BAD_TEXT:
            raise BadLine("a text is no UTF-8")
        if replied.status:
            raise RuntimeError(f"the call was not made: status {replied.status}")

    def _differs(self, text: str, related: Related | None, call: Callable[[VM], object] | None, is_unstable: bool) -> Difference | None:
        """In what the call that has failed the VM isn't as it is recorded, if this error says so."""
        if self._fed is None:
            return None
        refused = _differing.Refused(text, related, self._fed, self.last_command_index)
        again = None if call is None else _differing.Call(call, self._ignores_payloads or is_unstable)
        return _differing.found(refused, again, lambda: VM(content_type(int(self.version[1:])), awaiting="never"))

    def _hand_in(self, error: _abi.Error, name: str, *given: object) -> None:
        """Makes a call that hands in this error. If the VM fails by it, each later call is refused by it; a VM that had failed keeps its first error.
        It may also fail by an error of its own: the version has no such behaviour, nobody waits for the run, or there is no memory."""
        had_failed = _has_failed(self._calls["is_ready"](self._session))
        replied: Replied = self._calls[name](self._session, *given)
        if not had_failed:
            after = replied if replied.status == _abi.REFUSED else self._calls["is_ready"](self._session)
            self._handed_in = error.code if self._has_failed_by(error.code, bytes(error.message), after) else None
            if _has_failed(after):
                self._note_lacking(after, name, (error, *given))
                self._is_refused = True
        self._made(replied)

    def _has_failed_by(self, code: int, text: bytes, after: Replied) -> bool:
        """Whether by this reply, the last one, the VM has failed by the error that was handed in."""
        return _has_failed(after) and after.number == code and self._parts.data(0) == text

    def _refusal(
        self,
        code: int,
        said: str,
        is_first: bool,
        stacktrace: str = "",
        related: Related | None = None,
        retry: tuple[Behaviour | None, int | None] = (None, None),
    ) -> Exception:
        """What a call is refused by: this error. One that was handed in is none of the VM's own, whatever its code."""
        if self._handed_in == code:
            return VMError(code, said, None, stacktrace, related, behaviour=retry[0], delay=retry[1])
        if code == Code.INTERNAL and not said:
            return MemoryError("the VM found no memory")
        return error_of(code, said, self._hint(code, said, is_first), stacktrace, related, self._difference, *retry)

    def _hint(self, code: int, said: str, is_first: bool) -> str | None:
        """What to call instead of a call that came before the handler's first, or of a first one that came twice; or what is allowed."""
        if code == Code.UNSUPPORTED_FEATURE:
            return "an awakeable needs replay, which is off" if said == Code.UNSUPPORTED_FEATURE.name else self._lacks
        if code == Code.UNSUPPORTED_MEDIA_TYPE:
            least, most = SUPPORTED_VERSIONS[0], SUPPORTED_VERSIONS[-1]
            return f"the content type must be application/vnd.restate.invocation.vN with N from {least} to {most}"
        if self._is_begun:
            return "sys_input was called before" if is_first and said in ("UnexpectedStateError", "CommandTypeMismatchError") else None
        if said == "UnexpectedStateError":
            return "feed input until is_ready_to_execute() is true, and call sys_input first"
        if code == Code.JOURNAL_MISMATCH and not is_first and self.last_command_index() <= 0:
            return "call sys_input first"
        return None

    def get_response_head(self) -> ResponseHead:
        """The head of the response: status 200, and the content type of the version.

        >>> vm.get_response_head().headers
        (('content-type', 'application/vnd.restate.invocation.v7'),)
        """
        replied = self._made(self._calls["head"](self._session))
        return ResponseHead(replied.number, self.version, self._parts.pairs(0, replied.rows))

    def notify_input(self, data: Data) -> None:
        """The next bytes of the attempt, cut anywhere. What they spell may fail the VM, which the next call raises."""
        data = octets("data", data)
        calls = self._library.released if len(data) > _library.KEPT else self._calls
        self._check(calls["feed"](self._session, data))
        if isinstance(self._fed, list):
            try:
                self._fed.append(data)
            except MemoryError:  # then an error says less
                self._fed = None

    def notify_input_closed(self) -> None:
        """No more bytes come."""
        self._made(self._calls["close_input"](self._session))

    def notify_error(
        self,
        code: int,
        message: str,
        *,
        stacktrace: str | None = None,
        behaviour: Behaviour = "retry",
        delay: int | None = None,
        related: RelatedCommand | None = None,
    ) -> None:
        """The handler failed by an error of its own, which fails the VM; one that has failed keeps its first error.

        Each later call raises it as a `VMError`, with any code: only the VM's own errors are a `Suspended`, a `MemoryError` or another class.

        `code` is below 65536. `behaviour` is `retry`, `pause` or `fail`, and `delay` that of the next try in ms. `related` is the command of the
        error: `LAST_COMMAND`, a `NextCommand`, or a `Related`, as an error has one. What is no UTF-8 in `message` and `stacktrace` is
        written as `\\udcff`.

        >>> vm.notify_error(418, "no tea", delay=500, related=LAST_COMMAND)
        >>> vm.sys_sleep(1000)
        Traceback (most recent call last):
        palqytun.errors.VMError: 418 no tea
        """
        error, command = lent_error("", code, message, stacktrace, behaviour, delay), lent_command(related)
        self._hand_in(error, "report_error", error, command)

    def take_output(self) -> bytes:
        """Takes all bytes that wait to be sent: whole frames.

        >>> vm.take_output()
        b''
        """
        output = self._written("take_output")
        if output:
            self._fed = None
        return output

    def lend_output(self) -> memoryview:
        """Takes all bytes that wait to be sent, without the copy that `take_output` makes: a view of them, for reading. They stay as they are until it is
        released, also if other calls are made. Until then `free` and the next `lend_output` raise `BufferError`, so it best stands in a `with`. Memory of
        more than 64 KiB is given back by the next `lend_output`. By ctypes the bytes are copied, and no call is refused.

        >>> slept = vm.sys_sleep(1000)
        >>> with vm.lend_output() as output:
        ...     len(output)
        30
        """
        return memoryview(self.take_output())

    def describe(self) -> str:
        """The VM in a line for a log: its version, the invocation's id once Start has come, its state, and the index of its last command, the Input
        being 0.

        >>> vm.describe()
        'V7 abc Processing, last command 0'
        >>> VM("application/vnd.restate.invocation.v8").describe()
        'V8 WaitingPreFlight, no command'
        """
        return self._written("describe").decode()

    def is_ready_to_execute(self) -> bool:
        """Whether the handler may begin: all known entries were fed.

        >>> vm.is_ready_to_execute()
        True
        """
        return self._made(self._calls["is_ready"](self._session)).first == 1

    def is_completed(self, handle: int) -> bool:
        """Whether a take of the handle would return a value."""
        return self._made(self._calls["is_completed"](self._session, integer("handle", handle, HANDLE))).first == 1

    def do_await(self, future: int | Future | AnyOf) -> Literal[True] | ExecuteRun | EphemeralReady | Waiting:
        """Whether the future, a handle, a `Future` or an `AnyOf`, is awake.

        If it isn't, `Waiting` says what may wake it: more input, or the result of a run that executes, which is to be proposed. If neither can
        come the invocation is suspended, and `Suspended` is raised. An `ExecuteRun` names a run to execute first: propose its result and await
        again. An `EphemeralReady` names an ephemeral read whose value is there. All three count as false. `Cancelled` is raised if the
        invocation was cancelled.

        >>> vm.do_await(first_completed(vm.sys_sleep(1000), vm.sys_state_get("visits")))
        True
        >>> vm.do_await(vm.create_signal_handle("go"))
        Waiting(input=True, run=False)
        >>> run = vm.sys_run("charge")
        >>> vm.do_await(run.handle)
        ExecuteRun(handle=20)
        >>> vm.do_await(run.handle)
        Waiting(input=True, run=True)
        """
        if isinstance(future, (Future, AnyOf)):
            return self._awaited(self._made(self._calls["await_tree"](self._session, future.lent())))
        return self._awaited(self._made(self._calls["await"](self._session, handle_of("future", future))))

    def _awaited(self, replied: Replied) -> Literal[True] | ExecuteRun | EphemeralReady | Waiting:
        if replied.kind == _abi.AWAKE:
            return True
        if replied.kind == _abi.CANCELLED:
            raise Cancelled("the invocation was cancelled")
        self._fed = None
        return awaited_of(replied)

    def take_notification(self, handle: int) -> Result | None:
        """Takes the result that a handle has: `bytes`, `VOID`, a `Failure`, a list of keys or an `InvocationId`; `None` if it has none.

        >>> read = vm.sys_state_get("visits")
        >>> vm.take_notification(read), vm.take_notification(read)
        (VOID, None)
        """
        return self._taken(self._made(self._calls["take"](self._session, integer("handle", handle, HANDLE))))

    def _taken(self, replied: Replied) -> Result | None:
        return result_of(replied, self._parts)

    def sys_input(self) -> Input:
        """What the handler was called with; its first call."""
        replied: Replied = self._calls["input"](self._session)
        self._check_made(replied, is_first=True)
        found = input_of(replied, self._parts)
        self._begins()
        return found

    def sys_sleep(self, wake_up_time: int, *, name: str = "", now: int | None = None) -> int:
        """A sleep until a time; returns its handle, whose result is `VOID`. The present time, `now`, is checked and has no effect: the core has
        no clock, and writes the time alone.

        >>> vm.sys_sleep(1000, name="nap")
        17
        >>> vm.sys_sleep("x")
        Traceback (most recent call last):
        TypeError: wake_up_time must be an int, not str
        """
        called = utf8("name", name)
        if now is not None:
            integer("now", now)
        return self._ask("sleep", called, integer("wake_up_time", wake_up_time)).first

    def sys_state_get(self, key: str, *, name: str | None = None, unstable: bool = False) -> int:
        """Reads the value of a state key; returns a handle, whose result is `bytes` or `VOID`.

        >>> vm.sys_state_set("visits", b"7")
        >>> vm.take_notification(vm.sys_state_get("visits"))
        b'7'
        """
        truth("unstable", unstable)
        return self._ask("state_get", utf8("key", key), lent_name(name)).first

    def sys_state_get_keys(self, *, name: str | None = None) -> int:
        """Reads the keys that have a value; returns a handle, whose result is a list.

        >>> vm.sys_state_set("visits", b"7")
        >>> vm.take_notification(vm.sys_state_get_keys())
        ['visits']
        """
        return self._ask("state_get_keys", lent_name(name)).first

    def ephemeral_state_get(self, key: str) -> int:
        """Reads the value of a state key and leaves nothing of it in the journal, for what doesn't steer the handler; returns the read's id.

        It needs version 8, and is refused in replay. `do_await` gives an `EphemeralReady` once the value is there.

        >>> vm.ephemeral_state_get("visits")
        Traceback (most recent call last):
        palqytun.errors.VMError: 573 UNSUPPORTED_FEATURE: UnsupportedFeatureForNegotiatedVersion (an ephemeral read needs version 8, and the VM has version 7)
        """
        return self._ask("ephemeral_state_get", utf8("key", key)).first

    def take_ephemeral_notification(self, id: int) -> bytes | Void | None:
        """Takes the value of an ephemeral read: `bytes`, or `VOID` if the key has none; `None` if it isn't there."""
        replied = self._made(self._calls["take_ephemeral"](self._session, integer("id", id, HANDLE)))
        return cast(bytes | Void | None, result_of(replied, self._parts))

    def sys_state_set(self, key: str, value: Data, *, name: str | None = None, unstable: bool = False) -> None:
        """Gives a state key a value.

        >>> vm.sys_state_set("visits", 7)
        Traceback (most recent call last):
        TypeError: value must be bytes, not int
        """
        given = utf8("key", key), octets("value", value), lent_name(name), truth("unstable", unstable)
        self._send(value, "state_set", *given)

    def sys_state_clear(self, key: str, *, name: str | None = None) -> None:
        """Takes a state key's value away."""
        self._ask("state_clear", utf8("key", key), lent_name(name))

    def sys_state_clear_all(self, *, name: str | None = None) -> None:
        """Takes each state key's value away."""
        self._ask("state_clear_all", lent_name(name))

    def sys_call(
        self,
        service: str,
        handler: str,
        value: Data,
        *,
        key: str | None = None,
        idempotency_key: str | None = None,
        scope: str | None = None,
        limit_key: str | None = None,
        headers: Iterable[tuple[str, str]] = (),
        name: str | None = None,
        unstable: bool = False,
    ) -> tuple[int, int]:
        """Calls another handler; returns the handles of the invocation's id, an `InvocationId`, and of its result.

        >>> vm.sys_call("Greeter", "greet", b"Ada", headers=[("lang", "en")])
        (17, 18)
        """
        target = lent_target(service, handler, key, idempotency_key, scope, limit_key, headers)
        given = octets("value", value), lent_name(name), truth("unstable", unstable)
        replied = self._send(value, "call", target, *given)
        return replied.first, replied.second

    def sys_call_with_deadline(
        self,
        service: str,
        handler: str,
        value: Data,
        wake_up_time: int,
        *,
        key: str | None = None,
        idempotency_key: str | None = None,
        scope: str | None = None,
        limit_key: str | None = None,
        headers: Iterable[tuple[str, str]] = (),
        name: str | None = None,
        unstable: bool = False,
    ) -> tuple[int, int, int]:
        """Calls another handler and sleeps until a time, in one call; returns the handles of the invocation's id, of its result and of the
        deadline. Await the first that comes of the last two.

        >>> _, answer, deadline = vm.sys_call_with_deadline("Greeter", "greet", b"Ada", 1000)
        >>> vm.do_await(first_completed(answer, deadline))
        Waiting(input=True, run=False)
        """
        target = lent_target(service, handler, key, idempotency_key, scope, limit_key, headers)
        given = octets("value", value), integer("wake_up_time", wake_up_time), lent_name(name), truth("unstable", unstable)
        replied = self._send(value, "call_with_deadline", target, *given)
        return replied.first, replied.second, replied.third

    def sys_send(
        self,
        service: str,
        handler: str,
        value: Data,
        *,
        at: int | None = None,
        key: str | None = None,
        idempotency_key: str | None = None,
        scope: str | None = None,
        limit_key: str | None = None,
        headers: Iterable[tuple[str, str]] = (),
        name: str | None = None,
        unstable: bool = False,
    ) -> int:
        """Calls another handler at once or at a time, and nobody waits for the result; returns the handle of the invocation's id.

        >>> vm.sys_send("Greeter", "greet", b"Ada", at=1000)
        17
        """
        target = lent_target(service, handler, key, idempotency_key, scope, limit_key, headers)
        time = 0 if at is None else integer("at", at)
        given = octets("value", value), time, lent_name(name), truth("unstable", unstable)
        return self._send(value, "send", target, *given).first

    def sys_awakeable(self) -> Awakeable:
        """Makes an awakeable.

        >>> vm.sys_awakeable()
        Awakeable(handle=17, id='sign_1YWJjAAAAEQ')
        """
        return Awakeable(self._made(self._calls["awakeable"](self._session)).first, self._parts.text(0))

    def create_signal_handle(self, name: str) -> int:
        """A handle for the signal of this name."""
        return self._made(self._calls["signal"](self._session, utf8("name", name))).first

    def sys_complete_awakeable(self, id: str, value: Data | Failure, *, unstable: bool = False) -> None:
        """Gives the awakeable of this id its result, bytes or a `Failure`."""
        given = utf8("id", id), lent_value("value", value), truth("unstable", unstable)
        self._send(value, "complete_awakeable", *given)

    def sys_complete_signal(self, invocation_id: str, name: str, value: Data | Failure) -> None:
        """Sends a named signal to another invocation."""
        given = utf8("invocation_id", invocation_id), utf8("name", name), lent_value("value", value)
        self._send(value, "complete_signal", *given)

    def sys_run(self, name: str) -> Run:
        """Calls a run, a side effect whose result is kept; an await says when to execute it.

        >>> run = vm.sys_run("charge")
        >>> run
        Run(handle=17, replayed=False)
        >>> vm.do_await(run.handle)
        ExecuteRun(handle=17)
        >>> vm.propose_run_completion(run.handle, b"paid")
        """
        replied = self._ask("run", utf8("name", name))
        return Run(replied.first, replied.second == 1)

    def propose_run_completion(self, handle: int, result: Data | Failure | Retryable, *, policy: RetryPolicy = retry_forever()) -> None:
        """Gives the result of a run that an await asked to execute: bytes, a `Failure`, or a `Retryable`, for which the policy decides whether
        the invocation fails to be tried again, pauses, or has the error as the run's result.

        >>> run = vm.sys_run("charge")
        >>> vm.do_await(run.handle)
        ExecuteRun(handle=17)
        >>> vm.propose_run_completion(run.handle, Retryable(503, "later", duration=20), policy=retry_fixed(500, attempts=3))
        Traceback (most recent call last):
        palqytun.errors.VMError: 503 later
        """
        under, of = lent_policy(policy), integer("handle", handle, HANDLE)
        if isinstance(result, Retryable):
            after, error = integer("result.duration", result.duration), lent_retryable("result", result)
            self._hand_in(error, "propose_retryable", of, after, error, under)
        else:
            self._send(result, "propose", of, lent_value("result", result), under)

    def sys_cancel_invocation(self, invocation_id: str) -> None:
        """Sends the built-in cancel signal to another invocation."""
        self._ask("cancel_invocation", utf8("invocation_id", invocation_id))

    def sys_get_promise(self, key: str) -> int:
        """Awaits a promise of the workflow; returns the handle of its value."""
        return self._ask("get_promise", utf8("key", key)).first

    def sys_peek_promise(self, key: str) -> int:
        """Looks whether a promise of the workflow is completed; returns the handle of its value, or of `VOID`."""
        return self._ask("peek_promise", utf8("key", key)).first

    def sys_complete_promise(self, key: str, value: Data | Failure, *, unstable: bool = False) -> int:
        """Completes a promise of the workflow; returns the handle of `VOID`, or of a `Failure` if it had been completed before."""
        given = utf8("key", key), lent_value("value", value), truth("unstable", unstable)
        return self._send(value, "complete_promise", *given).first

    def sys_attach_invocation(self, target: Target) -> int:
        """Attaches to another invocation, an `InvocationId`, `WorkflowId` or `IdempotencyId`; returns the handle of its result.

        >>> vm.sys_attach_invocation(WorkflowId("signup", "ada"))
        17
        """
        return self._ask("attach", lent_invocation(target)).first

    def sys_get_invocation_output(self, target: Target) -> int:
        """Looks whether another invocation has an output; returns the handle of it, or of `VOID`."""
        return self._ask("get_output", lent_invocation(target)).first

    def sys_write_output(self, value: Data | Failure, *, unstable: bool = False) -> None:
        """The handler's result, bytes or a `Failure`."""
        self._send(value, "write_output", lent_value("value", value), truth("unstable", unstable))

    def sys_end(self) -> None:
        """The handler ends; its last call.

        >>> vm.sys_write_output(b"done")
        >>> vm.sys_end()
        >>> vm.sys_sleep(1000)
        Traceback (most recent call last):
        palqytun.errors.Closed: 598 CLOSED: ClosedError
        """
        self._made(self._calls["end"](self._session))

    def state(self) -> State:
        """`WaitingPreFlight`, `Replaying`, `Processing` or `Closed`.

        >>> vm.state()
        'Processing'
        """
        return _STATES[self._made(self._calls["state"](self._session)).first]

    def last_command_index(self) -> int:
        """The index of the last command; -1 before any.

        >>> vm.last_command_index()
        0
        """
        replied = self._made(self._calls["last_command_index"](self._session))
        return replied.number if replied.kind == _abi.INDEX else -1
