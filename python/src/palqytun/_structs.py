"""The structs and functions of the library for C, for ctypes. `tools/header --write` writes this file, from `palqytun.h`."""

from __future__ import annotations

import ctypes
from functools import lru_cache
from typing import Any

from palqytun import _abi

_SHORT = 100  # bytes


class Told(ctypes.Structure):
    """palqytun_told."""

    _fields_ = [
        ("status", ctypes.c_uint32),
        ("len", ctypes.c_size_t),
    ]
    status: int
    len: int


class Bytes(ctypes.Structure):
    """palqytun_bytes."""

    _fields_ = [
        ("at", ctypes.c_char_p),
        ("len", ctypes.c_size_t),
    ]
    len: int

    @classmethod
    def of(cls, it: bytes) -> Bytes:
        """Bytes. Those that are likely to come again, as names and keys, are kept."""
        return _short(it) if len(it) <= _SHORT else cls(it, len(it))


@lru_cache(maxsize=1024)
def _short(it: bytes) -> Bytes:
    return Bytes(it, len(it))


class Optional(ctypes.Structure):
    """palqytun_optional."""

    _fields_ = [
        ("is_given", ctypes.c_bool),
        ("bytes", Bytes),
    ]
    is_given: bool

    @classmethod
    def of(cls, it: bytes | None) -> Optional:
        return _ABSENT if it is None else cls(True, Bytes.of(it))


_ABSENT = Optional(False, Bytes(None, 0))


class Pair(ctypes.Structure):
    """palqytun_pair."""

    _fields_ = [
        ("key", Bytes),
        ("value", Bytes),
    ]


def pairs_of(pairs: _abi.Pairs) -> tuple[ctypes.Array[Pair], int]:
    """The pairs as a row, and how many they are. The row has one at least, so that no pointer is NULL."""
    if not pairs:
        return _NO_PAIRS, 0
    return (Pair * len(pairs))(*(Pair(Bytes.of(key), Bytes.of(value)) for key, value in pairs)), len(pairs)


_NO_PAIRS = (Pair * 1)()


class Value(ctypes.Structure):
    """palqytun_value."""

    _fields_ = [
        ("is_failure", ctypes.c_bool),
        ("code", ctypes.c_uint16),
        ("bytes", Bytes),
        ("metadata", ctypes.POINTER(Pair)),
        ("metadata_len", ctypes.c_size_t),
    ]
    is_failure: bool
    code: int
    metadata_len: int

    @classmethod
    def of(cls, it: _abi.Value) -> Value:
        return cls(it.is_failure, it.code, Bytes.of(it.bytes), *pairs_of(it.metadata))


class Target(ctypes.Structure):
    """palqytun_target."""

    _fields_ = [
        ("service", Bytes),
        ("handler", Bytes),
        ("key", Optional),
        ("idempotency_key", Optional),
        ("scope", Optional),
        ("limit_key", Optional),
        ("headers", ctypes.POINTER(Pair)),
        ("headers_len", ctypes.c_size_t),
    ]
    headers_len: int

    @classmethod
    def of(cls, it: _abi.Target) -> Target:
        return cls(Bytes.of(it.service), Bytes.of(it.handler), Optional.of(it.key), Optional.of(it.idempotency_key), Optional.of(it.scope), Optional.of(it.limit_key), *pairs_of(it.headers))


class Node(ctypes.Structure):
    """palqytun_node."""

    _fields_ = [
        ("kind", ctypes.c_uint32),
        ("number", ctypes.c_uint32),
    ]
    kind: int
    number: int


class Options(ctypes.Structure):
    """palqytun_options."""

    _fields_ = [
        ("cancellation", ctypes.c_uint32),
        ("checks", ctypes.c_uint32),
        ("awaiting", ctypes.c_uint32),
        ("mismatch", ctypes.c_uint32),
        ("replay", ctypes.c_uint32),
        ("delivery", ctypes.c_uint32),
        ("seed", ctypes.c_uint64),
    ]
    cancellation: int
    checks: int
    awaiting: int
    mismatch: int
    replay: int
    delivery: int
    seed: int

    @classmethod
    def of(cls, it: _abi.Options) -> Options:
        return cls(it.cancellation, it.checks, it.awaiting, it.mismatch, it.replay, it.delivery, it.seed)


class Error(ctypes.Structure):
    """palqytun_error."""

    _fields_ = [
        ("code", ctypes.c_uint16),
        ("behavior", ctypes.c_uint32),
        ("message", Bytes),
        ("stacktrace", Bytes),
        ("has_delay", ctypes.c_bool),
        ("delay_millis", ctypes.c_uint64),
    ]
    code: int
    behavior: int
    has_delay: bool
    delay_millis: int

    @classmethod
    def of(cls, it: _abi.Error) -> Error:
        return cls(it.code, it.behavior, Bytes.of(it.message), Bytes.of(it.stacktrace), it.has_delay, it.delay_millis)


class Command(ctypes.Structure):
    """palqytun_command."""

    _fields_ = [
        ("kind", ctypes.c_uint32),
        ("index", ctypes.c_uint32),
        ("type", ctypes.c_uint32),
        ("name", Optional),
    ]
    kind: int
    index: int
    type: int

    @classmethod
    def of(cls, it: _abi.Command) -> Command:
        return cls(it.kind, it.index, it.type, Optional.of(it.name))


class Invocation(ctypes.Structure):
    """palqytun_invocation."""

    _fields_ = [
        ("kind", ctypes.c_uint32),
        ("name", Bytes),
        ("key", Bytes),
        ("handler", Bytes),
        ("service_key", Optional),
        ("scope", Optional),
    ]
    kind: int

    @classmethod
    def of(cls, it: _abi.Invocation) -> Invocation:
        return cls(it.kind, Bytes.of(it.name), Bytes.of(it.key), Bytes.of(it.handler), Optional.of(it.service_key), Optional.of(it.scope))


class Policy(ctypes.Structure):
    """palqytun_policy."""

    _fields_ = [
        ("kind", ctypes.c_uint32),
        ("initial_millis", ctypes.c_uint64),
        ("numerator", ctypes.c_uint32),
        ("denominator", ctypes.c_uint32),
        ("has_interval", ctypes.c_bool),
        ("interval_millis", ctypes.c_uint64),
        ("has_attempts", ctypes.c_bool),
        ("attempts", ctypes.c_uint32),
        ("has_duration", ctypes.c_bool),
        ("duration_millis", ctypes.c_uint64),
        ("pauses", ctypes.c_bool),
    ]
    kind: int
    initial_millis: int
    numerator: int
    denominator: int
    has_interval: bool
    interval_millis: int
    has_attempts: bool
    attempts: int
    has_duration: bool
    duration_millis: int
    pauses: bool

    @classmethod
    def of(cls, it: _abi.Policy) -> Policy:
        return cls(it.kind, it.initial_millis, it.numerator, it.denominator, it.has_interval, it.interval_millis, it.has_attempts, it.attempts, it.has_duration, it.duration_millis, it.pauses)


class Replied(ctypes.Structure):
    """palqytun_replied."""

    _fields_ = [
        ("status", ctypes.c_uint32),
        ("kind", ctypes.c_uint32),
        ("first", ctypes.c_uint32),
        ("second", ctypes.c_uint32),
        ("third", ctypes.c_uint32),
        ("number", ctypes.c_uint64),
        ("rows", ctypes.c_size_t),
        ("len", ctypes.c_size_t),
    ]
    status: int
    kind: int
    first: int
    second: int
    third: int
    number: int
    rows: int
    len: int


class Retry(ctypes.Structure):
    """palqytun_retry."""

    _fields_ = [
        ("status", ctypes.c_uint32),
        ("behavior", ctypes.c_uint32),
        ("has_delay", ctypes.c_bool),
        ("delay_millis", ctypes.c_uint64),
    ]
    status: int
    behavior: int
    has_delay: bool
    delay_millis: int


class Row(ctypes.Structure):
    """palqytun_row."""

    _fields_ = [
        ("status", ctypes.c_uint32),
        ("type", ctypes.c_uint32),
        ("is_completion", ctypes.c_bool),
        ("completes", ctypes.c_uint32),
        ("len", ctypes.c_size_t),
    ]
    status: int
    type: int
    is_completion: bool
    completes: int
    len: int


class Stored(ctypes.Structure):
    """palqytun_stored."""

    _fields_ = [
        ("status", ctypes.c_uint32),
        ("rows", ctypes.c_size_t),
        ("feed", ctypes.c_size_t),
    ]
    status: int
    rows: int
    feed: int


class Effect(ctypes.Structure):
    """palqytun_effect."""

    _fields_ = [
        ("status", ctypes.c_uint32),
        ("kind", ctypes.c_uint32),
        ("is_awaited", ctypes.c_bool),
        ("completes", ctypes.c_uint32),
        ("id_completes", ctypes.c_uint32),
        ("target", ctypes.c_uint32),
        ("time", ctypes.c_uint64),
        ("headers", ctypes.c_size_t),
    ]
    status: int
    kind: int
    is_awaited: bool
    completes: int
    id_completes: int
    target: int
    time: int
    headers: int


class Judged(ctypes.Structure):
    """palqytun_judged."""

    _fields_ = [
        ("status", ctypes.c_uint32),
        ("is_awake", ctypes.c_bool),
    ]
    status: int
    is_awake: bool


class FrameRow(ctypes.Structure):
    """palqytun_frame_row."""

    _fields_ = [
        ("status", ctypes.c_uint32),
        ("type", ctypes.c_uint32),
        ("kind", ctypes.c_uint32),
        ("result", ctypes.c_uint32),
        ("id", ctypes.c_uint32),
        ("second", ctypes.c_uint32),
        ("number", ctypes.c_uint64),
        ("rows", ctypes.c_size_t),
    ]
    status: int
    type: int
    kind: int
    result: int
    id: int
    second: int
    number: int
    rows: int


class Compared(ctypes.Structure):
    """palqytun_compared."""

    _fields_ = [
        ("status", ctypes.c_uint32),
        ("is_recorded", ctypes.c_bool),
        ("recorded", ctypes.c_uint32),
        ("is_asked", ctypes.c_bool),
        ("asked", ctypes.c_uint32),
        ("is_lazy", ctypes.c_bool),
    ]
    status: int
    is_recorded: bool
    recorded: int
    is_asked: bool
    asked: int
    is_lazy: bool


FUNCTIONS: dict[str, tuple[list[Any], Any]] = {
    "open": ([ctypes.POINTER(ctypes.c_void_p)], ctypes.c_uint32),
    "open_over": ([ctypes.POINTER(ctypes.c_void_p), ctypes.c_uint32], ctypes.c_uint32),
    "line": ([ctypes.c_void_p, ctypes.c_char_p, ctypes.c_size_t], Told),
    "answer": ([ctypes.c_void_p, ctypes.c_char_p, ctypes.c_size_t], Told),
    "feed": ([ctypes.c_void_p, ctypes.c_char_p, ctypes.c_size_t], ctypes.c_uint32),
    "take_output": ([ctypes.c_void_p, ctypes.c_char_p, ctypes.c_size_t], Told),
    "close": ([ctypes.c_void_p], ctypes.c_uint32),
    "part": ([ctypes.c_void_p, ctypes.c_size_t, ctypes.c_char_p, ctypes.c_size_t], Told),
    "next_retry": ([ctypes.c_void_p], Retry),
    "lend_output": ([ctypes.c_void_p, ctypes.POINTER(Bytes)], ctypes.c_uint32),
    "make": ([ctypes.c_void_p, Optional, ctypes.POINTER(Options)], Replied),
    "is_ready": ([ctypes.c_void_p], Replied),
    "head": ([ctypes.c_void_p], Replied),
    "close_input": ([ctypes.c_void_p], Replied),
    "output": ([ctypes.c_void_p], Replied),
    "state": ([ctypes.c_void_p], Replied),
    "last_command_index": ([ctypes.c_void_p], Replied),
    "describe": ([ctypes.c_void_p, ctypes.c_char_p, ctypes.c_size_t], Told),
    "report_error": ([ctypes.c_void_p, ctypes.POINTER(Error), ctypes.POINTER(Command)], Replied),
    "input": ([ctypes.c_void_p], Replied),
    "await": ([ctypes.c_void_p, ctypes.c_uint32], Replied),
    "await_tree": ([ctypes.c_void_p, ctypes.POINTER(Node), ctypes.c_size_t], Replied),
    "take": ([ctypes.c_void_p, ctypes.c_uint32], Replied),
    "is_completed": ([ctypes.c_void_p, ctypes.c_uint32], Replied),
    "sleep": ([ctypes.c_void_p, Bytes, ctypes.c_uint64], Replied),
    "state_get": ([ctypes.c_void_p, Bytes, Bytes], Replied),
    "state_get_keys": ([ctypes.c_void_p, Bytes], Replied),
    "state_set": ([ctypes.c_void_p, Bytes, Bytes, Bytes, ctypes.c_bool], Replied),
    "state_clear": ([ctypes.c_void_p, Bytes, Bytes], Replied),
    "state_clear_all": ([ctypes.c_void_p, Bytes], Replied),
    "ephemeral_state_get": ([ctypes.c_void_p, Bytes], Replied),
    "take_ephemeral": ([ctypes.c_void_p, ctypes.c_uint32], Replied),
    "call": ([ctypes.c_void_p, ctypes.POINTER(Target), Bytes, Bytes, ctypes.c_bool], Replied),
    "call_with_deadline": ([ctypes.c_void_p, ctypes.POINTER(Target), Bytes, ctypes.c_uint64, Bytes, ctypes.c_bool], Replied),
    "send": ([ctypes.c_void_p, ctypes.POINTER(Target), Bytes, ctypes.c_uint64, Bytes, ctypes.c_bool], Replied),
    "cancel_invocation": ([ctypes.c_void_p, Bytes], Replied),
    "attach": ([ctypes.c_void_p, ctypes.POINTER(Invocation)], Replied),
    "get_output": ([ctypes.c_void_p, ctypes.POINTER(Invocation)], Replied),
    "awakeable": ([ctypes.c_void_p], Replied),
    "complete_awakeable": ([ctypes.c_void_p, Bytes, ctypes.POINTER(Value), ctypes.c_bool], Replied),
    "signal": ([ctypes.c_void_p, Bytes], Replied),
    "complete_signal": ([ctypes.c_void_p, Bytes, Bytes, ctypes.POINTER(Value)], Replied),
    "get_promise": ([ctypes.c_void_p, Bytes], Replied),
    "peek_promise": ([ctypes.c_void_p, Bytes], Replied),
    "complete_promise": ([ctypes.c_void_p, Bytes, ctypes.POINTER(Value), ctypes.c_bool], Replied),
    "run": ([ctypes.c_void_p, Bytes], Replied),
    "propose": ([ctypes.c_void_p, ctypes.c_uint32, ctypes.POINTER(Value), ctypes.POINTER(Policy)], Replied),
    "propose_retryable": ([ctypes.c_void_p, ctypes.c_uint32, ctypes.c_uint64, ctypes.POINTER(Error), ctypes.POINTER(Policy)], Replied),
    "write_output": ([ctypes.c_void_p, ctypes.POINTER(Value), ctypes.c_bool], Replied),
    "end": ([ctypes.c_void_p], Replied),
    "journal_open": ([ctypes.POINTER(ctypes.c_void_p)], ctypes.c_uint32),
    "journal_close": ([ctypes.c_void_p], ctypes.c_uint32),
    "journal_entries": ([ctypes.c_void_p], Told),
    "journal_entry": ([ctypes.c_void_p, ctypes.c_char_p, ctypes.c_size_t], Row),
    "journal_arrive": ([ctypes.c_void_p, ctypes.c_char_p, ctypes.c_size_t], Row),
    "journal_store": ([ctypes.c_void_p, ctypes.c_uint32, ctypes.c_char_p, ctypes.c_size_t], Stored),
    "journal_row": ([ctypes.c_void_p, ctypes.c_size_t], Row),
    "journal_frame": ([ctypes.c_void_p, ctypes.c_size_t, ctypes.c_char_p, ctypes.c_size_t], Told),
    "journal_effect": ([ctypes.c_void_p, ctypes.c_size_t], Effect),
    "journal_effect_part": ([ctypes.c_void_p, ctypes.c_size_t, ctypes.c_size_t, ctypes.c_char_p, ctypes.c_size_t], Told),
    "journal_answer": ([ctypes.c_void_p, ctypes.c_char_p, ctypes.c_size_t], Told),
    "journal_keep": ([ctypes.c_void_p], ctypes.c_uint32),
    "journal_undo": ([ctypes.c_void_p], ctypes.c_uint32),
    "frame_line": ([ctypes.c_char_p, ctypes.c_size_t, ctypes.c_char_p, ctypes.c_size_t], Told),
    "line_frame": ([ctypes.c_char_p, ctypes.c_size_t, ctypes.c_char_p, ctypes.c_size_t], Told),
    "notification": ([ctypes.c_uint32, ctypes.c_uint32, ctypes.c_char_p, ctypes.c_size_t, ctypes.c_char_p, ctypes.c_size_t, ctypes.c_char_p, ctypes.c_size_t], Told),
    "is_awake": ([ctypes.c_char_p, ctypes.c_size_t, ctypes.c_char_p, ctypes.c_size_t], Judged),
    "frame_read": ([ctypes.c_char_p, ctypes.c_size_t], FrameRow),
    "frame_part": ([ctypes.c_char_p, ctypes.c_size_t, ctypes.c_size_t, ctypes.c_char_p, ctypes.c_size_t], Told),
    "value_frame": ([ctypes.c_char_p, ctypes.c_size_t, ctypes.c_char_p, ctypes.c_size_t], Told),
    "input_frame": ([ctypes.c_char_p, ctypes.c_size_t, ctypes.c_char_p, ctypes.c_size_t, ctypes.c_char_p, ctypes.c_size_t], Told),
    "difference": ([ctypes.c_char_p, ctypes.c_size_t, ctypes.c_char_p, ctypes.c_size_t, ctypes.c_bool, ctypes.c_char_p, ctypes.c_size_t], Told),
    "mismatch": ([ctypes.c_char_p, ctypes.c_size_t, ctypes.c_uint32, ctypes.c_uint32], Compared),
    "mismatch_part": ([ctypes.c_char_p, ctypes.c_size_t, ctypes.c_uint32, ctypes.c_uint32, ctypes.c_char_p, ctypes.c_size_t, ctypes.c_bool, ctypes.c_size_t, ctypes.c_char_p, ctypes.c_size_t], Told),
    "status_name": ([ctypes.c_uint32], ctypes.c_char_p),
    "status_text": ([ctypes.c_uint32], ctypes.c_char_p),
    "code_name": ([ctypes.c_uint32], ctypes.c_char_p),
    "abi": ([], ctypes.c_uint32),
    "version": ([], ctypes.c_char_p),
    "build": ([], ctypes.c_char_p),
    "is_proved": ([], ctypes.c_bool),
}
"""What each function takes and returns, by its name without `palqytun_`."""
