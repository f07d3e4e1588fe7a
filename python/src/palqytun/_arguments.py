"""Arguments as a typed call takes them.

Each function is given an argument's name and its value, checks it as `_words` does, and returns bytes, a number or a structure of `_abi`.
"""

from __future__ import annotations

from collections.abc import Iterable
from typing import get_args

from palqytun import _abi
from palqytun._abi import Command, Error, Invocation, Options, Pairs, Policy, Target, Value
from palqytun._words import CODE, HANDLE, SEED, both, integer, octets, one_of, spoken, utf8
from palqytun.commands import CommandType, LastCommand, NextCommand, Related, RelatedCommand
from palqytun.retries import RetryPolicy
from palqytun.values import Behaviour, Data, Failure, IdempotencyId, InvocationId, Retryable, WorkflowId

_TYPES = list(CommandType)


def lent_name(value: object) -> bytes:
    """A command's name, or the empty one for `None`."""
    return b"" if value is None else utf8("name", value)


def _optional(name: str, value: object) -> bytes | None:
    return None if value is None else utf8(name, value)


def _lent_pairs(name: str, value: object) -> Pairs:
    return tuple((utf8(f"a key of {name}", key), utf8(f"a value of {name}", one)) for key, one in both(name, value))


def lent_value(name: str, value: Data | Failure) -> Value:
    """A handler's value: bytes, or a failure."""
    if not isinstance(value, Failure):
        return Value(False, 0, octets(name, value), ())
    metadata = _lent_pairs(f"{name}.metadata", value.metadata)
    return Value(True, integer(f"{name}.code", value.code, CODE), utf8(f"{name}.message", value.message), metadata)


def lent_target(
    service: str,
    handler: str,
    key: str | None,
    idempotency_key: str | None,
    scope: str | None,
    limit_key: str | None,
    headers: Iterable[tuple[str, str]],
) -> Target:
    """The handler that is called, and how."""
    called = utf8("service", service), utf8("handler", handler)
    keys = _optional("key", key), _optional("idempotency_key", idempotency_key)
    limits = _optional("scope", scope), _optional("limit_key", limit_key)
    return Target(*called, *keys, *limits, _lent_pairs("headers", headers))


def lent_options(words: dict[str, tuple[str, tuple[str, ...]]], seed: int) -> Options:
    """The options of a VM: each by its word among the words that it has."""
    cancellation, checks, awaiting, mismatch, replay, delivery = (known.index(one_of(name, word, known)) for name, (word, known) in words.items())
    return Options(cancellation, checks, awaiting, mismatch, replay, delivery, integer("seed", seed, SEED))


def lent_content_type(content_type: str | None) -> bytes | None:
    """The content type, or that there is none."""
    return _optional("content_type", content_type)


def lent_error(
    name: str, code: int, message: str, stacktrace: str | None, behaviour: Behaviour, delay: int | None
) -> Error:
    """An error. `name` stands in front of what is wrong with it."""
    number, text = integer(f"{name}code", code, CODE), spoken(f"{name}message", message)
    stack = b"" if stacktrace is None else spoken("stacktrace", stacktrace)
    known = get_args(Behaviour)
    then = known.index(one_of("behaviour", behaviour, known))
    return Error(number, then, text, stack, delay is not None, 0 if delay is None else integer("delay", delay))


def lent_retryable(name: str, result: Retryable) -> Error:
    """The error of a try that may be made again."""
    return lent_error(f"{name}.", result.code, result.message, result.stacktrace, result.behaviour, result.delay)


def lent_command(command: RelatedCommand | None) -> Command:
    """The command that an error relates to."""
    if command is None:
        return Command(_abi.RELATED_TO_NONE, 0, 0, None)
    if isinstance(command, LastCommand):
        return Command(_abi.RELATED_TO_LAST, 0, 0, None)
    if isinstance(command, NextCommand):
        return Command(_abi.RELATED_TO_NEXT, 0, *_lent_kind(command))
    if isinstance(command, Related):
        index = integer("related.index", command.index, HANDLE)
        return Command(_abi.RELATED_TO_SPECIFIC, index, *_lent_kind(command))
    raise TypeError(f"related must be a Related, a NextCommand or LAST_COMMAND, not {type(command).__name__}")


def _lent_kind(command: Related | NextCommand) -> tuple[int, bytes | None]:
    """What a command is, and its name, if it has one."""
    if not isinstance(command.type, CommandType):
        raise TypeError(f"related.type must be a CommandType, not {type(command.type).__name__}")
    return _TYPES.index(command.type), utf8("related.name", command.name) or None


def lent_invocation(target: InvocationId | WorkflowId | IdempotencyId) -> Invocation:
    """An invocation to attach to."""
    if isinstance(target, InvocationId):
        return Invocation(0, utf8("target.id", target.id), b"", b"", None, None)
    if isinstance(target, WorkflowId):
        name, key = utf8("target.name", target.name), utf8("target.key", target.key)
        return Invocation(1, name, key, b"", None, _optional("target.scope", target.scope))
    if isinstance(target, IdempotencyId):
        service, handler = utf8("target.service", target.service), utf8("target.handler", target.handler)
        key = utf8("target.idempotency_key", target.idempotency_key)
        more = _optional("target.service_key", target.service_key), _optional("target.scope", target.scope)
        return Invocation(2, service, key, handler, *more)
    raise TypeError(f"target must be an InvocationId, a WorkflowId or an IdempotencyId, not {type(target).__name__}")


def lent_policy(policy: RetryPolicy) -> Policy:
    """A retry policy."""
    if not isinstance(policy, RetryPolicy):
        raise TypeError(f"policy must be a RetryPolicy, not {type(policy).__name__}")
    return Policy(*policy.numbers)
