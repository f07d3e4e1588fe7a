"""Plays the suite through `palqytun.VM`, by its typed calls."""

from __future__ import annotations

import json
from collections.abc import Callable
from typing import Any

import palqytun as core
from palqytun import LAST_COMMAND, VM, CommandType, Failure, Future, IdempotencyId, InvocationId, NextCommand, Related, RelatedCommand, Retryable
from palqytun import RetryPolicy, Void, VMError, WorkflowId

from .calls import Json
from .suite import WANTS, Step, exact

HEX = {"data", "value"}  # arguments whose bytes stand in hex
TREES = {
    "first_completed": core.first_completed,
    "all_completed": core.all_completed,
    "first_succeeded_or_all_failed": core.first_succeeded_or_all_failed,
    "all_succeeded_or_first_failed": core.all_succeeded_or_first_failed,
    "unknown": core.unknown,
}
NUMBERS = {"wake_up_time", "now", "at", "delay", "duration", "interval", "initial", "seed", "handle", "id"}


def play(line: str) -> tuple[str, list[str]]:
    """Plays a row, which is a line of the suite; returns the row's place, and what differs."""
    row: dict[str, Any] = json.loads(line)
    vm: VM | None = None
    wrong = []
    for at, step in enumerate(row["steps"]):
        if step["call"] == "new":
            vm, found = new(step)
        elif vm is None:
            break
        else:
            found = performed(vm, step)
        if "error" in found and "difference" not in step.get("error", {}):
            del found["error"]["difference"]
        if not fits(step, found):
            wanted = {it: step[it] for it in WANTS if it in step}
            wrong.append(f"{row['row']} ({row['under']}), step {at}, {step['call']}: {found}, not {wanted}")
    return row["row"], wrong


def fits(step: Step, found: Step) -> bool:
    """Whether this is what the step wants."""
    if "frames" not in step:
        return all(found.get(it) == step.get(it) for it in WANTS)
    return "returns" in found and types(bytes.fromhex(found["returns"])) == step["frames"]


def types(output: bytes) -> list[int] | None:
    """The types of whole frames; None if there is anything else."""
    found = []
    while output:
        size = 10 + int.from_bytes(output[2:10], "big")
        if len(output) < size:
            return None
        found.append(int.from_bytes(output[:2], "big"))
        output = output[size:]
    return found


def number(name: str, it: Any) -> Any:
    """The value of a field, which is a string of digits if it is a number that not every reader of JSON has whole."""
    return int(it) if isinstance(it, str) and name in NUMBERS else it


def new(step: Step) -> tuple[VM | None, Step]:
    options = {name: number(name, it) for name, it in step.get("options", {}).items()}
    try:
        vm = VM(step.get("content_type"), **options)
    except VMError as error:
        return None, refused(error)
    return vm, {"returns": int(vm.version[1:])}


def refused(error: VMError) -> Step:
    return {"error": {"code": error.code, "message": error.text, "difference": None if error.difference is None else str(error.difference)}}


def performed(vm: VM, step: Step) -> Step:
    """Makes the call of a step, and returns what it returned."""
    name: str = step["call"]
    given = {it: argument(name, it, value) for it, value in step.items() if it != "call" and it not in WANTS}
    show = SHOWN.get(name, shown)
    try:
        return {"returns": show(getattr(vm, name)(**given))}
    except core.Cancelled:
        return {"returns": "cancelled"}
    except VMError as error:
        return refused(error)


def argument(call: str, name: str, value: Json) -> object:
    """An argument as the method takes it."""
    if name == "related":
        return related(value)
    if isinstance(value, str) and name not in NUMBERS - TEXTS.get(call, set()):
        return bytes.fromhex(value) if name in HEX else value
    if name == "future":
        return tree(value)
    if name == "headers":
        return pairs(value)
    if isinstance(value, dict):
        return ARGUMENTS[name](value)
    return number(name, value)


def tree(it: Json) -> int | Future:
    if isinstance(it, dict):
        [(kind, children)] = it.items()
        return TREES[kind](*map(tree, children))
    return int(it)


def pairs(it: Json) -> tuple[tuple[str, str], ...]:
    return tuple((one, other) for one, other in it)


def result(it: dict[str, Json]) -> bytes | Failure | Retryable:
    if "success" in it:
        return bytes.fromhex(it["success"])
    if "failure" in it:
        failure = it["failure"]
        return Failure(failure["code"], failure["message"], pairs(failure.get("metadata", [])))
    return Retryable(**{name: number(name, one) for name, one in it["retryable"].items()})


def policy(it: dict[str, Any]) -> RetryPolicy:
    it = {name: number(name, one) for name, one in it.items()}
    limits: dict[str, Any] = {name: it.get(name) for name in ("attempts", "duration")} | {"pause": it.get("pause", False)}
    match it["kind"]:
        case "infinite":
            return core.retry_forever()
        case "none":
            return core.retry_never()
        case "fixed":
            return core.retry_fixed(it.get("interval"), **limits)
        case _:
            return core.retry_exponential(it["initial"], *it["factor"], longest=it.get("interval"), **limits)


def target(it: dict[str, Any]) -> InvocationId | WorkflowId | IdempotencyId:
    [(kind, fields)] = it.items()
    if kind == "invocation_id":
        return InvocationId(fields)
    return WorkflowId(**fields) if kind == "workflow" else IdempotencyId(**fields)


def related(it: str | dict[str, Any]) -> RelatedCommand:
    """The command that an error relates to, as the method takes it."""
    if isinstance(it, str):
        return LAST_COMMAND
    type, name = CommandType(it["type"]), it.get("name", "")
    return Related(it["index"], type, name) if it["kind"] == "at" else NextCommand(type, name)


ARGUMENTS: dict[str, Callable[[dict[str, Any]], object]] = {
    "value": result,
    "result": result,
    "policy": policy,
    "target": target,
}


def shown(it: object) -> Json:
    """What a method returned, as the suite has it."""
    match it:
        case core.Run():
            return {"handle": it.handle, "replayed": it.replayed}
        case core.Awakeable():
            return {"handle": it.handle, "id": it.id}
        case core.Input():
            fields = {name: getattr(it, name) for name in ("invocation_id", "random_seed", "key", "scope", "limit_key", "idempotency_key")}
            return fields | {"random_seed": exact(it.random_seed), "headers": listed(it.headers), "value": it.value.hex()}
        case core.ResponseHead():
            return {"status_code": it.status_code, "version": int(it.version[1:]), "headers": listed(it.headers)}
        case tuple():
            return list(it)
    return it


def listed(those: tuple[tuple[str, str], ...]) -> Json:
    return [[one, other] for one, other in those]


def awaited(it: object) -> Json:
    match it:
        case core.Waiting():
            return {"wait": {"input": it.input, "run": it.run}}
        case core.ExecuteRun():
            return {"run": it.handle}
        case core.EphemeralReady():
            return {"ephemeral": it.id}
    return "any"


def taken(it: object) -> Json:
    match it:
        case bytes():
            return {"success": it.hex()}
        case Void():
            return "void"
        case Failure():
            return {"failure": {"code": it.code, "message": it.message, "metadata": listed(it.metadata)}}
        case InvocationId():
            return {"invocation": it.id}
        case list():
            return {"keys": it}
    return "none"


def in_hex(it: Any) -> Json:
    return it.hex()


SHOWN: dict[str, Callable[[object], Json]] = {
    "do_await": awaited,
    "take_notification": taken,
    "take_ephemeral_notification": taken,
    "take_output": in_hex,
}
TEXTS = {"sys_complete_awakeable": {"id"}}  # arguments that are texts in these calls
