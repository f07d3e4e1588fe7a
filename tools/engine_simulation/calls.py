"""Who was called: each stored call has one callee, and each callee one caller."""

from __future__ import annotations

from collections import Counter
from collections.abc import Iterator

from tools.simulation.program import Bad

from .reports import Command, Invocation, Report
from .scripts import Script, Submit

CALLS = ("Call", "OneWayCall")


def input_of(parameter: str) -> str:
    return f'Input value="{parameter}"' if parameter else "Input"


def calls_of(it: Invocation) -> list[Command]:
    """The stored commands that call somebody."""
    return [command for command in it.commands() if command.type in CALLS]


def check_callee(report: Report, by: Invocation, call: Command, place: int | None, script: Script) -> None:
    """The callee has the target, the key and the parameter of the call; if it was there before, the same idempotency key."""
    names = (call.text_of("service_name"), call.text_of("handler_name"))
    where = f"the call {call.text!r} of invocation {by.number}"
    it = report.at(place)
    if (it is None) != (names not in script.handlers):
        raise Bad(f"{where} has the callee {place}")
    if it is None:
        return
    asked = call.text_of("idempotency_key") if "idempotency_key" in call.fields else None
    if (it.names, it.key, it.idempotency_key) != (names, call.text_of("key"), asked):
        raise Bad(f"{where} has the callee {place}, which is another")
    if it.begun == (by.number, call.number("invocation_id_notification_idx")):
        if it.entries[:1] != [input_of(call.text_of("parameter"))] or it.at != call.number("invoke_time"):
            raise Bad(f"{where} has the callee {place}, which begins at {it.at} with {it.entries[:1]}")
    elif asked is None:
        raise Bad(f"{where} is attached to invocation {place} without an idempotency key")


def check_calls(report: Report, script: Script) -> None:
    """Each stored call has one row, in order, and an invocation that a call has begun is the callee of that call."""
    for by in report.invocations:
        calls = calls_of(by)
        ids = [it.number("invocation_id_notification_idx") for it in calls]
        if [call for call, _ in by.calls] != ids:
            raise Bad(f"invocation {by.number} has stored calls with the ids {ids}, and rows {by.calls}")
        for call, (_, place) in zip(calls, by.calls):
            check_callee(report, by, call, place, script)
    for it in report.invocations:
        if it.begun is not None:
            caller, id = it.begun
            if dict(report.invocations[caller].calls).get(id) != it.number:
                raise Bad(f"invocation {it.number} was begun by {it.begun}, which has called another")


def is_meant(it: Invocation, submit: Submit) -> bool:
    return (it.names, it.key, it.idempotency_key) == (submit.names, submit.key, submit.idempotency_key)


def first_asked(report: Report, script: Script) -> Iterator[tuple[Submit, Invocation, bool]]:
    """Each submit that the report answers, its invocation, and whether it is the first that asks for it."""
    seen = set[int]()
    for submit in script.submits:
        place = report.submitted.get(submit.line)
        it = report.at(place)
        if (it is None) != (submit.names not in script.handlers):
            raise Bad(f"line {submit.line} has the invocation {place}")
        if it is not None:
            yield submit, it, it.number not in seen
            seen.add(it.number)


def check_submits(report: Report, script: Script) -> None:
    """Each submit has an invocation, and each invocation that no call has begun a submit."""
    roots = {it.number for it in report.invocations if it.begun is None}
    for submit, it, is_first in first_asked(report, script):
        if not is_meant(it, submit) or (it.number not in roots and submit.idempotency_key is None):
            raise Bad(f"line {submit.line} asks for another invocation than {it.number}")
        if is_first and it.number in roots and (it.entries[:1] != [input_of(submit.parameter)] or it.at != submit.at):
            raise Bad(f"invocation {it.number} begins at {it.at} with {it.entries[:1]}, and not as line {submit.line} says")
        if not is_first and submit.idempotency_key is None:
            raise Bad(f"line {submit.line} asks for invocation {it.number}, which another line asked for")
    if lacking := roots - set(report.submitted.values()):
        raise Bad(f"nobody has begun the invocations {sorted(lacking)}")


def check_keys(report: Report) -> None:
    """No two invocations of a handler and a key have one idempotency key."""
    asked = Counter((it.names, it.key, it.idempotency_key) for it in report.invocations if it.idempotency_key is not None)
    for those, count in asked.items():
        if count > 1:
            raise Bad(f"{count} invocations are {those}")
