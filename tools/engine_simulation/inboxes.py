"""What came for an invocation and what waits for it: each completion is of a stored command, once, with the right value and no sooner than it
may come; each signal was sent."""

from __future__ import annotations

import base64
from collections import Counter
from collections.abc import Iterator

from tools.simulation.program import Bad

from .reports import Command, Invocation, Report
from .scripts import Script

NOBODY = 'failure(code=404 message="there is no such handler")'
"""The result of a call of a handler that isn't there."""

Signals = Counter[tuple[str, str]]
"""Signals with what they bring, and how often."""


def ids_of(command: Command) -> Iterator[tuple[int, str]]:
    """The completion ids that a stored command carries, with what each waits for."""
    match command.type:
        case "Call" | "OneWayCall":
            yield command.number("invocation_id_notification_idx"), "id"
            if command.type == "Call":
                yield command.number("result_completion_id"), "result"
        case "Sleep":
            yield command.number("result_completion_id"), "clock"


def wanted_of(report: Report, script: Script, by: Invocation, command: Command, waits: str) -> str | None:
    """The value that completes an id; none if it isn't there yet."""
    if waits == "clock":
        return "void" if command.number("wake_up_time") <= script.clock else None
    place = dict(by.calls).get(command.number("invocation_id_notification_idx"))
    it = report.at(place)
    if waits == "id":
        return f'invocation_id("{"" if it is None else f"inv_{it.number}"}")'
    return NOBODY if it is None else it.result


def check_completions(report: Report, script: Script, it: Invocation) -> None:
    carried = {id: (command, waits) for command in it.commands() for id, waits in ids_of(command)}
    seen = set[int]()
    for at, id, result in it.notes():
        if not id.startswith("completion"):
            continue
        number = int(id.removeprefix("completion(").removesuffix(")"))
        if number in seen or number not in carried or carried[number][0].at > at:
            raise Bad(f"invocation {it.number} gets {id}, for which nothing waits")
        seen.add(number)
        wanted = wanted_of(report, script, it, *carried[number])
        if result != wanted:
            raise Bad(f"invocation {it.number} gets {result} for {carried[number][0].text!r}, and not {wanted}")


def waiting_text(command: Command, id: int, waits: str) -> str:
    """What waits, as the report has it."""
    if waits == "clock":
        return f"clock {id} at {command.number('wake_up_time')}"
    return f"id {id}" if waits == "id" else f"result {id} of {command.number('invocation_id_notification_idx')}"


def check_waits(it: Invocation) -> None:
    """What waits for completions is what the stored commands carry and wasn't completed."""
    came = it.results()
    wanted = [waiting_text(command, id, waits) for command in it.commands() for id, waits in ids_of(command) if id not in came]
    found = [wait for wait in it.waits if not wait.startswith("signal")]
    if sorted(wanted) != sorted(found):
        raise Bad(f"for invocation {it.number} waits {found}, and not {wanted}")


# ---- signals


def awakeable_of(id: str) -> tuple[str, int] | None:
    """The invocation and the signal that an awakeable's id names."""
    try:
        named = base64.urlsafe_b64decode(id.removeprefix("sign_1") + "===")
    except ValueError:
        return None
    if not id.startswith("sign_1") or len(named) < 4:
        return None
    return named[:-4].decode(errors="replace"), int.from_bytes(named[-4:], "big")


def sent_by(command: Command) -> tuple[str, str, str] | None:
    """To whom a stored command sends a signal, which, and what it brings."""
    if command.type == "SendSignal":
        which = command.fields["signal"]
        id = f"signal({which.removeprefix('index(').removesuffix(')')})" if which.startswith("index") else which
        return command.text_of("target_invocation_id"), id, command.fields["result"]
    if command.type == "CompleteAwakeable" and (named := awakeable_of(command.text_of("awakeable_id"))):
        return named[0], f"signal({named[1]})", command.fields["result"]
    return None


def all_sent(report: Report) -> dict[str, Signals]:
    found: dict[str, Signals] = {}
    for it in report.invocations:
        for command in it.commands():
            if sent := sent_by(command):
                found.setdefault(sent[0], Counter())[sent[1:]] += 1
    return found


def waiting_signals(it: Invocation) -> Iterator[tuple[str, str]]:
    for wait in it.waits:
        if wait.startswith("signal "):
            which, result = wait.removeprefix("signal ").split(" ", 1)
            yield which.replace("index(", "signal("), result


def was_first(report: Report, script: Script, it: Invocation) -> bool:
    """Whether it was there before anything was stored, so that no signal can have missed it."""
    lines = [line for line, place in report.submitted.items() if place == it.number]
    return it.begun is None and (script.stores is None or min(lines) < script.stores)


def check_signals(report: Report, script: Script) -> None:
    """The signals that came and that wait are those that were sent; to an invocation that was not there yet some may be lost."""
    sent = all_sent(report)
    for it in report.invocations:
        found: Signals = Counter([*it.signals(), *waiting_signals(it)])
        wanted = sent.get(f"inv_{it.number}", Counter())
        if found - wanted or (was_first(report, script, it) and found != wanted):
            raise Bad(f"invocation {it.number} has the signals {dict(found)}, and {dict(wanted)} were sent")
