"""What has to hold of each report, by the script and the report alone, wherever the script ends."""

from __future__ import annotations

from tools.simulation.model import Given, Outcome, Setting, attempt, change
from tools.simulation.program import Bad

from .calls import check_calls, check_keys, check_submits
from .inboxes import check_completions, check_signals, check_waits, ids_of, waiting_signals, wanted_of
from .reports import Invocation, Report, report_of
from .scripts import Script, script_of
from .steps import step_of

VERSION = 7


def earlier(report: Report, script: Script, it: Invocation) -> list[Invocation]:
    """The earlier invocations of its key, if both are of exclusive handlers of one service."""
    if not script.handlers[it.names].exclusive:
        return []
    others = [other for other in report.invocations[: it.number] if other.key == it.key and other.names[0] == it.names[0]]
    return [other for other in others if script.handlers[other.names].exclusive]


def handed(report: Report, script: Script, it: Invocation) -> dict[str, str]:
    """The state that those before it have left, one after another."""
    state = dict[str, str]()
    for other in earlier(report, script, it):
        for command in other.commands():
            change(state, command.text)
    return state


def told(report: Report, script: Script, it: Invocation) -> Outcome:
    """What an attempt of its handler has to do by what its journal has: the commands are those of an attempt that nothing stops."""
    plan = [step_of(line) for line in script.handlers[it.names].steps]
    parameter = it.entries[0].removeprefix("Input").removeprefix(' value="').removesuffix('"')
    notes = [(id, result) for _, id, result in it.notes()]
    recorded = [command.text for command in it.commands()]
    outcome = attempt(plan, Setting(VERSION, handed(report, script, it), "calls", parameter), Given(recorded, None, notes))
    outcome.commands = up_to_output(outcome.commands)
    return outcome


def up_to_output(commands: list[str]) -> list[str]:
    """The commands up to the first output, which ends the invocation."""
    ends = next((at for at, it in enumerate(commands) if it.startswith("Output")), len(commands))
    return commands[: ends + 1]


def check_commands(report: Report, script: Script, it: Invocation) -> None:
    """The commands of its journal begin those of an attempt that nothing stops."""
    found, wanted = [command.text for command in it.commands()], told(report, script, it).commands
    if wanted[: len(found)] != found:
        raise Bad(f"invocation {it.number} has the commands {found}, and not {wanted}")


def check_result(it: Invocation) -> None:
    """Its result is that of its first output, after which nothing is stored."""
    outputs = [command for command in it.commands() if command.type == "Output"]
    result = outputs[0].fields["result"] if outputs else None
    if it.result != result:
        raise Bad(f"invocation {it.number} has the result {it.result}, and its output is {result}")
    if outputs and outputs[0].at != len(it.entries) - 1:
        raise Bad(f"invocation {it.number} has entries after its output")


def check_turn(report: Report, script: Script, it: Invocation) -> None:
    """It begins no sooner than its time, and after each earlier one of its key has ended."""
    if not it.has_begun():
        return
    if it.at > script.clock:
        raise Bad(f"invocation {it.number} has begun before {it.at}")
    going = [other.number for other in earlier(report, script, it) if other.result is None]
    if going:
        raise Bad(f"invocation {it.number} has begun beside {going}")


def check_report(script: Script, report: Report) -> None:
    for it in report.invocations:
        if it.names not in script.handlers:
            raise Bad(f"invocation {it.number} is of {it.names}, which is no handler")
    check_calls(report, script)
    check_submits(report, script)
    check_keys(report)
    for it in report.invocations:
        check_result(it)
        check_commands(report, script, it)
        check_completions(report, script, it)
        check_waits(it)
        check_turn(report, script, it)
    check_signals(report, script)


# ---- a report after which nothing more can happen


def due(report: Report, script: Script, it: Invocation) -> list[str]:
    """What waits for an invocation that goes on, and could be delivered."""
    came = it.results()
    ids = [(id, wanted_of(report, script, it, command, waits)) for command in it.commands() for id, waits in ids_of(command) if id not in came]
    return [f"completion({id})" for id, wanted in ids if wanted is not None] + [id for id, _ in waiting_signals(it)]


def has_output(outcome: Outcome) -> bool:
    """Whether a handler comes to its output by what its journal has, so that it waits for nothing."""
    return any(it.startswith("Output") for it in outcome.commands)


def check_settled(script: Script, report: Report) -> None:
    """Each invocation whose turn it is has ended, unless its handler waits for what isn't there or ends without an output. It has stored all
    commands that its handler can make, and all that waits for it has come."""
    for it in report.invocations:
        if it.result is not None or it.at > script.clock or any(other.result is None for other in earlier(report, script, it)):
            continue
        outcome = told(report, script, it)
        if has_output(outcome):
            raise Bad(f"invocation {it.number} is left behind: its handler waits for nothing, and it hasn't ended")
        found, wanted = [command.text for command in it.commands()], outcome.commands
        if found != wanted:
            raise Bad(f"invocation {it.number} has the commands {found}, and could have {wanted}")
        if waits := due(report, script, it):
            raise Bad(f"invocation {it.number} goes on, and {waits} wait for it")


def check(script: str, report: str, is_settled: bool = False) -> Report:
    """Checks the report of a script; whether it was settled at its end."""
    asked, found = script_of(script), report_of(report)
    check_report(asked, found)
    if is_settled:
        check_settled(asked, found)
    return found
