"""What has to hold of each report, however the rounds were stopped."""
from collections import Counter

from .model import Given, Outcome, Setting, attempt
from .plan import Step
from .program import Bad, Report, Round

TERMINAL = ("Error", "Suspension", "End")
NO_COMMANDS = (*TERMINAL, "AwaitingOn", "ProposeRunCompletion", "Propose")


def is_command(frame: str) -> bool:
    return frame.split(" ")[0] not in NO_COMMANDS


def outcome_of(plan: list[Step], setting: Setting, report: Report, at: int, keys: list[str] | None) -> Outcome:
    """What the attempt of the round at this place has to do, if nothing stops it."""
    before = report.rounds[at - 1].entries if at else 1
    return attempt(plan, setting, Given(report.commands(before), keys, report.notes()))


def check_output(frames: list[str]) -> None:
    """At most one frame ends the output, and nothing comes after it."""
    for frame in frames[:-1]:
        if frame.split(" ")[0] in TERMINAL:
            raise Bad(f"a frame comes after {frame!r}")


def check_round(round: Round, told: Outcome, recorded: int) -> None:
    """The answers begin those that the journal tells; replay writes nothing; what is written are the next commands, each once."""
    if told.differs:
        raise Bad(told.differs)
    if len(told.commands) < recorded:
        raise Bad(f"{recorded} commands are recorded, and the plan comes to {len(told.commands)}")
    if round.answers != told.answers[: len(round.answers)]:
        raise Bad(f"the answers {round.answers} don't begin {told.answers}")
    written = [it for it in round.outputs if is_command(it)]
    if written != told.commands[recorded:][: len(written)]:
        raise Bad(f"the commands {written} don't begin {told.commands[recorded:]}")
    check_output(round.outputs)


def check_journal(plan: list[Step], setting: Setting, report: Report) -> None:
    """The journal is one run of the plan: each command once, in order, and at most one result an id."""
    commands = report.commands(len(report.journal))
    told = attempt(plan, setting, Given(commands, None, report.notes()))
    if told.differs or told.commands[: len(commands)] != commands:
        raise Bad(told.differs or f"the journal has the commands {commands}, and the plan {told.commands}")
    results = Counter(id for id, _ in report.notes() if id.startswith("completion"))
    for id, count in results.items():
        if count > 1:
            raise Bad(f"{id} has {count} results")


def check_report(plan: list[Step], setting: Setting, report: Report, keys: list[list[str] | None], errors: list[set[str]]) -> None:
    """All of this of each round; and each error is one that its round may have."""
    if len(report.rounds) != len(keys):
        raise Bad(f"{len(report.rounds)} rounds of {len(keys)} are reported")
    check_journal(plan, setting, report)
    for at, round in enumerate(report.rounds):
        recorded = len(report.commands(report.rounds[at - 1].entries if at else 1))
        check_round(round, outcome_of(plan, setting, report, at, keys[at]), recorded)
        if round.error is not None and round.error not in errors[at]:
            raise Bad(f"round {at + 1} has the error {round.error}")


def check_whole(round: Round, told: Outcome) -> None:
    """An attempt that has all notifications, and steps as long as it can, waits for nothing that is there."""
    if round.answers != told.answers:
        raise Bad(f"the attempt stops after {round.answers}, and has all for {told.answers}")
    if told.ended != (round.outputs[-1:] == ["End"]):
        raise Bad(f"the plan {'has' if told.ended else 'has not'} ended, and the output is {round.outputs}")
