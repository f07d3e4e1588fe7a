"""The same history in other ways: in one attempt that nothing stops, from each part of its journal, and without an allocation."""
import os
import re
from random import Random

from .checks import check_journal, check_round, check_whole
from .model import Given, attempt
from .program import Bad, Report, report_of
from .rounds import Played
from .texts import notification_of

STARVED = '500 ""'  # the error of a round whose attempt found no memory
FAULTS = ("fault Memory\n", "fault NoSuchId\n")
PLACE = re.compile(r"round \d+(, event \d+)?: [^\n]*\n")  # of a fault, on standard error
MOST = 1 << 14  # the last allocation that is refused


def result_line(handle: int, result: str) -> str:
    """The line that tells a run's result."""
    case, held = result.split("(", 1)
    held = held[:-1]
    if case == "value":
        return f"run_result {handle} success {held}"
    code, message = held.removeprefix("code=").split(" message=")
    return f"run_result {handle} failure {code} {message}"


def check_undisturbed(played: Played) -> None:
    """One attempt that gets the same notifications, each as soon as it can use it, has the same answers and the same commands."""
    report, told = played.report, played.told()
    handles = {id: handle for handle, id in told.runs.items()}
    goes_on = ["piece all", f"step {len(played.plan) + len(told.runs) + 2}", "store all"]
    lines = [played.opening, "round", *goes_on]
    for id, result in report.notes():
        lines.append(result_line(handles[id], result) if id in handles else f"arrive Notification id={id} result={result}")
        lines += ["store all", *goes_on]
    once = played.program.report(played.setting.version, played.plan, "\n".join([*lines, ""]))
    if once.rounds[0].answers != told.answers or once.rounds[0].error is not None:
        raise Bad(f"undisturbed it has the answers {once.rounds[0].answers} and the error {once.rounds[0].error}, and not {told.answers}")
    commands, stored = (it.commands(len(it.journal)) for it in (once, report))
    if commands[: len(stored)] != stored:
        raise Bad(f"undisturbed it has the commands {commands}, and not {stored}")


def check_replay(played: Played, dice: Random) -> None:
    """Each part of the journal is replayed: nothing is refused."""
    part = played.report.journal[: dice.randrange(1, len(played.report.journal) + 1)]
    lines = [played.opening, *(f"entry {it}" for it in part), "round", "piece all", "close", f"step {2 * len(played.plan) + 2}"]
    report = played.program.report(played.setting.version, played.plan, "\n".join([*lines, ""]))
    recorded = [it for it in part if notification_of(it) is None]
    notes = [note for note in map(notification_of, part) if note is not None]
    told = attempt(played.plan, played.setting, Given(recorded, None, notes))
    check_round(report.rounds[0], told, len(recorded))
    check_whole(report.rounds[0], told)
    if report.rounds[0].error is not None:
        raise Bad(f"a journal of {len(part)} entries is refused with {report.rounds[0].error}")


def check_starved(played: Played, report: Report) -> None:
    """The rounds up to the first that found no memory are those of the ordinary run; of this one answers and output are a beginning."""
    check_journal(played.plan, played.setting, report)
    for ordinary, round in zip(played.report.rounds, report.rounds):
        if round.error == STARVED:
            if round.answers != ordinary.answers[: len(round.answers)] or round.outputs != ordinary.outputs[: len(round.outputs)]:
                raise Bad(f"a round that found no memory has {round}, and not a beginning of {ordinary}")
            return
        if round != ordinary:
            raise Bad(f"before any want of memory a round has {round}, and not {ordinary}")
    raise Bad("no round found no memory, and the report is another")


def check_refused(played: Played, dice: Random, shim: str, mark: str) -> bool:
    """The run without one of its allocations; whether one was refused."""
    at = int(MOST ** dice.random())
    env = {**os.environ, "LD_PRELOAD": shim, "REFUSE_AT": str(at), "REFUSED": mark}
    ordinary = played.program.run(played.setting.version, played.plan, played.script())
    ran = played.program.run(played.setting.version, played.plan, played.script(), env)
    was_refused = os.path.exists(mark)
    if was_refused:
        os.remove(mark)
    if ran == ordinary:
        return was_refused
    where = f"without allocation {at}"
    says_place = ran.out in FAULTS and PLACE.fullmatch(ran.said)
    if (ran.said and not says_place) or not was_refused or ran.status not in (0, 1):
        raise Bad(f"{where} it ends with status {ran.status}, {ran.said!r}")
    if ran.status == 1 and ran.out not in ("", *FAULTS):
        raise Bad(f"{where} it writes {ran.out!r}")
    if ran.status == 0:
        try:
            check_starved(played, report_of(ran.out))
        except Bad as bad:
            raise Bad(f"{where}: {bad}") from bad
    return True
