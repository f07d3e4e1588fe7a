"""Random rounds: what is fed, stepped, stored, delivered and stopped, as the dice fall."""
from dataclasses import dataclass, field
from random import Random

from .checks import check_report, check_whole, outcome_of
from .model import Outcome, Setting
from .plan import KEYS, Step
from .program import Program, Report

NO_PENDING_RUN = '500 "no pending run"'
BOOM = '500 "boom"'
CLOSED_EARLY = '571 "INPUT_CLOSED_WHILE_WAITING_ENTRIES"'
TOO_EARLY = '571 "UnexpectedStateError"'


@dataclass
class Played:
    """The script so far, and what each of its rounds was given."""

    program: Program
    plan: list[Step]
    setting: Setting
    dice: Random
    opening: str
    lines: list[str] = field(default_factory=list)
    keys: list[list[str] | None] = field(default_factory=list)
    errors: list[set[str]] = field(default_factory=list)
    proposed: set[int] = field(default_factory=set)
    report: Report = field(default_factory=lambda: Report([], []))

    def script(self) -> str:
        return "\n".join([self.opening, *self.lines, ""])

    def play(self) -> None:
        """Plays the script so far; each play is one that stops at another event."""
        self.report = self.program.report(self.setting.version, self.plan, self.script())
        check_report(self.plan, self.setting, self.report, self.keys, self.errors)

    def told(self) -> Outcome:
        return outcome_of(self.plan, self.setting, self.report, len(self.keys) - 1, self.keys[-1])

    def begin(self, partial: bool) -> None:
        keys = [it for it in KEYS if self.dice.random() < 0.4] if partial else None
        words = ["round"] + (["partial", *(f'key="{it}"' for it in keys)] if keys is not None else [])
        self.lines.append(" ".join(words))
        self.keys.append(keys)
        self.errors.append(set())
        self.proposed = set()
        self.play()

    # ---- what may come

    def missing(self) -> list[str]:
        """The ids of stored commands, but of runs, that have no result."""
        stored = " ".join(self.report.commands(len(self.report.journal)))
        came = {id for id, _ in self.report.notes()} | self.arrived()
        told = self.told()
        return [id for id, brings in told.brings.items() if brings != "run" and id not in came and is_carried(id, stored)]

    def arrived(self) -> set[str]:
        """The ids that come in the lines that aren't played yet."""
        words = [it.split(" ")[2].removeprefix("id=") for it in self.lines if it.startswith("arrive ")]
        return {it for it in words if it.startswith("completion")}

    def result(self, brings: str) -> str:
        word = self.dice.choice(("x", "yy"))
        match brings:
            case "void":
                return "void"
            case "id":
                return f'invocation_id("i{self.dice.randrange(100)}")'
            case "keys":
                return 'state_keys(["a", "b"])'
            case "maybe" if self.dice.random() < 0.4:
                return "void"
        if brings == "value" and self.dice.random() < 0.3:
            return 'failure(code=409 message="no")'
        return f'value("{word}")'

    def arrive(self, id: str, result: str) -> None:
        self.lines.append(f"arrive Notification id={id} result={result}")

    def signal(self) -> None:
        id = self.dice.choice(("signal(1)", "signal(17)", "signal(18)", 'name("s")', 'name("s")', 'name("t")'))
        self.arrive(id, "void" if id == "signal(1)" else self.result("value"))

    def complete(self) -> bool:
        """A result comes, if one can."""
        missing = self.missing()
        if not missing:
            return False
        id = self.dice.choice(missing)
        self.arrive(id, self.result(self.told().brings[id]))
        return True

    def pending_runs(self) -> list[int]:
        """The handles of runs that this attempt was given, and whose results neither came nor were proposed in it."""
        came = {id for id, _ in self.report.notes()}
        given = {int(it.split(" ")[1]) for it in self.report.rounds[-1].answers if it.startswith("handle ")}
        runs = self.told().runs
        return [it for it, id in runs.items() if it in given and id not in came and it not in self.proposed]

    def execute(self) -> bool:
        """A run's result is reported, if one waits; at times of one that doesn't, or a failure that is to be tried again."""
        pending = self.pending_runs()
        if self.dice.random() < 0.03:
            self.lines.append('run_result 98 success "x"')
            self.errors[-1] |= {NO_PENDING_RUN, TOO_EARLY}
            return True
        if not pending:
            return False
        handle = self.dice.choice(pending)
        self.proposed.add(handle)
        result = self.dice.choice(('success "x"', 'success ""', 'failure 409 "no"', 'retryable 5 500 "boom" policy=none', 'retryable 5 500 "boom"'))
        if result == 'retryable 5 500 "boom"':
            self.errors[-1].add(BOOM)
        self.lines.append(f"run_result {handle} {result}")
        return True

    # ---- events

    def event(self) -> None:
        match self.dice.randrange(20):
            case 0 | 1:
                self.lines.append(f"piece {self.dice.randrange(200)}")
            case 2 | 3 | 4:
                self.lines.append("piece all")
            case 5 | 6:
                self.lines.append(f"store {self.dice.randrange(4)}")
            case 7:
                self.lines.append("store all")
            case 8 | 9 | 10 if self.complete():
                pass
            case 11:
                self.signal()
            case 12 | 13 if self.execute():
                pass
            case 14 if self.dice.random() < 0.2:
                self.lines.append("close")
                self.errors[-1].add(CLOSED_EARLY)
            case _:
                self.lines.append(f"step {self.dice.randrange(1, 9)}")

    def stage(self) -> None:
        for _ in range(self.dice.randrange(1, 6)):
            self.event()
        self.play()

    # ---- the end

    def go_on(self) -> None:
        """What was proposed is stored, all that waits is fed, and what the plan then makes is stored."""
        self.lines += ["store all", "piece all", f"step {self.steps_left()}", "store all"]
        self.play()

    def steps_left(self) -> int:
        """As many steps as bring the plan to its end if nothing is waited for; each run may take one more."""
        return len(self.plan) + len(self.told().runs) + 2 - len(self.report.rounds[-1].answers)

    def finish(self) -> bool:
        """A last round, in which what can come comes until the plan has ended; whether it has."""
        self.begin(self.dice.random() < 0.3)
        self.go_on()
        signals = 0
        while self.report.rounds[-1].error is None and signals < 6:
            told = self.told()
            check_whole(self.report.rounds[-1], told)
            if told.ended:
                return True
            if not (self.dice.random() < 0.7 and self.complete()) and not self.execute():
                self.signal()
                signals += 1
            self.go_on()
        return False


def is_carried(id: str, commands: str) -> bool:
    """Whether one of the commands carries the completion id."""
    number = id.removeprefix("completion(").removesuffix(")")
    return any(f"{name}={number}" in commands.replace("\n", " ").split(" ") for name in ("result_completion_id", "invocation_id_notification_idx"))


def random_rounds(played: Played) -> None:
    """Up to five rounds that stop anywhere."""
    for _ in range(played.dice.randrange(1, 6)):
        played.begin(played.dice.random() < 0.25)
        for _ in range(played.dice.randrange(1, 5)):
            played.stage()
