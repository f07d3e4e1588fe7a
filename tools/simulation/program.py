"""Runs of `vmrounds`: scripts in, reports out."""
import subprocess
from dataclasses import dataclass, field

from .plan import Step
from .texts import notification_of

SECONDS = 300  # a run has no more


@dataclass
class Round:
    answers: list[str] = field(default_factory=list)
    outputs: list[str] = field(default_factory=list)
    error: str | None = None
    entries: int = 0


@dataclass
class Report:
    rounds: list[Round]
    journal: list[str]

    def commands(self, entries: int) -> list[str]:
        """The commands among the first entries."""
        return [it for it in self.journal[:entries] if notification_of(it) is None]

    def notes(self) -> list[tuple[str, str]]:
        return [note for note in map(notification_of, self.journal) if note is not None]


class Bad(Exception):
    """What a run has that the rules don't allow."""


@dataclass(frozen=True)
class Ran:
    status: int
    out: str
    said: str


@dataclass(frozen=True)
class Program:
    path: str

    def words(self, version: int, plan: list[Step]) -> list[str]:
        return [self.path, f"application/vnd.restate.invocation.v{version}", "plan", *(it.line for it in plan)]

    def run(self, version: int, plan: list[Step], script: str, env: dict[str, str] | None = None) -> Ran:
        words = self.words(version, plan)
        try:
            ran = subprocess.run(words, input=script, capture_output=True, text=True, timeout=SECONDS, env=env)
        except subprocess.TimeoutExpired:
            raise Bad(f"it hasn't ended after {SECONDS} seconds") from None
        return Ran(ran.returncode, ran.stdout, ran.stderr)

    def report(self, version: int, plan: list[Step], script: str) -> Report:
        ran = self.run(version, plan, script)
        if ran.status != 0 or ran.said:
            raise Bad(f"status {ran.status}, {ran.out!r}, {ran.said!r}")
        return report_of(ran.out)


def report_of(text: str) -> Report:
    rounds: list[Round] = []
    journal: list[str] = []
    is_journal = False
    for line in text.splitlines():
        word, _, rest = line.partition(" ")
        if is_journal:
            journal.append(line)
        elif word == "round":
            rounds.append(Round())
        elif word == "answer":
            rounds[-1].answers.append(rest)
        elif word == "output":
            rounds[-1].outputs.append(rest)
        elif word == "error":
            rounds[-1].error = rest
        elif word == "entries":
            rounds[-1].entries = int(rest)
        elif line == "journal":
            is_journal = True
        else:
            raise Bad(f"a report has the line {line!r}")
    return Report(rounds, journal)
