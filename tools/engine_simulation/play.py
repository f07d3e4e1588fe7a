"""One seed: a random script, played up to many of its events, and to its end."""

from __future__ import annotations

from dataclasses import dataclass, field
from random import Random

from tools.simulation.program import Bad

from .checks import check
from .dice import DIGITS, Dice, Events, opening
from .program import Program
from .reports import Report

LATE = 1000 * DIGITS
"""No sleep and no call is due later."""
VERSIONS = (5, 6, 7, 7, 8)


@dataclass
class Tally:
    seeds: int = 0
    plays: int = 0
    invocations: int = 0
    entries: int = 0
    ended: int = 0

    def add(self, report: Report) -> None:
        self.seeds += 1
        self.invocations += len(report.invocations)
        self.entries += sum(len(it.entries) for it in report.invocations)
        self.ended += sum(it.result is not None for it in report.invocations)

    def __str__(self) -> str:
        return f"{self.seeds} seeds, {self.plays} plays: {self.invocations} invocations, {self.ended} of them ended, {self.entries} entries"


@dataclass
class Played:
    """The script so far."""

    program: Program
    version: int
    tally: Tally
    lines: list[str] = field(default_factory=list)
    report: Report = field(default_factory=Report)

    def script(self) -> str:
        return "\n".join([*self.lines, ""])

    def play(self, is_settled: bool = False) -> None:
        self.tally.plays += 1
        self.report = check(self.script(), self.program.report(self.version, self.script()), is_settled)


def play_all(played: Played, dice: Dice) -> None:
    """Plays the script up to many of its events, and then until nothing more can happen."""
    played.lines += opening(dice)
    for _ in range(dice.random.randrange(2, 9)):
        events = Events(dice, max(len(played.report.invocations), dice.first))
        for _ in range(dice.random.randrange(1, 9)):
            played.lines += events.lines()
        played.play()
    played.lines += ["crash", f"clock {LATE + dice.digits}", "settle 200"]
    played.play(is_settled=True)


def play_seed(program: Program, seed: int, digits: int, tally: Tally) -> None:
    """Plays the script of a seed. A rule that is broken is a Bad with the script."""
    random = Random(seed)
    played = Played(program, random.choice(VERSIONS), tally)
    try:
        play_all(played, Dice(random, digits, random.randrange(1, 5)))
    except Bad as bad:
        words = f"{program.path} application/vnd.restate.invocation.v{played.version}"
        raise Bad(f"seed {seed}: {bad}\n\n{words} <<'SCRIPT'\n{played.script()}SCRIPT") from bad
    tally.add(played.report)
