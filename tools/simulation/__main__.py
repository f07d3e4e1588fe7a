"""usage: python3 -m tools.simulation PROGRAM SHIM [SEED] [MINUTES]

Plays random rounds by PROGRAM, a build of vmrounds, one seed after another, and prints how many. SHIM is refuse.c of tools/programs as a shared object. A
seed whose rounds break a rule is printed with its script, and ends the simulation with status 1."""
import shlex
import sys
import tempfile
import time
from dataclasses import dataclass
from random import Random

from .again import check_refused, check_replay, check_undisturbed
from .model import Setting
from .plan import KEYS, Step, random_plan
from .program import Bad, Program
from .rounds import Played, random_rounds


EACH = 300  # seconds after which it says how far it is


@dataclass
class Tally:
    seeds: int = 0
    rounds: int = 0
    entries: int = 0
    ended: int = 0
    undisturbed: int = 0
    refused: int = 0

    def __str__(self) -> str:
        return (
            f"{self.seeds} seeds: {self.rounds} rounds, {self.entries} entries stored, {self.ended} handlers ended, "
            f"{self.undisturbed} compared with a run that nothing stops, {self.refused} allocations refused"
        )


def setting_of(dice: Random) -> tuple[Setting, str]:
    """A world, and the line that makes it."""
    state = {it: dice.choice(("1", "22")) for it in KEYS if dice.random() < 0.5}
    setting = Setting(dice.choice((5, 6, 7, 7, 8)), state, dice.choice(("calls", "calls", "none", "sends", "both", "off")), dice.choice(("", "hi")))
    words = ["world", f'input="{setting.input}"', *(f'state={{"{key}" "{value}"}}' for key, value in state.items())]
    words += [f"cancel={setting.cancels}", f"awaiting={dice.choice(('norun', 'always', 'never'))}"]
    words += [f"checks={dice.choice(('on', 'on', 'off'))}", f"mismatch={dice.choice(('follow', 'pause', 'fail'))}"]
    return setting, " ".join(words)


def play(program: Program, shim: str, mark: str, seed: int, tally: Tally) -> None:
    dice = Random(seed)
    plan: list[Step] = random_plan(dice)
    setting, opening = setting_of(dice)
    played = Played(program, plan, setting, dice, opening)
    try:
        random_rounds(played)
        has_ended = any(played.finish() for _ in range(2))
        if all(keys is None for keys in played.keys):
            check_undisturbed(played)
            tally.undisturbed += 1
        check_replay(played, dice)
        for _ in range(3):
            tally.refused += check_refused(played, dice, shim, mark)
    except Bad as bad:
        words = " ".join(shlex.quote(it) for it in program.words(setting.version, plan))
        raise Bad(f"seed {seed}: {bad}\n\n{words} <<'SCRIPT'\n{played.script()}SCRIPT") from bad
    tally.seeds += 1
    tally.rounds += len(played.keys)
    tally.entries += len(played.report.journal)
    tally.ended += has_ended


def main() -> int:
    if len(sys.argv) < 3:
        print(__doc__)
        return 2
    program, shim = Program(sys.argv[1]), sys.argv[2]
    seed = int(sys.argv[3]) if len(sys.argv) > 3 else 1
    minutes = float(sys.argv[4]) if len(sys.argv) > 4 else 1
    tally, begun = Tally(), time.monotonic()
    told = begun
    with tempfile.TemporaryDirectory(prefix="simulate-") as room:
        while time.monotonic() - begun < 60 * minutes:
            if time.monotonic() - told > EACH:
                told = time.monotonic()
                print(f"so far {tally}", file=sys.stderr, flush=True)
            try:
                play(program, shim, f"{room}/refused", seed + tally.seeds, tally)
            except Bad as bad:
                print(bad)
                print(tally)
                return 1
    print(f"from seed {seed} on, {tally}, in {time.monotonic() - begun:.0f} seconds: no rule is broken")
    return 0


sys.exit(main())
