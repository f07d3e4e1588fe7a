"""usage: python3 -m tools.engine_simulation PROGRAM [SEED] [MINUTES]

Plays random scripts by PROGRAM, a build of vmengine, one seed after another, and prints how many. A seed whose script breaks a rule is
printed with it, and ends the simulation with status 1."""

from __future__ import annotations

import sys
import time

from tools.simulation.program import Bad

from .play import Tally, play_seed
from .program import Program

EACH = 300  # after so many seconds it says how far it is


def simulate(program: Program, seed: int, minutes: float) -> int:
    tally, begun = Tally(), time.monotonic()
    told = begun
    while time.monotonic() - begun < 60 * minutes:
        if time.monotonic() - told > EACH:
            told = time.monotonic()
            print(f"so far {tally}", file=sys.stderr, flush=True)
        try:
            play_seed(program, seed + tally.seeds, 0, tally)
        except Bad as bad:
            print(bad)
            print(tally)
            return 1
    print(f"from seed {seed} on, {tally}, in {time.monotonic() - begun:.0f} seconds: no rule is broken")
    return 0


def main() -> int:
    if len(sys.argv) < 2:
        print(__doc__)
        return 2
    seed = int(sys.argv[2]) if len(sys.argv) > 2 else 1
    minutes = float(sys.argv[3]) if len(sys.argv) > 3 else 1
    return simulate(Program(sys.argv[1]), seed, minutes)


if __name__ == "__main__":
    sys.exit(main())
