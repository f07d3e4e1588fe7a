"""./prove all: the night run, by parts that can be run apart. What each has found is a row of docs/evidence/DATE.md."""

from __future__ import annotations

import argparse
import os
import shlex
import shutil
import signal
import sys
import time
from collections.abc import Callable
from dataclasses import dataclass, replace
from pathlib import Path

from . import counts, evidence, tree
from .environment import TOP, cores, environment, lanes, start_anew
from .jobs import Done, Job, Runner, total
from .parts import built, job, library_path, programs, script
from .show import Show, minutes

OUT = "out/prove"
FAILOVERS, KILLS_OF_BOTH, PARTITIONS = 10, 200, 16
LONG = 24 * 3600  # seconds that a part may take
PROVED = "bindings/out/libpalqytun.so"

ABOUT = """The night run: what ./test and ./prove have no time for. Run ./prove first: these parts take what it has proved and built. Each
part adds a row to docs/evidence/DATE.md, with the commit, the kit, the machine, what was run, what came of it and the seconds. The last
line is 'N passed, M failed'."""


@dataclass(frozen=True)
class Options:
    """How long the parts go on, and what they are tried on."""

    minutes: float
    kills: int
    seed: int
    is_unproved: bool

    def program(self, name: str) -> str:
        return str(TOP / (built(name) if self.is_unproved else f"crates/{name}/out/{name}"))

    @property
    def library(self) -> str:
        return str(TOP / (library_path() if self.is_unproved else PROVED))

    @property
    def kind(self) -> str:
        return "builds without a proof" if self.is_unproved else "proved builds"


@dataclass(frozen=True)
class Part:
    """A part of the night run: its job, and what is written of it beside its last line."""

    name: str
    what: str
    job: Callable[[Options], Job]
    of: Callable[[Options], str]
    figure: Callable[[str], str]


def last_line(output: str) -> str:
    lines = [it for it in output.splitlines() if it.strip()]
    return lines[-1] if lines else "it said nothing"


def line_before_counts(output: str) -> str:
    """The last line but that of counts."""
    return last_line("\n".join(output.rstrip().splitlines()[:-1]))


def line_of_rounds(output: str) -> str:
    """What the longest races have said."""
    return next((it for it in output.splitlines() if " rounds: " in it), last_line(output))


def tests(it: Options) -> Job:
    """rt ci at the top of the repository, where all crates are."""
    return replace(job("tests", "rt", "ci"), env={"RT_JOBS": str(lanes())})


def wrong_bodies(it: Options) -> Job:
    return job("wrong-bodies", sys.executable, "-m", "tools.gate.bodies", "--minutes", f"{it.minutes:g}")


def simulate(it: Options) -> Job:
    those = job("simulate", "tools/simulate", str(it.seed), f"{it.minutes:g}")
    return replace(those, env={"VMROUNDS": it.program("vmrounds")}, counts=counts.of_status)


def simulate_engines(it: Options) -> Job:
    those = job("simulate-engines", "tools/simulate-engines", str(it.seed), f"{it.minutes:g}")
    return replace(those, env={"VMENGINE": it.program("vmengine")}, counts=counts.of_status)


def kills(name: str, database: str, it: Options) -> Job:
    words = ("tools/chaos", "--kills", str(it.kills), "--seed", str(it.seed), "--db", database)
    return replace(job(name, *words), env={"PALQYTUN_LIBRARY": it.library}, counts=counts.of_status)


def kills_sqlite(it: Options) -> Job:
    return kills("kills-sqlite", "sqlite", it)


def kills_postgres(it: Options) -> Job:
    """The same on a PostgreSQL cluster that is made for it."""
    return kills("kills-postgres", "postgres", it)


def kills_partitions(it: Options) -> Job:
    """The same on a cluster whose database has partitions."""
    words = ("tools/chaos", "--kills", str(KILLS_OF_BOTH), "--seed", str(it.seed), "--db", "postgres", "--partitions", str(PARTITIONS))
    return replace(job("kills-partitions", *words), env={"PALQYTUN_LIBRARY": it.library}, counts=counts.of_status)


def partitions(it: Options) -> Job:
    """Each statement of a recorded run in a large database with partitions, and the runtime's tests on one."""
    words = ("tools/runtime", "--pass", "partitions-all", it.library, "runtime", "crash")
    return replace(script("partitions", *words), env={"PALQYTUN_FRAMES": it.program("frames"), "PALQYTUN_TEST_THOROUGH": "1"})


def kills_languages(it: Options) -> Job:
    """Workers in Python and in TypeScript on one database, whose handlers call each other."""
    words = ("tools/bindings", "--library", it.library, "--kills", str(KILLS_OF_BOTH), "typescript")
    return script("kills-languages", *words)


def failovers_by(name: str, it: Options, *more: str) -> Job:
    words = ("tools/chaos", "--failovers", str(FAILOVERS), "--seed", str(it.seed), "--db", "postgres", *more)
    return replace(job(name, *words), env={"PALQYTUN_LIBRARY": it.library}, counts=counts.of_status)


def failovers(it: Options) -> Job:
    return failovers_by("failovers", it)


def failovers_patroni(it: Options) -> Job:
    """The same, but Patroni promotes the standby, and each server is a host of its own."""
    return failovers_by("failovers-patroni", it, "--patroni")


def hostile(it: Options) -> Job:
    """On the programs that ./prove builds. LLVM doesn't optimise those of ./test, so on these it takes more than ten minutes."""
    those = [f"{name}={it.program(name)}" for name in programs() if not tree.promises_nothing(name)]
    return script("hostile", "tools/hostile", *(f"--program={it}" for it in those))


def sanitizers(it: Options) -> Job:
    return script("sanitizers", "tools/bindings", "--library", it.library, "sanitizers", "valgrind", "valgrind-python")


def races(it: Options) -> Job:
    """Each two calls of the interface for C, on two to eight threads, for 300,000 rounds."""
    return script("races", "tools/bindings", "--library", it.library, "races")


def limit_of(it: Options) -> str:
    return "" if it.minutes == float("inf") else f"no crate was begun after {it.minutes:g} minutes"


def minutes_of(it: Options) -> str:
    return f"{it.minutes:g} minutes, {it.kind}"


def kills_of(it: Options) -> str:
    return f"{it.kills} kills, {it.kind}"


def kills_languages_of(it: Options) -> str:
    return f"{KILLS_OF_BOTH} kills, {it.kind}"


def kills_partitions_of(it: Options) -> str:
    return f"{KILLS_OF_BOTH} kills, {PARTITIONS} partitions, {it.kind}"


def failovers_of(it: Options) -> str:
    return f"{FAILOVERS} failovers to each kind of standby, {it.kind}"


def failovers_patroni_of(it: Options) -> str:
    return f"{FAILOVERS} failovers under Patroni with etcd, {it.kind}"


PARTS = [
    Part("tests", "rt ci over the whole repository, so the crates of tests are proved too", tests, lambda it: "", last_line),
    Part(
        "wrong-bodies",
        "the prover refuses each wrong body in crates/NAME/wrong-bodies; a run that was stopped goes on",
        wrong_bodies,
        limit_of,
        line_before_counts,
    ),
    Part("simulate", "random rounds of random handlers for an hour", simulate, minutes_of, last_line),
    Part("simulate-engines", "random invocations that call each other for an hour", simulate_engines, minutes_of, last_line),
    Part("kills-sqlite", "1,000 kills of the durable runtime on SQLite", kills_sqlite, kills_of, last_line),
    Part("kills-postgres", "the same on PostgreSQL", kills_postgres, kills_of, last_line),
    Part("kills-partitions", "200 kills on PostgreSQL with partitions", kills_partitions, kills_partitions_of, last_line),
    Part("partitions", "the runtime's tests on a database with partitions, and what each statement of a run touches there", partitions, lambda it: it.kind, last_line),
    Part("kills-languages", "200 kills of workers in Python and TypeScript", kills_languages, kills_languages_of, line_before_counts),
    Part("failovers", "PostgreSQL fails over to a synchronous standby, and to an asynchronous one", failovers, failovers_of, last_line),
    Part(
        "failovers-patroni",
        "under Patroni with etcd PostgreSQL's primary is killed, loses its power, and is cut off",
        failovers_patroni,
        failovers_patroni_of,
        lambda said: "; ".join(said.strip().splitlines()[-2:]),
    ),
    Part("hostile", "time and memory on input that is deep, long or many", hostile, lambda it: it.kind, line_before_counts),
    Part("sanitizers", "the examples in C and Python with sanitizers and under valgrind", sanitizers, lambda it: it.kind, last_line),
    Part("races", "each two calls of the interface for C race for 300,000 rounds", races, lambda it: it.kind, line_of_rounds),
]


def arguments(words: list[str]) -> tuple[argparse.Namespace, list[Part]]:
    parser = argparse.ArgumentParser("./prove all", description=ABOUT)
    names = [it.name for it in PARTS]
    parser.add_argument("parts", nargs="*", metavar="PART", help=f"these alone, of {', '.join(names)}; all by default")
    until = "how long the simulator goes on (60), and when wrong-bodies begins no further crate (never)"
    parser.add_argument("--minutes", type=float, help=until)
    parser.add_argument("--kills", type=int, default=1000, help="of the runtime on each database (%(default)s)")
    parser.add_argument("--seed", type=int, default=1, help="of the simulator and of the kills (%(default)s)")
    parser.add_argument("--unproved", action="store_true", help="take the builds of ./test; the page says so")
    parser.add_argument("--page", type=Path, help="the page to which the rows are added (docs/evidence/DATE.md)")
    options = parser.parse_args(words)
    if unknown := [it for it in options.parts if it not in names]:
        parser.error(f"there is no part {unknown[0]}: they are {', '.join(names)}")
    if options.kills < 1 or (options.minutes is not None and not options.minutes > 0):
        parser.error("--kills and --minutes want a number above 0")
    return options, [it for it in PARTS if not options.parts or it.name in options.parts]


def of_part(part: Part, options: argparse.Namespace) -> Options:
    usual = float("inf") if part.name == "wrong-bodies" else 60.0
    return Options(usual if options.minutes is None else options.minutes, options.kills, options.seed, options.unproved)


class ShowPart(Show):
    """Prints for how long a part has gone on, and what it has said last."""

    def _quiet(self) -> str:
        return f".. {self._names()}"

    def _bar(self) -> str:
        return self._quiet()[: shutil.get_terminal_size().columns - 1] if self.running else ""

    def _names(self) -> str:
        name, begun = next(iter(self.running.items()))
        log = Path(OUT, "logs", f"{name}.log")
        said = last_line(log.read_text(encoding="utf-8", errors="replace")) if log.is_file() else ""
        return f"{name}, {minutes(time.monotonic() - begun)}: {said}"


def run_part(part: Part, how: Options, page: Path) -> Done:
    """Runs a part, and adds its row to the page."""
    those = replace(part.job(how), limit=LONG)
    print(f"== {part.name}: {shlex.join(those.words)}", flush=True)
    show = ShowPart([those], is_strict=True)
    begun = time.monotonic()
    done = Runner([those], cores(1), Path(OUT, "logs"), show, environment(TOP / OUT / "bin")).run()[those.name]
    show.close()
    output = done.log.read_text(encoding="utf-8", errors="replace")
    said = "; ".join(it for it in (part.of(how), part.figure(output)) if it)
    evidence.add(evidence.Evidence(part.name, f"FAILED: {said}" if done.counts.strict().failed else said, time.monotonic() - begun), page)
    return done


def main(words: list[str]) -> int:
    options, parts = arguments(words)
    os.chdir(TOP)
    start_anew("prove", ["all", *words])
    signal.signal(signal.SIGTERM, lambda *_: sys.exit(143))
    begun, done = time.monotonic(), dict[str, Done]()
    page = options.page or evidence.page()
    for part in parts:
        done[part.name] = run_part(part, of_part(part, options), page)
    found = total(done, is_strict=True)
    print(f"./prove all took {minutes(time.monotonic() - begun)}; {page} has what came of it")
    print(f"{found.passed} passed, {found.failed} failed")
    return 1 if found.failed else 0
