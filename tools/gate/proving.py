"""./prove: proves every crate except those of tests and the bench, and then tries what no proof covers over the proved builds."""

from __future__ import annotations

import argparse
import json
import os
import shutil
import signal
import sys
import time
from collections.abc import Iterator, Mapping, Sequence
from dataclasses import dataclass, replace
from pathlib import Path

from . import counts, tree
from .environment import TOP, cores, environment, free_memory, keeps_proofs, lanes, named_lanes, processors, start_anew, with_priority
from .jobs import Done, Job, Runner, total
from .parts import has_tests, job, programs, script
from .proofs import Crate, Processors, Proofs, read_crates, read_times
from .show import Show, minutes

OUT = "out/prove"
TIMES = Path(OUT, "times.json")
ARCHIVE = "crates/ffi/out/libffi.a"  # below the folder in which it is proved
PROOFS, BUILDS = "proofs", "builds"
LINE = "vm_machine"  # from it on each crate of the longest chain waits for the one before
HEAD = "engines"  # the longest chain of crates leads to it
BEFORE_ALL = "vm_attempt"  # once it is proved, the run of all crates begins
ROOM = 5_000_000  # kilobytes for each processor, if several runs of rt ci prove beside each other
HOURS = 6 * 3600  # that rt ci may take
SMALL = 1_500_000  # kilobytes for a job that proves nothing
MOMENT = 10  # seconds by which the longest chain begins before what is beside it
PATIENCE = 900  # seconds that the crates beside the longest chain wait for another process
LOOK = 2  # seconds between two looks at the processes
BESIDE_CHAIN = 10  # the priority of what is proved beside the longest chain


@dataclass(frozen=True)
class Run:
    """A run of rt ci over some crates and what they depend on. It begins at once, or once another crate is proved."""

    name: str
    ends: tuple[str, ...]
    after: str = ""

    @property
    def job(self) -> str:
        return f"{PROOFS}/{self.name}"

    @property
    def log(self) -> Path:
        return TOP / OUT / "logs" / f"{PROOFS}-{self.name}.log"


# The longest chain, piece by piece: where one crate alone is left in a run, its check has two processes. A run begins before the last crate that it waits for is
# proved, and has no crate that the runs before it are to prove so.
CHAIN = (
    Run("bodies", ("journal_values",)),
    Run("types", ("vm_types",)),
    Run("parts", ("journal_replay", "journal_entries", "vm_parts", "await_tries")),
    Run("machine", (LINE,), after="await_trees"),
    Run("vm", ("invocation_vm",), after="vm_asks"),
    Run("attempt", (BEFORE_ALL,), after=LINE),
    Run("engine", (HEAD,), after="invocation_vm"),
    Run("end", ("vmengine",), after=BEFORE_ALL),
)
LOW = f"{PROOFS}/low"  # what doesn't depend on the crate from which on the chain is a line

ABOUT = """Proves every crate except those of tests and the bench, and has the prover refuse the wrong bodies of the gate (rt ci, in a folder of its own).
Then each program runs once without each of its allocations in turn, and so do the examples in C and Python, over the library built from
what is proved; and both builds of each program play their rows. The last line is 'N passed, M failed'. Each part's output is kept in
out/prove/logs. 'all' is the night run, which proves the crates of tests too: ./prove all --help."""


@dataclass(frozen=True)
class Part:
    """A part of ./prove."""

    name: str
    what: str


PARTS = [
    Part(PROOFS, "rt ci: each crate except those of tests and the bench is proved, the wrong bodies in must-fail/ are refused, programs are run"),
    Part("library", "the static library, built from what is proved"),
    Part(BUILDS, "what was built is put into crates/NAME/out"),
    Part("refused", "each program on each of its inputs, once without each allocation in turn, as both compilers build it"),
    Part("rows", "the rows of vmscript, vmrounds and vmengine, by both builds of each"),
    Part("bindings", "the examples in C and Python over the proved library, the header, and each allocation refused in turn"),
]


def jobs(seconds: dict[str, float], trees: Mapping[str, Path] | None, after: int | None) -> Iterator[Job]:
    """The jobs of ./prove, with the seconds that they took last time. If there are folders of some crates, by the names of their runs, these are also proved
    there. The longest chain begins at once, and the crates beside it once a process has ended, if one is given. One rt ci alone waits for nothing."""
    for it in every_job(trees, after):
        yield replace(it, seconds=max(round(seconds.get(it.name, it.seconds)), 1))


def beside(trees: Mapping[str, Path], proofs: Job, after: int | None) -> Iterator[Job]:
    """rt ci of the longest chain, of what doesn't depend on its last part, and of all. Each run takes what another has proved, and waits for what it is proving.
    That of all crates begins last: whoever proves a crate, or was the first to wait for it, begins the next, and this run has one process for each, so it
    would take the chain over. Those of the chain have no RT_JOBS, so a check has two processes while no other of its run waits."""
    for at, it in enumerate(CHAIN):
        one = replace(proofs, name=it.job, counts=counts.of_status, folder=str(trees[it.job]), env={"RT_JOBS": ""})
        yield replace(one, words=piece(at, proofs.words), cores=0 if at else proofs.cores)
    words = with_priority(BESIDE_CHAIN, proofs.words)
    waits = after_moment(words) if after is None else once_ended(after, words)
    low = replace(proofs, name=LOW, counts=counts.of_status, folder=str(trees[LOW]), words=waits, cores=0)
    yield replace(low, env={"RT_JOBS": str(lanes() + 1)})  # one of them waits for the chain
    yield replace(proofs, words=once_proved(BEFORE_ALL, CHAIN, words), cores=0, env={"RT_JOBS": str(lanes())})


def piece(at: int, words: tuple[str, ...]) -> tuple[str, ...]:
    """The command of the piece of the longest chain at a place: the first begins at once, and any other a moment later or once a crate is proved."""
    if CHAIN[at].after:
        return once_proved(CHAIN[at].after, CHAIN[:at], words)
    return after_moment(words) if at else words


def after_moment(words: tuple[str, ...]) -> tuple[str, ...]:
    """A command that begins a moment later."""
    return ("sh", "-c", 'sleep "$0"; exec "$@"', str(MOMENT), *words)


def once_ended(process: int, words: tuple[str, ...]) -> tuple[str, ...]:
    """A command that begins once a process has ended, or has taken too long."""
    return ("sh", "-c", f'timeout {PATIENCE} tail --pid="$0" -f /dev/null; exec "$@"', str(process), *words)


def once_proved(crate: str, runs: Sequence[Run], words: tuple[str, ...]) -> tuple[str, ...]:
    """A command that begins once one of these runs has proved a crate, or all have ended."""
    logs = ",".join(str(it.log) for it in runs)
    return (sys.executable, "-B", str(TOP / "tools/gate/waiting.py"), logs, crate, *words)


def every_job(trees: Mapping[str, Path] | None, after: int | None = None) -> Iterator[Job]:
    # rt ci takes all cores for itself; the library is built in its last minutes, as soon as what it stands on is proved.
    room, logs = tree.place(), TOP / OUT / "logs"
    proofs = replace(job(PROOFS, "rt", "ci"), seconds=2400, cores=1000, limit=HOURS, folder=str(room))
    yield from beside(trees, proofs, after) if trees else [proofs]
    library = script("library", str(TOP / "tools/static-library"), "ffi", str(logs / f"{PROOFS}.log"))
    yield replace(library, counts=counts.of_status, cores=0, limit=HOURS, folder=str(room))
    # So are the examples run over it, which wait for a core as little.
    groups = ("examples", "header", "refused")
    bindings = script("bindings", "tools/bindings", "--archive", str(room / ARCHIVE), *groups, needs=("library",))
    yield replace(bindings, seconds=200, cores=0)
    take = job(BUILDS, sys.executable, "-m", "tools.gate.tree", "take")
    yield replace(take, seconds=1, counts=counts.of_status, after=(PROOFS, "library", "bindings"))
    for program in (it for it in programs() if not tree.promises_nothing(it)):
        cases = sorted(Path("crates", program, "runs").glob("*.in"))
        for it in cases:
            arguments = it.with_suffix(".args")
            words = arguments.read_text(encoding="utf-8").splitlines() if arguments.is_file() else []
            yield replace(script(f"refused/{program}-{it.stem}", "tools/refused-memory", program, str(it), *words), after=(BUILDS,))
        if not cases:
            yield replace(job(f"refused/{program}", "sh", "-c", f"echo crates/{program}/runs has no input; exit 1"), after=(BUILDS,))
    yield replace(script("rows", "tools/rows"), after=(BUILDS,))


class ShowProofs(Show):
    """Prints how far rt ci is, and then what follows it."""

    def __init__(self, those: list[Job], proofs: Proofs, cores: int, is_strict: bool) -> None:
        super().__init__(those, is_strict)
        self.proofs, self.cores, self.processors = proofs, cores, Processors()
        self.chain = tree.below(proofs.crates, [HEAD] if HEAD in proofs.crates else proofs.crates)
        self.read = {it: 0 for it in (*(run.job for run in CHAIN), LOW, PROOFS)}
        self.looked = 0.0

    def ticked(self) -> None:
        if self._proves() and time.monotonic() - self.looked >= LOOK:
            self.looked = time.monotonic()
            self.processors.look()
            self.processors.put_behind(self.chain)  # each run may have begun a crate of the chain
            self.proofs.spent = self.processors.by_crate()
            self._read()
        super().ticked()

    def ended(self, done: Done) -> None:
        if done.job.name in self.read:
            self._read()
        super().ended(done)

    def _proves(self) -> bool:
        return any(it in self.running for it in self.read)

    def _read(self) -> None:
        """Reads the lines that each rt ci has printed since."""
        for name, begun in self.read.items():
            log = Path(OUT, "logs", f"{name.replace('/', '-')}.log")
            if not log.is_file():
                continue
            with log.open("rb") as it:
                it.seek(begun)
                said = it.read()
            whole = said[: said.rfind(b"\n") + 1]
            self.read[name] += len(whole)
            for line in whole.decode(errors="replace").splitlines():
                self.proofs.said(line)

    def _share(self) -> float:
        return self.proofs.done() / max(len(self.proofs.crates), 1) if self._proves() else super()._share()

    def _names(self) -> str:
        if not self._proves():
            return super()._names()
        left = self.proofs.left(self.cores)
        more = "no time is known yet" if left is None else f"about {minutes(left + self._later())} left"
        working = ", ".join(sorted(self.processors.running)) or "rt ci"
        return f"{self.proofs.done()} of {len(self.proofs.crates)} crates proved, {more}: {working}"

    def _later(self) -> float:
        """The seconds of what follows rt ci. The library is built beside it, and the examples run over it."""
        return sum(seconds for name, seconds in self.seconds.items() if name not in (*self.read, "library", "bindings", BUILDS)) / self.cores


def arguments(words: list[str]) -> argparse.Namespace:
    parser = argparse.ArgumentParser("./prove", description=ABOUT)
    parser.add_argument("--list", action="store_true", help="name the parts, with what they are for")
    parser.add_argument("--no-skips", action="store_true", help="a skip is a failure")
    many = f"how many crates are proved at a time, and then how many jobs run ({lanes()} and {cores(SMALL)})"
    parser.add_argument("--jobs", type=int, metavar="N", help=many)
    parser.add_argument("--after", type=int, metavar="PID", help="until this process has ended prove the longest chain alone, if several runs prove beside each other")
    options = parser.parse_args(words)
    if options.jobs is not None and options.jobs < 1:
        parser.error("--jobs wants a number above 0")
    return options


def write_times(proofs: Proofs, last: dict[str, float], done: dict[str, Done]) -> None:
    """Keeps the seconds of crates and of jobs for the next run on this machine. A job that failed has those of last time."""
    took = {name: round(it.ended - it.begun, 1) for name, it in done.items() if not it.counts.failed}
    found = {**proofs.times(), **{f"job {name}": it for name, it in sorted({**last, **took}.items())}}
    TIMES.parent.mkdir(parents=True, exist_ok=True)
    TIMES.write_text(json.dumps(found, indent=1) + "\n", encoding="utf-8")


def made_trees(crates: Mapping[str, Crate], is_set: bool) -> dict[str, Path] | None:
    """The folders of the crates that are proved beside all, by the names of their runs: unless somebody has said how many to prove at a time, memory is short,
    or nothing would be kept."""
    if is_set or processors() < 2 or not keeps_proofs() or free_memory() < ROOM * processors():
        return None
    made = {it.job: tree.below(crates, it.ends) for it in CHAIN}
    made[LOW] = {it for it in crates if LINE not in tree.below(crates, [it])}
    found = {it: tree.place(name=it.replace("/", "-")) for it in made}
    for it, names in made.items():
        tree.make(TOP, found[it], names, but=["must-fail"])  # the run of all crates tries these
    return found


def run(options: argparse.Namespace) -> int:
    """Proves, and returns the status."""
    times, begun = read_times(TIMES), time.monotonic()
    of_jobs = {name.removeprefix("job "): it for name, it in times.items() if name.startswith("job ")}
    crates = read_crates(TOP, [it.name for it in TOP.glob("crates/*") if has_tests(it)])
    crates = {name: crates[name] for name in tree.promising(crates)}
    tree.make(TOP, tree.place(), crates)
    trees = made_trees(crates, is_set=bool(options.jobs or named_lanes()))
    proofs = Proofs(crates, {name: it for name, it in times.items() if name in crates})
    those = list(jobs(of_jobs, trees, options.after))
    at_a_time = options.jobs or lanes()
    how = f"{at_a_time} at a time, those of the longest chain first" if trees else f"{at_a_time} at a time"
    print(f"{len(crates)} crates, {how}; logs: {OUT}/logs", flush=True)
    show = ShowProofs(those, proofs, at_a_time, options.no_skips)
    env = {**environment(TOP / OUT / "bin"), "RT_JOBS": str(at_a_time)}
    runner = Runner(those, options.jobs or cores(SMALL), Path(OUT, "logs"), show, env)
    try:
        done = runner.run()
    finally:
        write_times(proofs, of_jobs, runner.done)
        for it in trees.values() if trees else ():
            shutil.rmtree(it, ignore_errors=True)
    show.close()
    found = total(done, options.no_skips)
    print(f"./prove took {minutes(time.monotonic() - begun)}")
    print(f"{found.passed} passed, {found.failed} failed")
    return 1 if found.failed else 0


def main(words: list[str]) -> int:
    if words[:1] == ["all"]:
        from . import night

        return night.main(words[1:])
    options = arguments(words)
    os.chdir(TOP)
    if options.list:
        listed()
        return 0
    if shutil.which("rt") is None:
        print("./prove: the kit's command rt is not on the path", file=sys.stderr)
        print("0 passed, 1 failed")
        return 1
    start_anew("prove", words)
    signal.signal(signal.SIGTERM, lambda *_: sys.exit(143))
    return run(options)


def listed() -> None:
    """Prints the parts, and those of the night run."""
    from . import night

    for it in PARTS:
        print(f"{it.name:14}  {it.what}")
    for part in night.PARTS:
        print(f"all {part.name:14}  {part.what}")
