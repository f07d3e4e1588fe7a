"""Jobs: commands with their usual seconds and what they need, run side by side on a number of cores, the longest chain of them first."""

from __future__ import annotations

import contextlib
import os
import signal
import subprocess
import time
from collections.abc import Callable, Iterable, Mapping
from concurrent.futures import FIRST_COMPLETED, Future, ThreadPoolExecutor, wait
from dataclasses import dataclass, field
from pathlib import Path
from typing import Protocol

from .counts import Counts, of_last_line
from .environment import with_priority

LIMIT = 5400  # seconds that a job may take, if it says nothing else: some fifteen times what the longest takes on an idle host
POLL = 0.05  # seconds between two looks at a process
PATIENCE = 20  # seconds that a job may take to end if the run is interrupted


@dataclass(frozen=True)
class Job:
    """A command of a part: PART or PART/NAME. It is run once what it needs has passed, and what it comes after has ended in any way."""

    name: str
    words: tuple[str, ...]
    seconds: int  # that it usually takes, on one ordinary core
    needs: tuple[str, ...] = ()
    after: tuple[str, ...] = ()
    cores: float = 1
    counts: Callable[[str, int], Counts] = of_last_line
    folder: str = "."
    env: Mapping[str, str] = field(default_factory=dict)
    limit: int = LIMIT
    nice: int = 0  # by how much it leaves the processors to others

    @property
    def part(self) -> str:
        return self.name.partition("/")[0]


@dataclass(frozen=True)
class Done:
    """How a job ended: its counts, when it began and ended, the file with its output, and the seconds of a core that it took."""

    job: Job
    counts: Counts
    begun: float
    ended: float
    log: Path
    used: float = 0


class Watch(Protocol):
    """Who hears of jobs. All its functions are called by one thread."""

    def started(self, job: Job) -> None: ...

    def ended(self, done: Done) -> None: ...

    def ticked(self) -> None: ...


def chains(jobs: Iterable[Job]) -> dict[str, int]:
    """The seconds of the longest chain that begins with each job."""
    those = {it.name: it for it in jobs}
    found: dict[str, int] = {}

    def of(name: str) -> int:
        if name not in found:
            later = [it.name for it in those.values() if name in (*it.needs, *it.after)]
            found[name] = those[name].seconds + max(map(of, later), default=0)
        return found[name]

    for name in those:
        of(name)
    return found


def with_needed(wanted: Iterable[Job], every: Iterable[Job]) -> list[Job]:
    """These jobs and what they need, in the order of all."""
    all_jobs = list(every)
    names, more = set[str](), {it.name for it in wanted}
    while more - names:
        names |= more
        more = {need for it in all_jobs if it.name in names for need in it.needs}
    return [it for it in all_jobs if it.name in names]


def never() -> bool:
    return False


class Runner:
    """Runs jobs in an order that keeps all cores busy. Their output goes to files in `logs`. Whenever `spare` says so, one more begins than there are cores."""

    def __init__(
        self, jobs: list[Job], cores: int, logs: Path, watch: Watch, env: Mapping[str, str] | None = None, spare: Callable[[], bool] = never
    ) -> None:
        self.jobs, self.cores, self.logs, self.watch = jobs, cores, logs, watch
        self.env, self.spare = dict(os.environ if env is None else env), spare
        self.done: dict[str, Done] = {}
        self._running: dict[Future[Done], Job] = {}
        self._processes: set[subprocess.Popen[bytes]] = set()
        self._is_stopped = False

    def run(self) -> dict[str, Done]:
        """Runs all jobs, and returns how each ended. If this is interrupted, no job goes on."""
        self.logs.mkdir(parents=True, exist_ok=True)
        for job in self.jobs:
            self._log(job).unlink(missing_ok=True)
        order = chains(self.jobs)
        waiting = sorted(self.jobs, key=lambda it: -order[it.name])
        with ThreadPoolExecutor(max(len(self.jobs), 1)) as pool:
            try:
                while waiting or self._running:
                    waiting = self._start(pool, waiting)
                    if waiting and not self._running and not self._can_start(waiting):
                        raise ValueError(f"what {waiting[0].name} needs is no job")
                    ended, _ = wait(self._running, timeout=1, return_when=FIRST_COMPLETED)
                    for it in ended:
                        self._end(it.result())
                        del self._running[it]
                    self.watch.ticked()
            except BaseException:
                self._stop()
                raise
        return self.done

    def _start(self, pool: ThreadPoolExecutor, waiting: list[Job]) -> list[Job]:
        """Starts what can be started, and returns what still waits."""
        left, free = list[Job](), self.cores - sum(map(self._cores, self._running.values()))
        if free < 1 and self.spare():
            free = 1
        for job in waiting:
            ended = [self.done[it] for it in job.needs if it in self.done]
            failed = [it.job.name for it in ended if it.counts.failed]
            if failed:
                self._end(self._not_run(job, failed[0]))
            elif all(it in self.done for it in (*job.needs, *job.after)) and self._cores(job) <= free:
                free -= self._cores(job)
                self.watch.started(job)
                self._running[pool.submit(self._do, job)] = job
            else:
                left.append(job)
        return left

    def _can_start(self, waiting: list[Job]) -> bool:
        """Whether what some job needs has ended."""
        return any(all(it in self.done for it in (*job.needs, *job.after)) for job in waiting)

    def _cores(self, job: Job) -> float:
        """The cores that a job takes: all, if it wants more."""
        return min(job.cores, self.cores)

    def _end(self, done: Done) -> None:
        self.done[done.job.name] = done
        self.watch.ended(done)

    def _log(self, job: Job) -> Path:
        return self.logs / f"{job.name.replace('/', '-')}.log"

    def _not_run(self, job: Job, failed: str) -> Done:
        now = time.monotonic()
        self._log(job).write_text(f"{job.name} was not run, since {failed} failed\n", encoding="utf-8")
        return Done(job, Counts(failed=1), now, now, self._log(job))

    def _do(self, job: Job) -> Done:
        begun, log = time.monotonic(), self._log(job)
        with log.open("wb") as output:
            status, used = self._ended(job, output.fileno())
            if status is None:
                output.write(f"\n{job.name} had not ended after {job.limit} seconds\n".encode())
        said = log.read_text(encoding="utf-8", errors="replace")
        return Done(job, job.counts(said, 1 if status is None else status), begun, time.monotonic(), log, used)

    def _ended(self, job: Job, output: int) -> tuple[int | None, float]:
        """Runs a job's command, and returns its status, or nothing if it hadn't ended in time, and the seconds of a core. What it started
        ends with it."""
        env = {**self.env, **job.env}
        if self._is_stopped:
            return 1, 0
        try:
            process = subprocess.Popen(
                with_priority(job.nice, job.words) if job.nice else job.words,
                cwd=job.folder,
                env=env,
                stdin=subprocess.DEVNULL,
                stdout=output,
                stderr=subprocess.STDOUT,
                start_new_session=True,
            )
        except OSError as error:
            os.write(output, f"{job.words[0]} can't be run: {error}\n".encode())
            return 127, 0
        self._processes.add(process)
        try:
            return _waited(process, job.limit)
        finally:
            _send(process, signal.SIGKILL)
            process.wait()
            self._processes.discard(process)

    def _stop(self) -> None:
        """Asks all jobs to end, which may put something back first, and ends those that don't."""
        self._is_stopped = True
        those, until = list(self._processes), time.monotonic() + PATIENCE
        for it in those:
            _send(it, signal.SIGTERM)
        for it in those:
            with contextlib.suppress(subprocess.TimeoutExpired):
                it.wait(max(until - time.monotonic(), 0))
            _send(it, signal.SIGKILL)


def _waited(process: subprocess.Popen[bytes], limit: float) -> tuple[int | None, float]:
    """Waits for a process, and returns its status and the seconds of a core that it took, with all that it has waited for; no status if it
    hadn't ended in time."""
    until = time.monotonic() + limit
    while time.monotonic() < until:
        try:
            pid, status, used = os.wait4(process.pid, os.WNOHANG)
        except ChildProcessError:  # another thread has waited for it
            return process.wait(), 0
        if pid:
            process.returncode = os.waitstatus_to_exitcode(status)
            return process.returncode, used.ru_utime + used.ru_stime
        time.sleep(POLL)
    return None, 0


def _send(process: subprocess.Popen[bytes], number: signal.Signals) -> None:
    """Sends a signal to a process of ours, and to what it started in its session."""
    with contextlib.suppress(ProcessLookupError):
        os.killpg(process.pid, number)


def total(done: Mapping[str, Done], is_strict: bool) -> Counts:
    """The counts of all jobs. A skip may be a failure."""
    found = sum((it.counts for it in done.values()), Counts())
    return found.strict() if is_strict else found
