"""The crash tests. Each makes a database of workflows, lets workers meet a fault, and then looks at everything that is left.

    death_at_commit   a worker dies in place of one of its commits; the next does the rest (SQLite)
    late_store        a worker stops before a store, and makes it when another has done the rest (PostgreSQL)
    torn_write        the log is cut at a random place, as after a loss of power; a new worker goes on (SQLite)
    clock_jumps       the worker's clock jumps by up to half an hour, forward and back (SQLite)
    full_disk         the disk is full again and again (SQLite; as root on a small file system, else by a limit of its files)
    kills             workers are killed or told to stop at random, or stopped for longer than their lease, or lose their connection (SQLite, PostgreSQL)
"""

from __future__ import annotations

import contextlib
import functools
import itertools
import logging
import multiprocessing
import multiprocessing.connection
import os
import pathlib
import random
import resource
import shutil
import signal
import subprocess
import sys
import tempfile
import time
import traceback
from collections.abc import Callable, Iterable, Iterator, Sequence
from dataclasses import dataclass, field
from typing import Any

HERE = pathlib.Path(__file__).parent
SOURCES = HERE.parent.parent / "src"
sys.path[:0] = [str(SOURCES), str(HERE)]

import emptying  # noqa: E402
import faulty  # noqa: E402
import forking  # noqa: E402
from checked import Found, Wrong, check, left, rows, settle, submit, wait  # noqa: E402
from palqytun.runtime.database.plain import Plain  # noqa: E402

_FORK = multiprocessing.get_context("fork")  # this process has no threads, and has imported what workers need
COUNT = 8  # workflows, one of each kind
LONG = 600.0  # seconds that a worker may take, which needs some two, on a host that is busy with other things
LEASE = 3.0  # seconds; on a host that is busy with other things a shorter one ends by itself


def _told(call: Callable[[], Any], to: multiprocessing.connection.Connection) -> None:
    """What the call answers, or the text of what it raises, is sent."""
    try:
        to.send((call(), None))
    except Wrong as error:
        to.send((None, f"{error}"))
    except BaseException:
        to.send((None, traceback.format_exc()))


def side_by_side(calls: Iterable[Callable[[], Any]], seconds: float = 3 * LONG) -> Iterator[Any]:
    """Makes the calls in processes of their own, as many at a time as there are processors, and answers what they answer, in order. What one
    of them raises is raised as `Wrong`; those that still run then are waited for, so that none of them is left without its folder."""
    waiting, running, begun = iter(calls), [], time.monotonic()
    try:
        while True:
            for call in waiting:
                from_it, to_it = _FORK.Pipe(duplex=False)
                process = _FORK.Process(target=_told, args=(call, to_it))
                process.start()
                to_it.close()
                running.append((process, from_it))
                if len(running) >= (os.cpu_count() or 1):
                    break
            if not running:
                return
            process, from_it = running.pop(0)
            answer, wrong = _heard(process, from_it, begun + seconds - time.monotonic())
            if wrong is not None:
                raise Wrong(wrong)
            yield answer
    finally:
        for process, from_it in running:
            _heard(process, from_it, begun + seconds - time.monotonic())


def _heard(process: Any, from_it: Any, seconds: float) -> tuple[Any, str | None]:
    """What a process sends until it ends. It is killed when the time is over."""
    try:
        return from_it.recv() if from_it.poll(max(0.0, seconds)) else (None, "it hasn't ended in time")
    except EOFError:
        return None, "it died"
    finally:
        from_it.close()
        process.join(5)
        if process.exitcode is None:
            process.kill()
            process.join()


# ---- one worker on SQLite, in a process of its own


def _worker(path: pathlib.Path, effects: pathlib.Path, seconds: float = LONG, **options: Any) -> int:
    """The exit status of a worker that runs until all has ended. -1: it was killed after some time."""
    process = _FORK.Process(target=_quiet, args=(str(path), str(effects)), kwargs=options)
    process.start()
    process.join(seconds)
    if process.exitcode is None:
        process.kill()
        process.join()
        return -1
    return process.exitcode


def _quiet(path: str, *arguments: Any, **options: Any) -> None:
    _logged(f"{path}.log", path, *arguments, **options)


def _logged(log: str, *arguments: Any, **options: Any) -> None:
    """Runs the worker with its errors in a file."""
    os.dup2(os.open(log, os.O_WRONLY | os.O_CREAT | os.O_APPEND, 0o644), 2)
    logging.basicConfig(level=logging.WARNING)
    faulty.until_all_ended(*arguments, **options)


@dataclass
class Report:
    """What a scenario did and compared: its faults, the journals and commands that are as without faults, and the effects by their keys, with
    how often these were executed."""

    deaths: int = 0
    kills: int = 0
    stops: int = 0
    pauses: int = 0
    disconnects: int = 0
    failovers: int = 0
    splits: int = 0
    missing: int = 0
    torn_writes: int = 0
    jumping_clocks: int = 0
    full_disks: int = 0
    open_at_faults: int = 0
    lost_attempts: int = 0
    resumed: int = 0
    fenced: int = 0
    lost: int = 0
    journals: int = 0
    commands: int = 0
    effects: int = 0
    executions: int = 0

    @staticmethod
    def of(it: Found, **done: int) -> Report:
        commands, executions = sum(map(len, it.commands.values())), sum(it.effects.values())
        return Report(**done, journals=len(it.commands), commands=commands, effects=len(it.effects), executions=executions)

    def __add__(self, other: Report) -> Report:
        return Report(**{name: number + getattr(other, name) for name, number in vars(self).items()})

    def __str__(self) -> str:
        return ", ".join(f"{name.replace('_', ' ')} {number}" for name, number in vars(self).items() if number)


@dataclass
class Room:
    """A folder with a database of workflows that haven't begun, and what a run without faults makes of it."""

    folder: pathlib.Path
    count: int = COUNT
    reference: Found = field(init=False)

    def __post_init__(self) -> None:
        self.folder.mkdir(parents=True, exist_ok=True)
        with Plain(str(self.folder / "begin")) as db:
            submit(db, 0, self.count)
            db.rows("PRAGMA wal_checkpoint(TRUNCATE)")
        path, effects = self.copy("reference")
        if _worker(path, effects):
            raise Wrong(f"the run without faults failed: {_log(path)}")
        self.reference = self.checked(path, effects, None)

    def copy(self, name: str) -> tuple[pathlib.Path, pathlib.Path]:
        """A new copy of the database, and a file for its effects."""
        here = self.folder / name
        here.mkdir()
        shutil.copy(self.folder / "begin", here / "db")
        (here / "effects").touch()
        return here / "db", here / "effects"

    def checked(self, path: pathlib.Path, effects: pathlib.Path, reference: Found | None, **how: bool) -> Found:
        with Plain(str(path)) as db:
            unended = left(db)
            if unended:
                errors = rows(db, "SELECT id, status, error FROM invocations WHERE status<>'done' AND service<>'Ticks' LIMIT 3")
                raise Wrong(f"{unended} invocations haven't ended: {errors} {_log(path)}")
            return check(db, self.count, effects, reference, **how)

    def remove(self, path: pathlib.Path) -> None:
        shutil.rmtree(path.parent)


def _log(path: pathlib.Path) -> str:
    log = pathlib.Path(f"{path}.log")
    return log.read_text()[-2000:] if log.exists() else ""


def _rest(room: Room, path: pathlib.Path, effects: pathlib.Path, **options: Any) -> Found:
    """A worker without a failure does the rest, and everything is looked at."""
    status = _worker(path, effects, **options)
    if status:
        raise Wrong(f"the last worker ended with {status}: {_log(path)}")
    found = room.checked(path, effects, room.reference)
    room.remove(path)
    return found


def death_at_commit(room: Room, number: int, *, again: int = 0, idle: float = 0.0) -> Report:
    """The worker dies in place of commit `number`, and if `again` is given the next one at that commit; then each worker is of another version, whose
    code is the same. If the first one didn't die, there is no such commit."""
    path, effects = room.copy(f"death-{number}-{again}-{idle}")
    first = _worker(path, effects, dies=number, idle=idle)
    if first not in (0, faulty.DIED):
        raise Wrong(f"the worker that was to die at commit {number} ended with {first}: {_log(path)}")
    second = _worker(path, effects, dies=again, idle=idle, version="second") if again else 0
    deaths = [first, second].count(faulty.DIED) if first else 0
    return Report.of(_rest(room, path, effects, idle=idle, **({"version": "third"} if again else {})), deaths=deaths)


def deaths_at_commits(room: Room, numbers: Iterable[int], **options: Any) -> Report:
    """Deaths at these commits, side by side, as long as there are such commits."""
    return _until_none_dies(functools.partial(death_at_commit, room, number, **options) for number in numbers)


def _until_none_dies(deaths: Iterable[Callable[[], Report]]) -> Report:
    """All that came of these, side by side, up to the first one at whose commit nothing died."""
    report = Report()
    with contextlib.closing(side_by_side(deaths)) as reports:
        for one in reports:
            if not one.deaths:
                break
            report += one
    return report


def deaths_on_a_server(url: str, folder: pathlib.Path, numbers: Sequence[int], reference: Found) -> Report:
    """The same on PostgreSQL, where each of those that are side by side has a database of its own."""
    with _databases(url, min(len(numbers), os.cpu_count() or 1)) as urls:
        own = itertools.cycle(urls)
        return _until_none_dies(functools.partial(death_on_a_server, next(own), folder, number, reference) for number in numbers)


@contextlib.contextmanager
def _databases(url: str, count: int) -> Iterator[list[str]]:
    """New databases of a server, while the context lasts."""
    names = [f"deaths_{os.getpid()}_{at}" for at in range(count)]
    with Plain(url) as db:
        for it in names:
            db.change(f"CREATE DATABASE {it}")
    try:
        yield [f"{url}{'&' if '?' in url else '?'}dbname={it}" for it in names]
    finally:
        with Plain(url) as db:
            for it in names:
                db.change(f"DROP DATABASE {it} WITH (FORCE)")


def death_on_a_server(url: str, folder: pathlib.Path, number: int, reference: Found) -> Report:
    """The worker dies in place of commit `number`, and another one does the rest. If it didn't die, there is no such commit."""
    place = folder / f"death-{number}"
    place.mkdir(parents=True)
    (place / "effects").touch()
    emptied(url)
    with Plain(url) as db:
        submit(db, 0, COUNT)
    first = _served(url, place, dies=number)
    if first not in (0, faulty.DIED):
        raise Wrong(f"the worker that was to die at commit {number} ended with {first}: {_log(place / 'worker')}")
    if first and (second := _served(url, place)):
        raise Wrong(f"the worker after a death at commit {number} ended with {second}: {_log(place / 'worker')}")
    with Plain(url) as db:
        return Report.of(check(db, COUNT, place / "effects", reference), deaths=int(first == faulty.DIED))


def _served(url: str, place: pathlib.Path, **options: Any) -> int:
    """The exit status of a worker on a server, in a process of its own. -1: it was killed after some time."""
    arguments = (str(place / "worker.log"), url, str(place / "effects"))
    process = _FORK.Process(target=_logged, args=arguments, kwargs=options)
    process.start()
    process.join(LONG)
    if process.exitcode is None:
        process.kill()
        process.join()
        return -1
    return process.exitcode


def is_found(room: Room, wrong: str) -> bool:
    """Whether a runtime with a mistake is found by deaths after it has committed a first part and not the rest, at some time."""
    try:
        for number in range(1, 31):
            path, effects = room.copy(f"wrong-{wrong}-{number}")
            _worker(path, effects, dies_between=number, wrong=wrong)
            _rest(room, path, effects, wrong=wrong)
    except Wrong:
        return True
    return False


def torn_write(room: Room, seed: int) -> Report:
    """A worker is killed at a random moment, and its log is cut at a random place, maybe with other bytes after it."""
    chance = random.Random(seed)
    path, effects = room.copy(f"torn-{seed}")
    process = _FORK.Process(target=_quiet, args=(str(path), str(effects)), kwargs={"seed": seed, "is_grouped": True})
    process.start()
    process.join(chance.uniform(0.1, 0.8))
    process.kill()
    process.join()
    log = pathlib.Path(f"{path}-wal")
    if log.exists():
        data = log.read_bytes()
        data = data[: chance.randint(0, len(data))]
        log.write_bytes(data + (chance.randbytes(chance.randint(1, 9000)) if chance.random() < 0.5 else b""))
    pathlib.Path(f"{path}-shm").unlink(missing_ok=True)
    return Report.of(_rest(room, path, effects, seed=seed), torn_writes=1)


def clock_jumps(room: Room, seed: int) -> Report:
    path, effects = room.copy(f"clock-{seed}")
    status = _worker(path, effects, seed=seed, jumps=True, idle=0.05, is_grouped=True)
    if status:
        raise Wrong(f"the worker whose clock jumps ended with {status}: {_log(path)}")
    found = room.checked(path, effects, room.reference, is_ordered=False)
    room.remove(path)
    return Report.of(found, jumping_clocks=1)


def may_mount() -> bool:
    """Whether this process may mount a file system, as root outside of a container does."""
    with tempfile.TemporaryDirectory(prefix="palqytun-mount-") as folder:
        try:
            with _small_disk(pathlib.Path(folder), 1):
                return True
        except (OSError, subprocess.CalledProcessError):
            return False


@contextlib.contextmanager
def _small_disk(folder: pathlib.Path, megabytes: int) -> Iterator[None]:
    """A file system in a folder."""
    subprocess.run(["mount", "-t", "tmpfs", "-o", f"size={megabytes}m", "tmpfs", str(folder)], check=True, stderr=subprocess.PIPE)
    try:
        yield
    finally:
        subprocess.run(["umount", "-l", str(folder)], check=True)


class _Filled:
    """A file system without room for anything."""

    def __init__(self, disk: pathlib.Path):
        self._filler = disk / "filler"

    def fill(self) -> None:
        with contextlib.suppress(OSError):
            with self._filler.open("wb", buffering=0) as it:
                while True:
                    it.write(bytes(4096))

    def empty(self) -> None:
        self._filler.unlink(missing_ok=True)


class _Limited:
    """A limit of the size of a process's files: none of them can grow beyond the log of its database."""

    def __init__(self, process: int, path: pathlib.Path):
        self._process, self._log = process, pathlib.Path(f"{path}-wal")

    def fill(self) -> None:
        self._limit(self._log.stat().st_size if self._log.exists() else 0)

    def empty(self) -> None:
        self._limit(resource.RLIM_INFINITY)

    def _limit(self, size: int) -> None:
        with contextlib.suppress(ProcessLookupError):
            resource.prlimit(self._process, resource.RLIMIT_FSIZE, (size, resource.RLIM_INFINITY))


def full_disk(room: Room, seed: int, is_mounted: bool) -> Report:
    """The disk is full for some moments: a small file system, or by a limit."""
    chance, folder = random.Random(seed), room.folder / f"disk-{seed}-{is_mounted}"
    folder.mkdir()
    with _small_disk(folder, 64) if is_mounted else contextlib.nullcontext():
        path, effects = folder / "db", room.folder / f"{folder.name}.effects"
        effects.touch()
        shutil.copy(room.folder / "begin", path)
        arguments = (f"{folder}.log", str(path), str(effects))
        process = _FORK.Process(target=_logged, args=arguments, kwargs={"seed": seed, "is_grouped": True, "is_checkpointed": True})
        process.start()
        disk, log = _Filled(folder) if is_mounted else _Limited(process.pid, path), pathlib.Path(f"{folder}.log")
        _joined(process, lambda: effects.stat().st_size > 0)  # it is at work
        for _ in range(20):
            process.join(chance.uniform(0.02, 0.2))
            disk.fill()
            process.join(chance.uniform(0.02, 0.2))
            _joined(process, lambda: _full(log) > 0)  # the first time until it is met
            disk.empty()
        process.join(LONG)
        status = process.exitcode
        if status is None:
            process.kill()
            process.join()
        if status:
            raise Wrong(f"the worker on a full disk ended with {status}: {log.read_text()[-2000:]}")
        return Report.of(room.checked(path, effects, room.reference), full_disks=1, lost=_full(log))


def _joined(process: Any, holds: Callable[[], bool]) -> None:
    """Waits until it is so, or the process has ended, or for long."""
    until = time.monotonic() + LONG
    while process.exitcode is None and not holds() and time.monotonic() < until:
        process.join(0.01)


def _full(log: pathlib.Path) -> int:
    """How often a worker has met the full disk. Beyond a limit, a write is an error of the file."""
    text = log.read_text() if log.exists() else ""
    return text.count("the database's disk is full") + text.count("the database is lost")


# ---- workers in processes of their own, killed at random


class Workers:
    lease, grace = LEASE, 10.0

    def __init__(self, url: str, count: int, folder: pathlib.Path, *, idle: float, wrong: str = ""):
        program = [sys.executable, "-m", "palqytun"] if not wrong else [sys.executable, str(HERE / "wrong_worker.py"), wrong]
        self.command = [*program, "run", str(HERE / "crash_app.py"), "--db", url, "--port", "-1", "--idle", str(idle)]
        self.command += ["--lease", str(self.lease), "--grace", str(self.grace)]
        self.environment = {**os.environ, "PYTHONPATH": f"{SOURCES}:{HERE}", "CRASH_EFFECTS": str(folder / "effects")}
        self.log = (folder / "log").open("a")
        self.all = [self.start(at) for at in range(count)]

    def start(self, at: int) -> subprocess.Popen[bytes] | forking.Worker:
        """The worker of a place."""
        return subprocess.Popen(self.command, env=self.environment, stdout=self.log, stderr=self.log)

    def kill(self, at: int) -> None:
        self.all[at].kill()
        self.all[at].wait()
        self.all[at] = self.start(at)

    def stop(self, at: int) -> None:
        """SIGTERM, within whose grace each effect ends. A worker that has just begun, and doesn't listen for signals yet, ends by this one: it
        has claimed nothing."""
        self.all[at].terminate()
        status = self.all[at].wait(LONG)
        if status not in (0, -signal.SIGTERM):
            raise Wrong(f"a worker that was told to stop ended with {status}")
        self.all[at] = self.start(at)

    def pause(self, at: int, seconds: float) -> None:
        self.all[at].send_signal(signal.SIGSTOP)
        time.sleep(seconds)
        self.all[at].send_signal(signal.SIGCONT)

    def end(self) -> None:
        for worker in self.all:
            worker.terminate()
        for worker in self.all:
            try:
                worker.wait(60)
            except subprocess.TimeoutExpired:
                worker.kill()
                worker.wait()
        self.log.close()


class Forked(Workers):
    """A crew whose workers begin in a moment (forking.py), so they are at work for most of the time, and not beginning."""

    def __init__(self, url: str, count: int, folder: pathlib.Path, *, idle: float, wrong: str = ""):
        assert not wrong
        self._forking: forking.Forking | None = None
        super().__init__(url, count, folder, idle=idle)

    def start(self, at: int) -> forking.Worker:
        if self._forking is None:
            self._forking = forking.Forking(self.environment)
        return self._forking.begin(self.command[3:], self.environment, self.log.name)

    def end(self) -> None:
        super().end()
        if self._forking is not None:
            self._forking.close()


class Steady(Workers):
    """A crew whose workers end in an orderly way, so nobody waits for the end of a lease. Their times are so long that on a busy host too no lease ends
    by itself, and each effect ends within the grace: else one would be executed twice."""

    lease, grace = 30.0, 120.0


class ForkedSteady(Forked, Steady):
    """The same, forked."""


class Mixed(Workers):
    """A crew in which each second worker is one of the SDK in TypeScript. Its handlers and Python's call each other. A send to what no worker serves that is
    alive is dropped, so one of each language has to be alive, and on a busy host a lease may not end by itself."""

    lease = 20.0

    def __init__(self, sdk: pathlib.Path, url: str, count: int, folder: pathlib.Path, *, idle: float, wrong: str = ""):
        """`sdk` is the folder in which the SDK and its tests are built."""
        own = {"CRASH_URL": url, "CRASH_IDLE": str(int(idle * 1000)), "CRASH_LEASE": str(int(self.lease * 1000))}
        self._url, self._sdk, self._own, self._begun = url, sdk, own, [0, 0]
        super().__init__(url, count, folder, idle=idle, wrong=wrong)
        for at in (0, 1):
            self._entered(at)

    def start(self, at: int) -> subprocess.Popen[bytes]:
        self._begun[at % 2] += 1
        if at % 2:
            command, environment = ["node", str(self._sdk / "out/test/crash_app.js")], {**self.environment, **self._own}
        else:
            command, environment = [it.replace("crash_app.py", "mixed_app.py") for it in self.command], self.environment
        return subprocess.Popen(command, env=environment, stdout=self.log, stderr=self.log)

    def kill(self, at: int) -> None:
        self._entered(at)
        super().kill(at)

    def _entered(self, at: int) -> None:
        """Waits until each worker of the same language has entered. What a killed one has announced stays in the table."""
        sql = f"SELECT COUNT(*) FROM serving WHERE serves LIKE '%\"{('Ticks', 'Counter')[at % 2]}\"%'"
        until = time.monotonic() + LONG
        with Plain(self._url) as db:
            while rows(db, sql)[0][0] < self._begun[at % 2]:
                if time.monotonic() > until:
                    raise Wrong("a worker doesn't enter")
                time.sleep(0.05)


def emptied(url: str) -> None:
    if url.startswith("postgres"):
        emptying.emptied(url)
    else:
        Plain(url).close()  # a new file gets its tables


def _disconnect(db: Plain) -> None:
    """The server closes each connection but this one."""
    rows(db, "SELECT pg_terminate_backend(pid) FROM pg_stat_activity WHERE datname=current_database() AND pid<>pg_backend_pid()")


def until_work(db: Plain, since: float, seconds: float = LONG) -> None:
    """Until an attempt has begun since this time, so that the next fault meets a worker at work; or until all have ended."""
    until = time.monotonic() + seconds
    while time.monotonic() < until and left(db) and (rows(db, "SELECT MAX(begun) FROM invocations WHERE service<>'Ticks'")[0][0] or 0) < since:
        time.sleep(0.02)


def logged_without_errors(folder: pathlib.Path) -> str:
    """The log of the workers; `Wrong` if one has raised an error."""
    log = (folder / "log").read_text()
    for sign in ("Traceback", "stopped; the invocation is paused", ", and the worker goes on"):
        if sign in log:
            raise Wrong(f"a worker raised an error: {folder / 'log'}: {log[log.index(sign) :][:2000]}")
    return log


def _stopped(worker: subprocess.Popen[bytes]) -> None:
    """Waits until a worker has stopped itself."""
    until = time.monotonic() + LONG
    while os.waitid(os.P_PID, worker.pid, os.WSTOPPED | os.WNOHANG) is None:
        if worker.poll() is not None or time.monotonic() > until:
            raise Wrong(f"a worker that was to stop before a store hasn't, and has ended with {worker.returncode}")
        time.sleep(0.02)


def late_store(url: str, folder: pathlib.Path, reference: Found, fault: str = "late") -> None:
    """A worker stops before a store. Another takes over what it had claimed, and ends all. Then the first one makes that store, and dies: it must
    change nothing."""
    folder.mkdir(parents=True, exist_ok=True)
    (folder / "effects").touch()
    emptied(url)
    with Plain(url) as db:
        submit(db, 0, COUNT)
        late = Workers(url, 1, folder, idle=0.0, wrong=fault)
        try:
            _stopped(late.all[0])
            other = Workers(url, 1, folder, idle=0.0)
            try:
                wait(db, LONG)
            finally:
                other.end()
            late.all[0].send_signal(signal.SIGCONT)
            if (status := late.all[0].wait(LONG)) != faulty.DIED:
                raise Wrong(f"the worker that stopped before a store ended with {status}: {folder / 'log'}")
        finally:
            late.all[0].send_signal(signal.SIGCONT)
            late.end()
        check(db, COUNT, folder / "effects", reference)


def kills(
    url: str,
    folder: pathlib.Path,
    *,
    faults: int,
    each: int = 3,
    workers: int = 1,
    idle: float = 0.0,
    seed: int = 1,
    pauses: bool = False,
    disconnects: bool = False,
    stops: bool = False,
    reference: Found | None = None,
    wrong: str = "",
    seconds: float = LONG,
    crew: Callable[..., Workers] = Workers,
) -> Report:
    """Workflows are submitted, `each` before each fault, while workers die; or with `stops` while they are told to stop, and no effect is executed
    twice."""
    folder.mkdir(parents=True, exist_ok=True)
    (folder / "effects").touch()
    emptied(url)
    chance, report = random.Random(seed), Report()
    with Plain(url) as db:
        running = crew(url, workers, folder, idle=idle, wrong=wrong)
        try:
            for fault in range(faults):
                begun = time.time()
                submit(db, fault * each, each)
                time.sleep(chance.uniform(0.15, 0.9) / (1 if workers == 1 else 2))
                until_work(db, begun)
                report.open_at_faults += left(db)
                at, kind = chance.randrange(workers), fault % 10
                if stops:
                    running.stop(at)
                    report.stops += 1
                elif pauses and kind == 9:
                    running.pause(at, LEASE + 1.5)
                    report.pauses += 1
                elif disconnects and kind in (4, 7):
                    _disconnect(db)
                    report.disconnects += 1
                else:
                    running.kill(at)
                    report.kills += 1
                logged_without_errors(folder)
            report.resumed = wait(db, seconds)
            settle(db)
        finally:
            running.end()
        log = logged_without_errors(folder)
        report.lost_attempts = rows(db, "SELECT COUNT(*) FROM attempts WHERE how='lost'")[0][0]
        report.fenced, report.lost = log.count("fenced:"), log.count("the database is lost")
        return report + Report.of(check(db, faults * each, folder / "effects", reference, is_exact=stops))


def undisturbed(url: str, folder: pathlib.Path, count: int, seconds: float = LONG, crew: Callable[..., Workers] = Workers, workers: int = 1) -> Found:
    """What a run of `count` workflows leaves without faults."""
    folder.mkdir(parents=True, exist_ok=True)
    (folder / "effects").touch()
    emptied(url)
    with Plain(url) as db:
        running = crew(url, workers, folder, idle=0.5)
        try:
            submit(db, 0, count)
            wait(db, seconds)
            settle(db)
        finally:
            running.end()
        return check(db, count, folder / "effects", None)

