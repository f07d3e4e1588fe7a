"""A PostgreSQL server for tests: a temporary cluster of an installed server, which is removed when whoever made it has ended, however it ends.

usage: postgres.py [--set NAME=VALUE].. COMMAND [WORD..]   runs a command beside a cluster, whose URL is in PALQYTUN_TEST_POSTGRES

The cluster is in a new folder. It listens on a Unix socket in this folder alone, or if the socket's path is too long on a free port of the
loopback. PostgreSQL refuses to run as root: if this process is root, the server is run by the user `postgres`, or else `nobody`.
"""

from __future__ import annotations

import argparse
import atexit
import contextlib
import fcntl
import functools
import os
import pathlib
import pwd
import random
import re
import shlex
import shutil
import signal
import socket
import subprocess
import sys
import tempfile
import time
import urllib.parse
from collections.abc import Callable, Iterator, Mapping
from dataclasses import dataclass
from typing import Any, TypeVar

T = TypeVar("T")
VARIABLE = "PALQYTUN_TEST_POSTGRES"
PARTITIONS = "PALQYTUN_TEST_PARTITIONS"  # how many a database for tests has; none without it
INSTALL = "no PostgreSQL server: apt-get install postgresql"
_FOLDERS = ("/usr/lib/postgresql/*/bin", "/usr/pgsql-*/bin", "/usr/local/pgsql*/bin", "/opt/*/bin", "/opt/*/*/bin")
_PROGRAMS = ("initdb", "pg_ctl", "postgres")
_USERS = ("postgres", "nobody")  # who run the server for root
_LONGEST_PATH = 107  # bytes of a Unix socket's path
_SECONDS = 600  # that the server may take to start, or to end, on a host that is busy with other things
_OWNER = "palqytun"  # the database's superuser
_KEPT = pathlib.Path(__file__).resolve().parents[2] / "out/postgres"  # new clusters, of which others are copies


class NoServer(Exception):
    """There is no PostgreSQL server that can be started here, and why."""


# ---- an installed server


def _version(folder: pathlib.Path) -> tuple[int, ...]:
    """The version of the server in a folder of programs; none if it lacks one or doesn't run."""
    if not all(os.access(folder / it, os.X_OK) for it in _PROGRAMS):
        return ()
    try:
        said = subprocess.run([folder / "postgres", "--version"], capture_output=True, text=True, timeout=_SECONDS).stdout
    except (OSError, subprocess.TimeoutExpired):
        return ()
    found = re.search(r"\d+(?:\.\d+)*", said)
    return tuple(map(int, found[0].split("."))) if found else ()


@functools.cache
def programs() -> pathlib.Path:
    """The folder of an installed server's programs: that of `initdb` on the PATH, or else the newest in the usual folders."""
    on_path = shutil.which("initdb")
    beside = [pathlib.Path(on_path).resolve().parent] if on_path else []
    usual = [it for pattern in _FOLDERS for it in pathlib.Path("/").glob(pattern[1:])]
    for found in (beside, sorted(usual, key=_version, reverse=True)):
        for folder in found:
            if _version(folder):
                return folder
    raise NoServer(INSTALL)


def server_user() -> str | None:
    """Who runs the server: another user if this is root."""
    if os.geteuid() != 0:
        return None
    for name in _USERS:
        with contextlib.suppress(KeyError):
            return pwd.getpwnam(name).pw_name
    raise NoServer(f"PostgreSQL doesn't run as root, and there is no user {' or '.join(_USERS)}")


def _ran(words: list[str | pathlib.Path], user: str | None, folder: pathlib.Path) -> None:
    """Runs a program of the server as its user."""
    environment = {name: it for name, it in os.environ.items() if not name.startswith("PG")} | {"LC_ALL": "C", "TZ": "UTC"}
    own: dict[str, Any] = {"user": user, "group": pwd.getpwnam(user).pw_gid, "extra_groups": []} if user else {}
    log = folder / "said"
    with log.open("wb") as said:
        how: dict[str, Any] = {"cwd": folder, "stdin": subprocess.DEVNULL, "stdout": said, "stderr": said, "timeout": _SECONDS + 30}
        done = subprocess.run(words, env=environment, **how, **own)
    if done.returncode:
        raise NoServer(f"{' '.join(map(str, words[:2]))} failed: {_told(folder / 'log')}\nIt said: {log.read_text()[-2000:]}")


def _told(log: pathlib.Path) -> str:
    """What the server's log says of its failure, first of all on one line, and then its last lines."""
    lines = log.read_text(errors="replace").splitlines()[-40:] if log.exists() else []
    first = [it for it in lines if re.search(r" (FATAL|PANIC|ERROR|HINT|DETAIL): ", it)]
    return "\n".join([" / ".join(first[-4:]) or "the server's log has no error", *lines[-20:]])


# ---- a cluster


def _free_port() -> int:
    """A port at which nobody listens. It isn't one of those that the system gives to whoever asks for any, so it stays free until the server listens."""
    first = int(pathlib.Path("/proc/sys/net/ipv4/ip_local_port_range").read_text().split()[0])
    while True:
        port = random.randrange(first // 2, first)
        with socket.socket() as found, contextlib.suppress(OSError):
            found.bind(("127.0.0.1", port))
            return port


@dataclass(frozen=True)
class Place:
    """Where a server listens: at a Unix socket in a folder, or if the socket's path is too long at a free port of the loopback."""

    host: str
    port: str = "5432"

    @staticmethod
    def of(folder: pathlib.Path) -> Place:
        if len(os.fsencode(folder / ".s.PGSQL.5432.lock")) <= _LONGEST_PATH:
            return Place(str(folder))
        return Place("127.0.0.1", str(_free_port()))

    def settings(self) -> dict[str, str]:
        is_socket = self.host.startswith("/")
        return {"listen_addresses": "" if is_socket else self.host, "port": self.port, "unix_socket_directories": self.host if is_socket else ""}


def url_of(*places: Place) -> str:
    """The URL of the database at one of these places; of several it is that of the server that may write."""
    hosts, ports = (",".join(getattr(it, name) for it in places) for name in ("host", "port"))
    chosen = "&target_session_attrs=read-write" if len(places) > 1 else ""
    return f"postgresql://{_OWNER}@/postgres?host={urllib.parse.quote(hosts, safe='')}&port={urllib.parse.quote(ports)}{chosen}"


@dataclass(frozen=True)
class Cluster:
    """A cluster that runs: its folder, and where it listens."""

    folder: pathlib.Path
    place: Place

    @property
    def url(self) -> str:
        return url_of(self.place)

    def start(self) -> None:
        """Starts the server, and waits until it can be connected to."""
        said = shlex.join(it for name, value in self.place.settings().items() for it in ("-c", f"{name}={value}"))
        words = [programs() / "pg_ctl", "start", "-w", "-t", str(_SECONDS), "-D", self.folder / "data", "-l", self.folder / "log", "-o", said]
        _ran(words, server_user(), self.folder)

    def kill(self) -> None:
        """Kills each process of the server, as if its host stopped. Like a host that starts again, it leaves no file that names a process: one that
        has ended, but that nobody has waited for, is to the next server one that runs."""
        file = self.folder / "data" / "postmaster.pid"
        server = int(file.read_text().splitlines()[0])
        os.kill(server, signal.SIGSTOP)  # so it begins no process, and ends none in an orderly way
        while state(server) not in "TZX":  # until then it may still begin one
            time.sleep(0.005)
        killed = [*children(server), server]
        for it in killed:
            with contextlib.suppress(ProcessLookupError):
                os.kill(it, signal.SIGKILL)
        while any(map(is_running, killed)):
            time.sleep(0.005)
        file.unlink(missing_ok=True)
        for it in self.folder.glob(".s.PGSQL.*"):
            it.unlink(missing_ok=True)

    def promote(self) -> None:
        """A standby becomes a primary."""
        words = [programs() / "pg_ctl", "promote", "-w", "-t", str(_SECONDS), "-D", self.folder / "data"]
        _ran(words, server_user(), self.folder)

    def follow(self, primary: Cluster) -> None:
        """Begins as the standby of another that was its own, without what that one hasn't."""
        words = [programs() / "pg_rewind", "-D", self.folder / "data", f"--source-server={primary.url}", "-R"]
        _ran(words, server_user(), self.folder)
        self.start()

    def base(self) -> pathlib.Path:
        """A base backup, made while the server goes on."""
        made = self.folder / "base"
        _ran([programs() / "pg_basebackup", "-d", self.url, "-D", made, "-c", "fast", "--no-sync"], server_user(), self.folder)
        return made

    def program(self, name: str, *words: str | pathlib.Path) -> None:
        """Runs a program of the server's package on its database, as its user and in its folder."""
        _ran([programs() / name, *words, "-d", self.url], server_user(), self.folder)

    def restart(self, mode: str) -> None:
        """Ends the server and starts it again. `mode` is pg_ctl's: `fast` ends the sessions, `immediate` is like a crash."""
        words = [programs() / "pg_ctl", "restart", "-w", "-t", str(_SECONDS), "-D", self.folder / "data", "-l", self.folder / "log", "-m", mode]
        _ran(words, server_user(), self.folder)

    def owned(self, folder: pathlib.Path) -> None:
        """Gives a folder to the server's user."""
        if (user := server_user()) is not None:
            shutil.chown(folder, user)


def _room(user: str | None) -> pathlib.Path:
    """A new folder that belongs to the server's user, who has to reach it."""
    folder = pathlib.Path(tempfile.mkdtemp(prefix="palqytun-pg-"))
    if user is not None and not all(it.stat().st_mode & 0o001 for it in folder.parents):
        folder.rmdir()
        folder = pathlib.Path(tempfile.mkdtemp(prefix="palqytun-pg-", dir="/tmp"))
    if user is not None:
        shutil.chown(folder, user)
    return folder


def _initialised(data: pathlib.Path, user: str | None) -> None:
    """Makes the folder of a new cluster: a copy of one that `initdb` makes once for all tests of this host. `cp` leaves the files to whom they
    belong, and takes a third of what it takes to copy and give away each of a thousand."""
    kept = _KEPT / f"{'.'.join(map(str, _version(programs())))}-of-{user or os.geteuid()}"
    _KEPT.mkdir(parents=True, exist_ok=True)
    with (_KEPT / "lock").open("w") as lock:
        fcntl.flock(lock, fcntl.LOCK_EX)  # the tests that begin side by side wait for the first
        if not kept.is_dir():
            words = [programs() / "initdb", "-D", data, "-U", _OWNER, "-A", "trust", "-E", "UTF8", "--locale=C", "--no-sync", "--no-instructions"]
            _ran(words, user, data.parent)
            made = pathlib.Path(tempfile.mkdtemp(dir=_KEPT)) / "data"  # it gets its name once it is whole
            subprocess.run(["cp", "-a", data, made], check=True)
            made.rename(kept)
            made.parent.rmdir()
            return
    subprocess.run(["cp", "-a", kept, data], check=True)


def _made(folder: pathlib.Path, user: str | None, settings: Mapping[str, str]) -> Cluster:
    """Makes a cluster in a folder, and starts its server."""
    data = folder / "data"
    _initialised(data, user)
    with (data / "postgresql.conf").open("a") as file:
        for name, value in settings.items():
            quoted = value.replace("'", "''")
            file.write(f"{name} = '{quoted}'\n")
    found = Cluster(folder, Place.of(folder))
    found.start()
    return found


def _copied(folder: pathlib.Path, user: str | None, primary: Cluster) -> Cluster:
    """Makes a standby in a folder, and starts its server."""
    data = folder / "data"
    _ran([programs() / "pg_basebackup", "-d", primary.url, "-D", data, "-R", "-c", "fast", "--no-sync"], user, folder)
    found = Cluster(folder, Place.of(folder))
    found.start()
    return found


def children(process: int) -> list[int]:
    """The processes that a process has begun."""
    found = []
    for it in pathlib.Path("/proc").glob("[0-9]*/stat"):
        with contextlib.suppress(OSError):
            if int(it.read_text().rpartition(")")[2].split()[1]) == process:
                found.append(int(it.parent.name))
    return found


def state(process: int) -> str:
    """The letter of a process's state, as proc(5) has it: T is stopped, Z has ended and wasn't waited for. X if it isn't there."""
    try:
        return pathlib.Path(f"/proc/{process}/stat").read_text().rpartition(")")[2].split()[0]
    except OSError:
        return "X"


def is_running(process: int) -> bool:
    """Whether a process is there, and hasn't ended."""
    return state(process) not in "ZX"


def _removed(folder: pathlib.Path) -> None:
    """Ends the server of a folder, and removes the folder."""
    file = folder / "data" / "postmaster.pid"
    with contextlib.suppress(OSError, ValueError, IndexError):
        server = int(file.read_text().splitlines()[0])
        os.kill(server, signal.SIGQUIT)  # at once: nothing of it is needed any more
        until = time.monotonic() + 20
        while time.monotonic() < until and is_running(server):
            time.sleep(0.02)
        os.kill(server, signal.SIGKILL)
    shutil.rmtree(folder, ignore_errors=True)


@contextlib.contextmanager
def kept(make: Callable[[pathlib.Path, str | None], T]) -> Iterator[T]:
    """What is made in a new folder, which belongs to the server's user. A process of its own removes it at the end, or when this one has ended, even by
    SIGKILL."""
    user = server_user()
    programs()
    folder = _room(user)
    words = [sys.executable, __file__, "--remove", str(folder)]
    guard = subprocess.Popen(words, stdin=subprocess.PIPE, start_new_session=True)
    try:
        yield make(folder, user)
    finally:
        with contextlib.suppress(BrokenPipeError):
            guard.communicate(b".", timeout=_SECONDS)  # a child of this process may have the pipe too, so closing it isn't enough


def cluster(settings: Mapping[str, str] | None = None) -> contextlib.AbstractContextManager[Cluster]:
    """A cluster with these settings beside the server's defaults, which is removed at the end."""
    return kept(lambda folder, user: _made(folder, user, settings or {}))


def standby(primary: Cluster) -> contextlib.AbstractContextManager[Cluster]:
    """A standby that follows a cluster, which is removed at the end."""
    return kept(lambda folder, user: _copied(folder, user, primary))


ARCHIVES = {"archive_mode": "on", "archive_command": "mkdir -p ../archive && cp %p ../archive/%f"}  # beside the folder of the data


def recovered(base: pathlib.Path, point: str) -> contextlib.AbstractContextManager[Cluster]:
    """A cluster of a base backup, with what the archive beside it has up to a restore point. It is removed at the end."""
    settings = {"restore_command": f"cp {shlex.quote(str(base.parent / 'archive'))}/%f %p", "recovery_target_name": point, "recovery_target_action": "promote"}
    return kept(lambda folder, user: _brought_forward(folder, user, base, {**settings, "archive_mode": "off"}))


def _brought_forward(folder: pathlib.Path, user: str | None, base: pathlib.Path, settings: Mapping[str, str]) -> Cluster:
    data = folder / "data"
    _ran(["cp", "-r", base, data], user, folder)
    data.chmod(0o700)
    (data / "recovery.signal").touch()
    with (data / "postgresql.auto.conf").open("a") as file:
        file.writelines("{} = '{}'\n".format(name, value.replace("'", "''")) for name, value in settings.items())
    found = Cluster(folder, Place.of(folder))
    found.start()
    return found


_open = contextlib.ExitStack()
atexit.register(_open.close)


@functools.cache
def url() -> str:
    """The database of these tests: that which PALQYTUN_TEST_POSTGRES names, or else one of a temporary cluster, until this process ends."""
    given = os.environ.get(VARIABLE)
    if given:
        return given
    found = _open.enter_context(cluster()).url
    os.environ[VARIABLE] = found  # for programs that tests start
    return found


def options(settings: Mapping[str, str]) -> str:
    """Settings of a session, in libpq's words."""
    return " ".join(f"-c {name}=" + re.sub(r"([ \\])", r"\\\1", value) for name, value in settings.items())


def with_settings(url: str, settings: Mapping[str, str]) -> str:
    """The same database, for sessions with these settings in the place of the server's."""
    return f"{url}{'&' if '?' in url else '?'}options={urllib.parse.quote(options(settings))}"


# ---- the program


def _remove_at_the_end(folder: pathlib.Path) -> None:
    """Waits until whoever made the cluster says so, or has ended."""
    for number in (signal.SIGINT, signal.SIGTERM, signal.SIGHUP):
        signal.signal(number, signal.SIG_IGN)
    sys.stdin.buffer.read(1)
    _removed(folder)


def main() -> int:
    parser = argparse.ArgumentParser("postgres.py", description="Runs a command beside a temporary PostgreSQL cluster.")
    parser.add_argument("--set", action="append", default=[], metavar="NAME=VALUE", help="a setting of the server")
    parser.add_argument("--remove", metavar="FOLDER", help=argparse.SUPPRESS)
    parser.add_argument("command", nargs=argparse.REMAINDER)
    asked = parser.parse_args()
    if asked.remove:
        _remove_at_the_end(pathlib.Path(asked.remove))
        return 0
    if not asked.command:
        parser.error("there is no command to run")
    if not all("=" in it for it in asked.set):
        parser.error("--set takes NAME=VALUE")
    signal.signal(signal.SIGTERM, lambda *_: sys.exit(143))
    try:
        with cluster(dict(it.split("=", 1) for it in asked.set)) as found:
            return subprocess.run(asked.command, env={**os.environ, VARIABLE: found.url}).returncode
    except NoServer as error:
        print(f"postgres.py: {error}", file=sys.stderr)
        return 2


if __name__ == "__main__":
    sys.exit(main())
