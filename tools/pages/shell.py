"""The shell in which the commands of one page run, one after another: what they leave, such as a folder, a variable or a job, stays."""

from __future__ import annotations

import contextlib
import os
import select
import signal
import subprocess
import time
from pathlib import Path
from types import TracebackType

from .blocks import Command, is_printed

STARTS = 600.0  # seconds within which a command that stays prints what the page shows


class Ran:
    """What a command did: how it ended, and what it printed."""

    def __init__(self, ends: str, found: list[str], said: list[str]):
        self.ends, self.found, self.said = ends, found, said

    def shown(self) -> str:
        more = self.said[-10:] if self.ends != "status 0" else []
        return "".join(f"\n    {line}" for line in [*self.found[:60], *more]) or " nothing"


class Shell:
    """A bash of its own session, with job control, so that `kill %1` means the first job. Its end ends all that it started."""

    def __init__(self, folder: Path, env: dict[str, str], room: Path, seconds: float):
        self._room, self._seconds, self._count = room, seconds, 0
        self._ends, ended = os.pipe()
        how = {"cwd": folder, "env": env, "pass_fds": (ended,), "start_new_session": True, "text": True}
        self._bash = subprocess.Popen(["bash", "--noprofile", "--norc"], stdin=subprocess.PIPE, stdout=subprocess.DEVNULL, stderr=subprocess.DEVNULL, **how)
        os.close(ended)
        self._tell = f"echo $? >&{ended}"
        self._write("set -m")

    def _write(self, line: str) -> None:
        assert self._bash.stdin is not None
        self._bash.stdin.write(f"{line}\n")
        self._bash.stdin.flush()

    def run(self, command: Command, port: int) -> Ran:
        """Runs a command. One that stays has printed what the page shows when this returns, or has had its time."""
        self._count += 1
        out, err = self._room / f"{self._count}.out", self._room / f"{self._count}.err"
        words = command.words.replace("localhost:8080", f"localhost:{port}").replace("--port 8080", f"--port {port}")
        self._write(f"{{ {words}\n}} </dev/null >{out} 2>{err}; {self._tell}")
        ends = self._ended()
        if command.stays and ends == "status 0":
            ends = self._started(command, out, port)
        found = [it.replace(f":{port}", ":8080") for it in _lines(out)]
        return Ran(ends, found, _lines(err))

    def folder(self) -> Path:
        """The folder in which the next command runs."""
        return Path(f"/proc/{self._bash.pid}/cwd").resolve()

    def _ended(self) -> str:
        """How the last command ended."""
        if not select.select([self._ends], [], [], self._seconds)[0]:
            return f"not ended after {self._seconds:.0f} seconds"
        said = os.read(self._ends, 64).decode().strip()
        return f"status {said}" if said else "ended the shell"

    def _started(self, command: Command, out: Path, port: int) -> str:
        """Waits until a command that stays has printed the lines that the page shows."""
        wanted, until = [*command.wanted, ".."], time.monotonic() + STARTS
        while time.monotonic() < until:
            if is_printed(wanted, [it.replace(f":{port}", ":8080") for it in _lines(out)]):
                return "status 0"
            time.sleep(0.05)
        return f"not printed this within {STARTS:.0f} seconds"

    def __enter__(self) -> Shell:
        return self

    def __exit__(self, kind: type[BaseException] | None, error: BaseException | None, trace: TracebackType | None) -> None:
        for pid in _of_session(self._bash.pid):
            with contextlib.suppress(OSError):
                os.kill(pid, signal.SIGKILL)
        self._bash.communicate()
        os.close(self._ends)


def _lines(file: Path) -> list[str]:
    return file.read_text(encoding="utf-8", errors="replace").splitlines() if file.is_file() else []


def _of_session(session: int) -> list[int]:
    """The processes of a session."""
    found = []
    for it in Path("/proc").iterdir():
        if it.name.isdigit():
            with contextlib.suppress(OSError, ValueError):
                if os.getsid(int(it.name)) == session:
                    found.append(int(it.name))
    return found
