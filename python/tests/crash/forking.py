"""Workers that begin in a moment: a process that has imported what a worker needs forks for each. It has no thread, and no connection to a database. What such a
worker does is what `python -m palqytun` does.

usage: forking.py      forks for each line of JSON, and prints the new process's number; or waits for one that has ended, and prints its status
"""

from __future__ import annotations

import json
import os
import pathlib
import select
import signal
import subprocess
import sys
from collections.abc import Mapping, Sequence


class Worker:
    """A worker that was begun so, with what `subprocess.Popen` has."""

    def __init__(self, mother: Forking, pid: int):
        self.returncode: int | None = None
        self.pid, self._mother, self._process = pid, mother, os.pidfd_open(pid)

    def send_signal(self, number: int) -> None:
        """It may have ended, but its number is still its own: nobody has waited for it, or this does nothing."""
        if self.returncode is None:
            os.kill(self.pid, number)

    def terminate(self) -> None:
        self.send_signal(signal.SIGTERM)

    def kill(self) -> None:
        self.send_signal(signal.SIGKILL)

    def wait(self, timeout: float | None = None) -> int:
        if self.returncode is None:
            if not select.select([self._process], [], [], timeout)[0]:
                raise subprocess.TimeoutExpired("a worker", timeout or 0.0)
            self.returncode = self._mother.asked(ended=self.pid)
            os.close(self._process)
        return self.returncode


class Forking:
    """The process that forks."""

    def __init__(self, environment: Mapping[str, str]):
        words = [sys.executable, str(pathlib.Path(__file__))]
        self._process = subprocess.Popen(words, env=environment, stdin=subprocess.PIPE, stdout=subprocess.PIPE, text=True)

    def begin(self, words: Sequence[str], environment: Mapping[str, str], log: str) -> Worker:
        """A worker: the words of the command, its environment, and the file to which its output goes."""
        return Worker(self, self.asked(words=[*words], environment={**environment}, log=log))

    def asked(self, **what: object) -> int:
        assert self._process.stdin is not None and self._process.stdout is not None
        print(json.dumps(what), file=self._process.stdin, flush=True)
        return int(self._process.stdout.readline())

    def close(self) -> None:
        self._process.communicate()


def _worker(words: list[str], environment: dict[str, str], log: str) -> int:
    """The command, in a new process."""
    from palqytun.runtime.command import main as command

    os.environ.clear()
    os.environ.update(environment)
    for number, file in enumerate((os.open(os.devnull, os.O_RDONLY), out := os.open(log, os.O_WRONLY | os.O_APPEND | os.O_CREAT, 0o644), out)):
        os.dup2(file, number)
    sys.argv = ["palqytun", *words]
    return command()


def main() -> int:
    import palqytun.runtime.command
    import palqytun.runtime.database.postgres  # noqa: F401
    from palqytun._library import library

    library()
    for line in sys.stdin:
        asked = json.loads(line)
        if "ended" in asked:
            print(os.waitstatus_to_exitcode(os.waitpid(asked["ended"], 0)[1]), flush=True)
        elif pid := os.fork():
            print(pid, flush=True)
        else:
            return _worker(**asked)
    return 0


if __name__ == "__main__":
    sys.exit(main())
