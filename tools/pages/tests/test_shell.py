"""What a page's commands leave for those after them, and what ends with the page."""

from __future__ import annotations

import os
import tempfile
import time
import unittest
from pathlib import Path

from tools.pages.blocks import Command
from tools.pages.shell import Shell


LONG = 300.0  # seconds after which a test that waits has failed, however busy its host is


def is_running(pid: int) -> bool:
    file = Path(f"/proc/{pid}/cmdline")
    return file.exists() and bool(file.read_bytes())


class Shells(unittest.TestCase):
    def setUp(self) -> None:
        room = tempfile.TemporaryDirectory()
        self.addCleanup(room.cleanup)
        self.room = Path(room.name)

    def shell(self, seconds: float = LONG) -> Shell:
        return Shell(self.room, dict(os.environ), self.room, seconds)

    def test_folders_and_variables_stay(self) -> None:
        with self.shell() as shell:
            for words in ("mkdir a && cd a", "x=1"):
                self.assertEqual(shell.run(Command(1, words), 1).ends, "status 0")
            ran = shell.run(Command(1, 'echo "$x"; basename "$PWD"'), 1)
            self.assertEqual((ran.ends, ran.found), ("status 0", ["1", "a"]))
            self.assertEqual(shell.folder(), self.room.resolve() / "a")

    def test_a_status_and_what_is_said(self) -> None:
        with self.shell() as shell:
            ran = shell.run(Command(1, "echo no >&2; (exit 3)"), 1)
        self.assertEqual((ran.ends, ran.found, ran.said), ("status 3", [], ["no"]))

    def test_the_port_is_another_one(self) -> None:
        with self.shell() as shell:
            ran = shell.run(Command(1, "echo http://localhost:8080; echo http://127.0.0.1:4711"), 4711)
        self.assertEqual(ran.found, ["http://localhost:8080", "http://127.0.0.1:8080"])

    def test_a_command_that_stays_is_waited_for_and_ends_with_the_page(self) -> None:
        job = Command(1, "{ sleep 0.3; echo $BASHPID >pid; echo ready; sleep 3600; } &", ["ready"])
        with self.shell() as shell:
            ran = shell.run(job, 1)
            self.assertEqual((ran.ends, ran.found), ("status 0", ["ready"]))
            pid = int((self.room / "pid").read_text())
            self.assertTrue(is_running(pid))
        until = time.monotonic() + LONG
        while is_running(pid) and time.monotonic() < until:
            time.sleep(0.05)
        self.assertFalse(is_running(pid))

    def test_the_last_job_can_be_killed(self) -> None:
        with self.shell() as shell:
            shell.run(Command(1, "sleep 3600 &"), 1)
            self.assertEqual(shell.run(Command(1, "kill -9 $!; wait $!; echo $?"), 1).found, ["137"])

    def test_a_command_that_does_not_end(self) -> None:
        with self.shell(0.3) as shell:
            self.assertEqual(shell.run(Command(1, "sleep 3600"), 1).ends, "not ended after 0 seconds")


if __name__ == "__main__":
    unittest.main()
