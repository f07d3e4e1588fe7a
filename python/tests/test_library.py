"""Which library this is: its version, the commit, the kit's logic, and whether it was proved."""

import os
import pathlib
import re
import signal
import subprocess
import sys
import tempfile
import tomllib
import unittest
from unittest import mock

import palqytun
from palqytun._library import library
from palqytun.runtime import process

PROJECT = pathlib.Path(__file__).resolve().parents[1]
FORM = r"(\d+\.\d+\.\d+) commit (unknown|[0-9a-f]{12}(?:-modified)?) logic (unknown|[0-9a-f]{16}) (proved|unproved)"
APP = "from palqytun.runtime import App\n\napp = App()\n"
UNPROVED = "the library was built without a proof"


def run(*words: str, **more: str) -> subprocess.CompletedProcess[str]:
    env = {**os.environ, "PYTHONPATH": str(PROJECT / "src"), **more}
    return subprocess.run([sys.executable, "-m", "palqytun", *words], env=env, capture_output=True, text=True, timeout=600)


class Which(unittest.TestCase):
    def test_the_words_fit_together(self) -> None:
        found = re.fullmatch(FORM, palqytun.build)
        self.assertIsNotNone(found, palqytun.build)
        assert found is not None
        self.assertEqual(found[4] == "proved", palqytun.is_proved)
        self.assertIs(type(palqytun.is_proved), bool)

    def test_the_version_is_the_package_s(self) -> None:
        with open(PROJECT / "pyproject.toml", "rb") as file:
            self.assertEqual(palqytun.build.split()[0], tomllib.load(file)["project"]["version"])

    def test_another_name_is_none(self) -> None:
        with self.assertRaisesRegex(AttributeError, "module 'palqytun' has no attribute 'is_prooved'"):
            palqytun.is_prooved  # type: ignore[attr-defined]


class Command(unittest.TestCase):
    def test_the_version(self) -> None:
        ran = run("--version")
        self.assertEqual((ran.returncode, ran.stdout, ran.stderr), (0, f"palqytun {palqytun.build}\n", ""))

    def test_without_a_library(self) -> None:
        for words in (["--version"], ["run", __file__]):
            ran = run(*words, PALQYTUN_LIBRARY="/nowhere.so")
            self.assertEqual((ran.returncode, ran.stdout), (2, ""))
            (line,) = ran.stderr.splitlines()
            self.assertRegex(line, "^palqytun: /nowhere.so: .*./bindings/build makes it.*./bindings/build --unproved")

    def test_the_log_of_an_unproved_library(self) -> None:
        with mock.patch.object(library(), "is_proved", False), self.assertLogs("palqytun", "WARNING") as logs:
            process.warn_of_unproved()
        (line,) = logs.output
        self.assertIn(f"{UNPROVED} ({palqytun.build})", line)
        with mock.patch.object(library(), "is_proved", True), self.assertNoLogs("palqytun"):
            process.warn_of_unproved()

    def test_a_worker_says_it_once(self) -> None:
        with tempfile.TemporaryDirectory() as room:
            app = pathlib.Path(room, "app.py")
            app.write_text(APP, encoding="utf-8")
            words = [sys.executable, "-m", "palqytun", "run", str(app), "--db", f"{room}/app.db", "--port", "0"]
            env = {**os.environ, "PYTHONPATH": str(PROJECT / "src")}
            with subprocess.Popen(words, env=env, stdout=subprocess.PIPE, stderr=subprocess.PIPE, text=True) as worker:
                assert worker.stdout is not None
                worker.stdout.readline()  # its address: it runs
                worker.send_signal(signal.SIGTERM)
                said = worker.communicate(timeout=600)[1]
        self.assertEqual(said.count(UNPROVED), 0 if palqytun.is_proved else 1, said)


if __name__ == "__main__":
    unittest.main()
