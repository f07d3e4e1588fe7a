"""The files of python/deploy, by which a worker is a service of systemd and is in a container. systemd's own tool checks the unit; its command is run with
its environment, and stops as the unit asks. The container's steps are done in a folder in place of a container, on the Debian that it names."""

import glob
import json
import os
import pathlib
import re
import shlex
import shutil
import signal
import socket
import subprocess
import sys
import time
import unittest
import urllib.error
import urllib.request

import support  # isort: skip
import needs

if lacks := needs.lacks_server():
    raise unittest.SkipTest(lacks)
from palqytun._library import library
from tools.gate import packages

FOLDER = support.PYTHON / "deploy"
UNIT, CONTAINER = FOLDER / "palqytun.service", FOLDER / "Containerfile"
APP = support.PYTHON / "examples/shop.py"
TOKEN = "0123456789abcdef"


def settings(unit):
    """The settings of a unit by their names: of each a list, in order."""
    found = {}
    for line in unit.splitlines():
        name, equals, value = line.partition("=")
        if equals and not line.startswith("#"):
            found.setdefault(name, []).append(value)
    return found


def steps(file):
    """The instructions of a container file, each with its text."""
    text = re.sub(r"^#.*\n", "", file, flags=re.MULTILINE).replace("\\\n", " ")
    return [(it.partition(" ")[0], it.partition(" ")[2].strip()) for it in text.splitlines() if it.strip()]


def free_port():
    with socket.create_server(("127.0.0.1", 0)) as free:
        return free.getsockname()[1]


class Worker:
    """A worker by a command, until it says its address."""

    def __init__(self, words, folder, env):
        own = {name: it for name, it in os.environ.items() if not name.startswith("PALQYTUN_")} | {"PALQYTUN_LIBRARY": os.environ.get("PALQYTUN_LIBRARY", "")}
        own = {name: it for name, it in own.items() if it}
        self.log = folder / "log"
        with self.log.open("wb") as log:
            how = {"cwd": folder, "env": own | env, "stdout": subprocess.PIPE, "stderr": log, "text": True}
            self.process = subprocess.Popen(words, **how)
        self.address = self.process.stdout.readline().strip()
        if not self.address:
            raise AssertionError(self.log.read_text())

    def asked(self, path, data=None, token=None):
        headers = {} if token is None else {"authorization": f"Bearer {token}"}
        port = self.address.rpartition(":")[2]
        asked = urllib.request.Request(f"http://127.0.0.1:{port}{path}", data, headers)
        with urllib.request.urlopen(asked, timeout=support.LONG) as reply:
            return reply.read().decode()

    def stopped(self, by):
        """The exit status after a signal."""
        self.process.send_signal(by)
        try:
            return self.process.wait(support.LONG)
        finally:
            self.end()

    def end(self):
        if self.process.poll() is None:
            self.process.kill()
            self.process.wait()
        self.process.stdout.close()


class Unit(support.InAFolder, unittest.TestCase):
    @unittest.skipIf(needs.lacks_command("systemd-analyze"), needs.lacks_command("systemd-analyze"))
    def test_systemd_takes_it(self):
        """With a program in place of one that isn't installed here. A slip is found."""
        program = self.folder / "palqytun"
        program.write_text("#!/bin/sh\n")
        program.chmod(0o755)
        text = UNIT.read_text().replace("/srv/palqytun/venv/bin/palqytun", str(program))
        self.assertEqual(self.said(text), "")
        self.assertRegex(self.said(text.replace("Restart=", "Restrat=")), "Unknown key (name )?'Restrat'")
        self.assertIn("is not executable", self.said(text.replace(str(program), f"{self.folder}/none")))

    def said(self, text):
        """What systemd says of a unit, and of nothing else on this host."""
        file = self.folder / "palqytun.service"
        file.write_text(text)
        ran = subprocess.run(["systemd-analyze", "verify", "--man=no", "--recursive-errors=no", str(file)], capture_output=True, text=True, timeout=support.LONG)
        return "\n".join(it for it in (ran.stdout + ran.stderr).splitlines() if "palqytun" in it)

    @unittest.skipIf(needs.lacks_module("pythonjsonlogger"), needs.lacks_module("pythonjsonlogger"))
    def test_its_command_runs_and_stops(self):
        """By the environment of its file alone. It stops by SIGTERM in good order, and has that long for it."""
        found = settings(UNIT.read_text())
        [command], [stop] = found["ExecStart"], found["TimeoutStopSec"]
        words = shlex.split(command)
        self.assertEqual(words[:2], ["/srv/palqytun/venv/bin/palqytun", "run"])
        self.assertGreater(int(stop), 2 * int(words[words.index("--grace") + 1]))
        file = "\n".join(it.removeprefix("#").strip() for it in UNIT.read_text().splitlines() if "PALQYTUN_" in it)
        names = {it.partition("=")[0] for it in file.splitlines()}
        self.assertEqual(names, {"PALQYTUN_DB", "PALQYTUN_TOKENS"})
        shutil.copy(APP, self.folder / "app.py")
        (self.folder / "tokens").write_text(f"ann call,read {TOKEN}\n")
        env = {"PALQYTUN_DB": str(self.folder / "db"), "PALQYTUN_TOKENS": str(self.folder / "tokens"), "PYTHONPATH": str(support.PYTHON / "src")}
        worker = Worker([sys.executable, "-m", "palqytun", *words[1:], "--port", str(free_port())], self.folder, env)
        self.addCleanup(worker.end)
        self.assertEqual(worker.asked("/Stock/pen/left", b"null", TOKEN), "100")
        with self.assertRaises(urllib.error.HTTPError) as raised:
            worker.asked("/Stock/pen/left", b"null")
        self.assertEqual(raised.exception.code, 401)
        raised.exception.close()
        self.assertEqual(worker.stopped(signal.SIGTERM), 0)
        for line in worker.log.read_text().splitlines():
            json.loads(line)


class Container(support.InAFolder, unittest.TestCase):
    def setUp(self):
        super().setUp()
        self.steps = steps(CONTAINER.read_text())

    def of(self, name):
        return [text for it, text in self.steps if it == name]

    def test_its_packages_are_those_of_the_tests(self):
        """Of the Debian on which the tests run."""
        [base] = self.of("FROM")
        self.assertEqual(base, "debian:bookworm-slim")
        asked = set(re.search(r"apt-get install ([^&]*)", self.of("RUN")[0])[1].split()) - {"--yes", "--no-install-recommends", "python3"}
        known = {package for it in packages.read().values() for package in it.packages}
        self.assertEqual(asked - known, set())
        extras = {package for name in (*needs.SERVER, "psycopg", "pythonjsonlogger", "cryptography") for it in packages.read().values() if name in it.names for package in it.packages}
        self.assertEqual(asked - {"python3-venv"}, extras)

    @unittest.skipIf(needs.lacks_module("ensurepip"), needs.lacks_module("ensurepip"))
    def test_its_steps(self):
        """Each is done, in a folder in place of the container's root; what is started replies, is healthy, and stops by the signal that is named."""
        context, root = self.folder / "context", self.folder / "root"
        context.mkdir(), root.mkdir()
        shutil.copy(APP, context / "app.py")
        self.wheel(context)
        for name, text in self.steps:
            if name == "COPY":
                self.copied(context, root, *text.split())
            elif name == "RUN" and "apt-get" not in text and not text.startswith("useradd"):
                here = text.replace("/srv/", f"{root}/srv/").replace("python3 -m venv", f"{sys.executable} -m venv")
                ran = subprocess.run(["sh", "-ec", here], cwd=root, env=self.clean(), capture_output=True, text=True, timeout=4 * support.LONG)
                self.assertEqual(ran.returncode, 0, ran.stdout + ran.stderr)
        [place], [begins], [given] = self.of("WORKDIR"), self.of("ENTRYPOINT"), self.of("CMD")
        words = [it.replace("/srv/", f"{root}/srv/") for it in json.loads(begins) + json.loads(given)]
        env = {"PALQYTUN_DB": str(self.folder / "db"), "PALQYTUN_TOKEN": TOKEN, "PYTHONPATH": ""}
        worker = Worker([*words, "--port", port := str(free_port())], root / place.removeprefix("/"), env)
        self.addCleanup(worker.end)
        self.assertEqual(worker.asked("/Stock/pen/left", b"null", TOKEN), "100")
        [exposed], [healthy] = self.of("EXPOSE"), self.of("HEALTHCHECK")
        check = [it.replace(exposed, port) for it in json.loads(healthy.removeprefix("CMD "))]
        self.assertEqual(subprocess.run([sys.executable, *check[1:]], timeout=support.LONG).returncode, 0)
        self.assertEqual(worker.stopped(getattr(signal, self.of("STOPSIGNAL")[0])), 0)
        self.assertNotEqual(subprocess.run([sys.executable, *check[1:]], capture_output=True, timeout=support.LONG).returncode, 0)

    def clean(self):
        """An environment in which pip asks for no network, and knows nothing of this checkout."""
        env = {name: it for name, it in os.environ.items() if not name.startswith(("PIP_", "PYTHON", "PALQYTUN"))}
        return env | {"PIP_CONFIG_FILE": os.devnull, "PIP_DISABLE_PIP_VERSION_CHECK": "1"}

    def wheel(self, into):
        """The package's wheel, whose calls are made by ctypes: so nothing is compiled here."""
        package = self.folder / "package"
        shutil.copytree(support.PYTHON, package, ignore=shutil.ignore_patterns("*.so", "__pycache__", "tests", "out"))
        shutil.copyfile(library().path, package / "src/palqytun/libpalqytun.so")
        for name in ("LICENSE", "NOTICE"):
            shutil.copy(support.PYTHON.parent / name, package)
        code = f"import build_wheel; print(build_wheel.build_wheel({str(into)!r}, {{'implementation': 'ctypes'}}))"
        ran = subprocess.run([sys.executable, "-B", "-c", code], cwd=package, capture_output=True, text=True, timeout=support.LONG)
        self.assertEqual(ran.returncode, 0, ran.stderr)

    @staticmethod
    def copied(context, root, *words):
        *names, into = words
        folder = root / into.removeprefix("/")
        folder.mkdir(parents=True, exist_ok=True)
        for name in names:
            found = glob.glob(str(context / name))
            if not found:
                raise AssertionError(f"COPY {name} copies nothing")
            for it in found:
                shutil.copy(it, folder / pathlib.Path(it).name)


if __name__ == "__main__":
    unittest.main()
