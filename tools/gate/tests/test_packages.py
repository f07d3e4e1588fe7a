"""The table of tools, and which of them are found."""

import os
import shutil
import subprocess
import sys
import tempfile
import unittest
from pathlib import Path
from typing import Any
from unittest import mock

from tools.gate import packages
from tools.gate.environment import TOP
from tools.gate.packages import BadTable, Tool, read


class Tables(unittest.TestCase):
    def table(self, text: str) -> Path:
        file = Path(self.enterContext(tempfile.TemporaryDirectory()), "packages")
        file.write_text(text)
        return file

    def test_the_own_table(self) -> None:
        found = read()
        self.assertIn("valgrind", found)
        self.assertEqual(found["psycopg"].packages, ("python3-psycopg",))

    def test_rows(self) -> None:
        it = read(self.table("# a remark\n\nx | command a b | p q | all of x\n"))["x"]
        self.assertEqual(it, Tool("x", "command", ("a", "b"), ("p", "q"), "all of x"))
        self.assertEqual(it.how, "a and b not found; Debian: apt-get install p q")

    def test_bad_rows(self) -> None:
        bad = ["x", "x | command a | p", "x | command | p | s", "x | thing a | p | s", "x | command a | | s", "x | command a | p | s | t"]
        for row in bad:
            with self.assertRaisesRegex(BadTable, "packages:1: a row is"):
                read(self.table(f"{row}\n"))


class Finding(unittest.TestCase):
    def tool(self, kind: str, *names: str) -> Tool:
        return Tool("x", kind, names, ("p",), "s")

    def test_commands(self) -> None:
        self.assertTrue(self.tool("command", "sh" if packages._runs("sh") else "ls").is_found(sys.executable))
        self.assertFalse(self.tool("command", "ls", "no-such-command").is_found(sys.executable))

    def test_a_command_that_only_stands_for_another_is_not_found(self) -> None:
        room = self.enterContext(tempfile.TemporaryDirectory())
        Path(room, "shim").write_text("#!/bin/sh\nexit 127\n")
        Path(room, "shim").chmod(0o755)
        with mock.patch.dict("os.environ", {"PATH": room}):
            self.assertFalse(self.tool("command", "shim").is_found(sys.executable))

    def test_modules_of_node(self) -> None:
        with tempfile.TemporaryDirectory() as folder:
            Path(folder, "its_own.js").write_text("module.exports = 1;\n", encoding="utf-8")
            with mock.patch.dict(os.environ, {"NODE_PATH": folder}):
                self.assertEqual(packages.node_path().split(os.pathsep), [folder, *packages.NODE_MODULES])
                self.assertEqual(self.tool("modules", "its_own").is_found(sys.executable), bool(shutil.which("node")))
                self.assertFalse(self.tool("modules", "its_own", "no_such_module").is_found(sys.executable))

    def test_modules_beside_another_node_are_unpacked(self) -> None:
        ran: list[list[str]] = []

        def runs(words: list[str], **how: Any) -> Any:
            ran.append(words)
            if words[0] == "apt-get":
                Path(how["cwd"], "one.deb").touch()
            else:
                made = Path(how["cwd"], words[-1] + packages.NODE_MODULES[0], "one")
                made.mkdir(parents=True)
                (made / "index.js").touch()
            return subprocess.CompletedProcess(words, 0)

        with tempfile.TemporaryDirectory() as folder, mock.patch.object(packages.subprocess, "run", runs):
            self.assertEqual(packages.unpacked([Tool("x", "modules", ("one",), ("node-one", "node-two"), "s")], folder), 0)
            self.assertTrue(Path(folder, "one", "index.js").exists())
        self.assertEqual([it[-2:] for it in ran], [["node-one", "node-two"], ["one.deb", "unpacked"]])

    def test_archives_of_classes(self) -> None:
        with tempfile.TemporaryDirectory() as folder, mock.patch.object(packages, "JARS", folder):
            Path(folder, "one.jar").touch()
            self.assertTrue(self.tool("jar", "one").is_found(sys.executable))
            self.assertFalse(self.tool("jar", "one", "two").is_found(sys.executable))

    def test_modules(self) -> None:
        self.assertTrue(self.tool("module", "json").is_found(sys.executable))
        self.assertFalse(self.tool("module", "json", "no_such_module").is_found(sys.executable))
        self.assertFalse(self.tool("module", "json").is_found("/no/such/python"))

    def test_the_python_with_more_of_the_modules(self) -> None:
        room = self.enterContext(tempfile.TemporaryDirectory())
        Path(room, "python3").write_text("#!/bin/sh\nexit 1\n")
        Path(room, "python3").chmod(0o755)
        path = {"PATH": room}
        with mock.patch.dict("os.environ", path, clear=True), mock.patch("sys.executable", sys.executable):
            self.assertNotEqual(packages.chosen_python({"x": self.tool("module", "json")}), f"{room}/python3")

    def python_with(self, *modules: str) -> str:
        """A program that says what a Python says that has just these modules."""
        path = Path(self.enterContext(tempfile.TemporaryDirectory()), "python3")
        path.write_text(f"#!/bin/sh\necho {' '.join(modules)}\n")
        path.chmod(0o755)
        return str(path)

    def test_what_is_installed_serves_one_python(self) -> None:
        """The Python on the path has one module, and the system's has none. Both modules have to be installed, since Debian's packages are for
        the system's Python: if only the other one was, each of them would lack a module."""
        tools = {name: Tool(name, "module", (name,), (f"python3-{name}",), "s") for name in ("here", "nowhere")}
        ours = self.python_with("here")
        self.enterContext(mock.patch.object(packages, "SYSTEM", self.python_with()))
        with mock.patch.dict("os.environ", {}, clear=False) as env:
            env.pop("PALQYTUN_PYTHON", None)
            self.assertEqual([it.name for it in packages.not_found(tools, ours)], ["nowhere"])
            self.assertEqual([it.name for it in packages.to_install(tools, ours)], ["here", "nowhere"])
            self.assertEqual(packages.to_install({"here": tools["here"]}, ours), [])

    def test_what_a_python_lacks(self) -> None:
        tools = packages.read()
        has = [name for it in tools.values() if it.kind == "module" for name in it.names if name != "psycopg"]
        self.assertRegex(packages.lacking(tools, self.python_with(*has)), r"python3 lacks psycopg: apt-get install python3-psycopg$")
        self.assertEqual(packages.lacking(tools, self.python_with(*has, "psycopg")), "")

    def test_a_python_that_is_named(self) -> None:
        named = self.python_with("unittest")
        with mock.patch.dict("os.environ", {"PALQYTUN_PYTHON": named}):
            self.assertEqual(packages.chosen_python({}), named)
        with mock.patch.dict("os.environ", {"PALQYTUN_PYTHON": "/no/python"}), self.assertRaisesRegex(SystemExit, "/no/python is no Python 3.11 or newer"):
            packages.chosen_python({})

    def test_chaos_is_run_by_the_python_of_the_tests(self) -> None:
        named = self.python_with("unittest", '"$@"')
        env = {**os.environ, "PALQYTUN_PYTHON": named, "PALQYTUN_LIBRARY": "/no/library"}
        ran = subprocess.run([str(TOP / "tools/chaos"), "--kills", "7"], env=env, stdin=subprocess.DEVNULL, capture_output=True, text=True)
        self.assertRegex(ran.stdout, r"^unittest \S+/python/tests/crash/chaos\.py --kills 7\n$", ran.stderr)


if __name__ == "__main__":
    unittest.main()
