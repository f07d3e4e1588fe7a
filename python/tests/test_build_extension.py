"""The module in C is built again if its sources, its compiler or the flags are others, and only then."""

import os
import pathlib
import shutil
import subprocess
import sys
import tempfile
import unittest

PROJECT = pathlib.Path(__file__).resolve().parents[1]

# A compiler that counts its calls, and takes no time.
COMPILER = """#!/bin/sh
echo called >> "$CALLS"
while [ "$1" != -o ]; do shift; done
echo module > "$2"
"""


class Rebuilds(unittest.TestCase):
    def setUp(self) -> None:
        self.room = pathlib.Path(self.enterContext(tempfile.TemporaryDirectory()))
        self.calls, self.made, self.sources = self.room / "calls", self.room / "_c.abi3.so", self.room / "extension"
        shutil.copy(PROJECT / "build_extension.py", self.room)
        shutil.copytree(PROJECT / "extension", self.sources)
        self.one, self.other = self.compiler("one"), self.compiler("other")

    def compiler(self, name: str) -> str:
        made = self.room / name
        made.write_text(COMPILER)
        made.chmod(0o755)
        return str(made)

    def calls_after(self, cc: str, flags: str = "") -> int:
        """How often a compiler was called, once the module was asked for by this one."""
        env = os.environ | {"CC": cc, "CFLAGS": flags, "CALLS": str(self.calls)}
        ran = subprocess.run([sys.executable, "-B", "build_extension.py", str(self.made)], cwd=self.room, env=env, capture_output=True, text=True)
        self.assertEqual(ran.returncode, 0, ran.stderr)
        return len(self.calls.read_text().splitlines())

    def test_compiler_and_flags(self) -> None:
        self.assertEqual([self.calls_after(self.one) for _ in range(2)], [1, 1])
        self.assertEqual([self.calls_after(self.one, "-O0") for _ in range(2)], [2, 2])
        self.assertEqual([self.calls_after(self.other, "-O0") for _ in range(2)], [3, 3])
        self.assertEqual([self.calls_after(f"{self.other} -m64", "-O0") for _ in range(2)], [4, 4])
        self.assertEqual(self.calls_after(self.one), 5)

    def test_sources(self) -> None:
        self.assertEqual(self.calls_after(self.one), 1)
        source = min(self.sources.glob("*.c"))
        os.utime(source)  # newer, and the same
        self.assertEqual(self.calls_after(self.one), 1)
        was = source.stat()
        source.write_text(f"{source.read_text()}\n")
        os.utime(source, ns=(was.st_atime_ns, was.st_mtime_ns))  # no newer, and another
        self.assertEqual([self.calls_after(self.one) for _ in range(2)], [2, 2])

    def test_what_is_missing(self) -> None:
        self.assertEqual(self.calls_after(self.one), 1)
        self.made.unlink()
        self.assertEqual(self.calls_after(self.one), 2)
        (self.room / "._c.abi3.so.built").unlink()
        self.assertEqual(self.calls_after(self.one), 3)


if __name__ == "__main__":
    unittest.main()
