"""The kit is known by its logic: tools/checks/kit.py."""

from __future__ import annotations

import os
import subprocess
import sys
import tempfile
import unittest
from pathlib import Path

from tools.checks import kit

LOGIC = "dac8208d650f15bf"
OTHER = "0123456789abcdef"
KIT = f"# A comment.\nlogic {LOGIC}\ntried rattle-kit-13b\ntried rattle-kit-13f\n"
WANTED = f"wanted is one with logic {LOGIC} (rattle-kit-13b, rattle-kit-13f were tried)"
PAGE = f"You need a kit with logic `{LOGIC}`.\n"
BROKEN = f"You need a kit with logic\n`{LOGIC}`.\n"


class Folder(unittest.TestCase):
    """A folder that is like the repository, as far as the check looks."""

    def setUp(self) -> None:
        room = tempfile.TemporaryDirectory()
        self.addCleanup(room.cleanup)
        self.root = Path(room.name)
        pages = {"README.md": PAGE, "CONTRIBUTING.md": PAGE, "docs/PROVED-HANDLERS.md": PAGE, "docs/TOOLS.md": BROKEN}
        for name, text in {"KIT": KIT, **pages}.items():
            self.write(name, text)

    def write(self, name: str, text: str) -> None:
        path = self.root / name
        path.parent.mkdir(parents=True, exist_ok=True)
        path.write_text(text, encoding="utf-8")

    def wrong(self, version: str = f"rattle-kit-99z logic {LOGIC}") -> list[str]:
        return [line for lines in kit.check(self.root, version) for line in lines]


class TheInstalledKit(Folder):
    def test_a_kit_of_another_name_with_the_logic_passes(self) -> None:
        self.assertEqual(self.wrong(f"rattle-kit-99z logic {LOGIC}\n"), [])

    def test_a_kit_of_a_tried_name_with_another_logic_fails(self) -> None:
        line = f"KIT: the kit here is rattle-kit-13f with logic {OTHER}; {WANTED}"
        self.assertEqual(self.wrong(f"rattle-kit-13f logic {OTHER}"), [line])

    def test_a_version_without_a_logic_fails(self) -> None:
        line = f"KIT: `rt version` prints 'rattle-kit-13f', which names no kit and no logic; {WANTED}"
        self.assertEqual(self.wrong("rattle-kit-13f"), [line])


class ThePages(Folder):
    def test_each_page_with_another_logic_fails_at_its_line(self) -> None:
        for name in ("README.md", "CONTRIBUTING.md", "docs/SDK.md", "python/README.md", "bindings/Makefile"):
            with self.subTest(name):
                self.setUp()
                self.write(name, f"{PAGE}\nA kit with logic {OTHER}.\n")
                self.assertEqual(self.wrong(), [f"{name}:3: it names a kit with logic {OTHER}; {WANTED}"])

    def test_a_logic_after_a_line_break_is_seen(self) -> None:
        self.write("docs/TOOLS.md", BROKEN.replace(LOGIC, OTHER))
        self.assertEqual(self.wrong(), [f"docs/TOOLS.md:2: it names a kit with logic {OTHER}; {WANTED}"])

    def test_a_page_that_has_to_name_the_logic_and_does_not_fails(self) -> None:
        self.write("README.md", "You need a kit.\n")
        self.assertEqual(self.wrong(), [f"README.md:1: it names no logic; {WANTED}"])

    def test_a_page_that_is_not_there_fails(self) -> None:
        (self.root / "docs/PROVED-HANDLERS.md").unlink()
        self.assertEqual(self.wrong(), ["docs/PROVED-HANDLERS.md:1: there is no such page"])

    def test_a_page_of_evidence_may_name_the_kit_of_its_day(self) -> None:
        self.write("docs/evidence/2026-11-29.md", f"A kit with logic {OTHER}.\n")
        self.assertEqual(self.wrong(), [])


class TheFileKit(Folder):
    def test_a_file_without_a_logic_is_refused(self) -> None:
        for text in ("tried rattle-kit-13b\n", f"logic {LOGIC}\n", f"logic {LOGIC}\nlogic {OTHER}\ntried a\n", f"{KIT}also b\n"):
            with self.subTest(text):
                self.write("KIT", text)
                with self.assertRaisesRegex(ValueError, "KIT has to have one line 'logic SUM'"):
                    self.wrong()


class TheCommand(Folder):
    """The command asks the `rt` that is on the path."""

    def ran(self, version: str) -> subprocess.CompletedProcess[str]:
        rt = self.root / "bin" / "rt"
        self.write("bin/rt", f"#!/bin/sh\necho '{version}'\n")
        rt.chmod(0o755)
        env = {**os.environ, "PATH": f"{rt.parent}:{os.environ['PATH']}"}
        words = [sys.executable, kit.__file__, str(self.root)]
        return subprocess.run(words, env=env, capture_output=True, text=True, check=False)

    def test_this_logic_under_another_name(self) -> None:
        ran = self.ran(f"rattle-kit-99z logic {LOGIC}")
        self.assertEqual((ran.returncode, ran.stdout), (0, "5 passed, 0 failed\n"))

    def test_another_logic_is_one_line(self) -> None:
        ran = self.ran(f"rattle-kit-99z logic {OTHER}")
        line = f"KIT: the kit here is rattle-kit-99z with logic {OTHER}; {WANTED}"
        self.assertEqual((ran.returncode, ran.stdout), (1, f"{line}\n4 passed, 1 failed\n"))


if __name__ == "__main__":
    unittest.main()
