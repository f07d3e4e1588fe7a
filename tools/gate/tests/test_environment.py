"""What jobs run in: whether the kit keeps proofs, and how a command is begun below others."""

import os
import subprocess
import tempfile
import unittest
from pathlib import Path
from unittest import mock

from tools.gate.environment import keeps_proofs, with_priority
from tools.gate.proofs import KEPT

AUTOGROUP = Path("/proc/self/autogroup")


class Kits(unittest.TestCase):
    def setUp(self) -> None:
        self.kit = Path(self.enterContext(tempfile.TemporaryDirectory())).resolve() / "kit"
        (self.kit / "bin").mkdir(parents=True)
        (self.kit.parent / "path").mkdir()
        self.enterContext(mock.patch.dict(os.environ, {"PATH": str(self.kit.parent / "path")}))

    def make(self, **texts: str) -> None:
        """Writes the files of the kit's bin/, and a link to its rt into a folder of the path."""
        for name, text in texts.items():
            (self.kit / "bin" / name).write_text(text, encoding="utf-8")
        (self.kit / "bin/rt").chmod(0o755)
        (self.kit.parent / "path/rt").symlink_to(self.kit / "bin/rt")

    def test_a_kit_keeps_if_its_rt_says_so_of_a_crate(self) -> None:
        self.make(rt='say(f"{crate.name} is kept: its texts are the same")')
        self.assertTrue(keeps_proofs())
        self.assertTrue(KEPT.match("rt: wire is kept: its texts are the same"))

    def test_what_rt_imports_may_say_it(self) -> None:
        self.make(rt="import rtlib", rtlib='say(f"{what} is kept: {why}")')
        self.assertTrue(keeps_proofs())

    def test_a_kit_whose_rt_never_says_it_keeps_nothing(self) -> None:
        self.make(rt="# rattle keeps no checked crate of tests", rtlib='"over the work that check kept"')
        self.assertFalse(keeps_proofs())

    def test_a_kit_that_may_not_write_beside_itself_keeps_nothing(self) -> None:
        self.make(rt='say(f"{crate.name} is kept: ..")')
        with mock.patch("os.access", side_effect=lambda place, mode: Path(place) != self.kit.parent or mode != os.W_OK):
            self.assertFalse(keeps_proofs())

    def test_without_a_kit_nothing_is_kept(self) -> None:
        self.assertFalse(keeps_proofs())


class Priority(unittest.TestCase):
    def said(self, *words: str) -> list[str]:
        ran = subprocess.run(with_priority(3, words), capture_output=True, text=True, check=True, start_new_session=True)
        return ran.stdout.splitlines()

    def test_a_command_and_its_session_have_it(self) -> None:
        before = os.nice(0)
        self.assertEqual(self.said("nice"), [str(min(before + 3, 19))])
        if AUTOGROUP.exists():
            self.assertRegex("".join(self.said("cat", str(AUTOGROUP))), r"nice 3$")

    def test_a_command_has_its_own_words(self) -> None:
        self.assertEqual(self.said("printf", "%s\n", "a b", "$0"), ["a b", "$0"])


if __name__ == "__main__":
    unittest.main()
