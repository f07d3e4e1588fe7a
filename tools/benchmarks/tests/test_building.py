"""Which folders are taken for the original, and how a crate is made of one. Nothing is compiled."""

import tempfile
import unittest
from pathlib import Path
from unittest import mock

from tools.benchmarks import building
from tools.kit.errors import Refused


class Original(unittest.TestCase):
    def setUp(self) -> None:
        self.room = Path(self.enterContext(tempfile.TemporaryDirectory()))
        self.folder, self.registry = self.room / "core", self.room / "registry"
        self.registry.mkdir()
        for name in ("src/vm/mod.rs", "src/vm/errors.rs", "src/retries.rs", "src/lib.rs"):
            file = self.folder / name
            file.parent.mkdir(parents=True, exist_ok=True)
            file.write_text(f"// {name}\n")
        (self.folder / "src/lib.rs").write_text("mod vm;\n#[derive(Debug, strum::EnumIs)]\npub enum State {}\n")
        self.enterContext(mock.patch.object(building, "REGISTRY", self.registry))
        self.enterContext(mock.patch("shutil.which", lambda name: f"/bin/{name}"))

    def make_crates(self) -> None:
        for it in building.CRATES:
            (self.registry / f"{it}-1.0").mkdir()

    def test_a_folder_of_the_original(self) -> None:
        self.make_crates()
        building.check(self.folder)

    def test_another_folder(self) -> None:
        (self.folder / "src/retries.rs").unlink()
        with self.assertRaisesRegex(Refused, "core has no src/retries.rs: --original wants the folder of the original, shared core 8.2.0"):
            building.check(self.folder)

    def test_crates_that_are_missing(self) -> None:
        self.make_crates()
        (self.registry / "prost-1.0").rmdir()
        with self.assertRaisesRegex(Refused, "lacks prost; Debian: apt-get install librust-prost-dev$"):
            building.check(self.folder)

    def test_a_machine_without_cargo(self) -> None:
        with mock.patch("shutil.which", lambda name: None), self.assertRaisesRegex(Refused, "cargo is not on the path"):
            building.check(self.folder)

    def test_the_crate(self) -> None:
        made = self.room / "crate"
        (made / "src").mkdir(parents=True)
        (made / "src/old.rs").touch()
        (made / "target").mkdir()
        building.copy(self.folder, made)
        ours = building.HERE / "original/src"
        self.assertEqual((made / "src/vm/mod.rs").read_text(), "// src/vm/mod.rs\n")
        self.assertEqual((made / "src/vm/errors.rs").read_text(), (ours / "errors.rs").read_text())
        self.assertEqual((made / "src/lib.rs").read_text(), "mod vm;\n#[derive(Debug)]\npub enum State {}\n\npub mod fed;\n")
        self.assertFalse((made / "src/old.rs").exists() or (made / "src/errors.rs").exists())
        self.assertTrue((made / "target").is_dir() and (made / "shims/base64/src/lib.rs").is_file())


class Library(unittest.TestCase):
    def test_no_library(self) -> None:
        with self.assertRaisesRegex(Refused, "there is no library /none.so: ./bindings/build makes it, or --library names another"):
            building.compile_c("typed", Path("/none.so"))

    def test_another_file(self) -> None:
        with tempfile.NamedTemporaryFile() as file, self.assertRaisesRegex(Refused, "is no library of Palqytun"):
            building.about(Path(file.name))


if __name__ == "__main__":
    unittest.main()
