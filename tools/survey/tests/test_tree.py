"""The tree of crates.txt, its ways and its chains."""

from __future__ import annotations

import unittest
from pathlib import Path

from tools.survey.tree import Fault, crates_of
from tools.survey.ways import chain, standing, ways

from .support import TreeTest


class CratesTest(unittest.TestCase):
    def test_a_line_names_libraries_of_the_repository_and_of_the_kit(self) -> None:
        crates = crates_of("# bottom up\nlow: bytes\nhigh staticlib: low bytes  # a remark\n")
        self.assertEqual(crates["high"].below, ("low",))
        self.assertEqual(crates["high"].of_kit, ("bytes",))
        self.assertTrue(crates["high"].is_static)
        self.assertFalse(crates["low"].is_static)

    def test_crates_come_bottom_up_and_else_as_they_are_listed(self) -> None:
        self.assertEqual(list(crates_of("top: b a\nb: a\na:\nother:\n")), ["a", "b", "top", "other"])

    def test_what_is_no_line_is_named_with_its_number(self) -> None:
        with self.assertRaisesRegex(Fault, r"crates\.txt:2: 'low = high' is no line"):
            crates_of("low:\nlow = high\n")

    def test_a_crate_on_two_lines_is_refused(self) -> None:
        with self.assertRaisesRegex(Fault, "crates.txt:2: low is on two lines"):
            crates_of("low:\nlow:\n")

    def test_crates_that_stand_on_each_other_are_refused(self) -> None:
        with self.assertRaisesRegex(Fault, "one, other stand on each other"):
            crates_of("free:\none: other\nother: one\n")


class WaysTest(unittest.TestCase):
    def test_each_way_down_from_each_crate_counts_and_each_crate_is_one(self) -> None:
        crates = crates_of("a:\nb: a\nc: a b\nd: b c\n")
        self.assertEqual(ways(crates), {"a": 1, "b": 2, "c": 4, "d": 7})

    def test_libraries_of_the_kit_are_no_ways(self) -> None:
        self.assertEqual(ways(crates_of("a: bytes plain\n")), {"a": 1})

    def test_what_depends_on_a_crate(self) -> None:
        crates = crates_of("a:\nb: a\nc: b\nd: a\ntop: c d\n")
        self.assertEqual(standing(crates, ["b"]), {"b", "c", "top"})
        self.assertEqual(standing(crates, []), set())

    def test_the_longest_chain_by_number_and_by_weight(self) -> None:
        crates = crates_of("a:\nb: a\nc: b\nheavy:\ntop: c heavy\n")
        self.assertEqual(chain(crates, lambda _: 1), ["a", "b", "c", "top"])
        self.assertEqual(chain(crates, lambda it: 100 if it == "heavy" else 1), ["heavy", "top"])

    def test_no_crates_have_no_chain(self) -> None:
        self.assertEqual(chain({}, lambda _: 1), [])


class TextsTest(TreeTest):
    def test_what_builds_make_and_hidden_folders_are_no_texts(self) -> None:
        house = self.tree(
            {
                "crates.txt": "a:\n",
                "crates/a/src/lib.rt": "//! A.\n",
                "crates/a/out/made.rt": "",
                ".git/config": "",
                ".ci/run": "",
                "python/__pycache__/x.py": "",
            }
        )
        self.assertEqual({str(it) for it in house.texts}, {"crates.txt", "crates/a/src/lib.rt", ".ci/run"})

    def test_bytes_that_are_no_text_are_passed_over(self) -> None:
        house = self.tree({"crates.txt": ""})
        (house.top / "list.png").write_bytes(b"\x89PNG\xff\xfe")
        self.assertEqual([str(it) for it in house.texts], ["crates.txt"])

    def test_files_of_a_crate_by_folder_and_ending(self) -> None:
        files = {"crates/a/src/lib.rt": "", "crates/a/src/b/c.rt": "", "crates/a/specs/Lib.antt": "", "crates/ab/src/lib.rt": ""}
        house = self.tree({"crates.txt": "a:\nab:\n", **files})
        self.assertEqual([str(it) for it in house.files("a", "src")], ["crates/a/src/lib.rt", "crates/a/src/b/c.rt"])
        self.assertEqual(list(house.files("a", "specs", suffix=".antt")), [Path("crates/a/specs/Lib.antt")])

    def test_a_folder_without_crates_is_refused(self) -> None:
        house = self.tree({"crates.txt": ""})
        (house.top / "crates.txt").unlink()
        with self.assertRaisesRegex(Fault, "name the top of the repository"):
            self.again(house)

    def test_a_program_has_a_main(self) -> None:
        house = self.tree({"crates.txt": "a:\nb:\n", "crates/a/src/main.rt": "", "crates/b/src/lib.rt": ""})
        self.assertTrue(house.is_program("a"))
        self.assertFalse(house.is_program("b"))
        self.assertEqual(house.root("a"), Path("crates/a/src/main.rt"))


if __name__ == "__main__":
    unittest.main()
