"""The families, the map in the page, the ways of data and the picture."""

from __future__ import annotations

import contextlib
import io
import unittest
import xml.etree.ElementTree as xml
from unittest import mock

from tools.survey import courses, families, map, page, picture, svg
from tools.survey.courses import Course, Stop
from tools.survey.families import Family
from tools.survey.tree import Fault

from .support import TreeTest

FAMILIES = (
    Family("ground", "Ground", "What all stand on.", ("plain",)),
    Family("vm", "The VM", "One attempt.", (), ("vm_*",)),
    Family("store", "Stored journals", "What is stored.", ("store",)),
    Family("c", "C", "For callers.", ("ffi",)),
    Family("test", "Tests", "Tests alone.", (), ("*_vectors",)),
)
COURSES = (Course("A call", (Stop("python/core.py", "sleep"), Stop("ffi", "palqytun_sleep"), Stop("vm_machine", "issue"), Stop("ffi", "give", back=True))),)
FILES = {
    "crates.txt": "plain:\nvm_types: plain\nvm_machine: vm_types plain\nstore: vm_types plain\nffi: store vm_machine\nvm_vectors: ffi\n",
    "crates/plain/src/lib.rt": "//! Plain values | as such.\n",
    "crates/vm_types/src/lib.rt": "//! Types.\n",
    "crates/vm_machine/src/lib.rt": "//! The machine.\n//! It has events.\nfn issue() {}\n",
    "crates/store/src/lib.rt": "//! Storing.\n",
    "crates/ffi/src/lib.rt": "//! Functions.\nfn palqytun_sleep() {}\nfn give() {}\n",
    "crates/vm_vectors/src/lib.rt": "//! Rows.\n",
    "python/core.py": "def sleep(): ...\n",
    "docs/internals/ARCHITECTURE.md": "# A\n\n" + "\n".join(page.MAP) + "\n\nmore\n\n" + "\n".join(page.FIGURES) + "\n\nend\n",
    "tools/survey/limits.txt": "crates: 6, 5\n",
}


class MapTest(TreeTest):
    def setUp(self) -> None:
        changed = ((families, "FAMILIES", FAMILIES), (page, "FAMILIES", FAMILIES), (picture, "FAMILIES", FAMILIES), (map, "FAMILIES", FAMILIES))
        for module, name, value in (*changed, (courses, "COURSES", COURSES), (picture, "COURSES", COURSES)):
            patch = mock.patch.object(module, name, value)
            patch.start()
            self.addCleanup(patch.stop)
        self.house = self.tree({**FILES, "docs/pictures/house.svg": ""})

    def run_map(self, *words: str) -> tuple[int, list[str], str]:
        out, err = io.StringIO(), io.StringIO()
        with contextlib.redirect_stdout(out), contextlib.redirect_stderr(err):
            status = map.main([*words, "--top", str(self.house.top)])
        return status, out.getvalue().splitlines(), err.getvalue()

    def put(self, name: str, text: str) -> None:
        (self.house.top / name).write_text(text, encoding="utf-8")

    def test_a_crate_belongs_to_the_family_that_names_it_or_has_its_pattern(self) -> None:
        self.assertEqual({it: families.family_of(it).name for it in self.house.crates}["vm_vectors"], "test")
        self.assertEqual(families.family_of("vm_machine").name, "vm")
        self.assertEqual(families.family_of("store").name, "store")

    def test_a_crate_of_no_family_is_refused_by_its_name(self) -> None:
        with self.assertRaisesRegex(Fault, "crates.txt: attic belongs to no family; name it in one of FAMILIES"):
            families.family_of("attic")

    def test_on_which_families_each_stands(self) -> None:
        on = families.stands_on(self.house)
        self.assertEqual(on, {"ground": [], "vm": ["ground"], "store": ["vm"], "c": ["store"], "test": ["c"]})

    def test_lines_against_the_order(self) -> None:
        self.put("crates.txt", FILES["crates.txt"].replace("vm_types: plain", "vm_types: store plain").replace("store: vm_types plain", "store: plain"))
        house = self.again(self.house)
        self.assertEqual(families.upward(house), [("vm_types", "store")])
        self.assertEqual(families.stands_on(house)["vm"], ["ground"])

    def test_the_map_has_each_crate_with_its_first_comment(self) -> None:
        text = page.written(self.house)
        self.assertIn("| [`vm_machine`](../../crates/vm_machine) | The machine. It has events. | `vm_types` |", text)
        self.assertIn("| [`plain`](../../crates/plain) | Plain values \\| as such. |  |", text)
        self.assertIn("| [The VM](#the-vm) | `vm_types`, `vm_machine` | Ground |", text)

    def test_a_crate_without_a_comment_is_refused(self) -> None:
        self.put("crates/store/src/lib.rt", "fn f() {}\n")
        with self.assertRaisesRegex(Fault, "crates/store/src/lib.rt: its first line is no comment"):
            page.written(self.again(self.house))

    def test_what_is_written_passes_and_stays(self) -> None:
        self.assertEqual(self.run_map(), (0, [], ""))
        written = (self.house.top / page.PAGE).read_text(encoding="utf-8")
        self.assertIn("| crates | 6 | 5 |", written)
        self.assertTrue(written.startswith("# A\n\n") and written.endswith("\n\nend\n") and "\n\nmore\n\n" in written)
        status, lines, _ = self.run_map("--check")
        self.assertEqual((status, lines), (0, ["9 passed, 0 failed"]))
        self.assertEqual(self.run_map(), (0, [], ""))
        self.assertEqual((self.house.top / page.PAGE).read_text(encoding="utf-8"), written)

    def test_a_page_and_a_picture_that_are_old_fail(self) -> None:
        self.run_map()
        self.put("crates/store/src/lib.rt", "//! Storing anew.\n")
        self.assertEqual(self.run_map("--check")[1][-1], "8 passed, 1 failed")
        self.put("crates.txt", FILES["crates.txt"].replace("ffi: store vm_machine", "ffi: store\nvm_parts: vm_types"))
        self.put("crates/vm_types/src/lib.rt", FILES["crates/vm_types/src/lib.rt"])
        (self.house.top / "crates/vm_parts/src").mkdir(parents=True)
        self.put("crates/vm_parts/src/lib.rt", "//! Parts.\n")
        status, lines, _ = self.run_map("--check")
        self.assertEqual((status, lines[-1]), (1, "7 passed, 2 failed"))

    def test_a_stop_that_is_not_there_fails(self) -> None:
        self.run_map()
        self.put("python/core.py", "def awake(): ...\n")
        status, lines, _ = self.run_map("--check")
        self.assertEqual((status, lines), (1, ["tools/survey/courses.py: python/core.py has no function sleep", "8 passed, 1 failed"]))
        self.assertEqual(self.run_map()[0], 1)

    def test_a_name_of_the_table_that_is_no_crate_fails(self) -> None:
        self.run_map()
        self.put("crates.txt", FILES["crates.txt"].replace("plain:\n", "").replace("plain", ""))
        self.assertIn("tools/survey/families.py: plain is no crate of crates.txt; take it out of FAMILIES", self.run_map("--check")[1])

    def test_a_page_without_marks_is_refused(self) -> None:
        self.put("docs/internals/ARCHITECTURE.md", "# A\n")
        status, _, err = self.run_map()
        self.assertEqual(status, 1)
        self.assertIn("docs/internals/ARCHITECTURE.md: two marks aren't there", err)

    def test_the_picture_has_each_family_and_each_stop(self) -> None:
        drawn = xml.fromstring(picture.picture(self.house))
        texts = [it.text for it in drawn.iter("{http://www.w3.org/2000/svg}text")]
        for text in ("The VM", "vm_types  vm_machine", "A call", "core.py", "palqytun_sleep", "give"):
            self.assertIn(text, texts)
        paths = [it.get("class") for it in drawn.iter("{http://www.w3.org/2000/svg}path")]
        self.assertEqual(paths.count("way-back"), 1)
        self.assertEqual(paths.count("on-way"), 2 + 4)

    def test_an_arrow_past_a_family_goes_along_the_edge(self) -> None:
        sheet = svg.Sheet(picture.WIDTH, "", {})
        upper, lower = (picture.Room(it, it, [], [], [], svg.Box(24, y, 1072, 60)) for it, y in (("upper", 0), ("lower", 300)))
        picture.draw_arrow(sheet, upper, lower, False, -3)
        self.assertEqual(sheet.parts, ['<path class="on-way" d="M1096 30L1105 30L1105 312L1096 312" marker-end="url(#arrow)"/>'])

    def test_families_by_their_height(self) -> None:
        self.assertEqual(picture.levels({"a": [], "b": ["a"], "c": ["a"], "d": ["a", "c"]}), [["a"], ["b", "c"], ["d"]])

    def test_nothing_of_the_picture_is_wider_than_it(self) -> None:
        drawn = xml.fromstring(picture.picture(self.house))
        for it in drawn.iter("{http://www.w3.org/2000/svg}rect"):
            self.assertLessEqual(float(it.get("x", "0")) + float(it.get("width", "0")), picture.WIDTH)

    def test_words_are_wrapped_by_their_width(self) -> None:
        self.assertEqual(svg.wrapped(["aaaa", "bbbb", "cccc"], 60, 10, True), ["aaaa bbbb", "cccc"])
        self.assertEqual(svg.wrapped(["much_too_long"], 10, 10), ["much_too_long"])


if __name__ == "__main__":
    unittest.main()
