"""The figures, their limits, the imports that are known, and the command."""

from __future__ import annotations

import contextlib
import io
import json
import unittest

from tools.survey import house as command
from tools.survey import limits
from tools.survey.figures import Figure, Survey, counted
from tools.survey.limits import Limit, known_of, limits_of, wrong_names
from tools.survey.page import FIGURES, MAP
from tools.survey.tree import Fault

from .support import TreeTest

LONG = "fn long() {\n" + "    step();\n" * 41 + "}\n"
SIX = "".join(f"    call_{at}(given);\n" for at in range(6))
FILES = {
    "crates.txt": "plain:\nvm_types: plain\nvm_parts: vm_types\njournal_store: vm_types\nlines: plain\nc_sessions: vm_parts lines\nvm_vectors: vm_parts\n",
    "crates/plain/src/lib.rt": f"//! Plain.\n{LONG}{SIX}",
    "crates/vm_types/src/lib.rt": "//! Types.\nuse plain::X;\npub struct Step;\npub struct PeekPromise;\n",
    "crates/vm_parts/src/lib.rt": "//! Parts.\npub use vm_types::Step;\n",
    "crates/journal_store/src/lib.rt": "//! Journals.\nuse vm_types::Step;\n",
    "crates/lines/src/lib.rt": f"//! Lines.\n{SIX}",
    "crates/c_sessions/src/lib.rt": "//! Sessions.\nuse vm_parts::Step;\nuse lines::L;\n",
    "crates/vm_vectors/src/lib.rt": "//! Rows.\nuse vm_parts::Step;\nfn row() { vm_parts::Step }\n",
    "bindings/calls.c": "/* tools/header --write writes this file. */\nint peek_promise;\n",
}
VALUES = {
    "crates": 7,
    "lines of dependency": 7,
    "unnamed libraries": 1,
    "ways": 21,
    "longest chain": 4,
    "journals that name the VM": 1,
    "C that names lines": 1,
    "lines against the order": 0,
    "functions": 2,
    "crates over 100 functions": 0,
    "functions over 40 lines": 1,
    "copied lines of code": 6,
    "imports by a second name": 2,
    "items passed on": 1,
    "files of a new command": 1,
    "files of it that commands write": 1,
}


class FiguresTest(TreeTest):
    def figures(self, **changed: str) -> dict[str, Figure]:
        return {it.name: it for it in Survey(self.tree({**FILES, **changed})).figures()}

    def test_each_figure(self) -> None:
        found = {name: it.value for name, it in self.figures().items()}
        self.assertEqual({name: found[name] for name in VALUES}, VALUES)

    def test_what_is_counted_is_named(self) -> None:
        found = self.figures()
        self.assertEqual(found["functions over 40 lines"].these, ("crates/plain/src/lib.rt:2: long, 41 lines",))
        self.assertEqual(found["imports by a second name"].these, ("vm_types::Step by vm_parts: 2",))
        self.assertEqual(found["items passed on"].these, ("vm_parts: vm_types: 1",))
        self.assertEqual(found["unnamed libraries"].these, ("lines: plain",))
        self.assertEqual(found["C that names lines"].these, ("c_sessions: lines",))
        self.assertEqual(found["longest chain"].said, "plain vm_types vm_parts c_sessions")

    def test_the_ways_of_the_engine_are_counted_apart(self) -> None:
        engine = {"crates.txt": FILES["crates.txt"] + "engines: vm_parts\ntest_engine: engines\n", "crates/engines/src/lib.rt": "//! E.\n"}
        found = self.figures(**engine, **{"crates/test_engine/src/lib.rt": "//! R.\n"})
        self.assertEqual((found["ways"].value, found["ways without the engine's"].value), (21 + 4 + 5, 21))

    def test_the_most_frequent_is_counted_first(self) -> None:
        self.assertEqual(counted(["b", "a", "b", "c"]), ["b: 2", "a: 1", "c: 1"])


class LimitsTest(unittest.TestCase):
    def test_a_figure_above_its_limit_fails(self) -> None:
        self.assertIn("crates: 8, and the limit is 7 (the goal: 5)", Limit("crates", 7, 5).wrong(8) or "")

    def test_a_figure_at_its_limit_holds(self) -> None:
        self.assertIsNone(Limit("crates", 7, 5).wrong(7))

    def test_a_figure_below_its_limit_has_to_be_written(self) -> None:
        self.assertIn("less than its limit of 7; write what holds now", Limit("crates", 7, 5).wrong(6) or "")
        self.assertEqual(Limit("crates", 7, 5).shrunk(6), Limit("crates", 6, 5))

    def test_at_the_goal_it_may_be_less(self) -> None:
        self.assertIsNone(Limit("crates", 5, 5).wrong(3))
        self.assertEqual(Limit("crates", 7, 5).shrunk(3), Limit("crates", 5, 5))

    def test_lines_that_are_none_are_refused(self) -> None:
        with self.assertRaisesRegex(Fault, r"limits.txt:2: 'crates: 5' is no limit; a line is FIGURE: LIMIT, GOAL"):
            limits_of("# a remark\ncrates: 5\n")
        with self.assertRaisesRegex(Fault, r"imports.known:1: 'a::B by c' is no line"):
            known_of("a::B by c\n")

    def test_second_names_may_neither_be_new_nor_gone(self) -> None:
        found = wrong_names({"a": 2, "b": 2, "gone": 1}, {"a": 2, "b": 3, "new": 1})
        self.assertEqual(len(found), 3)
        self.assertIn("b is so in 3 places, and tools/survey/imports.known says 2", found[0])
        self.assertIn("gone: 0, and tools/survey/imports.known says 1; write what holds now", found[1])
        self.assertIn("new is imported by a second name", found[2])


class CommandTest(TreeTest):
    def setUp(self) -> None:
        self.house = self.tree({**FILES, "tools/survey/limits.txt": "# a remark\ncrates: 9, 5\ncopied lines of code: 6, 0\n"})

    def run_house(self, *words: str) -> tuple[int, list[str], str]:
        out, err = io.StringIO(), io.StringIO()
        with contextlib.redirect_stdout(out), contextlib.redirect_stderr(err):
            status = command.main([*words, "--top", str(self.house.top)])
        return status, out.getvalue().splitlines(), err.getvalue()

    def text(self, name: str) -> str:
        return (self.house.top / name).read_text(encoding="utf-8")

    def put(self, name: str, text: str) -> None:
        (self.house.top / name).write_text(text, encoding="utf-8")

    def test_shrink_writes_what_holds(self) -> None:
        self.assertEqual(self.run_house("--shrink")[0], 0)
        self.assertEqual(self.text("tools/survey/limits.txt"), "# a remark\ncrates: 7, 5\ncopied lines of code: 6, 0\n")
        self.assertEqual(self.text("tools/survey/imports.known"), "vm_types passed on by vm_parts: 1\nvm_types::Step by vm_parts: 2\n")

    def test_shrink_refuses_what_is_more(self) -> None:
        self.run_house("--shrink")
        self.put("crates/plain/src/lib.rt", "//! Plain.\n" + SIX + "    more();\n")
        self.put("crates/lines/src/lib.rt", "//! Lines.\nuse vm_parts::Step;\n" + SIX + "    more();\n")
        before = self.text("tools/survey/limits.txt"), self.text("tools/survey/imports.known")
        status, lines, _ = self.run_house("--shrink")
        self.assertEqual(status, 1)
        self.assertIn("copied lines of code: 7, and the limit is 6 (the goal: 0); tools/survey/limits.txt has the limits", lines)
        self.assertEqual((self.text("tools/survey/limits.txt"), self.text("tools/survey/imports.known")), before)

    def test_the_check_counts_what_holds_and_what_does_not(self) -> None:
        self.run_house("--shrink")
        survey = Survey(self.again(self.house))
        self.assertEqual(limits.check(survey, survey.figures()), (4, []))
        self.put("crates/c_sessions/src/lib.rt", "//! Sessions.\nuse vm_types::Step;\nuse lines::L;\n")
        survey = Survey(self.again(self.house))
        passed, wrong = limits.check(survey, survey.figures())
        self.assertEqual((passed, len(wrong)), (3, 1))
        self.assertIn("vm_types::Step by vm_parts: 1, and tools/survey/imports.known says 2", wrong[0])

    def test_a_limit_of_no_figure_and_no_limits_fail(self) -> None:
        self.run_house("--shrink")
        self.put("tools/survey/limits.txt", "beauty: 1, 1\n")
        survey = Survey(self.again(self.house))
        self.assertEqual(limits.check(survey, survey.figures()), (2, ["tools/survey/limits.txt: beauty: there is no such figure"]))
        self.put("tools/survey/limits.txt", "")
        survey = Survey(self.again(self.house))
        self.assertEqual(limits.check(survey, survey.figures())[1], ["tools/survey/limits.txt: it has no limit"])

    def test_the_last_line_of_a_check_counts(self) -> None:
        status, lines, _ = self.run_house("--check")
        self.assertEqual(status, 1)
        self.assertEqual(lines[-1], "0 passed, 1 failed")
        page = "\n".join((*MAP, *FIGURES))
        self.run_house("--shrink")
        for name, text in (("docs/internals/ARCHITECTURE.md", page), ("docs/pictures/house.svg", "")):
            (self.house.top / name).parent.mkdir(parents=True, exist_ok=True)
            self.put(name, text)
        status, lines, _ = self.run_house("--check")
        self.assertEqual(status, 1)
        self.assertRegex(lines[-1], r"^\d+ passed, \d+ failed$")
        self.assertIn("docs/pictures/house.svg: it isn't what", "\n".join(lines))

    def test_json_has_each_figure(self) -> None:
        status, lines, _ = self.run_house("--json")
        found = {it["name"]: it["value"] for it in json.loads("\n".join(lines))}
        self.assertEqual(status, 0)
        self.assertEqual({name: found[name] for name in VALUES}, VALUES)

    def test_the_table_shows_the_goal_beside_the_figure(self) -> None:
        lines = self.run_house()[1]
        self.assertTrue(any(it.startswith("crates ") and " 7  goal 5 " in it for it in lines))

    def test_a_tree_that_can_not_be_read_is_an_error(self) -> None:
        self.put("crates.txt", "a b c\n")
        status, lines, err = self.run_house()
        self.assertEqual((status, lines), (1, []))
        self.assertIn("crates.txt:1: 'a b c' is no line of it", err)


if __name__ == "__main__":
    unittest.main()
