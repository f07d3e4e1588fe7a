"""What is read of sources: functions, imports, copies, and libraries that nobody names."""

from __future__ import annotations

import unittest

from tools.survey.copies import copies, repeated
from tools.survey.imports import Named, Names, passed_on
from tools.survey.listed import unnamed
from tools.survey.rust import Function, functions, uses

from .support import TreeTest

CLAUSES = '''
pub fn settled(given: &[u8]) -> Result<(), Fault>
    requires { given.now ≡ { x = 1 } }
    ensures ok { IfOk result (λ r. r ≡ tt) }
{
    let text = "}";
    // }
    match given {
        _ => Ok(()),
    }
}

trait Handler {
    fn next(&self) -> Step
        ensures { result ≡ step };
    fn name(&self) -> &str { "handler" }
}
'''


class FunctionsTest(unittest.TestCase):
    def test_the_braces_of_clauses_texts_and_comments_are_no_body(self) -> None:
        self.assertEqual(list(functions(CLAUSES)), [Function("settled", 2, 5), Function("name", 16, 0)])

    def test_a_body_of_many_lines(self) -> None:
        text = "fn long() {\n" + "    step();\n" * 41 + "}\n"
        self.assertEqual(list(functions(text)), [Function("long", 1, 41)])

    def test_an_array_in_a_signature_is_passed_over(self) -> None:
        self.assertEqual([it.name for it in functions("fn f(x: [u8; 4]) -> [u8; 2] { [0; 2] }")], ["f"])


class UsesTest(unittest.TestCase):
    def test_the_paths_of_a_tree_of_names(self) -> None:
        text = "ghost use Rattle.a.{B};\npub use a::{\n    b::{C, D as E},\n    F,\n};\nuse std::env::{self, Env};\n"
        found = [(it.path, it.name, it.passes, it.line) for it in uses(text)]
        self.assertEqual(
            found,
            [
                (("a", "b", "C"), "C", True, 2),
                (("a", "b", "D"), "E", True, 2),
                (("a", "F"), "F", True, 2),
                (("std", "env"), "env", False, 6),
                (("std", "env", "Env"), "Env", False, 6),
            ],
        )

    def test_a_comment_imports_nothing(self) -> None:
        self.assertEqual(list(uses("// use a::B;\n")), [])


HOUSE = {
    "crates.txt": "types:\njournal_protocol: types\nparts: types\nruns:\nuser: parts types journal_protocol runs\n",
    "crates/types/src/lib.rt": "pub mod steps;\nmod own;\npub use steps::Step;\npub struct Value {}\n",
    "crates/types/src/steps.rt": "pub enum Step {}\n",
    "crates/types/src/own.rt": "",
    "crates/journal_protocol/src/lib.rt": "pub use types::Step;\n",
    "crates/parts/src/lib.rt": "pub mod queue;\nmod runs;\npub use queue::Queue;\npub use types::{Step, Value as Worth};\npub use runs::Own;\n",
    "crates/parts/src/queue.rt": "pub struct Queue {}\n",
    "crates/parts/src/runs.rt": "pub struct Own {}\n",
    "crates/runs/src/lib.rt": "pub struct Run {}\n",
}


class ImportsTest(TreeTest):
    def second(self, text: str) -> list[Named]:
        house = self.tree({**HOUSE, "crates/user/src/lib.rt": text})
        return [it for it in Names(house).named if it.is_second()]

    def test_an_item_by_the_crate_that_passes_it_on_is_a_second_name(self) -> None:
        self.assertEqual(self.second("use parts::Step;\n"), [Named("Step", "parts", "types", "user")])

    def test_an_item_by_the_crate_that_defines_it_is_none(self) -> None:
        self.assertEqual(self.second("use types::Step;\nuse types::steps::Step;\nuse parts::Queue;\nuse parts::queue::Queue;\n"), [])

    def test_a_crate_that_passes_on_by_the_rule_makes_none(self) -> None:
        self.assertEqual(self.second("use journal_protocol::Step;\n"), [])

    def test_a_path_in_code_counts_and_one_in_a_comment_does_not(self) -> None:
        self.assertEqual(self.second("// parts::Step\nfn f() -> parts::Worth {}\n"), [Named("Worth", "parts", "types", "user")])

    def test_a_module_is_its_own_crates_though_a_crate_has_its_name(self) -> None:
        self.assertEqual(self.second("use parts::Own;\n"), [])

    def test_an_item_counts_once_a_crate(self) -> None:
        self.assertEqual(len(self.second("use parts::Step;\nfn f() { parts::Step::Sleep }\n")), 1)

    def test_what_is_passed_on_by_crates_that_may_not(self) -> None:
        specs = {"crates/parts/specs/Lib.antt": "pub use Rattle.types.specs.Steps\npub use Rattle.parts.specs.Own\n"}
        house = self.tree({**HOUSE, **specs, "crates/user/src/lib.rt": ""})
        found = set(passed_on(house, Names(house)))
        self.assertEqual(found, {("parts", "Step", "types"), ("parts", "Worth", "types"), ("parts", "specs/Lib", "types")})


SIX = "".join(f"    call_{at}(given);\n" for at in range(6))


class CopiesTest(TreeTest):
    def copies(self, one: str, other: str, where: str = "b") -> list[tuple[int, str, str]]:
        files = {"crates.txt": "a:\nb:\n", "crates/a/src/lib.rt": one, f"crates/{where}/src/more.rt": other}
        return [(it.lines, str(it.one), str(it.other)) for it in copies(self.tree(files))]

    def test_six_equal_lines_in_two_crates_are_a_copy(self) -> None:
        found = self.copies(f"fn one() {{\n{SIX}}}\n", f"// more\nfn two() {{\n{SIX}}}\n")
        self.assertEqual(found, [(6, "crates/a/src/lib.rt:2-7", "crates/b/src/more.rt:3-8")])

    def test_five_are_none(self) -> None:
        self.assertEqual(self.copies(SIX.partition("\n")[2], SIX), [])

    def test_the_same_lines_in_one_crate_are_none(self) -> None:
        self.assertEqual(self.copies(SIX, SIX, where="a"), [])

    def test_indent_blank_lines_imports_and_comments_make_no_difference(self) -> None:
        other = "use a::B;\n" + SIX.replace("    ", "  ").replace("call_3", "\n// a remark\ncall_3")
        self.assertEqual([it[0] for it in self.copies(SIX, other)], [6])

    def test_a_longer_run_is_one_copy(self) -> None:
        more = SIX + "    last(given);\n"
        self.assertEqual([it[0] for it in self.copies(more, more)], [7])

    def test_a_run_that_stands_twice_in_one_crate_is_paired_across_crates_alone(self) -> None:
        files = {"crates.txt": "a:\nb:\n", "crates/a/src/lib.rt": SIX, "crates/a/src/more.rt": SIX, "crates/b/src/lib.rt": SIX}
        found = copies(self.tree(files))
        self.assertEqual([(str(it.one.path), str(it.other.path)) for it in found], [("crates/a/src/lib.rt", "crates/b/src/lib.rt")])

    def test_each_line_that_stands_again_counts_once_a_crate(self) -> None:
        files = {f"crates/{crate}/src/lib.rt": SIX for crate in "abc"} | {"crates/c/src/more.rt": SIX, "crates/d/specs/X.antt": SIX}
        found = copies(self.tree({"crates.txt": "a:\nb:\nc:\nd:\n", **files}))
        self.assertEqual(repeated(found, ".rt"), 12)
        self.assertEqual(repeated(found, ".antt"), 6)


class ListedTest(TreeTest):
    def test_a_library_that_no_file_names_is_listed(self) -> None:
        files = {
            "crates.txt": "a:\nb:\nc:\nd:\ne: a b c d bytes\n",
            "crates/e/src/lib.rt": "use a::X;\nfn f() { b::g() }\n// d::h\n",
            "crates/e/specs/X.antt": "use Rattle.c.specs.Y\n",
        }
        self.assertEqual(unnamed(self.tree(files)), [("e", "d"), ("e", "bytes")])


if __name__ == "__main__":
    unittest.main()
