"""Crates as modules of one crate, and the starts of programs that were lowered as one."""

import tempfile
import unittest
from pathlib import Path

from tools.kit import merging
from tools.kit.crates import Crate
from tools.kit.errors import Refused

MODULE = '''define internal noundef i32 @"merged::main+start"() #0 {
  call void @"core::rt::grant"()
  %r5 = call i32 @"merged::main+run"()
  ret i32 %r5
}

define internal noundef i32 @"merged::main+run"() #0 {
  %r5 = call i8 @"merged::main"()
  ret i32 0
}

define internal noundef i8 @"merged::main"() #0 {
  %r1 = call i8 @"merged::one::main"()
  %r2 = call i8 @"merged::two::main"()
  ret i8 %r2
}

define i32 @main() #0 {
  %r1 = call i32 @"merged::main+start"()
  ret i32 %r1
}
'''


class Merged(unittest.TestCase):
    def setUp(self) -> None:
        room = tempfile.TemporaryDirectory()
        self.addCleanup(room.cleanup)
        self.room = Path(room.name)

    def crate(self, name: str, uses: tuple[str, ...], **files: str) -> Crate:
        for file, text in files.items():
            place = self.room / name / "src" / f"{file.replace('__', '/')}.rt"
            place.parent.mkdir(parents=True, exist_ok=True)
            place.write_text(text, encoding="utf-8")
        return Crate(name, uses, self.room / name)

    def text(self, file: str) -> str:
        return (self.room / "made/src" / file).read_text(encoding="utf-8")

    def test_crates_are_modules(self) -> None:
        one = self.crate("one", ("plain", "bytes"), lib="mod rows;\n", rows="use crate::deep::it;\n#[tactic(auto, unfolding(crate::specs::A::b))]\n", deep__it="")
        two = self.crate("two", ("bytes",), lib="//! Two.\n")
        merging.write_merged([one, two], self.room / "made", "lib.rt")
        self.assertEqual(self.text("lib.rt"), "//! Several crates as one.\n#![tactic(auto)]\n\nmod one;\nmod two;\n")
        self.assertEqual((self.text("one.rt"), self.text("two.rt"), self.text("one/deep/it.rt")), ("mod rows;\n", "//! Two.\n", ""))
        self.assertEqual(self.text("one/rows.rt"), "use crate::one::deep::it;\n#[tactic(auto, unfolding(crate::specs::A::b))]\n")
        self.assertEqual(merging.uses_of([one, two]), ["plain", "bytes"])

    def test_each_program_is_reached(self) -> None:
        programs = [self.crate(it, (), main=f"{merging.START}}}\n") for it in ("one", "two")]
        merging.write_programs(programs, self.room / "made")
        self.assertIn("        0 => one::main(rt),\n        1 => two::main(rt),\n        _ => ExitCode::SUCCESS,", self.text("main.rt"))
        self.assertEqual(self.text("two.rt"), f"pub {merging.START}}}\n")

    def test_a_program_that_starts_otherwise_is_named(self) -> None:
        with self.assertRaisesRegex(Refused, "one/src/main.rt: the line `fn main.rt: HostRuntime. -> ExitCode {` was expected"):
            merging.write_programs([self.crate("one", (), main="fn main() {}\n")], self.room / "made")


class Starts(unittest.TestCase):
    def test_each_program_has_one(self) -> None:
        text = merging.with_starts(MODULE, ["one", "two"])
        for name in ("one", "two"):
            self.assertEqual(text.count(f'define i32 @start_{name}() #0 {{\n  %r1 = call i32 @"{name}::main+start"()'), 1)
            self.assertEqual(text.count(f'define internal noundef i32 @"{name}::main+run"() #0 {{\n  %r5 = call i8 @"merged::{name}::main"()'), 1)
        self.assertNotIn("@main(", text)
        self.assertNotIn('@"merged::main+', text)
        self.assertIn("call i32 @start_two()", merging.main_of("two"))

    def test_what_another_kit_does_otherwise_is_named(self) -> None:
        with self.assertRaisesRegex(Refused, 'the module has no `@"merged::three::main"'):
            merging.with_starts(MODULE, ["three"])
        with self.assertRaisesRegex(Refused, "the module has 0 definitions like"):
            merging.with_starts(MODULE.replace("main+run", "main+go"), ["one"])


if __name__ == "__main__":
    unittest.main()
