"""Each name that docs/DEFINITIONS.md gives is looked up: tools/checks/definitions.py."""

from __future__ import annotations

import tempfile
import unittest
from pathlib import Path

from tools.checks import definitions

MAP = """\
    parts: Came ......................... what came
    └─ Left ─ Counts .................... what is left                (on wire)
"""
HEAD = "| Notion | In words | Stated in | Carried by |\n|---|---|---|---|\n"
CAME = "pub record Came : Type 0 where\n  pub waits : ℕ\n\nabbrev pub enough : ℕ → ℕ\nenough n = n\n"
SOURCE = """\
pub fn use_one()
    ensures found { Came }
    ensures kept { Came }
{}

impl Display for Log {
    pub fn print()
        ensures text { Came }
    {}
}
"""
FILES = {
    "crates/parts/specs/Came.antt": CAME,
    "crates/parts/specs/Left.antt": "abbrev pub left : ℕ → ℕ\nleft n = n\n",
    "crates/parts/specs/Counts.antt": "abbrev pub counts : ℕ → ℕ\ncounts n = n\n",
    "crates/parts/src/lib.rt": SOURCE,
}


class Page(unittest.TestCase):
    """A page over a small tree."""

    def wrong(self, *rows: str, text: str = "", of_map: str = MAP) -> list[str]:
        with tempfile.TemporaryDirectory() as folder:
            top = Path(folder)
            for name, content in {**FILES, "docs/DEFINITIONS.md": of_map + HEAD + "\n".join(rows) + "\n\n" + text}.items():
                (top / name).parent.mkdir(parents=True, exist_ok=True)
                (top / name).write_text(content, encoding="utf-8")
            return [f"{where.partition(':')[2]}: {why}" for where, why in definitions.check(top) if why]

    def test_what_is_there_passes(self) -> None:
        row = "| what came | in order | `parts/specs/Came` (`enough`, `waits`), `Left` (`left`) | `use_one` (`found`); `Log::print`, its `Display` |"
        self.assertEqual(self.wrong(row, text="See `parts/specs/Came` and `parts/src/lib.rt`."), [])

    def test_a_definition_of_another_file_is_not_found(self) -> None:
        self.assertEqual(self.wrong("| a | b | `parts/specs/Came` (`left`) | `use_one` |"), ["5: parts/specs/Came defines no left"])

    def test_a_file_that_is_gone_is_not_found(self) -> None:
        self.assertEqual(self.wrong("| a | b | `parts/specs/Came`, `Gone` (`left`) | `use_one` |"), ["5: there is no file parts/specs/Gone"])

    def test_a_function_that_is_gone_is_not_found(self) -> None:
        self.assertEqual(self.wrong("| a | b | `parts/specs/Came` | `Log::take` |"), ["5: no crate declares Log::take"])

    def test_a_clause_of_another_function_is_not_found(self) -> None:
        self.assertEqual(self.wrong("| a | b | `parts/specs/Came` | `use_one` (`text`) |"), ["5: use_one has no clause text"])

    def test_a_definition_may_stand_after_a_function(self) -> None:
        self.assertEqual(self.wrong("| a | b | `parts/specs/Came` | `use_one`: there are enough (`enough`) |"), [])

    def test_a_path_in_the_text_is_looked_up(self) -> None:
        self.assertEqual(self.wrong(text="See `parts/proofs/Rows`."), ["7: there is no file parts/proofs/Rows"])

    def test_the_map_names_crates_and_files(self) -> None:
        of_map = MAP.replace("Counts ..", "Sums ..") + "    others: Came ....... what came\n"
        self.assertEqual(self.wrong(of_map=of_map), ["2: parts has no specs/Sums", "3: there is no crate others", "3: others has no specs/Came"])
