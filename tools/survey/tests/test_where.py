"""The spellings of a name, the files that it touches, and what is said of them."""

from __future__ import annotations

import contextlib
import io
import unittest
from pathlib import Path

from tools.survey.phrases import phrase
from tools.survey.places import places
from tools.survey.spellings import Name, words_of
from tools.survey.tree import Fault
from tools.survey.where import main
from tools.survey.written import written_by

from .support import TreeTest


class SpellingsTest(unittest.TestCase):
    def finds(self, name: str, text: str, alone: bool = False) -> bool:
        found = Name(name, alone)
        self.assertEqual(found.may_stand_in(text), all(it in text.lower() for it in found.words))
        return found.pattern.search(text) is not None

    def test_the_words_of_a_name(self) -> None:
        for name in ("PeekPromise", "peek_promise", "PEEK_PROMISE", "peekPromise", "peek-promise"):
            self.assertEqual(words_of(name), ["peek", "promise"])
        self.assertEqual(words_of("VMOptions"), ["vm", "options"])
        self.assertEqual(words_of("V8"), ["v8"])

    def test_each_spelling_finds_each(self) -> None:
        spellings = ("PeekPromise", "peek_promise", "PEEK_PROMISE", "peekPromise", "peek-promise", "peek promise", "Peek promise")
        for name in spellings:
            for text in spellings:
                self.assertTrue(self.finds(name, f"the {text}, "), f"{name} in {text}")

    def test_parts_of_longer_names_are_found(self) -> None:
        for text in ("sys_peek_promise(", "PeekPromiseCommand", "is_peek_promise", "PALQYTUN_COMMAND_PEEK_PROMISE", "vmPeekPromise", "in-PeekPromise"):
            self.assertTrue(self.finds("PeekPromise", text), text)

    def test_parts_of_words_are_not(self) -> None:
        for text in ("speek_promise", "peek_promises", "PeekPromised", "peekpromise", "SPEEK_PROMISE", "peek\npromise"):
            self.assertFalse(self.finds("PeekPromise", text), text)
        for text in ("XV8", "v80", "V81", "rev8"):
            self.assertFalse(self.finds("V8", text), text)
        for text in ("Version::V8 ", "invocation.v8\"", "is_from_v8", "V8Upgraded"):
            self.assertTrue(self.finds("V8", text), text)

    def test_alone_passes_over_longer_names(self) -> None:
        self.assertTrue(self.finds("mismatch", "[mismatch=follow]", alone=True))
        self.assertTrue(self.finds("mismatch", "given.mismatch)", alone=True))
        for text in ("mismatch_of", "JournalMismatch", "no-mismatch"):
            self.assertFalse(self.finds("mismatch", text, alone=True), text)

    def test_what_is_no_name_is_refused(self) -> None:
        for name in ("", "::", "a.b", "{"):
            with self.assertRaisesRegex(Fault, "is no name"):
                Name(name)


class PhrasesTest(unittest.TestCase):
    def test_the_first_sentence_of_the_first_comment(self) -> None:
        self.assertEqual(phrase(Path("a.rt"), "//! What `a` is\n//! for. More.\nuse x;\n"), "What `a` is for.")
        self.assertEqual(phrase(Path("a.antt"), "-- Ids.\n-- More.\nuse X\n"), "Ids.")
        self.assertEqual(phrase(Path("a.py"), '"""Frames, and back.\n\nMore."""\n'), "Frames, and back.")
        self.assertEqual(phrase(Path("a"), '#!/usr/bin/env python3\n"""Checks."""\n'), "Checks.")
        self.assertEqual(phrase(Path("a"), "#!/usr/bin/env bash\n# Measures. More.\nset -u\n"), "Measures.")
        self.assertEqual(phrase(Path("a.c"), "/* An example,\n   whole. */\n"), "An example, whole.")
        self.assertEqual(phrase(Path("a.md"), "# Scripts\n\nText.\n"), "Scripts")
        self.assertEqual(phrase(Path("a.rows"), "# Promises. More.\n\n== a\n"), "Promises.")

    def test_a_file_without_a_comment_is_said_by_its_place(self) -> None:
        self.assertEqual(phrase(Path("crates/a/proofs/asks/ask_of/Answers.antt"), "use X\n"), "proves asks::ask_of")
        self.assertEqual(phrase(Path("crates/a/must-fail/step-is-another.edit"), "file: x\n"), "a wrong body: step is another")
        self.assertEqual(phrase(Path("crates/vmrun/runs/plan.in"), "x\n"), "a run of vmrun: plan")

    def test_a_long_phrase_is_cut_at_a_word(self) -> None:
        found = phrase(Path("a.rt"), "//! " + "word " * 40 + "\n")
        self.assertLessEqual(len(found), 100)
        self.assertTrue(found.endswith("word .."))


FILES = {
    "crates.txt": "low:\nhigh: low\nprogram: high\n",
    "crates/low/src/lib.rt": "//! The low crate.\npub struct PeekPromise;\nfn f(x: PeekPromise) {}\n",
    "crates/low/specs/Peek.antt": "-- Peeks.\npeek_promise : X\n",
    "crates/low/proofs/sys_peek_promise/Answers.antt": "use X\n",
    "crates/high/src/lib.rt": "//! The high crate.\nuse low::Other;\n",
    "crates/high/src/calls.rt": "//! Calls.\nuse low::PeekPromise;\n",
    "crates/program/src/main.rt": "//! The program.\n",
    "crates/program/rows/a.rows": "# Rows.\npeek_promise k\n",
    "bindings/palqytun.h": "/* For C. */\nvoid palqytun_peek_promise();\n",
    "python/src/palqytun/core.py": '"""The VM."""\ndef sys_peek_promise(): ...\n',
    "tools/programs/rules.py": '"""Rules."""\n"peek-promise"\n',
    "docs/SDK.md": "# SDK\n\nA peek promise.\n",
    "docs/API.md": "# The API\n\n<!-- `tools/api --write` writes this page. -->\n\nsys_peek_promise\n",
    "bindings/calls.c": "/* Calls. */\n/* tools/header --write writes this file. */\nvoid palqytun_peek_promise() {}\n",
    "bindings/go/abi.go": "// Code generated by tools/header --write from palqytun.h. DO NOT EDIT.\nfunc peekPromise() {}\n",
    "bindings/palqytun.abi": "function palqytun_peek_promise()\n",
    "docs/internals/ARCHITECTURE.md": "# Architecture\n\n    tools/where PeekPromise\n",
    "tools/survey/figures.py": 'COMMAND = "PeekPromise"\n',
}
ORDER = [
    "crates/low/specs/Peek.antt",
    "crates/low/src/lib.rt",
    "crates/low/proofs/sys_peek_promise/Answers.antt",
    "crates/high/src/calls.rt",
    "bindings/palqytun.h",
    "python/src/palqytun/core.py",
    "tools/programs/rules.py",
    "crates/program/rows/a.rows",
    "docs/SDK.md",
]
WRITTEN = ["docs/API.md", "bindings/go/abi.go", "bindings/calls.c", "bindings/palqytun.abi"]


class WhereTest(TreeTest):
    def where(self, *words: str) -> tuple[int, str, str]:
        house = self.tree(FILES)
        out, err = io.StringIO(), io.StringIO()
        with contextlib.redirect_stdout(out), contextlib.redirect_stderr(err):
            status = main([*words, "--top", str(house.top)])
        return status, out.getvalue(), err.getvalue()

    def test_files_come_in_the_order_of_a_change(self) -> None:
        self.assertEqual([str(it.path) for it in places(self.tree(FILES), [Name("peek_promise")])], ORDER + WRITTEN)

    def test_what_a_command_writes_says_so_in_its_first_lines(self) -> None:
        self.assertEqual(written_by(Path("a.rb"), "# frozen\n\n# tools/header --write writes this file, from palqytun.h.\n"), "tools/header --write")
        self.assertEqual(written_by(Path("a.py"), '"""Numbers. `tools/header --write` writes this file."""\n'), "tools/header --write")
        self.assertEqual(written_by(Path("a.go"), "// Code generated by tools/header --write from palqytun.h. DO NOT EDIT.\n"), "tools/header --write")
        self.assertEqual(written_by(Path("docs/pictures/house.svg"), "<svg/>\n"), "tools/map")
        for text in ("", "It is run by tools/header --write.\n", "\n" * 6 + "# tools/header --write writes this file.\n"):
            self.assertEqual(written_by(Path("a.py"), text), "")

    def test_edit_prints_the_paths_alone(self) -> None:
        self.assertEqual(self.where("PeekPromise", "--edit"), (0, "\n".join(ORDER) + "\n", ""))

    def test_count_prints_how_many(self) -> None:
        self.assertEqual(self.where("PeekPromise", "--count")[1], "PeekPromise: 9 files in 3 crates, 1 of them rows and runs; 4 more are written by tools/api --write, tools/header --write\n")

    def test_the_listing_says_what_stands_where(self) -> None:
        lines = self.where("PeekPromise")[1].splitlines()
        self.assertIn("low: The low crate.", lines)
        self.assertIn("     2  crates/low/src/lib.rt  The low crate.", lines)
        self.assertIn("     0  crates/low/proofs/sys_peek_promise/Answers.antt  proves sys_peek_promise", lines)
        self.assertIn("C: the header and what is built with it", lines)
        self.assertEqual(lines[-2:], ["     1  bindings/calls.c  Calls.", "     1  bindings/palqytun.abi"])
        self.assertIn("written by tools/header --write, and not by hand", lines)
        self.assertTrue(lines[1].startswith("spelled: PeekPromise 3, "))

    def test_lines_shows_each(self) -> None:
        self.assertIn("        2: use low::PeekPromise;", self.where("PeekPromise", "--lines")[1].splitlines())

    def test_several_names_are_found_together(self) -> None:
        self.assertIn("crates/high/src/lib.rt", self.where("PeekPromise", "Other", "--edit")[1])

    def test_a_name_that_nothing_has_is_an_error_with_names_alike(self) -> None:
        status, out, err = self.where("PeekPromisse")
        self.assertEqual((status, out), (1, ""))
        self.assertIn("no file names PeekPromisse in any spelling; names that are there: PeekPromise", err)


if __name__ == "__main__":
    unittest.main()
