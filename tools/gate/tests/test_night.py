"""The night run: wrong bodies go on where they were, and the page has a row a run."""

import contextlib
import datetime
import io
import os
import subprocess
import sys
import tempfile
import time
import unittest
from concurrent.futures import ThreadPoolExecutor
from pathlib import Path
from unittest import mock

from tools.gate import bodies, evidence, night, tree
from tools.gate.bodies import Bodies, Tried
from tools.gate.environment import TOP
from tools.gate.parts import programs
from tools.gate.texts import sum_of_crates

# Stands for rt, and is no script of Python: it refuses each edit except those whose name begins with `bad`, and notes for which crates it was run.
RT = """#!/bin/sh
[ "$1" = version ] && { echo rattle-kit-0 logic 00; exit; }
echo "$2" >>"$ASKED"
for it in crates/$2/must-fail/*.edit; do
    case $it in */bad*) said="NOT REFUSED: the crate is still proved" ;; *) said="refused, as it must be: a reason" ;; esac
    echo "rt: must-fail $2/$(basename "$it"): $said"
done
"""


class WrongBodies(unittest.TestCase):
    def setUp(self) -> None:
        self.top = Path(self.enterContext(tempfile.TemporaryDirectory()))
        for name in ("low", "top"):
            (self.top / "crates" / name / "src").mkdir(parents=True)
            (self.top / "crates" / name / "src/lib.rt").write_text(f"// {name}\n")
            (self.top / "crates" / name / "wrong-bodies").mkdir()
            (self.top / "crates" / name / "wrong-bodies/one.edit").write_text("file: src/lib.rt\n")
        (self.top / "crates.txt").write_text("# all\nlow:\ntop: low\n")
        (self.top / "HANDLES").write_text("Handles allowed: none.\n")
        (self.top / "bin").mkdir()
        (self.top / "bin/rt").write_text(RT)
        (self.top / "bin/rt").chmod(0o755)
        self.asked = self.top / "asked"
        self.asked.touch()
        path = f"{self.top / 'bin'}{os.pathsep}{os.environ['PATH']}"
        self.enterContext(mock.patch.dict("os.environ", {"PATH": path, "ASKED": str(self.asked)}))
        self.enterContext(mock.patch("tools.gate.bodies.TOP", self.top))
        self.addCleanup(os.chdir, os.getcwd())
        self.prove()

    def prove(self) -> None:
        """What ./prove leaves of the library below."""
        text = self.top / "crates/low" / tree.TEXT
        text.parent.mkdir(parents=True, exist_ok=True)
        text.write_text(sum_of_crates(self.top, ["low"]))

    def tried(self, *words: str) -> tuple[int, list[str], list[str]]:
        """Tries the wrong bodies, and returns the status, what is printed, and the crates that rt was asked for."""
        self.asked.write_text("")
        said = io.StringIO()
        with contextlib.redirect_stdout(said):
            status = bodies.main(list(words))
        return status, said.getvalue().splitlines(), self.asked.read_text().split()

    def test_all_are_refused_once(self) -> None:
        status, said, asked = self.tried()
        self.assertEqual((status, said[-1], sorted(asked)), (0, "2 passed, 0 failed", ["low", "top"]))
        status, said, asked = self.tried()
        self.assertEqual((status, said[-1], asked), (0, "2 passed, 0 failed", []))
        self.assertEqual(self.tried("--anew", "top")[2], ["top"])

    def test_a_run_that_was_stopped_goes_on(self) -> None:
        self.tried("low")
        self.assertEqual(self.tried()[2], ["top"])

    def test_what_has_changed_is_tried_again(self) -> None:
        self.tried()
        (self.top / "crates/top/wrong-bodies/one.edit").write_text("file: src/lib.rt\nold: a\n")
        self.assertEqual(self.tried()[2], ["top"])
        (self.top / "crates/low/src/lib.rt").write_text("// another\n")
        self.prove()
        self.assertEqual(sorted(self.tried()[2]), ["low", "top"])

    def test_nothing_is_tried_over_a_library_that_is_not_proved_as_it_stands(self) -> None:
        (self.top / "crates/low/src/lib.rt").write_text("// another\n")
        status, said, asked = self.tried()
        self.assertEqual((status, said[-1], asked), (1, "1 passed, 1 failed", ["low"]))
        self.assertIn("top/wrong-bodies/one.edit: NOT TRIED: low isn't proved as it stands, so run ./prove first", said)

    def test_one_that_is_not_refused_fails_each_time(self) -> None:
        (self.top / "crates/top/wrong-bodies/bad.edit").write_text("file: src/lib.rt\n")
        for _ in range(2):
            status, said, asked = self.tried()
            self.assertEqual((status, said[-1]), (1, "2 passed, 1 failed"))
            self.assertIn("top/wrong-bodies/bad.edit: NOT REFUSED: the crate is still proved", said)
            self.assertIn("top", asked)

    def test_one_of_which_nothing_is_said_fails(self) -> None:
        (self.top / "bin/rt").write_text("#!/bin/sh\nexit 1\n")
        self.assertEqual(self.tried()[1][-1], "0 passed, 2 failed")

    def test_time_is_over(self) -> None:
        status, said, asked = self.tried("--minutes", "-1")
        self.assertEqual((status, asked), (0, []))
        self.assertIn("0 of 2 wrong bodies refused, 0 of them only by a limit of the prover; 0 not refused, 2 left", said)

    def test_the_copy_has_only_what_is_needed(self) -> None:
        self.assertEqual((tree.rows(self.top, ["low"]), Bodies(self.top).below("top")), ("low:\n", {"low", "top"}))

    def test_a_file_that_cannot_be_read_is_nothing(self) -> None:
        file = self.top / "kept.json"
        for text in ("", "[]", '{"a": 1}'):
            file.write_text(text)
            self.assertEqual(bodies.read_kept(file), {}, text)
        bodies.write_kept({"a": Tried("1", "refused, as it must be")}, file)
        self.assertEqual(bodies.read_kept(file), {"a": Tried("1", "refused, as it must be")})


class Pages(unittest.TestCase):
    def test_rows(self) -> None:
        to = Path(self.enterContext(tempfile.TemporaryDirectory()), "evidence", "2026-11-29.md")
        evidence.add(evidence.Evidence("simulate", "one | two\nthree", 59.6), to)
        evidence.add(evidence.Evidence("hostile", "nothing", 3), to)
        lines = to.read_text().splitlines()
        self.assertEqual(lines[0], "# Evidence of 2026-11-29")
        self.assertTrue(lines[-2].startswith("| simulate | one \\| two three | 60 | "), lines[-2])
        self.assertTrue(lines[-1].startswith("| hostile | nothing | 3 | "), lines[-1])
        self.assertEqual({it.count(" | ") for it in lines[-2:]}, {5})
        to.write_text(to.read_text() + "\nA remark.\n")
        evidence.add(evidence.Evidence("kills", "more", 4), to)
        self.assertEqual(to.read_text().splitlines()[-2:], ["", "A remark."])
        self.assertTrue(to.read_text().splitlines()[-3].startswith("| kills | more | 4 | "))

    def test_the_page_of_a_day(self) -> None:
        self.assertEqual(evidence.page(datetime.date(2026, 1, 2)), Path("docs/evidence/2026-01-02.md"))

    def test_rows_that_are_written_at_once(self) -> None:
        """Each is made slowly, between the reading of the page and its writing."""

        def row(it: evidence.Evidence) -> str:
            time.sleep(0.05)
            return f"| {it.part} |\n"

        to, names = Path(self.enterContext(tempfile.TemporaryDirectory()), "2026-11-29.md"), [f"part-{number}" for number in range(8)]
        with mock.patch.object(evidence, "row", row), ThreadPoolExecutor(len(names)) as pool:
            list(pool.map(lambda it: evidence.add(evidence.Evidence(it, "nothing", 1), to), names))
        self.assertEqual(sorted(to.read_text(encoding="utf-8").splitlines()[-len(names) :]), [f"| {it} |" for it in names])

    def test_parts_say_what_was_run(self) -> None:
        options, parts = night.arguments(["simulate", "kills-sqlite", "--minutes", "2", "--kills", "7", "--unproved"])
        said = [it.of(night.of_part(it, options)) for it in parts]
        self.assertEqual(said, ["2 minutes, builds without a proof", "7 kills, builds without a proof"])
        self.assertIn("2", parts[0].job(night.of_part(parts[0], options)).words)

    def test_hostile_input_is_for_the_programs_that_are_proved(self) -> None:
        """./prove doesn't build the bench. A program that isn't there is named before the first case."""
        options, [part] = night.arguments(["hostile"])
        words = part.job(night.of_part(part, options)).words
        named = {it.removeprefix("--program=").partition("=")[0] for it in words if it.startswith("--program=")}
        self.assertEqual(named, {it for it in programs() if not tree.promises_nothing(it)})
        self.assertNotIn("vmbench", named)
        none = [f"--program={it}={TOP}/none/{it}" for it in named]
        ran = subprocess.run([sys.executable, "tools/hostile", *none, "keys", "long-line"], cwd=TOP, capture_output=True, text=True)
        said = f"no program {TOP}/none/vmscript: ./prove builds them, and --program names others\n"
        self.assertEqual((ran.returncode, ran.stdout, ran.stderr), (2, "", said))

    def test_figures(self) -> None:
        self.assertEqual(night.line_before_counts("x\n3 cases\n3 passed, 0 failed\n"), "3 cases")
        self.assertEqual((night.last_line("a\nb\n\n"), night.last_line("")), ("b", "it said nothing"))


if __name__ == "__main__":
    unittest.main()
