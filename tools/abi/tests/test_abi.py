"""The interface for C is compared with its sources, and changes only with its number."""

import re
import subprocess
import tempfile
import unittest
from dataclasses import replace
from pathlib import Path

from tools.abi import between, checks, naming, sources, text, words
from tools.abi.header import HEADER, Header, read_header
from tools.kit.errors import Refused

TOP = Path(__file__).resolve().parents[3]
PAIRS = (
    ("PALQYTUN_KEYS", "PALQYTUN_FAILURE"),
    ("PALQYTUN_SECOND_COMPLETION", "PALQYTUN_WRONG_KIND"),
    ("PALQYTUN_COMMAND_SLEEP", "PALQYTUN_COMMAND_CALL"),
    ("PALQYTUN_ALL_COMPLETED", "PALQYTUN_FIRST_SUCCEEDED_OR_ALL_FAILED"),
    ("PALQYTUN_STATE_REPLAYING", "PALQYTUN_STATE_PROCESSING"),
    ("PALQYTUN_MISMATCH_PAUSE", "PALQYTUN_MISMATCH_FAIL_TERMINALLY"),
    ("PALQYTUN_MESSAGE_START", "PALQYTUN_MESSAGE_END"),
    ("PALQYTUN_TARGET_WORKFLOW_ID", "PALQYTUN_TARGET_IDEMPOTENCY_ID"),
)


class Numbers(unittest.TestCase):
    def setUp(self) -> None:
        self.room = Path(self.enterContext(tempfile.TemporaryDirectory()))
        self.header = (TOP / HEADER).read_text(encoding="utf-8")

    def read(self, header: str) -> Header:
        path = self.room / "palqytun.h"
        path.write_text(header, encoding="utf-8")
        return read_header(path)

    def exchanged(self, one: str, other: str) -> Header:
        """The header with the numbers of two enumerators exchanged."""
        found = self.read(self.header).enumerators
        parts = {f"{one} = {found[one]}": f"{one} = {found[other]}", f"{other} = {found[other]}": f"{other} = {found[one]}"}
        rows = self.header.split("\n")
        for at, row in enumerate(rows):
            for old, new in parts.items():
                if old in row:
                    rows[at] = row.replace(old, new)
                    break
        return self.read("\n".join(rows))

    def test_the_repository(self) -> None:
        header = read_header(TOP / HEADER)
        self.assertEqual(list(checks.misnumbered(TOP, header)), [])
        self.assertEqual(list(checks.stale(TOP, header)), [])

    def test_an_exchange_of_two_enumerators_is_refused(self) -> None:
        for one, other in PAIRS:
            with self.subTest(one=one, other=other):
                said = list(checks.misnumbered(TOP, self.exchanged(one, other)))
                self.assertEqual([it.split()[2] for it in said], sorted((one, other), key=[it.split()[2] for it in said].index))

    def test_one_that_no_source_numbers_is_refused_by_the_text(self) -> None:
        header = self.exchanged("PALQYTUN_SIGNAL", "PALQYTUN_NAMED_SIGNAL")
        (said, *more) = checks.stale(TOP, header)
        self.assertIn("-number PALQYTUN_SIGNAL 1", said)
        self.assertIn("_abi.py isn't what tools/header --write writes", more[0])

    def test_a_code_that_the_vm_has_not(self) -> None:
        header = self.read(self.header.replace("PALQYTUN_CODE_CLOSED = 598", "PALQYTUN_CODE_CLOSED = 597"))
        self.assertIn("names the codes", next(checks.misnumbered(TOP, header)))

    def test_a_code_of_another_name(self) -> None:
        header = self.read(self.header.replace("PALQYTUN_CODE_CLOSED = 598", "PALQYTUN_CODE_ENDED = 598"))
        self.assertIn("has the names of codes", next(checks.misnumbered(TOP, header)))

    def test_what_numbers_say_in_c(self) -> None:
        code = naming.code_of(read_header(TOP / HEADER))
        self.assertIn('case 1:\n        return "NO_MEMORY";', code)
        self.assertIn('case 1:\n        return "no memory was found";', code)
        self.assertIn('case 570:\n        return "JOURNAL_MISMATCH";', code)

    def test_versions_that_the_vm_has_not(self) -> None:
        header = self.read(self.header.replace("PALQYTUN_MAXIMUM_VERSION = 8", "PALQYTUN_MAXIMUM_VERSION = 9"))
        self.assertIn("has the versions (5, 9), and the sources have (5, 8)", next(checks.misnumbered(TOP, header)))

    def test_a_status_without_a_text(self) -> None:
        header = self.read(self.header.replace("PALQYTUN_NO_ROW = 23", "PALQYTUN_NO_ROW = 23,\n    PALQYTUN_NO_LUCK = 99"))
        with self.assertRaisesRegex(Refused, "no text, or are none: NO_LUCK"):
            words.statuses(header)

    def test_each_case_has_its_word(self) -> None:
        found = {it.name: it.cases for it in words.groups(read_header(TOP / HEADER))}
        self.assertEqual(found["ImplicitCancellation"][-2:], (("CallsAndSends", 3), ("Disabled", 4)))
        self.assertEqual(found["MessageType"][17], ("SleepCommand", 18))

    def test_what_cannot_be_read(self) -> None:
        with self.assertRaisesRegex(Refused, "an enumerator can't be read in 'A, B = 2'"):
            self.read("enum { A, B = 2 };")
        with self.assertRaisesRegex(Refused, "PALQYTUN_A stands twice"):
            self.read("enum { PALQYTUN_A = 1 };\nenum { PALQYTUN_A = 2 };")


class Changes(unittest.TestCase):
    OLD = "abi 1\nfunction f(int) -> int\nstruct s 0 int a\nnumber N 1\n"

    def test_an_addition_keeps_the_number(self) -> None:
        self.assertEqual(text.broken(self.OLD, self.OLD + "function g() -> int\nstruct t 0 int a\nnumber M 2\n"), [])

    def test_a_change_needs_another(self) -> None:
        for old, new, lost in (
            ("f(int)", "f(long)", ["function f(int) -> int"]),
            ("N 1", "N 2", ["number N 1"]),
            ("struct s 0 int a\n", "struct s 0 int a\nstruct s 1 int b\n", ["struct s 1 int b"]),
            ("number N 1\n", "", ["number N 1"]),
        ):
            changed = self.OLD.replace(old, new)
            self.assertEqual(text.broken(self.OLD, changed), lost)
            self.assertEqual(text.broken(self.OLD, changed.replace("abi 1", "abi 2")), [])


    def test_no_struct_of_the_header_grows(self) -> None:
        header = read_header(TOP / HEADER)
        before = text.text_of(header)
        for name, fields in header.structs.items():
            with self.subTest(struct=name):
                longer = replace(header, structs={**header.structs, name: [*fields, ("uint32_t", "more")]})
                self.assertEqual(text.broken(before, text.text_of(longer)), [f"struct {name} {len(fields)} uint32_t more"])


class History(unittest.TestCase):
    """The text may lose no line that it had in a commit, also if it was written by hand."""

    OLD = Changes.OLD

    def setUp(self) -> None:
        self.room = Path(self.enterContext(tempfile.TemporaryDirectory()))
        (self.room / "bindings").mkdir()

    def git(self, *words: str) -> None:
        subprocess.run(["git", "-c", "user.name=a", "-c", "user.email=a", "-c", "commit.gpgsign=false", *words], cwd=self.room, check=True, capture_output=True)

    def write(self, text_of_it: str) -> list[str]:
        (self.room / text.TEXT).write_text(text_of_it, encoding="utf-8")
        return list(checks.unsaid(self.room))

    def test_a_line_of_a_commit_stays(self) -> None:
        self.assertEqual(self.write(self.OLD), [])  # no history
        self.git("init", "-q")
        for said in (self.OLD, self.OLD + "number M 2\n"):
            self.assertEqual(self.write(said), [])
            self.git("add", "-A")
            self.git("commit", "-qm", "one")
        (said,) = self.write(self.OLD)
        self.assertTrue(said.endswith("but PALQYTUN_ABI is the same:\nnumber M 2"), said)
        self.assertEqual(len(self.write(self.OLD.replace("N 1", "N 2"))), 2)
        self.assertEqual(self.write(self.OLD.replace("abi 1", "abi 2").replace("N 1", "N 2")), [])

    def test_the_repository(self) -> None:
        self.assertEqual(list(checks.unsaid(TOP)), [])


class Races(unittest.TestCase):
    def test_each_call_of_a_handle_races(self) -> None:
        """bindings/misuse.c has each function that takes a handle, as a macro's argument or as it is."""
        code = (TOP / "bindings/misuse.c").read_text(encoding="utf-8")
        raced = set(re.findall(r"return palqytun_(\w+)\(shared", code)) | set(re.findall(r"\b(?:PLAIN|TYPED|STORED)\((\w+)", code))
        header = read_header(TOP / HEADER)
        taking = {it.name.removeprefix("palqytun_") for it in header.functions.values() if it.parameters and it.parameters[0][0].endswith(("_vm *", "_journal *"))}
        self.assertEqual(taking - raced, set())
        rows = re.findall(r"\bdo_\w+", code[code.index("(*const calls[])") : code.index("enum { FEW")])
        self.assertEqual(len(rows), len(set(rows)))
        self.assertEqual(len(taking) + 1, len(rows) + 2)  # the table has one with a handle of another kind, and neither close, which race beside it


class Between(unittest.TestCase):
    def test_a_call_takes_lends_and_gives_back(self) -> None:
        (code,) = [between.calls([it]) for it in sources.exports(TOP) if it.name == "proved_complete_awakeable"]
        places = [code.index(it) for it in ("lend_bytes(&status, &id)", "lend_value(&status, value, &lent_value, &arrays)", "handle_take(&status, vm, A_VM)")]
        places += [code.rindex(it) for it in ("proved_complete_awakeable(held, id, &lent_value, unstable)", "handle_give(held)", "lend_end(&arrays)")]
        self.assertEqual(places, sorted(places))

    def test_a_call_writes_where_it_is_told(self) -> None:
        (code,) = [between.calls([it]) for it in sources.exports(TOP) if it.name == "proved_lend_output"]
        places = [code.index(it) for it in ("lend_out(&status, output)", "handle_take(&status, vm, A_VM)", "return status", "proved_lend_output(held, output)")]
        self.assertEqual(places, sorted(places))
        self.assertNotIn("lent_output", code)


if __name__ == "__main__":
    unittest.main()
