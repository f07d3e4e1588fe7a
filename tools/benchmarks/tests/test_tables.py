"""The tables, and how they come into the page."""

import unittest

from tools.benchmarks import tables
from tools.benchmarks.building import TOP
from tools.benchmarks.cases import Case
from tools.benchmarks.measuring import Point, Row, Setting
from tools.kit.errors import Refused

ON, OFF = Setting(True), Setting(False)
LONG, SHORT = Case("sleeps", ""), Case("megabytes_out", "", most=100)


def row(case: Case, size: int, here: float, original: float | None, setting: Setting = ON) -> Row:
    figures = {"here": {"ns": here}, **({} if original is None else {"original": {"ns": original}})}
    return Row(Point(case, size, setting), figures)


class Cells(unittest.TestCase):
    def test_cells(self) -> None:
        self.assertEqual(tables.cell(row(LONG, 5, 7424.4, 6937.4), "ns"), "7,424 / 6,937 = 1.07")
        self.assertEqual(tables.cell(row(LONG, 5, 4.25, 8.5), "ns"), "4.2 / 8.5 = 0.50")
        self.assertEqual(tables.cell(row(LONG, 5, 231, 0), "ns"), "231 / 0")
        self.assertEqual(tables.cell(row(LONG, 5, 231, 0.1), "ns"), "231 / 0.1")
        self.assertEqual(tables.cell(row(LONG, 5, 2_000_000, 1_000), "ns"), "2,000,000 / 1,000 = 2,000")
        self.assertEqual(tables.cell(row(LONG, 5, 231, None), "ns"), "231")
        self.assertEqual(tables.cell(row(LONG, 5, 4452, 2_283_100), "ns"), "4,452 / 2,283,100 = 0.002")
        self.assertEqual(tables.cell(row(LONG, 5, 1, 1), "peak"), "")
        self.assertEqual(tables.cell(None, "ns"), "")

    def test_a_line(self) -> None:
        self.assertEqual(tables.line(row(LONG, 10_000, 10, 20, OFF), "ns"), "sleeps           10,000  off  10 / 20 = 0.50")


class Tables(unittest.TestCase):
    def test_a_table(self) -> None:
        rows = [row(LONG, 5, 10, 20), row(LONG, 10_000, 30, 20), row(SHORT, 5, 50, 100), row(SHORT, 100, 60, 100), row(LONG, 5, 1, 1, OFF)]
        wanted = [
            "| Case | 5 | 10,000 |",
            "|---|---|---|",
            "| `sleeps` | 10 / 20 = 0.50 | 30 / 20 = 1.50 |",
            "| `megabytes_out` | 50 / 100 = 0.50 | 60 / 100 = 0.60 (at 100) |",
        ]
        self.assertEqual(tables.table(rows, "ns", ON).splitlines(), wanted)

    def test_a_section(self) -> None:
        measure = tables.Measure("time", "ns", "Time", "Nanoseconds.")
        said = tables.section(measure, [row(LONG, 5, 10, 20), row(LONG, 5, 1, 2, OFF)], "Measured today.")
        self.assertEqual(
            [it for it in said.splitlines() if it and not it.startswith("|")],
            ["### Time", "Nanoseconds. Measured today.", "With default options:", "With cancellation off:"],
        )


class Targets(unittest.TestCase):
    """Ratios beside their targets."""

    def row(self, case: Case, size: int, here: float, setting: Setting = ON) -> Row:
        return Row(Point(case, size, setting), {"here": {"instructions": here}, "original": {"instructions": 1000}})

    def test_targets(self) -> None:
        sleeps, attempts = Case("sleeps", "", target=0.45), Case("attempts", "", target=0.6, apart=True)
        rows = [self.row(sleeps, 5, 800), self.row(sleeps, 10_000, 650), self.row(sleeps, 10_000, 1, OFF)]
        rows += [self.row(attempts, 5, 900), self.row(attempts, 10_000, 600), self.row(LONG, 5, 1)]
        wanted = [
            "| Case | 10,000 | too many | 5 | too many |",
            "|---|---|---|---|---|",
            "| `sleeps` | 0.65 of 0.45 | 200 | 0.80 of 0.80 | met |",
            "| `attempts` | 0.60 of 0.60 | met |  |  |",
        ]
        self.assertEqual(tables.targets(rows).splitlines(), wanted)

    def test_sizes(self) -> None:
        short, calls = Case("megabytes_out", "", most=100, target=1.0, apart=True), Case("calls_10k", "", most=10_000, target=0.85)
        self.assertEqual([short.target_at(it) for it in (5, 100)], [1.0, 1.0])
        self.assertEqual([calls.target_at(it) for it in (5, 100, 10_000)], [0.8, None, 0.85])
        self.assertIsNone(LONG.target_at(5))


class Pages(unittest.TestCase):
    def test_a_page(self) -> None:
        first, last = tables.marks("heap")
        page = f"# Page\n\n{first}\n\nold\n\n{last}\n\nend\n"
        self.assertEqual(tables.replaced(page, "heap", "new"), page.replace("old", "new"))

    def test_a_page_without_marks(self) -> None:
        with self.assertRaisesRegex(Refused, "the page needs the line '<!-- tools/bench core --measure heap -->'"):
            tables.replaced("# Page\n", "heap", "new")

    def test_the_page_has_all_marks(self) -> None:
        page = (TOP / "docs/BENCHMARKS.md").read_text(encoding="utf-8")
        for it in tables.MEASURES:
            self.assertIn("x", tables.replaced(page, it.name, "x"))


if __name__ == "__main__":
    unittest.main()
