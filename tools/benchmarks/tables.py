"""The tables of what was measured: as lines while it goes on, and in docs/BENCHMARKS.md."""

from __future__ import annotations

from collections import Counter
from dataclasses import dataclass
from pathlib import Path

from tools.kit.errors import Refused

from .cases import LONG, SHORT
from .measuring import Row, Setting
from .profiling import COLUMNS, LAYERS, Profile


@dataclass(frozen=True)
class Measure:
    """What a table shows: its name in commands, the figure of a row, its heading and what it is."""

    name: str
    figure: str
    heading: str
    about: str


def number(value: float) -> str:
    """A figure as the tables show it: whole from 10 on, and else with one digit after the point."""
    return f"{value:,.0f}" if value >= 10 or value == 0 else f"{value:.1f}"


def cell(row: Row | None, figure: str) -> str:
    """Here, the original, and the ratio; a side that wasn't measured is left out, and the ratio to less than one."""
    here = row.of("here", figure) if row else None
    if row is None or here is None:
        return ""
    original, ratio = row.of("original", figure), row.ratio(figure)
    if original is None:
        return number(here)
    shown = f"{number(here)} / {number(original)}"
    if ratio is None or original < 1:
        return shown
    return f"{shown} = {ratio:.3f}" if ratio < 0.1 else f"{shown} = {ratio:.2f}" if ratio < 100 else f"{shown} = {ratio:,.0f}"


def line(row: Row, figure: str) -> str:
    """A row while the measuring goes on."""
    return f"{row.point.case.name:<13} {row.point.size:>9,}  {row.point.setting.word:<3}  {cell(row, figure)}"


def table(rows: list[Row], figure: str, setting: Setting) -> str:
    """A table of one setting: a line a case, a column a size. A case that goes no further than its most stands in the next column with that."""
    those = [it.point.case for it in rows if it.point.setting == setting]
    cases = list(dict.fromkeys(those))
    found = {(it.point.case, it.point.size): it for it in rows if it.point.setting == setting}
    sizes = sorted({size for case, size in found if size != case.most}) or sorted({size for _, size in found})
    lines = ["| Case | " + " | ".join(f"{it:,}" for it in sizes) + " |", "|---" * (len(sizes) + 1) + "|"]
    for case in cases:
        cells = [cell(found.get((case, size)), figure) for size in sizes]
        most = found.get((case, case.most))
        if most is not None and case.most not in sizes:
            at = sum(it < case.most for it in sizes)
            cells[at : at + 1] = [f"{cell(most, figure)} (at {case.most:,})"]
        lines.append(f"| `{case.name}` | {' | '.join(cells)} |")
    return "\n".join(lines)


def against(row: Row | None) -> str:
    """A ratio of instructions beside its target: that it is met, or how many instructions of an entry are too many."""
    ratio = row.ratio("instructions") if row else None
    target = row.point.case.target_at(row.point.size) if row else None
    here, original = (row.of("here", "instructions"), row.of("original", "instructions")) if row else (None, None)
    if ratio is None or target is None or here is None or original is None:
        return " | "
    return f"{ratio:.2f} of {target:.2f} | {'met' if ratio <= target else number(here - target * original)}"


def targets(rows: list[Row]) -> str:
    """The ratios that have a target, with default options: a line a case, a column for long cases and one for short ones."""
    those = [it for it in rows if it.point.setting.cancels and it.point.case.target is not None]
    lines = [f"| Case | {LONG:,} | too many | {SHORT} | too many |", "|---|---|---|---|---|"]
    for case in dict.fromkeys(it.point.case for it in those):
        found = {it.point.size: it for it in those if it.point.case == case}
        long, short = found.get(min(LONG, case.most)), None if case.apart else found.get(SHORT)
        lines.append(f"| `{case.name}` | {against(long)} | {against(short)} |")
    return "\n".join(lines)


def targets_section(rows: list[Row]) -> str:
    about = "The ratios of the tables above with default options, of those that are wanted at most, and how many instructions of an entry are too many."
    return "\n\n".join(["### Targets", about, targets(rows)])


def layers(profiles: list[Profile], side: str) -> str:
    """Where the instructions of a side go: a line a case, a column a layer."""
    columns = COLUMNS[side]
    lines = [f"| Case | all | {' | '.join(columns)} |", "|---" * (len(columns) + 2) + "|"]
    for it in profiles:
        if it.side == side:
            lines.append(f"| `{it.point.case.name}` | {it.all:,.0f} | {' | '.join(f'{it.layers[name]:,.0f}' for name in columns)} |")
    return "\n".join(lines)


def named(taken: Counter[str], least: float) -> str:
    """Those of at least so many instructions, at most six."""
    return ", ".join(f"`{name}` {number:,.0f}" for name, number in taken.most_common(6) if number >= least)


def calls(profiles: list[Profile]) -> str:
    """The calls of both sides that take most: a line a case."""
    sides = [side for side in LAYERS if any(it.side == side for it in profiles)]
    lines = [f"| Case | {' | '.join(sides)} |", "|---" * (len(sides) + 1) + "|"]
    for case in dict.fromkeys(it.point.case.name for it in profiles):
        found = {it.side: named(it.calls, it.all / 50) for it in profiles if it.point.case.name == case}
        lines.append(f"| `{case}` | {' | '.join(found.get(side, '') for side in sides)} |")
    return "\n".join(lines)


def functions(profiles: list[Profile], side: str) -> str:
    """The functions of a side that take most without what they call: a line a case."""
    lines = ["| Case | Functions |", "|---|---|"]
    lines += [f"| `{it.point.case.name}` | {named(it.functions, it.all / 50)} |" for it in profiles if it.side == side]
    return "\n".join(lines)


OTHERS = (
    "*library*: what is in no other column, of the kit or of Rust; *zeros*: what sets memory to zero, in all functions but the player's, and in no other"
    " column; *player*: the program that makes the calls"
)


def profile(profiles: list[Profile], remark: str) -> str:
    """What the page has of profiles."""
    what = "; ".join(f"*{it.name}*: {it.what}" for it in LAYERS["here"])
    parts = ["### Where the instructions go", f"Instructions for an entry, with default options. {remark}", f"Columns: {what}; {OTHERS}."]
    for side, heading in (("here", "Here:"), ("original", "The original:")):
        if any(it.side == side for it in profiles):
            parts += [heading, layers(profiles, side)]
    parts += ["Calls, each with all that it calls:", calls(profiles)]
    return "\n\n".join([*parts, "Functions here that take most, each without what it calls, and with what it sets to zero:", functions(profiles, "here")])


def section(measure: Measure, rows: list[Row], remark: str) -> str:
    """What the page has of a measure: when and on what it was measured, and a table a setting."""
    parts = [f"### {measure.heading}", f"{measure.about} {remark}"]
    for setting in dict.fromkeys(it.point.setting for it in rows):
        parts += [f"With {setting}:", table(rows, measure.figure, setting)]
    return "\n\n".join(parts)


def marks(name: str) -> tuple[str, str]:
    """The lines between which the page has a section."""
    return f"<!-- tools/bench core --measure {name} -->", f"<!-- end of {name} -->"


def replaced(page: str, name: str, text: str) -> str:
    """A page with a section anew."""
    first, last = marks(name)
    if page.count(first) != 1 or page.count(last) != 1 or page.index(first) > page.index(last):
        raise Refused(f"the page needs the line {first!r}, and after it the line {last!r}")
    before, after = page.split(first)[0], page.split(last)[1]
    return f"{before}{first}\n\n{text}\n\n{last}{after}"


def write(page: Path, name: str, text: str) -> None:
    page.write_text(replaced(page.read_text(encoding="utf-8"), name, text), encoding="utf-8")


MEASURES: tuple[Measure, ...] = (
    Measure("instructions", "instructions", "Instructions", "Instructions for an entry, as callgrind counts them."),
    Measure("heap", "peak", "Heap", "The most bytes that the heap had more than before the VM was made."),
    Measure("allocations", "allocations", "Allocations", "Allocations for an entry, counted in the same runs as the heap."),
    Measure("copies", "copied", "Copies", "Bytes that memcpy and memmove copy for an entry, counted in the same runs as the heap."),
    Measure("time", "ns", "Time", "Nanoseconds for an entry, the least of alternating runs. Other work disturbs runs of more than some milliseconds, as those of many megabytes."),
)
