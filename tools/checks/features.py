"""Tests that pages name: each is in the file that stands before it. Each row of docs/FEATURES.md that says something is there names one."""

from __future__ import annotations

import re
from collections.abc import Iterator
from pathlib import Path

PAGE = "docs/FEATURES.md"
NAMED = re.compile(r"\[test_\w+\]\(([^)#]+\.py)\): (`test_\w+`(?:, `test_\w+`)*)")
STATES = ("there", "in part", "not there")
ENDS = re.compile(r"[;:, ]|$")


def wrong(folder: Path, line: str) -> Iterator[str | None]:
    """Yields what is wrong with each test that a line of a page in this folder names, or nothing if it is there."""
    for file, names in NAMED.findall(line):
        path = folder / file
        text = path.read_text(encoding="utf-8") if path.is_file() else ""
        for name in re.findall(r"test_\w+", names):
            yield None if f"def {name}(" in text else f"there is no {name} in {file}"


def wrong_row(line: str) -> str | None:
    """What is wrong with a row of the table of features: its state is a known one, and what is there is shown by a test."""
    cells = [it.strip() for it in line.strip().strip("|").split(" | ")]
    state = cells[1] if len(cells) > 1 else ""
    known = next((it for it in STATES if state.startswith(it) and ENDS.match(state[len(it) :])), None)
    if known is None:
        return f"the state {state!r} begins with none of {', '.join(STATES)}"
    is_shown = len(cells) > 2 and NAMED.search(cells[2]) is not None
    return None if is_shown or known == "not there" else f"no test shows {cells[0]!r}"


def rows(lines: list[str]) -> Iterator[tuple[int, str]]:
    """The rows of tables with the columns Feature, State and what shows it, with their numbers."""
    is_table = False
    for at, line in enumerate(lines, 1):
        if line.startswith("| Feature | State |"):
            is_table = True
        elif not line.startswith("|"):
            is_table = False
        elif is_table and not line.startswith("|---"):
            yield at, line


def check(root: Path, name: str, lines: list[str]) -> Iterator[tuple[str, str | None]]:
    """Yields for each test that a page names, and for each row of the table of features, its place and what is wrong with it."""
    for at, line in enumerate(lines, 1):
        for it in wrong((root / name).parent, line):
            yield f"{name}:{at}", it
    if name == PAGE:
        for at, line in rows(lines):
            yield f"{name}:{at}", wrong_row(line)
