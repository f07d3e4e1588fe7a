"""Figures of the repository in its pages, which `tools/figures --write` writes: `<!-- figure NAME -->` and `<!-- -->` stand around each."""

from __future__ import annotations

import re
from collections.abc import Callable, Iterator
from pathlib import Path

MARKED = re.compile(r"(<!-- figure ([\w-]+) -->)(.*?)(<!-- -->)", re.DOTALL)
PAGES = ("*.md", "docs/**/*.md", "python/*.md", "tools/*.md")


def _lines(root: Path, pattern: str) -> int:
    """The lines of files that aren't blank."""
    return sum(bool(line.strip()) for file in root.glob(pattern) for line in file.read_text(encoding="utf-8").splitlines())


def _files(root: Path, pattern: str) -> int:
    return sum(1 for _ in root.glob(pattern))


FIGURES: dict[str, Callable[[Path], int]] = {
    "crates": lambda root: _files(root, "crates/*/src/lib.rt") + _files(root, "crates/*/src/main.rt"),
    "core-lines": lambda root: _lines(root, "crates/*/src/**/*.rt"),
    "definition-lines": lambda root: _lines(root, "crates/*/specs/**/*.antt"),
    "runtime-lines": lambda root: _lines(root, "python/src/palqytun/runtime/**/*.py"),
    "handle-lines": lambda root: sum(_lines(root, f"bindings/{it}.c") for it in ("handles", "lending")),
    "python-c-lines": lambda root: sum(_lines(root, f"python/extension/{it}.c") for it in ("vm", "glue", "module")),
    "must-fail": lambda root: _files(root, "crates/*/must-fail/*.edit"),
    "wrong-bodies": lambda root: _files(root, "crates/*/must-fail/*.edit") + _files(root, "crates/*/wrong-bodies/*.edit"),
}


def shown(root: Path, name: str) -> str:
    """A figure as a page shows it. Lines are rounded to two digits."""
    number = FIGURES[name](root)
    if name.endswith("-lines"):
        unit = 10 ** max(len(str(number)) - 2, 0)
        number = round(number / unit) * unit
    return f"{number:,}"


def holds(root: Path, name: str, said: str) -> bool:
    """Whether a page may show a figure so. Lines may have become a fifth more or less, so that a page doesn't change with each commit."""
    if not name.endswith("-lines"):
        return said == shown(root, name)
    number = int(said.replace(",", "")) if re.fullmatch(r"[\d,]+", said) else 0
    now = FIGURES[name](root)
    return abs(number - now) * 5 <= now


def written(root: Path, text: str) -> str:
    """A page with its figures as they are."""

    def one(it: re.Match[str]) -> str:
        is_stale = it[2] in FIGURES and not holds(root, it[2], it[3])
        return f"{it[1]}{shown(root, it[2])}{it[4]}" if is_stale else it[0]

    return MARKED.sub(one, text)


def _pages(root: Path) -> Iterator[Path]:
    for pattern in PAGES:
        yield from (it for it in sorted(root.glob(pattern)) if "<!-- figure " in it.read_text(encoding="utf-8"))


def write(root: Path) -> None:
    for page in _pages(root):
        page.write_text(written(root, page.read_text(encoding="utf-8")), encoding="utf-8")


def check(root: Path) -> Iterator[tuple[str, str | None]]:
    """Says of each figure in a page whether it is as the sources say."""
    for page in _pages(root):
        for at, line in enumerate(page.read_text(encoding="utf-8").splitlines(), 1):
            for it in MARKED.finditer(line):
                where, name = f"{page.relative_to(root)}:{at}", it[2]
                if name not in FIGURES:
                    yield where, f"there is no figure {name}: they are {', '.join(FIGURES)}"
                else:
                    wrong = f"the figure {name} is {shown(root, name)}, and not {it[3]}; write it by tools/figures --write"
                    yield where, None if holds(root, name, it[3]) else wrong
