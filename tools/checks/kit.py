#!/usr/bin/env python3
"""Compares the kit that is installed, and each kit that a page names, with the one in the file KIT.

usage: tools/checks/kit.py [FOLDER]. FOLDER is the repository by default.

Only the logic counts: a kit of another name with the same logic proves the same. README.md, CONTRIBUTING.md, docs/PROVED-HANDLERS.md and
docs/TOOLS.md have to name the logic; any other page of PAGES may.

What is wrong is printed, a line each. The last line is 'N passed, M failed'."""

from __future__ import annotations

import re
import shutil
import subprocess
import sys
from collections.abc import Iterator
from dataclasses import dataclass
from pathlib import Path

PAGES = ["README.md", "CONTRIBUTING.md", "docs/*.md", "python/README.md", "tools/README.md", "bindings/*"]
NAMING = ["README.md", "CONTRIBUTING.md", "docs/PROVED-HANDLERS.md", "docs/TOOLS.md"]

# A logic on a page: its sum may stand in backquotes, and on the next line.
NAMED = re.compile(r"\blogic[\s`>]+([0-9a-f]{16})\b")
# What `rt version` prints.
INSTALLED = re.compile(r"(\S+) logic ([0-9a-f]{16})")


@dataclass(frozen=True)
class Kit:
    """The logic that is wanted, and the kits that were tried."""

    logic: str
    tried: tuple[str, ...]

    @classmethod
    def read(cls, path: Path) -> Kit:
        """Reads the file KIT: a line 'logic SUM', lines 'tried NAME', and comments."""
        lines = path.read_text(encoding="utf-8").splitlines()
        words = [line.split() for line in lines if line.strip() and not line.startswith("#")]
        logics = [it[1] for it in words if len(it) == 2 and it[0] == "logic"]
        tried = tuple(it[1] for it in words if len(it) == 2 and it[0] == "tried")
        if len(logics) != 1 or not tried or len(words) != 1 + len(tried):
            raise ValueError(f"{path.name} has to have one line 'logic SUM', one or more lines 'tried NAME', and comments")
        return cls(logics[0], tried)

    def wanted(self) -> str:
        return f"wanted is one with logic {self.logic} ({', '.join(self.tried)} were tried)"


def logics_in(text: str) -> Iterator[tuple[int, str]]:
    """Yields each logic that a page names, with the number of its line."""
    return ((text.count("\n", 0, it.start(1)) + 1, it[1]) for it in NAMED.finditer(text))


def wrong_in_page(kit: Kit, name: str, text: str) -> list[str]:
    """Returns what is wrong with the logics that a page names."""
    found = list(logics_in(text))
    wrong = [f"{name}:{at}: it names a kit with logic {logic}; {kit.wanted()}" for at, logic in found if logic != kit.logic]
    if not found and name in NAMING:
        wrong.append(f"{name}:1: it names no logic; {kit.wanted()}")
    return wrong


def wrong_with_installed(kit: Kit, version: str) -> list[str]:
    """Returns what is wrong with the kit that is installed, by what `rt version` prints."""
    found = INSTALLED.fullmatch(version.strip())
    if found is None:
        return [f"KIT: `rt version` prints {version.strip()!r}, which names no kit and no logic; {kit.wanted()}"]
    name, logic = found.groups()
    return [] if logic == kit.logic else [f"KIT: the kit here is {name} with logic {logic}; {kit.wanted()}"]


def pages_below(root: Path) -> Iterator[tuple[str, str]]:
    """Yields each page that may name a kit, with its text."""
    for path in (path for pattern in PAGES for path in sorted(root.glob(pattern)) if path.is_file()):
        yield str(path.relative_to(root)), path.read_text(encoding="utf-8", errors="replace")


def check(root: Path, version: str) -> list[list[str]]:
    """Returns what is wrong, if anything is, of the kit that is installed and of each page that names a logic or has to."""
    kit = Kit.read(root / "KIT")
    pages = [(name, text) for name, text in pages_below(root) if name in NAMING or NAMED.search(text)]
    missing = [[f"{name}:1: there is no such page"] for name in NAMING if not (root / name).is_file()]
    return [wrong_with_installed(kit, version), *missing, *(wrong_in_page(kit, name, text) for name, text in pages)]


def installed_version(rt: str) -> str:
    return subprocess.run([rt, "version"], capture_output=True, text=True, check=False).stdout.strip()


def main(words: list[str]) -> int:
    root = Path(words[0] if words else Path(__file__).parents[2]).resolve()
    rt = shutil.which("rt")
    if rt is None:
        print(f"kit: the kit's command rt is not on the path; {Kit.read(root / 'KIT').wanted()}", "0 passed, 1 failed", sep="\n")
        return 1
    checks = check(root, installed_version(rt))
    wrong = [line for lines in checks for line in lines]
    print(*wrong, sep="\n", end="\n" if wrong else "")
    print(f"{sum(not lines for lines in checks)} passed, {len(wrong)} failed")
    return 1 if wrong else 0


if __name__ == "__main__":
    sys.exit(main(sys.argv[1:]))
