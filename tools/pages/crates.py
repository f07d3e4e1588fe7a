"""The crates that a page has its reader write, as they stand when the page first runs their tests."""

from __future__ import annotations

import re
from pathlib import Path

from tools.kit.crates import Crate

from .blocks import Command, File, read, without_remark

ROW = re.compile(r"echo '(\w+): ([\w ]+)' >>crates\.txt")
ENTERED = re.compile(r"cd crates/(\w+)")
TRIED = "rt try --test"


def tried(text: str, folder: Path) -> list[Crate]:
    """Writes each crate whose tests this page runs into the folder, as it stands then, with the libraries of its row of crates.txt."""
    files: dict[str, str] = {}
    rows: dict[str, tuple[str, ...]] = {}
    found: dict[str, Crate] = {}
    inside = ""
    for it in read(text.splitlines()):
        if isinstance(it, File):
            files[it.names["file"]] = "\n".join(it.lines) + "\n"
        elif isinstance(it, Command):
            words = without_remark(it.words)
            if row := ROW.fullmatch(words):
                rows[row[1]] = tuple(row[2].split())
            elif into := ENTERED.fullmatch(words):
                inside = into[1]
            elif words == TRIED and inside in rows and inside not in found:
                found[inside] = _written(inside, rows[inside], files, folder)
    return list(found.values())


def _written(name: str, uses: tuple[str, ...], files: dict[str, str], folder: Path) -> Crate:
    for file, text in files.items():
        if file.startswith(f"crates/{name}/src/"):
            place = folder / file
            place.parent.mkdir(parents=True, exist_ok=True)
            place.write_text(text, encoding="utf-8")
    return Crate(name, uses, folder / "crates" / name)
