"""How many locals each function of a built library has. The more it has, the longer the proof of its borrows takes. Nothing is proved for it."""

from __future__ import annotations

import json
from collections.abc import Iterable, Iterator
from dataclasses import dataclass
from pathlib import Path

from .crates import Crate
from .errors import Refused


@dataclass(frozen=True)
class Function:
    """A function, by its path, and how many locals the compiler gives it: parameters, variables, and what it holds between two steps."""

    path: str
    locals: int


def lowered(crate: Crate) -> Path:
    """Where the code of a crate's library stands, once ./prove or `rt lib` has made it."""
    return crate.folder / f"out/rlib/{crate.name}.rlib/toolchain/mir.json"


def functions(crates: Iterable[Crate]) -> list[Function]:
    """The functions of these crates that have a library, those with the most locals first. A program or a static library has none."""
    found = [it for crate in crates if lowered(crate).is_file() for it in _of(crate)]
    if not found:
        raise Refused("no library stands in crates/NAME/out/rlib: ./prove leaves one of each crate but programs and static libraries")
    return sorted(found, key=lambda it: (-it.locals, it.path))


def _of(crate: Crate) -> Iterator[Function]:
    for path, body in json.loads(lowered(crate).read_text(encoding="utf-8")):
        if path.startswith(f"{crate.name}::"):
            yield Function(path, len(body["locals"]))
