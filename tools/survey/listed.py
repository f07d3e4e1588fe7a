"""The words of crates.txt's lines that no file of the crate names."""

from __future__ import annotations

import re

from .rust import code_of
from .tree import House

IN_CODE = re.compile(r"(?<![\w:])(\w+)::|\buse\s+(\w+)\b")
IN_SPECS = re.compile(r"\bRattle\.(\w+)\b")


def named(house: House, crate: str) -> set[str]:
    """Returns the libraries that a crate's files name, among other words."""
    found: set[str] = set()
    for text in house.files(crate, "src").values():
        found.update(word for pair in IN_CODE.findall(code_of(text)) for word in pair)
        found.update(IN_SPECS.findall(text))
    for text in house.files(crate, "specs", "proofs", suffix=".antt").values():
        found.update(IN_SPECS.findall(text))
    return found


def unnamed(house: House) -> list[tuple[str, str]]:
    """Returns each library on a crate's line that no file of the crate names, with the crate. A line has also the libraries whose types it
    has by another's name, so such a word isn't wrong by itself."""
    found = []
    for crate in house.crates.values():
        words = named(house, crate.name)
        found += [(crate.name, it) for it in (*crate.below, *crate.of_kit) if it not in words]
    return found
