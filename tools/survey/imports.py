"""The rule of import: an item is imported from the crate that defines it. Only PASSERS pass on what others define."""

from __future__ import annotations

import re
from collections.abc import Iterator
from dataclasses import dataclass
from functools import cached_property
from pathlib import Path

from .rust import Use, code_of, uses
from .tree import House

# The crates that pass on what others define: the layer of messages under one name, and the front door.
PASSERS = {"journal_protocol", "palqytun"}
INLINE = re.compile(r"(?<![\w:])(?P<path>[a-z]\w*(?:::\w+)+)")
# A path of Rust: the crate, its modules, the item.
Words = tuple[str, ...]
SPECS = re.compile(r"^(?:unfoldable )?pub use Rattle\.(?P<crate>\w+)\.", re.MULTILINE)


@dataclass(frozen=True)
class Named:
    """An item as a crate names it: by which crate's name, and which crate defines it."""

    item: str
    by: str
    home: str
    user: str

    def is_second(self) -> bool:
        """Says whether the crate by whose name it is imported neither defines it nor is one that passes on."""
        return self.by != self.home and self.by not in PASSERS


class Names:
    """What the modules of a tree's crates define and pass on."""

    def __init__(self, house: House) -> None:
        self.house = house
        self.passed: dict[Words, dict[str, Words]] = {}
        for crate in house.crates:
            for path, text in house.files(crate, "src").items():
                module = (crate, *module_of(path))
                self.passed[module] = {it.name: self.absolute(module, it.path) for it in uses(text) if it.passes}

    def absolute(self, module: Words, path: Words) -> Words:
        """Returns a path with its crate in front; it stands in a module."""
        if path[0] == "crate":
            return module[0], *path[1:]
        if path[0] in {"self", "super"}:
            return *module[: len(module) - (path[0] == "super")], *path[1:]
        return (*module, *path) if self.is_module((*module, path[0])) else path

    def is_module(self, module: Words) -> bool:
        crate, *rest = module
        return Path("crates", crate, "src", *rest).with_suffix(".rt") in self.house.texts

    def home(self, path: Words) -> str:
        """Returns the crate that defines what a path names: one of the repository, or of the kit."""
        for _ in range(9):
            if path[0] not in self.house.crates:
                return path[0]
            most = self.depth(path)
            passed = self.passed.get(path[:most], {})
            if most == len(path) or path[most] not in passed:
                return path[0]
            path = passed[path[most]] + path[most + 1 :]
        return path[0]

    @cached_property
    def named(self) -> list[Named]:
        """What each crate imports of others of the repository, once for each crate and name."""
        found = {it: None for crate in self.house.crates for it in self.named_in(crate)}
        return list(found)

    def named_in(self, crate: str) -> Iterator[Named]:
        for path, text in self.house.files(crate, "src").items():
            module = (crate, *module_of(path))
            for full in (self.absolute(module, it) for it in paths(text)):
                if full[0] != crate and full[0] in self.house.crates and len(full) > 1:
                    yield Named(self.item(full), full[0], self.home(full), crate)

    def item(self, path: Words) -> str:
        """Returns the name of the item that a path ends with, or of the one of which it names a part."""
        return path[min(self.depth(path), len(path) - 1)]

    def depth(self, path: Words) -> int:
        """Returns how many of a path's words name a module."""
        return max((at for at in range(1, len(path) + 1) if path[:at] in self.passed), default=1)


def module_of(path: Path) -> Words:
    """Returns the module of a file in a crate's src."""
    parts = path.with_suffix("").parts[3:]
    return () if parts in {("lib",), ("main",)} else parts


def paths(text: str) -> Iterator[Words]:
    """Yields the paths that a source names, by `use` or where it uses them."""
    yield from (it.path for it in uses(text))
    code = re.sub(r"\buse\b[^;]*;", " ", code_of(text))
    yield from (tuple(it["path"].split("::")) for it in INLINE.finditer(code))


def passed_on(house: House, names: Names) -> Iterator[tuple[str, str, str]]:
    """Yields what a crate passes on that it doesn't define, though it may not: the crate, the item, and the crate that defines it. Files of
    specs and proofs are counted by the lines that pass on."""
    for (crate, *_), passed in names.passed.items():
        for name, path in passed.items():
            if crate not in PASSERS and names.home(path) != crate:
                yield crate, name, names.home(path)
    for crate in sorted(house.crates.keys() - PASSERS):
        for file, text in house.files(crate, "specs", "proofs", suffix=".antt").items():
            for match in SPECS.finditer(text):
                if match["crate"] != crate:
                    yield crate, f"{file.parts[2]}/{file.stem}", match["crate"]
