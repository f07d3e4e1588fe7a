"""The ways down through crates.txt, and its longest chains."""

from __future__ import annotations

from collections.abc import Callable, Iterable, Mapping

from .tree import Crate


def ways(crates: Mapping[str, Crate]) -> dict[str, int]:
    """Returns how many ways there are down from each crate, as `rt` follows them: one to the crate itself, and one for each way down from
    each crate that it names. The crates come bottom up."""
    found: dict[str, int] = {}
    for name, crate in crates.items():
        found[name] = 1 + sum(found[it] for it in crate.below)
    return found


def standing(crates: Mapping[str, Crate], on: Iterable[str]) -> set[str]:
    """Returns these crates, and those that depend on one of them. The crates come bottom up."""
    found = set(on)
    for name, crate in crates.items():
        if not found.isdisjoint(crate.below):
            found.add(name)
    return found


def chain(crates: Mapping[str, Crate], weight: Callable[[str], int]) -> list[str]:
    """Returns the chain of crates, each on the one before, that weighs most. The crates come bottom up."""
    total: dict[str, int] = {}
    before: dict[str, str | None] = {}
    for name, crate in crates.items():
        best = max(crate.below, key=total.__getitem__, default=None)
        total[name] = weight(name) + (total[best] if best else 0)
        before[name] = best
    at = max(total, key=total.__getitem__, default=None)
    found: list[str] = []
    while at is not None:
        found.append(at)
        at = before[at]
    return found[::-1]
