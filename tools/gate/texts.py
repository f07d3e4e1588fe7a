"""Sums of what the prover reads of crates."""

from __future__ import annotations

import hashlib
from collections.abc import Iterable
from pathlib import Path

PARTS = ("src", "specs", "proofs", "c")


def sum_of_crate(folder: Path) -> str:
    """A sum of the files of a crate that the prover reads."""
    found = hashlib.sha256()
    for path in sorted(it for part in PARTS for it in (folder / part).rglob("*") if it.is_file()):
        found.update(repr((str(path.relative_to(folder)), path.read_bytes())).encode())
    return found.hexdigest()


def sum_of_crates(top: Path, names: Iterable[str]) -> str:
    """A sum of the texts of some crates."""
    return hashlib.sha256(repr([(it, sum_of_crate(top / "crates" / it)) for it in sorted(names)]).encode()).hexdigest()
