"""What a file was made of, so that it is made again only if that has changed."""

from __future__ import annotations

import hashlib
from collections.abc import Iterable
from pathlib import Path


def sum_of(top: Path, parts: Iterable[str | Path]) -> str:
    """A sum of these texts, and of the contents of these files and their places below the folder."""
    whole = hashlib.sha256()
    for it in parts:
        name, data = (f"{it.relative_to(top)}", it.read_bytes()) if isinstance(it, Path) else ("", it.encode())
        whole.update(f"{name} {len(data)}\n".encode() + data)
    return whole.hexdigest()


class Stamp:
    """The sum of what a file was made of, kept beside it."""

    def __init__(self, top: Path, made: Path, parts: Iterable[str | Path]) -> None:
        self.made, self.file, self.sum = made, made.with_name(f"{made.name}.stamp"), sum_of(top, parts)

    def is_current(self) -> bool:
        return self.made.is_file() and self.file.is_file() and self.file.read_text(encoding="utf-8") == self.sum

    def forget(self) -> None:
        self.file.unlink(missing_ok=True)

    def keep(self) -> None:
        self.file.write_text(self.sum, encoding="utf-8")
