"""What the tests of a crate printed, kept for a page that shows it: they ran with those of all other crates, and needn't run a second time."""

from __future__ import annotations

import re
from collections.abc import Iterator
from pathlib import Path

from .crates import Crate, Crates
from .stamps import Stamp
from .toolchain import Kit

WELL = " ... ok"


def _parts(kit: Kit, crates: Crates, crate: Crate) -> Iterator[str | Path]:
    """What the result of a crate depends on: the kit, this code, the rows of crates.txt, and the sources. The crate itself may lie anywhere."""
    below = crates.below(crate.uses)
    yield kit.identity()
    yield from (it.read_text(encoding="utf-8") for it in sorted(Path(__file__).parent.glob("*.py")))
    for it in (*below, crate):
        yield f"{it.name}: {' '.join(it.uses)}"
    for it in below:
        yield from it.sources()
    for file in crate.sources():
        yield f"{file.relative_to(crate.folder)}\n{file.read_text(encoding='utf-8')}"


class Results:
    """The results in a folder."""

    def __init__(self, folder: Path, kit: Kit, crates: Crates) -> None:
        self.folder, self.kit, self.crates = folder, kit, crates

    def _stamp(self, crate: Crate) -> Stamp:
        return Stamp(self.crates.top, self.folder / crate.name, _parts(self.kit, self.crates, crate))

    def of(self, crate: Crate) -> str | None:
        """What the tests of this crate printed, if they ran on the same sources."""
        stamp = self._stamp(crate)
        return stamp.made.read_text(encoding="utf-8") if stamp.is_current() else None

    def keep(self, crate: Crate, lines: list[str]) -> None:
        """Keeps what its tests printed, of what those of several crates did, which are modules of one."""
        if (text := own(crate.name, lines)) is None:
            return
        self.folder.mkdir(parents=True, exist_ok=True)
        stamp = self._stamp(crate)
        stamp.forget()
        stamp.made.write_text(text, encoding="utf-8")
        stamp.keep()


def own(name: str, lines: list[str]) -> str | None:
    """What the tests of this crate would have printed alone; nothing if not all of them, or of the others, passed."""
    tests = [it for it in lines if it.startswith("test ") and not it.startswith("test result:")]
    mine = [it.replace(f"test {name}::", "test ", 1) for it in tests if it.startswith(f"test {name}::")]
    rest = [it for it in lines if it not in tests]
    if not mine or not all(it.endswith(WELL) for it in tests) or [it.partition(":")[0] for it in rest] != ["tests", "test result"]:
        return None
    first, last = (re.sub(rf"\b{len(tests)}\b", f"{len(mine)}", it) for it in rest)
    return "\n".join([first, *mine, last, ""])
