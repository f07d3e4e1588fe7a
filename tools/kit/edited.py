"""A program with edits, which is lowered and compiled beside the one without them. The libraries that the edits change, and those between them and the
program, are copied under names of their own. All else is lowered once for both."""

from __future__ import annotations

import re
from collections.abc import Iterable, Iterator
from dataclasses import dataclass
from pathlib import Path

from .crates import Crate, Crates
from .errors import Refused

TOP = Path(__file__).resolve().parents[2]
PROGRAM = "vmengine"
FOLDER = TOP / "tools/engine_simulation/wrong"
"""The program that is edited, and the files of its edits: faults, each of which the simulation of engines has to find."""
CHANGE = re.compile(r"^<<<<\n(.*?)^====\n(.*?)^>>>>\n", re.M | re.S)
PLACE = re.compile(r"crates/(\w+)/src/.+")


@dataclass(frozen=True)
class Edit:
    """An edit: its number, what it does, and the changes of each file."""

    number: int
    what: str
    changes: tuple[tuple[str, str, str], ...]

    def apply(self, texts: dict[str, str]) -> None:
        """Changes the texts of files. Each that it names has to be there, with what is to be replaced once."""
        for name, old, new in self.changes:
            if (count := texts.get(name, "").count(old)) != 1:
                raise Refused(f"{self.number:02}: {name} has {count} times what is to be replaced: {old!r}")
            texts[name] = texts[name].replace(old, new)


def _changes_of(text: str) -> Iterator[tuple[str, str, str]]:
    for part in text.split("\nfile: ")[1:]:
        name, _, rest = part.partition("\n")
        for old, new in CHANGE.findall(rest):
            yield name, _without_end(old), _without_end(new)


def _without_end(text: str) -> str:
    """A part of a line stands alone in its line: a text that is replaced is without its last end of a line."""
    return text.removesuffix("\n")


def files() -> list[Path]:
    return sorted(FOLDER.glob("*.edit"))


def edits() -> list[Edit]:
    found = []
    for path in files():
        text = path.read_text(encoding="utf-8")
        found.append(Edit(int(path.name[:2]), text.splitlines()[0], tuple(_changes_of(text))))
    return found


def name_of(crate: str) -> str:
    """The name of a crate's copy."""
    return f"edited_{crate}"


def copied(crates: Crates, those: Iterable[Edit]) -> list[Crate]:
    """The crates that are copied for these edits: those that one of them changes, and what stands between these and the program, with the program."""
    names = {found[1] for it in those for name, _, _ in it.changes if (found := PLACE.fullmatch(name))}
    copies = []
    for it in crates.below([PROGRAM]):
        if it.name in names or names.intersection(it.uses):
            names.add(it.name)
            copies.append(it)
    return copies


def write_edited(crates: Crates, those: list[Edit], folder: Path) -> list[Crate]:
    """Writes the copies with all edits into a folder, and returns them. A path that begins with the name of a crate that is copied leads to its copy."""
    originals = copied(crates, those)
    texts = {_place(it, file): file.read_text(encoding="utf-8") for it in originals for file in it.sources()}
    for edit in those:
        edit.apply(texts)
    names = {it.name: name_of(it.name) for it in originals}
    path = re.compile(rf"(?<![\w:])({'|'.join(names)})::")
    for it in originals:
        for file in it.sources():
            place = folder / names[it.name] / file.relative_to(it.folder)
            place.parent.mkdir(parents=True, exist_ok=True)
            place.write_text(path.sub(lambda found: f"{names[found[1]]}::", texts[_place(it, file)]), encoding="utf-8")
    return [Crate(names[it.name], tuple(names.get(one, one) for one in it.uses), folder / names[it.name]) for it in originals]


def _place(crate: Crate, file: Path) -> str:
    """The name by which an edit has a file of a crate."""
    return f"crates/{crate.name}/{file.relative_to(crate.folder)}"
