"""The folder in which ./prove has rt ci prove the repository: every crate, except the crates of tests and the bench, which promise nothing. They
run in ./test without a proof, and the night run proves them.

usage: python3 -m tools.gate.tree take      hands what rt ci has built there to crates/NAME/out, and removes the folder
"""

from __future__ import annotations

import os
import shutil
import sys
from collections.abc import Iterable, Mapping
from pathlib import Path

from .environment import TOP
from .proofs import Crate, read_crates
from .texts import sum_of_crates

STAMP = "rlib/stamp"  # of out/: that a crate's author has built this library, so it stays
TEXT = "out/rlib/text"  # a sum of the texts by which the library beside it was proved
NOT_COPIED = ("out", "wrong-bodies")
BENCHES = ("vmbench",)


def place(top: Path = TOP, name: str = "prove") -> Path:
    """Where a folder of this name is: beside what git and rt ci keep, since rt ci wants no second crates.txt among the repository's files."""
    git = top / ".git"
    return git / name if git.is_dir() and os.access(git, os.W_OK) else top / "out/prove" / name


def below(crates: Mapping[str, Crate], names: Iterable[str]) -> set[str]:
    """Some crates, and all that they stand on."""
    found, more = set[str](), set(names)
    while more := more - found:
        found |= more
        more = {low for it in more for low in crates[it].below}
    return found


def promises_nothing(name: str) -> bool:
    """Whether a crate only tests or measures."""
    return name.startswith("test_") or name in BENCHES


def promising(crates: Mapping[str, Crate]) -> list[str]:
    """Every crate except those of tests and the bench, as far as no other crate stands on these."""
    wanted = below(crates, (it for it in crates if not promises_nothing(it)))
    return [it for it in crates if it in wanted]


def rows(top: Path, names: Iterable[str]) -> str:
    """The lines of crates.txt for some crates."""
    wanted = set(names)
    lines = (top / "crates.txt").read_text(encoding="utf-8").splitlines()
    return "".join(f"{it}\n" for it in lines if (words := it.partition(":")[0].split()) and words[0] in wanted)


def make(top: Path, tree: Path, names: Iterable[str], *, but: Iterable[str] = ()) -> None:
    """Copies these crates, without what was built and without folders of these names, to a folder that rt takes for a repository."""
    those = list(names)
    shutil.rmtree(tree, ignore_errors=True)
    (tree / ".git").mkdir(parents=True)
    (tree / "crates.txt").write_text(rows(top, those), encoding="utf-8")
    shutil.copy(top / "HANDLES", tree)
    for it in those:
        shutil.copytree(top / "crates" / it, tree / "crates" / it, ignore=shutil.ignore_patterns(*NOT_COPIED, *but))


def take(tree: Path, top: Path) -> int:
    """Moves what was built to the crates of the repository, each library with the sum of the texts that it is proved by, and removes the folder.
    Returns of how many crates."""
    crates = read_crates(tree, ())
    found = sorted((tree / "crates").glob("*/out"))
    for out in found:
        name = out.parent.name
        if (out / "rlib").is_dir():
            (out.parent / TEXT).write_text(sum_of_crates(tree, below(crates, [name])), encoding="ascii")
        into = top / "crates" / name / "out"
        into.mkdir(exist_ok=True)
        for it in sorted(out.iterdir()):
            if it.name != "rlib" or not (into / STAMP).is_file():
                _move(it, into / it.name)
    shutil.rmtree(tree)
    return len(found)


def _move(one: Path, to: Path) -> None:
    """Moves a file or folder into the place of another."""
    shutil.rmtree(to) if to.is_dir() else to.unlink(missing_ok=True)
    shutil.move(one, to)


def main(words: list[str]) -> int:
    if words != ["take"]:
        print(__doc__, file=sys.stderr)
        return 2
    many = take(place(), TOP)
    print(f"what rt ci has built of {many} crates is in crates/NAME/out")
    return 0 if many else 1


if __name__ == "__main__":
    sys.exit(main(sys.argv[1:]))
