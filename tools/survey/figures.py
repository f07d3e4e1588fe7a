"""The figures of the house: how many crates, ways, functions, copies and second names there are."""

from __future__ import annotations

import statistics
from collections.abc import Callable, Iterable
from dataclasses import asdict, dataclass
from functools import cached_property
from pathlib import Path

from .copies import LEAST, Copy, copies, repeated
from .families import FAMILIES, families, family_of, upward
from .imports import Named, Names, passed_on
from .listed import unnamed
from .places import Place, by_hand, crates_of, places, writers
from .rust import Function, functions
from .spellings import Name
from .tree import House
from .ways import chain, standing, ways

MOST_FUNCTIONS, MOST_LINES = 100, 40
# A command as it is there already: a new one of its kind touches the same files.
COMMAND = "PeekPromise"


@dataclass(frozen=True)
class Figure:
    """One figure: its name, its value, what is said beside it, and what it counts."""

    name: str
    value: int
    said: str = ""
    these: tuple[str, ...] = ()

    def as_json(self) -> dict[str, object]:
        return asdict(self)


class Survey:
    """A tree of the repository, with what is counted of it."""

    def __init__(self, house: House) -> None:
        self.house = house

    @cached_property
    def functions(self) -> list[tuple[str, Path, Function]]:
        """The functions of all crates' src that have a body."""
        return [(crate, path, it) for crate in self.house.crates for path, text in self.house.files(crate, "src").items() for it in functions(text)]

    @cached_property
    def lines(self) -> dict[str, int]:
        """How many lines each crate has in its src, specs and proofs."""
        house = self.house
        files = {it: house.files(it, "src") | house.files(it, "specs", "proofs", suffix=".antt") for it in house.crates}
        return {crate: sum(text.count("\n") for text in these.values()) for crate, these in files.items()}

    @cached_property
    def names(self) -> Names:
        return Names(self.house)

    @cached_property
    def second(self) -> list[Named]:
        return [it for it in self.names.named if it.is_second()]

    @cached_property
    def passed_on(self) -> list[tuple[str, str, str]]:
        return list(passed_on(self.house, self.names))

    @cached_property
    def copies(self) -> list[Copy]:
        return copies(self.house)

    @cached_property
    def touched(self) -> list[Place]:
        return places(self.house, [Name(COMMAND)])

    def figures(self) -> list[Figure]:
        made: tuple[Callable[[], Iterable[Figure]], ...] = (self.of_crates, self.of_chains, self.of_order, self.of_functions, self.of_copies, self.of_imports)
        return [figure for make in made for figure in make()]

    def of_crates(self) -> Iterable[Figure]:
        crates, members = self.house.crates, families(self.house)
        programs = [it for it in crates if self.house.is_program(it)]
        yield Figure("crates", len(crates), f"{len(programs)} programs, {len(members['test'])} of tests")
        yield Figure("lines of dependency", sum(len(it.below) for it in crates.values()), "libraries of the repository on the lines of crates.txt")
        unused = unnamed(self.house)
        yield Figure("unnamed libraries", len(unused), "words of crates.txt that no file of the crate names", tuple(f"{one}: {it}" for one, it in unused))

    def of_chains(self) -> Iterable[Figure]:
        found = ways(self.house.crates)
        engines = sum(found[it] for it in standing(self.house.crates, [it for it in found if family_of(it).name == "engine"]))
        yield Figure("ways", sum(found.values()), "down through crates.txt, each from each crate")
        yield Figure("ways without the engine's", sum(found.values()) - engines, "from crates that are not of the engine and don't depend on it")
        longest = chain(self.house.crates, lambda _: 1)
        yield Figure("longest chain", len(longest), " ".join(longest))
        heaviest = chain(self.house.crates, self.lines.__getitem__)
        total = sum(self.lines.values())
        yield Figure("longest chain by lines", sum(self.lines[it] for it in heaviest), f"of {total:,}: {' '.join(heaviest)}")

    def of_order(self) -> Iterable[Figure]:
        """What of the families' order isn't kept: two pillars over one protocol, and C beside text."""
        order = " ".join(it.name for it in FAMILIES)
        against = upward(self.house)
        yield Figure("lines against the order", len(against), f"of families: {order}", tuple(f"{one}: {it}" for one, it in against))
        for name, upper, lower in (("journals that name the VM", "store", "vm"), ("C that names lines", "c", "line")):
            pairs = [(one, it) for one, crate in self.house.crates.items() for it in crate.below if (family_of(one).name, family_of(it).name) == (upper, lower)]
            yield Figure(name, len(pairs), f"lines of dependency from {upper} to {lower}", tuple(f"{one}: {it}" for one, it in pairs))

    def of_functions(self) -> Iterable[Figure]:
        sizes = [it.lines for _, _, it in self.functions] or [0]
        above = sum(it > MOST_LINES // 2 for it in sizes)
        said = f"bodies: median {statistics.median(sizes):g} lines, mean {statistics.mean(sizes):.1f}, {above} above {MOST_LINES // 2}"
        counts = {crate: sum(it == crate for it, _, _ in self.functions) for crate in self.house.crates}
        yield Figure("functions", len(self.functions), said, tuple(f"{crate} {count}" for crate, count in counts.items()))
        large = sorted(((count, crate) for crate, count in counts.items() if count > MOST_FUNCTIONS), reverse=True)
        yield Figure("crates over 100 functions", len(large), "", tuple(f"{crate} {count}" for count, crate in large))
        long = sorted(((it.lines, f"{path}:{it.line}: {it.name}") for _, path, it in self.functions if it.lines > MOST_LINES), reverse=True)
        yield Figure("functions over 40 lines", len(long), "", tuple(f"{place}, {lines} lines" for lines, place in long))

    def of_copies(self) -> Iterable[Figure]:
        for name, suffix in (("copied lines of code", ".rt"), ("copied lines of specs and proofs", ".antt")):
            these = tuple(f"{it.lines} lines: {it.one} ~ {it.other}" for it in self.copies if it.other.path.suffix == suffix)
            yield Figure(name, repeated(self.copies, suffix), f"in runs of {LEAST} or more that stand in another crate too", these)

    def of_imports(self) -> Iterable[Figure]:
        items = {(it.home, it.item) for it in self.second}
        said = f"of {len(items)} items of {len({(it.home, it.item) for it in self.names.named})}, each by a crate that doesn't define it"
        yield Figure("imports by a second name", len(self.second), said, tuple(counted(f"{it.home}::{it.item} by {it.by}" for it in self.second)))
        passed = tuple(counted(f"{crate}: {home}" for crate, _, home in self.passed_on))
        yield Figure("items passed on", len(self.passed_on), "by crates that may not, in src, specs and proofs", passed)
        edited = by_hand(self.touched)
        yield Figure("files of a new command", len(edited), f"in {len(crates_of(edited))} crates, as tools/where {COMMAND} lists them")
        written = len(self.touched) - len(edited)
        yield Figure("files of it that commands write", written, f"by {', '.join(writers(self.touched))}" if written else "")


def counted(words: Iterable[str]) -> list[str]:
    """Returns words, each once with how often it comes, the most frequent first."""
    found: dict[str, int] = {}
    for word in words:
        found[word] = found.get(word, 0) + 1
    return [f"{word}: {count}" for word, count in sorted(found.items(), key=lambda it: (-it[1], it[0]))]
