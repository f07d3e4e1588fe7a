"""The families of crates, bottom up: which there are, what each is for, and which crates belong to it."""

from __future__ import annotations

from dataclasses import dataclass
from fnmatch import fnmatchcase

from .tree import Fault, House


@dataclass(frozen=True)
class Family:
    """Crates of one subject. A crate belongs to the family that names it, or else to the last one with a pattern for its name."""

    name: str
    title: str
    about: str
    crates: tuple[str, ...] = ()
    patterns: tuple[str, ...] = ()


FAMILIES = (
    Family(
        "ground",
        "Ground",
        "Values, their bytes, readers and writers. They know no message and no VM.",
        ("plain", "wire", "program_runs"),
    ),
    Family("journal", "Messages", "The messages of the protocol, and their frames.", (), ("journal_*",)),
    Family("await", "Awaits", "What came, and the trees of handles that a handler awaits.", ("await_arrivals",), ("await_*",)),
    Family(
        "vm",
        "The VM",
        "One attempt of a handler: bytes and calls go in, results and bytes come out. With what is proved of it.",
        ("vm_retries", "vm_runs", "invocation_vm"),
        ("vm_*",),
    ),
    Family("store", "Stored journals", "What is stored of what an attempt wrote, and what may arrive.", ("journal_store",)),
    Family("world", "Worlds", "Many attempts over one journal, stopped anywhere.", ("world_rounds",), ("world_*",)),
    Family("engine", "The engine", "Many invocations that call each other.", ("engine_inboxes", "engines", "engine_fences")),
    Family(
        "handler",
        "Handlers",
        "Handlers that programs know, handlers as ordinary code, and the front door for Rattle.",
        ("handlers", "handler_flows", "palqytun", "examples"),
        ("handler_*",),
    ),
    Family(
        "line",
        "Lines and scripts",
        "What people read and write: frames, calls, rounds and many invocations as lines of text.",
        ("lines", "call_lines", "call_scripts", "call_details", "world_scripts", "engine_lines", "engine_scripts"),
        ("line_*", "frame_*"),
    ),
    Family(
        "c",
        "C",
        "What callers of C and Python hold, and what their calls do. No text is between.",
        ("c_sessions", "c_calls", "c_journals", "c_values"),
        ("c_*",),
    ),
    Family("ffi", "The library for C", "The functions that callers of C and Python call: by values, and by lines.", ("ffi",)),
    Family(
        "program",
        "Programs",
        "The five programs: thin, each over a library.",
        ("program_vmrun", "vmrun", "vmscript", "vmrounds", "vmengine", "frames"),
        ("program_*",),
    ),
    Family(
        "test",
        "Tests",
        "Tests alone, what several of them share, and a bench. No other crate names them.",
        ("test_support", "vmbench"),
        ("*_vectors", "test_*", "bench_*"),
    ),
)


def family_of(crate: str) -> Family:
    """Returns the family of a crate."""
    named = [it for it in FAMILIES if crate in it.crates]
    found = named or [it for it in FAMILIES if any(fnmatchcase(crate, pattern) for pattern in it.patterns)]
    if len(named) > 1 or not found:
        which = " and ".join(it.name for it in named) or "no family"
        raise Fault(f"crates.txt: {crate} belongs to {which}; name it in one of FAMILIES in tools/survey/families.py")
    return found[-1]


def families(house: House) -> dict[str, list[str]]:
    """Returns the crates of each family, bottom up."""
    found: dict[str, list[str]] = {it.name: [] for it in FAMILIES}
    for crate in house.crates:
        found[family_of(crate).name].append(crate)
    return found


def gone(house: House) -> list[str]:
    """Returns the names of the table that are no crate."""
    return [it for family in FAMILIES for it in family.crates if it not in house.crates]


def upward(house: House) -> list[tuple[str, str]]:
    """Returns the crates that name one of a family above their own, each with that one."""
    rank = {it.name: at for at, it in enumerate(FAMILIES)}
    pairs = ((name, below) for name, crate in house.crates.items() for below in crate.below)
    return [it for it in pairs if rank[family_of(it[0]).name] < rank[family_of(it[1]).name]]


def reduced(below: dict[str, frozenset[str]]) -> dict[str, list[str]]:
    """Returns what each stands on directly: without what it reaches by another that it stands on. The names come bottom up."""
    reached: dict[str, frozenset[str]] = {}
    for name, these in below.items():
        reached[name] = these.union(*(reached[it] for it in these))
    return {name: [it for it in below if it in these and not any(it in reached[other] for other in these)] for name, these in below.items()}


def stands_on(house: House) -> dict[str, list[str]]:
    """Returns on which families each family stands, without those that it reaches by another, and without lines against the order."""
    against = set(upward(house))
    found: dict[str, set[str]] = {it.name: set() for it in FAMILIES}
    for name, crate in house.crates.items():
        for below in crate.below:
            one, other = family_of(name).name, family_of(below).name
            if one != other and (name, below) not in against:
                found[one].add(other)
    return reduced({name: frozenset(it) for name, it in found.items()})
