"""Where the instructions of a case go: callgrind counts each of them, and its function, or what it does, puts it into a layer."""

from __future__ import annotations

import re
import tempfile
from collections import Counter
from collections.abc import Iterable
from dataclasses import dataclass, field
from pathlib import Path

from tools.kit.commands import run
from tools.kit.errors import Refused

from .measuring import Player, Point, play

VALGRIND = ("valgrind", "--tool=callgrind", "--toggle-collect=measured", "--collect-atstart=no", "--dump-instr=yes")
NAMED = re.compile(r"\((\d+)\)(?: (.*))?$")  # callgrind gives a name once, and its number from then on
STORE = re.compile(r"\s*([0-9a-f]+):\s+(\S+)\s+([^#<]*)")
ZEROED = re.compile(r"(xmm\d+),\1$")
CLEARING = ("xorps", "xorpd", "pxor", "vxorps", "vpxor")

COPIER = re.compile(r"mem(cpy|move|set|cmp)")

ZERO = "zeros"
PLAYER = "player"
REST = "library"


@dataclass(frozen=True)
class Layer:
    """What a column of the profile is: its name, and the functions that are of it."""

    name: str
    what: str
    functions: re.Pattern[str]


COPYING = Layer("copying", "memcpy, memmove and memcmp", re.compile(r"_*(mem(cpy|move|cmp)|mempcpy|bcmp)"))
ALLOCATOR = Layer(
    "allocator",
    "malloc, free and what they call",
    re.compile(r"(_int_)?(malloc|free|realloc|calloc)\b|rattle_(de|re)?alloc|malloc_consolidate|unlink_chunk|__(rust|rdl)_|tcache_|sysmalloc|alloc::"),
)
LAYERS = {
    "here": (
        COPYING,
        ALLOCATOR,
        Layer("shell", "C's part, and the typed calls that it makes", re.compile(r"(lowered_)?(palqytun|proved)_|(handle|lend)_|c_[a-z]+::")),
        Layer("VM", "the VM, its awaits, and what it keeps", re.compile(r"(invocation_vm|vm_[a-z]+|await_[a-z]+)::")),
        Layer("messages", "messages, read and written", re.compile(r"(journal_[a-z]+|wire)::")),
    ),
    "original": (
        COPYING,
        ALLOCATOR,
        Layer(PLAYER, "the player that makes the calls", re.compile(r"<?original::")),
        Layer("messages", "messages by prost, and the stream that is cut into them", re.compile(r".*(service_protocol|\bprost::|\bbytes(_utils)?::)")),
        Layer("VM", "the VM, its awaits, and what it keeps", re.compile(r".*restate_sdk_shared_core")),
        Layer("hash maps", "look-ups and hashes of keys", re.compile(r".*(hash)")),
    ),
}
CALLS = {"here": re.compile(r"palqytun_(\w+)$"), "original": re.compile(r"<.* as restate_sdk_shared_core::VM>::(\w+)$")}
"""The calls of a side's VM, by their names."""

COLUMNS = {
    "here": ("shell", "VM", "messages", REST, "allocator", "copying", ZERO, PLAYER),
    "original": ("VM", "messages", "hash maps", REST, "allocator", "copying", ZERO, PLAYER),
}
"""The layers of a side, as a table has them. What is in no other is the library: the kit's or Rust's. What sets memory to zero is no part of the others."""


@dataclass
class Profile:
    """The instructions of a side for an entry: by layer; by function, without what it calls; and by call of the player, with all that it calls."""

    point: Point
    side: str
    layers: Counter[str] = field(default_factory=Counter)
    functions: Counter[str] = field(default_factory=Counter)
    calls: Counter[str] = field(default_factory=Counter)

    @property
    def all(self) -> float:
        return sum(self.layers.values())


Function = tuple[str, str]
"""The object that a function is of, and its name."""


@dataclass
class Counts:
    """What callgrind counted: how often the instruction at each address of a function was executed, and what the calls that a function makes took, by
    the function that is called."""

    own: dict[Function, Counter[int]] = field(default_factory=dict)
    called: dict[Function, Counter[str]] = field(default_factory=dict)


class Names:
    """The names of a file of callgrind, by their numbers."""

    def __init__(self) -> None:
        self.known: dict[str, str] = {}

    def read(self, said: str) -> str:
        found = NAMED.match(said)
        if found is None:
            return said
        if found[2] is not None:
            self.known[found[1]] = found[2]
        return self.known.get(found[1], "")


def read_counts(lines: Iterable[str]) -> Counts:
    """Reads a file of callgrind."""
    counts, functions, objects = Counts(), Names(), Names()
    at, of, callee, is_call = 0, ("", ""), "", False
    for line in lines:
        name, is_named, said = line.rstrip("\n").partition("=")
        if is_named and name in ("ob", "cob"):
            read = objects.read(said)
            of = (read, of[1]) if name == "ob" else of
        elif is_named and name in ("fn", "cfn"):
            read = functions.read(said)
            of, callee = ((of[0], read), callee) if name == "fn" else (of, read)
        elif is_named:
            is_call = is_call or name == "calls"
        elif len(words := name.split()) == 3 and (words[0][0] in "+-*" or words[0].startswith("0x")):
            at = moved(at, words[0])
            if is_call:
                counts.called.setdefault(of, Counter())[callee] += int(words[2])
            else:
                counts.own.setdefault(of, Counter())[at] += int(words[2])
            is_call = False
    return counts


def moved(at: int, word: str) -> int:
    """An address, which callgrind gives by its distance from the last one."""
    if word == "*":
        return at
    return at + int(word) if word[0] in "+-" else int(word, 16)


def zero_stores(disassembled: Iterable[str]) -> set[int]:
    """The addresses of the instructions that set memory to zero."""
    found: set[int] = set()
    empty: set[str] = set()  # registers that hold zero
    for line in disassembled:
        if line.rstrip().endswith(">:"):
            empty = set()
        elif part := STORE.match(line):
            address, operation, words = int(part[1], 16), part[2], part[3].strip()
            to, _, given = words.rpartition(",")
            if operation in CLEARING and ZEROED.search(words):
                empty.add(words.partition(",")[0])
            elif "PTR [" in to and operation.startswith(("mov", "vmov")):
                if given == "0x0" or given in empty:
                    found.add(address)
            else:
                empty.discard(words.partition(",")[0])
    return found


def disassembled(file: Path) -> list[str]:
    return run(["objdump", "-d", "--no-show-raw-insn", "-M", "intel", file], f"reading {file.name}").splitlines()


def plain(function: str) -> str:
    """A function's name without what callgrind adds where it calls itself, and with `::` between its parts, however the kit has built the library."""
    name = function.partition("'")[0].removeprefix("Rattle.")
    return name if "::" in name else re.sub(r"(?<=\w)\.(?=\w)", "::", name)


def layer_of(side: str, program: str, of: tuple[str, str]) -> str:
    """The layer of a function. What is inlined counts as the function that it is inlined into."""
    file, function = of
    name = plain(function)
    if re.match(r"_*memset", name):
        return ZERO
    if side == "here" and file == program:
        return PLAYER
    return next((it.name for it in LAYERS[side] if it.functions.match(name)), REST)


def short(function: str) -> str:
    """A function's name without the crates and modules that it is in."""
    if found := COPIER.search(function):
        return found[0]
    name = re.sub(r"::<#\w+>|<[^<>]*>(?=::|$)", "", plain(function)).strip(":") or function
    return "::".join(name.split("::")[-2:])


def summed(player: Player, point: Point, counts: Counts, zeros: dict[str, set[int]]) -> Profile:
    """A profile of counts; `zeros` has by object the addresses of what sets memory to zero."""
    profile, program = Profile(point, player.side), str(player.program.resolve())
    for of, by_address in counts.own.items():
        taken, zeroed = sum(by_address.values()), 0
        layer = layer_of(player.side, program, of)
        if layer not in (PLAYER, ZERO):
            zeroed = sum(times for at, times in by_address.items() if at in zeros.get(of[0], ()))
        profile.layers[layer] += taken - zeroed
        profile.layers[ZERO] += zeroed
        if layer != PLAYER:
            profile.functions[short(of[1])] += taken
    for of, by_callee in counts.called.items():
        if layer_of(player.side, program, of) == PLAYER:
            for callee, taken in by_callee.items():
                if found := CALLS[player.side].match(callee):
                    profile.calls[found[1]] += taken
    for by_name in (profile.layers, profile.functions, profile.calls):
        for name in by_name:
            by_name[name] = round(by_name[name] / point.size)
    return profile


def objects_of(counts: Counts, side: str, program: Path) -> list[str]:
    """The files in which stores of zero are looked for: the library here, and the original's program."""
    named = {file for file, _ in counts.own if "libpalqytun" in file} if side == "here" else {str(program)}
    return sorted(it for it in named if Path(it).is_file())


def profile(player: Player, point: Point) -> Profile:
    """Plays a case under callgrind, and sums what it counts."""
    with tempfile.TemporaryDirectory(prefix="palqytun-") as room:
        file = Path(room, "callgrind.out")
        play(player, point, before=[*VALGRIND, f"--callgrind-out-file={file}"])
        with file.open(encoding="utf-8") as lines:
            counts = read_counts(lines)
    if not counts.own:
        raise Refused(f"{player.side}, {point}: callgrind counted nothing")
    zeros = {it: zero_stores(disassembled(Path(it))) for it in objects_of(counts, player.side, player.program.resolve())}
    found = summed(player, point, counts, zeros)
    if not found.layers["VM"]:
        raise Refused(f"{player.side}, {point}: no function has a name of the VM, so {player.program.name} or its library was built without names")
    return found
