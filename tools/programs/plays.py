"""From rows to plays: each row under each version and each set of options, with what is wanted of it. docs/ROWS.md has the form of rows."""

from __future__ import annotations

import shlex
from collections.abc import Iterator
from dataclasses import dataclass
from pathlib import Path

from . import round_rules, script_rules
from .row_files import Group, Names, groups

KIND = "application/vnd.restate.invocation.v"
PROGRAMS = {"vmscript": script_rules.RULES, "vmrounds": round_rules.RULES, "vmengine": ()}
"""The programs that have rows, and the rules that make more of them."""


@dataclass(frozen=True)
class Play:
    """A row as it is played: under which version and options, the program's arguments and its input."""

    row: str
    under: str
    input: bytes
    arguments: tuple[str, ...] = ()


@dataclass(frozen=True)
class Answered(Play):
    """A script of one VM, whose lines have their answers."""

    lines: tuple[tuple[str, str], ...] = ()  # the wanted answer of each, and where it stands
    details: tuple[tuple[int, str], ...] = ()  # what standard error says of some lines, and which these are, counted from 1


@dataclass(frozen=True)
class Whole(Play):
    """An input with its whole output, or the end of it."""

    output: bytes = b""
    ends: bool = False
    status: int = 0
    said: str = ""
    hint: str = ""


def seed_of(version: int, options: str) -> str:
    """The seed that a handler is given: from version 6 on that of Start, which is 0 in these rows, and before it the option's."""
    said = [it[5:] for it in options.split() if it.startswith("seed=")]
    return said[0] if said and version < 6 else "0"


ABOUT = "about "
"""What a line begins with that says what the error of the line above it is about."""


def answered(group: Group, names: Names) -> Iterator[Play]:
    """Yields the plays of rows whose lines have their answers."""
    under = [(version, options) for options in names.option_sets(group.words.get("options", "none")) for version in group.versions()]
    for row in group.rows():
        all_lines = list(names.all_lines([*group.part("first"), *row, *group.part("then")]))
        lines = [it for it in all_lines if not it.text.startswith(ABOUT)]
        about = [at - number for number, at in enumerate(at for at, it in enumerate(all_lines) if it.text.startswith(ABOUT))]
        told = [it.text.removeprefix(ABOUT) for it in all_lines if it.text.startswith(ABOUT)]
        asked = [names.expanded(it.asked, it.place) for it in lines]
        wanted = [(names.expanded(it.wanted, it.place), it.place) for it in lines]
        place = row[0].place if row else group.place
        for version, options in under or [(0, "")]:
            making = [f'vm "{KIND}{version}" {options}'.rstrip()] if version else []
            made = [(f"ok V{version}", group.place)] if version else []
            seed = seed_of(version, options)
            said = [(it.replace("$seed", seed).replace("$version", str(version)), at) for it, at in wanted]
            script = "".join(f"{it}\n" for it in [*making, *asked]).encode()
            details = tuple((at + len(making), it.replace("$version", str(version))) for at, it in zip(about, told))
            yield Answered(place, f"version {version} {options}".rstrip() if version else "", script, (), (*made, *said), details)


def arguments_of(program: str, group: Group, version: int) -> tuple[str, ...]:
    """The arguments by which a program plays a row under a version."""
    match program:
        case "vmrounds":
            details = ("--details",) if "details" in group.words else ()
            return (*details, f"{KIND}{version}", *shlex.split(group.words["handler"]))
        case "vmengine":
            return (f"{KIND}{version}",)
        case _:
            return ()


def whole(group: Group, names: Names, program: str) -> Iterator[Play]:
    """Yields the plays of rows that have a whole output."""
    ends = "ends" in group.parts
    lines = names.all_lines(group.part("ends" if ends else "report"))
    output = group.quoted("output") or "".join(f"{it.text}\n" for it in lines).encode()
    status, said = int(group.words.get("status", "0")), group.words.get("said", "")
    hint = group.words.get("hint", "")
    for row in group.rows():
        script = list(names.all_lines([*group.part("first"), *row, *group.part("then")]))
        place = row[0].place if row else group.place
        for options in names.option_sets(group.words.get("options", "none")):
            world = [f"world {options}"] if options else []
            given = group.quoted("script")
            if given is None:
                given = "".join(f"{it}\n" for it in [*world, *(it.text for it in script)]).encode()
            for version in group.versions() or [7]:
                arguments = arguments_of(program, group, version)
                under = f"version {version} {options}".rstrip() if arguments else ""
                yield Whole(place, under, given, arguments, output, ends, status, said, hint)


def plays(group: Group, names: Names, program: str) -> Iterator[Play]:
    if program != "vmscript" or "script" in group.words:
        yield from whole(group, names, program)
    else:
        yield from answered(group, names)


def texts(program: str) -> dict[str, str]:
    """The text of each file of rows, and of each rule."""
    files = sorted(Path(f"crates/{program}/rows").glob("*.rows"))
    return {str(it): it.read_text(encoding="utf-8") for it in files} | {f"rule {it.__name__}": "".join(it()) for it in PROGRAMS[program]}


def all_plays(program: str) -> tuple[Names, dict[str, list[Play]]]:
    """The names that rows of a program may use, and the plays of each of its files and rules."""
    names = Names.read(Path(f"crates/{program}/rows"))
    return names, {name: [it for group in groups(name, text) for it in plays(group, names, program)] for name, text in texts(program).items()}
