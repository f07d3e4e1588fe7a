"""What a page shows: the commands of its sessions, the files that it writes, the lines that it quotes, and blocks that are none of these."""

from __future__ import annotations

import re
from collections.abc import Iterator
from dataclasses import dataclass, field

# ```python file=orders.py, maybe with same=crates/..: a file that the page writes.
WRITTEN = re.compile(r"^```\w+((?: \w+=\S+)+)$")
# ```python python/examples/shop.py: lines of a file of the repository, which tools/documents compares.
QUOTED = re.compile(r"^```\w+ [\w./-]+$")
ITEM = re.compile(r"\s*(?:[-*+]|\d+\.) ")


@dataclass
class Command:
    """A command of a session, with the lines that follow it, and the number of its own line."""

    at: int
    words: str
    wanted: list[str] = field(default_factory=list)

    @property
    def stays(self) -> bool:
        """Whether it goes on beside the commands after it."""
        return without_remark(self.words).endswith("&")


@dataclass
class File:
    """A file that a page writes, with the number of its first line. `names` has `file`, and maybe `same`, the file that it has to equal."""

    at: int
    names: dict[str, str]
    lines: list[str] = field(default_factory=list)


@dataclass
class Unrun:
    """A block that nothing runs: it is neither a session, nor a file, nor a quote."""

    at: int
    line: str


def read(lines: list[str]) -> Iterator[Command | File | Unrun]:
    """Yields the commands, the files and the blocks that nothing runs of a page, in order."""
    at = 0
    while at < len(lines):
        if lines[at].startswith("```"):
            end = next((it for it in range(at + 1, len(lines)) if lines[it].startswith("```")), len(lines))
            if found := WRITTEN.match(lines[at]):
                yield File(at + 1, dict(it.split("=", 1) for it in found[1].split()), lines[at + 1 : end])
            elif not QUOTED.match(lines[at]):
                yield Unrun(at + 1, lines[at])
            at = end + 1
        elif lines[at].startswith("    ") and not _is_item(lines, at):
            end = next((it for it in range(at, len(lines)) if not lines[it].startswith("    ")), len(lines))
            yield from _session([it[4:] for it in lines[at:end]], at + 1)
            at = end
        else:
            at += 1


def _is_item(lines: list[str], at: int) -> bool:
    """Whether an indented line belongs to an item of a list."""
    for line in reversed(lines[:at]):
        if ITEM.match(line):
            return True
        if line and not line.startswith(" "):
            return False
    return False


def _session(lines: list[str], first: int) -> Iterator[Command | Unrun]:
    """Yields the commands of an indented block. One that ends with a backslash goes on in the next line, after `> `."""
    command: Command | None = None
    for at, line in enumerate(lines, first):
        if line.startswith("$ "):
            if command:
                yield command
            command = Command(at, line[2:])
        elif command is None:
            yield Unrun(at, line)
            return
        elif command.words.endswith("\\") and not command.wanted and line.startswith("> "):
            command.words += f"\n{line[2:]}"
        else:
            command.wanted.append(line)
    if command:
        yield command


def without_remark(line: str) -> str:
    """Returns a line without its remark: two blanks, `#`, and what follows."""
    return re.sub(r"\s{2,}# .*", "", line).rstrip()


def is_line(wanted: str, found: str) -> bool:
    """Says whether a line is the one that a page shows, in which `..` stands for any characters."""
    parts = (re.escape(it) for it in without_remark(wanted).split(".."))
    return re.fullmatch(".*".join(parts), found.rstrip()) is not None


def is_printed(wanted: list[str], found: list[str]) -> bool:
    """Says whether lines are what a page shows, in which a line `..` stands for any lines."""
    if not wanted:
        return not found
    if wanted[0] == "..":
        return any(is_printed(wanted[1:], found[at:]) for at in range(len(found) + 1))
    return bool(found) and is_line(wanted[0], found[0]) and is_printed(wanted[1:], found[1:])
