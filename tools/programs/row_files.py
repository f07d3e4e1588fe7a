"""Reads rows: texts that say what a program must answer. docs/ROWS.md has their form."""

from __future__ import annotations

import ast
import re
from collections.abc import Iterator
from dataclasses import dataclass, field
from pathlib import Path


class BadRow(Exception):
    """A file of rows that can't be read: where, and why."""


@dataclass(frozen=True)
class Line:
    """A line of a file of rows, and where it stands."""

    text: str
    place: str

    @property
    def asked(self) -> str:
        return self.text.partition(" => ")[0].rstrip()

    @property
    def wanted(self) -> str:
        return self.text.partition(" => ")[2].rstrip()


@dataclass
class Names:
    """What the files *.names of a folder name."""

    frames: dict[str, str] = field(default_factory=dict)
    types: dict[int, str] = field(default_factory=dict)
    lines: dict[str, list[Line]] = field(default_factory=dict)
    options: dict[str, list[str]] = field(default_factory=dict)

    @classmethod
    def read(cls, folder: Path) -> Names:
        names = cls()
        for path in sorted(folder.glob("*.names")):
            for head, body in blocks(path):
                names.add(head, body)
        return names

    def add(self, head: Line, body: list[Line]) -> None:
        kind, _, name = head.text.partition(" ")
        digits = "".join(it.text for it in body).replace(" ", "")
        if kind == "frame":
            self.frames[name] = digits
        elif kind == "type":
            self.types[int(digits, 16)] = name
        elif kind == "lines":
            self.lines[name] = body
        elif kind == "options":
            self.options[name] = ["" if it.text == "none" else it.text for it in body]
        else:
            raise BadRow(f"{head.place}: no such kind of name: {kind}")

    def all_lines(self, lines: list[Line]) -> Iterator[Line]:
        """Yields these lines, with those that an @NAME stands for in its place."""
        for line in lines:
            if not line.text.startswith("@"):
                yield line
                continue
            name = line.asked[1:]
            if name not in self.lines:
                raise BadRow(f"{line.place}: no lines have the name {name}")
            for it in self.lines[name]:
                yield Line(it.text.replace("$answer", line.wanted), f"{line.place} ({it.place})")

    def expanded(self, text: str, place: str) -> str:
        """Returns the text with the bytes of frames in the place of <NAME NAME>."""

        def digits(found: re.Match[str]) -> str:
            lacking = [it for it in found[1].split() if it not in self.frames]
            if lacking:
                raise BadRow(f"{place}: no frame has the name {lacking[0]}")
            return "0x" + "".join(self.frames[it] for it in found[1].split())

        return re.sub(r"<([a-z]\w*(?: \w+)*)>", digits, text)

    def option_sets(self, words: str) -> list[str]:
        """Returns the options that are named, separated by commas: each alone, and each of a named set, but for those after `but`."""
        found: list[str] = []
        for word in words.split(","):
            name, *but = (it.strip() for it in word.split(" but "))
            found += [it for it in self.options.get(name, ["" if name == "none" else name]) if it not in but]
        return found


def blocks(path: Path) -> Iterator[tuple[Line, list[Line]]]:
    """Yields the heads of a file of names, each with the lines below it, which are indented."""
    head: Line | None = None
    body: list[Line] = []
    for number, text in enumerate(path.read_text(encoding="utf-8").splitlines(), 1):
        line = Line(text.strip(), f"{path}:{number}")
        if text.startswith("    ") and head:
            body.append(line)
        elif text and not text.startswith("#"):
            if head:
                yield head, body
            head, body = line, []
    if head:
        yield head, body


@dataclass
class Group:
    """Rows under one title: what stands after each `--`, and the lines of each part."""

    title: str
    place: str
    words: dict[str, str] = field(default_factory=dict)
    parts: dict[str, list[Line]] = field(default_factory=dict)

    def part(self, name: str) -> list[Line]:
        """Returns the lines of a part, but for blank ones at its ends."""
        lines = list(self.parts.get(name, []))
        for end in (0, -1):
            while lines and not lines[end].text:
                lines.pop(end)
        return lines

    def rows(self) -> list[list[Line]]:
        """Returns the lines of each row, but for those that come before and after each of them."""
        if "lines" in self.parts:
            return [[it] for it in self.parts["lines"] if it.text]
        if "rows" not in self.parts:
            return [self.part("row")]
        found: list[list[Line]] = [[]]
        for line in self.part("rows"):
            if line.text:
                found[-1].append(line)
            elif found[-1]:
                found.append([])
        return found

    def versions(self) -> list[int]:
        return [int(it) for it in self.words.get("versions", "").split()]

    def quoted(self, name: str) -> bytes | None:
        """Returns the bytes that stand in quotes after this word, if it is there."""
        text = self.words.get(name)
        if text is None:
            return None
        try:
            value = ast.literal_eval(f"b{text}")
        except (SyntaxError, ValueError) as error:
            raise BadRow(f"{self.place}: {name} has no bytes in quotes") from error
        return bytes(value)


PARTS = {"first", "lines", "rows", "then"}
WORDS = {"versions", "options", "handler", "details", "status", "said", "hint", "script", "output"}


def groups(name: str, text: str) -> Iterator[Group]:
    """Yields the groups of rows of a text, whose name is for messages."""
    group: Group | None = None
    part: list[Line] = []
    for number, line in enumerate(text.splitlines(), 1):
        place = f"{name}:{number}"
        if line.startswith("== "):
            if group:
                yield group
            group = Group(line[3:], place)
            part = group.parts.setdefault("row", [])
        elif group is None:
            if line and not line.startswith("#"):
                raise BadRow(f"{place}: a line before the first title")
        elif line.startswith("-- "):
            word, _, rest = line[3:].partition(" ")
            if word in PARTS:
                part = group.parts.setdefault(word, [])
            elif word in WORDS:
                group.words[word] = rest
            else:
                raise BadRow(f"{place}: no such word: {word}")
        elif line in ("=>", "=> ends"):
            part = group.parts.setdefault("ends" if line == "=> ends" else "report", [])
        else:
            part.append(Line(line, place))
    if group:
        yield group
