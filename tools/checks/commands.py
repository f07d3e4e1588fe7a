"""Commands that pages name: each is there, and has the options that stand with it. A block that begins with a command is run."""

from __future__ import annotations

import re
from collections.abc import Iterator
from functools import cache
from pathlib import Path

from tools.pages import blocks

CODE = re.compile(r"`([^`]+)`")
# A command of the repository, and the words after it up to what ends it in a shell.
NAMED = re.compile(r"(?<![\w./-])(?:\./)?((?:tools|\.ci)/[\w-]+|bindings/build|\./(?:test|prove|demo)|palqytun)(?![\w./-])((?: [^\s;|&<>()]+)*)")
OPTION = re.compile(r"^(--[a-z][\w-]*)")
IMPORTED = re.compile(r"^from tools\.(\w+)", re.MULTILINE)
# Words with which a line begins that is a command, and no text that a command prints.
BEGINS = re.compile(r"(?:\w+=\S+ )*(?:\./\w|tools/|bindings/|palqytun |rt |python3 |curl |vmrun |vmrounds |vmengine |vmscript |frames )")


@cache
def texts(root: Path, command: str) -> str | None:
    """Returns the text in which a command's options stand: its own, and that of the folders from which it imports; none without a command."""
    if command == "palqytun":
        return "\n".join(path.read_text(encoding="utf-8") for path in sorted((root / "python/src/palqytun").rglob("*.py")))
    path = root / command
    if not path.is_file():
        return None
    text = path.read_text(encoding="utf-8")
    below = {path for folder in IMPORTED.findall(text) for path in sorted((root / "tools" / folder).rglob("*.py"))}
    return "\n".join([text, *(it.read_text(encoding="utf-8") for it in sorted(below))])


def wrong(root: Path, shown: str) -> Iterator[str | None]:
    """Yields what is wrong with each command in a piece of code, or nothing if it is right."""
    for named in NAMED.finditer(shown):
        command, words = named[1].removeprefix("./"), named[2].split()
        text = texts(root, command)
        if text is None:
            if not (root / command).exists():
                yield f"there is no command {command}"
            continue
        options = [it[1] for word in words if (it := OPTION.match(word))]
        unknown = [it for it in options if it not in text]
        yield f"{command} has no option {unknown[0]}" if unknown else None


def check(root: Path, name: str, lines: list[str]) -> Iterator[tuple[str, str | None]]:
    """Yields the place of each command that a page names in backquotes, and of each block that begins with one, with what is wrong."""
    for at, line in enumerate(lines, 1):
        yield from ((f"{name}:{at}", it) for code in CODE.findall(line) for it in wrong(root, code))
    for block in blocks.read(lines):
        if isinstance(block, blocks.Unrun) and BEGINS.match(block.line):
            yield f"{name}:{block.at}", f"nothing runs this command: {block.line!r}; put `$ ` before it, or name it in a sentence"
