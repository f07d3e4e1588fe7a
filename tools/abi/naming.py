"""What numbers say, in C: `bindings/names.c` has the names and texts of statuses, the names of codes and of commands, and the commands of messages."""

from __future__ import annotations

from collections.abc import Iterable, Iterator

from . import words
from .header import Header

CODE = "bindings/names.c"
SAID = "/* tools/header --write writes this file, from palqytun.h and tools/abi/words.py. */\n"


def _function(name: str, number: str, cases: Iterable[tuple[int, str]]) -> str:
    rows = [f'    case {at}:\n        return "{text}";' for at, text in cases]
    return "\n".join([f"const char *palqytun_{name}(uint32_t {number})", "{", f"    switch ({number}) {{", *rows, "    default:", "        return NULL;", "    }", "}", ""])


def _commands(header: Header) -> dict[str, int]:
    """The commands, each with its number: `SLEEP`, 10."""
    found = ((words.plain(it), number) for it, number in header.enumerators.items())
    return {name.removeprefix("COMMAND_"): number for name, number in found if name.startswith("COMMAND_")}


def _messages(header: Header) -> Iterator[tuple[int, str]]:
    """The messages of commands: the type of each, and the command. A read of the state has two."""
    commands = _commands(header)
    for it, number in header.enumerators.items():
        name = words.plain(it).removeprefix("MESSAGE_").removesuffix("_COMMAND").replace("_EAGER_", "_").replace("_LAZY_", "_")
        if words.plain(it).startswith("MESSAGE_") and it.endswith("_COMMAND") and name in commands:
            yield number, name


def code_of(header: Header) -> str:
    """The text of the functions and tables."""
    statuses = words.statuses(header)
    commands = [f"    [PALQYTUN_COMMAND_{name}] = \"{words.joined(name)}\"," for name in _commands(header)]
    messages = [f"    [{number}] = {{true, PALQYTUN_COMMAND_{name}}}," for number, name in _messages(header)]
    return "\n".join([
        f'/* What the numbers of palqytun.h say. */\n{SAID}#include "handles.h"\n',
        "\n".join(["const char *const COMMAND_NAMES[] = {", *commands, "};\n"]),
        "\n".join(["const message_command MESSAGE_COMMANDS[] = {", *messages, "};\n"]),
        "const size_t MESSAGE_TYPES = sizeof MESSAGE_COMMANDS / sizeof *MESSAGE_COMMANDS;\n",
        _function("status_name", "status", ((number, name) for name, number, _ in statuses)),
        _function("status_text", "status", ((number, text) for _, number, text in statuses)),
        _function("code_name", "code", ((number, name) for name, number in words.codes(header))),
    ])
