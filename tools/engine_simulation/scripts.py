"""A script of vmengine as it is read: handlers with the lines of their steps, and the lines of what happens."""

from __future__ import annotations

from dataclasses import dataclass, field

from .words import fields_of, text_field, unquoted, words_of

Names = tuple[str, str]
"""A service and a handler."""


@dataclass
class Handler:
    exclusive: bool
    steps: list[str] = field(default_factory=list)


@dataclass(frozen=True)
class Submit:
    """A line `submit`, by its number."""

    line: int
    names: Names
    parameter: str
    key: str
    idempotency_key: str | None
    at: int


@dataclass
class Script:
    handlers: dict[Names, Handler] = field(default_factory=dict)
    submits: list[Submit] = field(default_factory=list)
    clock: int = 0
    stores: int | None = None
    """The number of the first line that may store something."""


def submit_of(number: int, words: list[str]) -> Submit:
    fields = fields_of(words[4:])
    names = (unquoted(words[1]), unquoted(words[2]))
    key = text_field(fields, "key") or ""
    return Submit(number, names, unquoted(words[3]), key, text_field(fields, "idem"), int(fields.get("at", "0")))


def read_event(script: Script, number: int, words: list[str]) -> None:
    match words[0]:
        case "submit":
            script.submits.append(submit_of(number, words))
        case "clock":
            script.clock = max(script.clock, int(words[1]))
        case "store" | "settle" if script.stores is None:
            script.stores = number


def script_of(text: str) -> Script:
    script = Script()
    last: Handler | None = None
    for number, line in enumerate(text.splitlines(), 1):
        words = words_of(line)
        if not words or words[0].startswith("#"):
            continue
        if line.startswith("  ") and last is not None:
            last.steps.append(line.strip())
        elif words[0] == "handler":
            last = script.handlers.setdefault((unquoted(words[1]), unquoted(words[2])), Handler("exclusive" in words[3:]))
        else:
            read_event(script, number, words)
    return script
