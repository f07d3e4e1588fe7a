"""A report of vmengine as it is read."""

from __future__ import annotations

import re
from dataclasses import dataclass, field

from tools.simulation.program import Bad
from tools.simulation.texts import notification_of

from .scripts import Names
from .words import fields_of, text_field, unquoted, words_of

DID = re.compile(r"line (\d+) (?:(nothing)|invocation (\d+))$")
COMPLETION = re.compile(r"completion\((\d+)\)$")


@dataclass(frozen=True)
class Command:
    """A command of a journal, and which entry it is."""

    at: int
    type: str
    text: str
    fields: dict[str, str]

    def number(self, name: str) -> int:
        return int(self.fields.get(name, "0"))

    def text_of(self, name: str) -> str:
        return text_field(self.fields, name) or ""


@dataclass
class Invocation:
    number: int
    names: Names
    key: str
    idempotency_key: str | None
    at: int
    begun: tuple[int, int] | None = None
    """By whose command, and the id that its own id completes."""
    calls: list[tuple[int, int | None]] = field(default_factory=list)
    entries: list[str] = field(default_factory=list)
    waits: list[str] = field(default_factory=list)
    live: bool = False
    result: str | None = None

    def commands(self) -> list[Command]:
        found = []
        for at, entry in enumerate(self.entries):
            if notification_of(entry) is None:
                words = words_of(entry)
                found.append(Command(at, words[0], entry, fields_of(words[1:])))
        return found

    def notes(self) -> list[tuple[int, str, str]]:
        """Each notification: which entry it is, its id and its result."""
        those = ((at, notification_of(entry)) for at, entry in enumerate(self.entries))
        return [(at, *note) for at, note in those if note is not None]

    def results(self) -> dict[int, str]:
        """The results of completion ids."""
        return {int(found[1]): result for _, id, result in self.notes() if (found := COMPLETION.match(id))}

    def signals(self) -> list[tuple[str, str]]:
        return [(id, result) for _, id, result in self.notes() if not COMPLETION.match(id)]

    def has_begun(self) -> bool:
        """Whether an attempt lives, or more than its input is stored."""
        return self.live or len(self.entries) > 1


@dataclass
class Report:
    nothing: set[int] = field(default_factory=set)
    submitted: dict[int, int] = field(default_factory=dict)
    """The invocation of each line that asked for one."""
    invocations: list[Invocation] = field(default_factory=list)

    def at(self, place: int | None) -> Invocation | None:
        return None if place is None or place >= len(self.invocations) else self.invocations[place]


def invocation_of(words: list[str]) -> Invocation:
    fields = fields_of(words[4:])
    key = text_field(fields, "key") or ""
    return Invocation(int(words[1]), (unquoted(words[2]), unquoted(words[3])), key, text_field(fields, "idem"), int(fields.get("at", "0")))


def read_part(it: Invocation, word: str, rest: str) -> None:
    """A line of an invocation."""
    match word:
        case "begun":
            by, call = rest.split()
            it.begun = (int(by), int(call))
        case "calls":
            call, place = rest.split()
            it.calls.append((int(call), None if place == "-" else int(place)))
        case "entry":
            it.entries.append(rest)
        case "waits":
            it.waits.append(rest)
        case "live":
            it.live = True
        case "result":
            it.result = rest
        case _:
            raise Bad(f"invocation {it.number} has the line {word!r}")


def report_of(text: str) -> Report:
    report = Report()
    for line in text.splitlines():
        word, _, rest = line.strip().partition(" ")
        if line.startswith("  ") and report.invocations:
            read_part(report.invocations[-1], word, rest)
        elif found := DID.match(line):
            if found[2]:
                report.nothing.add(int(found[1]))
            else:
                report.submitted[int(found[1])] = int(found[3])
        elif word == "invocation":
            report.invocations.append(invocation_of(words_of(line)))
        else:
            raise Bad(f"the report has the line {line!r}")
    for place, it in enumerate(report.invocations):
        if it.number != place:
            raise Bad(f"the invocation at {place} has the number {it.number}")
    return report
