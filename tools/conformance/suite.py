"""The rows of vmscript as data: a line of JSON for each row."""

from __future__ import annotations

import json
from collections import Counter
from collections.abc import Iterator
from dataclasses import dataclass, field

from tools.programs.plays import Answered, all_plays

from .calls import Json, NotTyped, call_of
from .tokens import Unreadable
from .wants import want_of

MOST = 2**64 - 1  # in a typed call
EXACT = 2**53 - 1  # above it a number stands as a string of digits, since not every reader of JSON has it whole
WANTS = ("returns", "error", "frames")
MISMATCHES = ("570 ", "571 ")  # what --details says of their errors is in what a call isn't as recorded
Step = dict[str, Json]


@dataclass(frozen=True)
class Row:
    """A row: where it stands, under what it is played, and its steps."""

    place: str
    under: str
    steps: list[Step]

    @property
    def json(self) -> str:
        return json.dumps({"row": self.place, "under": self.under, "steps": [compact(it) for it in self.steps]}, separators=(",", ":"))


@dataclass
class Suite:
    """The rows, and how many of them end early, by the reason."""

    rows: list[Row] = field(default_factory=list)
    cut: Counter[str] = field(default_factory=Counter)


def compact(step: Step) -> Step:
    """A step without the arguments that aren't given, and with numbers that each reader of JSON has whole."""
    wanted = {name: exact(it) for name, it in step.items() if name in WANTS}
    return {name: exact(given(it)) for name, it in step.items() if name not in WANTS and is_given(name, it)} | wanted


def is_given(name: str, it: Json) -> bool:
    return it is not None and it is not False and (it != [] or name not in ("headers", "metadata"))


def given(it: Json) -> Json:
    if isinstance(it, dict):
        return {name: given(one) for name, one in it.items() if is_given(name, one)}
    return it


def exact(it: Json) -> Json:
    if isinstance(it, dict):
        return {name: exact(one) for name, one in it.items()}
    if isinstance(it, list):
        return [exact(one) for one in it]
    return str(it) if isinstance(it, int) and not isinstance(it, bool) and it > EXACT else it


def steps(play: Answered, types: dict[str, int]) -> Iterator[Step]:
    """The steps of a play. None are a blank line, a comment, a line without a meaning, by which nothing is done, and a line where there is no VM.

    Raises NotTyped if a line is a call that only a line can make."""
    about = dict(play.details)
    for line, (asked, (wanted, place)) in enumerate(zip(play.input.decode().splitlines(), play.lines, strict=True), 1):
        if not asked.strip() or asked.lstrip().startswith("#") or wanted in ("bad", "none"):
            continue
        try:
            call = call_of(asked)
            if largest(call) > MOST:
                raise NotTyped("a number of more than 64 bits")
            yield call | with_difference(want_of(str(call["call"]), wanted, types), about.get(line, ""))
        except Unreadable as error:
            raise Unreadable(f"{place}: `{asked}` => `{wanted}`: {error}") from error


def with_difference(want: Step, about: str) -> Step:
    """What a call returns, and in what it isn't as recorded, if its error is about that. Both forms of a read of the state are one command.

    >>> about = "570 JOURNAL_MISMATCH: CommandTypeMismatchError: command 1 is recorded as GetLazyState, and the call makes Run"
    >>> with_difference({"error": {"code": 570, "message": "CommandTypeMismatchError"}}, about)["error"]["difference"]
    'command 1 is recorded as GetState, and the call makes Run'
    """
    if "error" not in want or not about.startswith(MISMATCHES):
        return want
    text = about.partition(f"{want['error']['message']}: ")[2].replace("GetLazy", "Get").replace("GetEager", "Get")
    if text.startswith("the await "):
        text = f"{text.rpartition('; ')[2]}, and the code awaits what hasn't come"
    return {"error": want["error"] | {"difference": text}}


def largest(it: Json) -> int:
    """The largest number in it."""
    if isinstance(it, dict):
        return max(map(largest, it.values()), default=0)
    if isinstance(it, list):
        return max(map(largest, it), default=0)
    return it if isinstance(it, int) else 0


def add(suite: Suite, play: Answered, types: dict[str, int]) -> None:
    """Adds a row for each VM that a play makes. One ends before a call that only a line can make."""
    life: list[Step] = []
    try:
        for step in steps(play, types):
            if step["call"] == "new":
                life = []
                suite.rows.append(Row(play.row, play.under, life))
            life.append(step)
    except NotTyped as error:
        suite.cut[str(error)] += 1


def read(is_all: bool = False) -> Suite:
    """Reads the rows of vmscript: each under the first of its options and the newest of its versions, or under all of them."""
    suite = Suite()
    names, files = all_plays("vmscript")
    types = {name: number for number, name in names.types.items()}
    for plays in files.values():
        answered = [it for it in plays if isinstance(it, Answered)]
        for play in answered if is_all else one_of_each(answered):
            add(suite, play, types)
    return suite


def one_of_each(plays: list[Answered]) -> list[Answered]:
    """One play of each row: under its first options and its newest version."""
    found: dict[str, Answered] = {}
    for it in plays:
        before = found.get(it.row)
        if before is None or (options_of(it) == options_of(before) and it.under > before.under):
            found[it.row] = it
    return list(found.values())


def options_of(play: Answered) -> str:
    """The options under which a row is played."""
    return play.under.partition(" ")[2].partition(" ")[2]

