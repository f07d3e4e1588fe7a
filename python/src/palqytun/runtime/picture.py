"""An invocation as a picture over time: its attempts in one row, and each command in a row of its own."""

from __future__ import annotations

from dataclasses import dataclass, field

from .shown import lasted
from .timeline import Attempt, Step, Timeline

MOST_STEPS = 300  # that one page draws
_WIDTH, _LABELS, _ROW = 1000, 360, 22  # of the picture: all of it, its labels, and a row of it


@dataclass(frozen=True)
class Bar:
    x: float
    y: int
    width: float
    height: int
    kind: str
    said: str


@dataclass(frozen=True)
class Label:
    """What a row is, and in a word how it stands."""

    y: int
    text: str
    whole: str = ""
    word: str = ""


@dataclass
class Picture:
    """The attempts in one row, and each command in a row of its own, from when it was stored until its completion was. `count` is how many
    commands and signals there are, with those that aren't drawn."""

    begin: float
    end: float
    rows: int
    count: int
    bars: list[Bar] = field(default_factory=list)
    labels: list[Label] = field(default_factory=list)
    width: int = _WIDTH
    left: int = _LABELS

    @property
    def height(self) -> int:
        return (self.rows + 1) * _ROW

    @property
    def foot(self) -> int:
        return self.rows * _ROW

    def label(self, row: int, text: str, whole: str = "", word: str = "") -> None:
        self.labels.append(Label((row + 1) * _ROW - 7, text, whole, word))

    def bar(self, row: int, since: float | None, until: float | None, kind: str, said: str) -> None:
        scale = (_WIDTH - _LABELS) / max(self.end - self.begin, 0.001)
        begin = max(since or self.begin, self.begin)
        left, width = _LABELS + (begin - self.begin) * scale, max(3.0, ((until or self.end) - begin) * scale)
        self.bars.append(Bar(min(left, _WIDTH - 3), row * _ROW + 4, width, _ROW - 8, kind, said))


def picture(it: Timeline, steps: list[Step], now: float) -> Picture:
    """What is drawn of an invocation, with these steps of it."""
    end = it.invocation["ended"] or now
    begin = it.invocation["created"] if len(steps) == len(it.steps) else min((step.begun or end for step in steps), default=end)
    drawn = Picture(begin, end, len(steps) + 1, len(it.steps))
    drawn.label(0, "attempts", word=(it.attempts[-1].how or "runs") if it.attempts else "")
    for one in it.attempts:
        if (one.stopped or end) >= begin:
            drawn.bar(0, one.begun, one.stopped, one.how or "runs", _of_attempt(one, end))
    for row, step in enumerate(steps, 1):
        label, took = str(step.entry), lasted((step.ended or end) - (step.begun or end))
        kind = "failed" if step.has_failed else "waits" if step.is_open else "done"
        drawn.label(row, f"{step.at} {_short(step)}", label, f"{kind} {took}")
        said = "; ".join([label, *map(str, step.completions), f"{kind} after {took}"])
        drawn.bar(row, step.begun, step.ended, kind, said)
    return drawn


def _of_attempt(it: Attempt, end: float) -> str:
    took = lasted((it.stopped or end) - (it.begun or end))
    error = f": {it.error.partition(chr(10))[0]}" if it.error else ""
    return f"attempt {it.epoch} by {it.worker}, {it.how or 'runs'} after {took}{error}"


def _short(step: Step) -> str:
    """A command's name, and what distinguishes it from others of its kind."""
    fields = {name: shown.strip("'\"") for name, shown in step.entry.fields if shown not in ("''", "None")}
    told = ("id",) if step.entry.name == "Notification" else ("service", "handler", "name", "key", "target", "awakeable", "invocation")
    text = f"{step.entry.name} {'/'.join(fields[it] for it in told if it in fields)}".rstrip()
    return text if len(text) <= 34 else f"{text[:33]}…"
