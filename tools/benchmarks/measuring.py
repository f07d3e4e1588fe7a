"""How a case is measured: a player, which is a program that plays it, run under callgrind, with its heap counted, or by the clock.

A player is run as `PLAYER CASE ENTRIES ROUNDS on|off`; c/typed.c says what it prints."""

from __future__ import annotations

import os
import re
import subprocess
from collections.abc import Callable, Iterable, Iterator
from dataclasses import dataclass, field
from pathlib import Path

from tools.kit.errors import Refused

from .cases import Case

SIDES = ("original", "here")
MOST_PLAYED = 200_000  # entries that one run plays, by rounds of a short case
MOST_ROUNDS = 200
ROUNDS_OF_HEAP = 2  # the first makes the player's own buffers, and the last is counted
FIELD = re.compile(r"\b([a-z]+)=(\d+)\b")
COUNTED = re.compile(r"refs:\s+([\d,]+)")


@dataclass(frozen=True)
class Player:
    """A side's program."""

    side: str
    program: Path


@dataclass(frozen=True)
class Setting:
    """Whether a cancel signal ends awaits, which is the default of both sides."""

    cancels: bool

    @property
    def word(self) -> str:
        return "on" if self.cancels else "off"

    def __str__(self) -> str:
        return "default options" if self.cancels else "cancellation off"


@dataclass(frozen=True)
class Point:
    """A case at a size with a setting."""

    case: Case
    size: int
    setting: Setting

    def __str__(self) -> str:
        return f"{self.case.name} at {self.size:,}, {self.setting}"


@dataclass
class Row:
    """What was measured at a point: by side, a figure by its name. All but the heap's high-water mark are for an entry."""

    point: Point
    figures: dict[str, dict[str, float]] = field(default_factory=dict)

    def of(self, side: str, name: str) -> float | None:
        return self.figures.get(side, {}).get(name)

    def ratio(self, name: str) -> float | None:
        """What it takes here for one that it takes the original."""
        here, original = self.of("here", name), self.of("original", name)
        return here / original if here is not None and original else None


def read_fields(said: str) -> dict[str, int]:
    """The numbers that a player prints."""
    found = {name: int(number) for name, number in FIELD.findall(said)}
    if not {"awake", "taken", "ns", "peak", "allocations", "copied"} <= set(found):
        raise Refused(f"a player printed {said[:200]!r}, not what c/typed.c says")
    return found


def read_counted(said: str) -> int:
    """The instructions that callgrind counted."""
    found = COUNTED.findall(said)
    if not found:
        raise Refused(f"callgrind counted nothing: {said[-400:]}")
    return int(str(found[-1]).replace(",", ""))


def play(player: Player, point: Point, rounds: int = 1, before: Iterable[str] = (), **env: str) -> tuple[dict[str, int], str]:
    """Runs a player. Returns its numbers, and what came on standard error."""
    words = [*before, str(player.program), point.case.name, str(point.size), str(rounds), point.setting.word]
    ran = subprocess.run(words, stdin=subprocess.DEVNULL, capture_output=True, text=True, env={**os.environ, **env})
    if ran.returncode != 0:
        raise Refused(f"{player.side}, {point}: status {ran.returncode}: {ran.stderr.strip()[-400:]}")
    return read_fields(ran.stdout), ran.stderr


def rounds_of(point: Point) -> int:
    """How often a short case is played in one run by the clock."""
    return max(1, min(MOST_ROUNDS, min(MOST_PLAYED, point.case.most) // point.size))


def same_work(point: Point, done: Iterable[dict[str, int]]) -> None:
    """Refuses sides whose awaits or results differ."""
    works = {(it["awake"], it["taken"]) for it in done}
    if len(works) > 1:
        raise Refused(f"{point}: the sides did other work: {works}")


def instructions(players: list[Player], point: Point) -> Row:
    """Instructions of `measured` for an entry, by callgrind."""
    valgrind = ["valgrind", "--tool=callgrind", "--toggle-collect=measured", "--collect-atstart=no", "--callgrind-out-file=/dev/null"]
    row, done = Row(point), []
    for it in players:
        fields, said = play(it, point, before=valgrind)
        done.append(fields)
        row.figures[it.side] = {"instructions": read_counted(said) / point.size}
    same_work(point, done)
    return row


def heap(preloaded: Path) -> Callable[[list[Player], Point], Row]:
    """The heap's high-water mark in bytes, and the allocations and the bytes that are copied for an entry."""

    def measure(players: list[Player], point: Point) -> Row:
        row, done = Row(point), []
        for it in players:
            fields, _ = play(it, point, ROUNDS_OF_HEAP, LD_PRELOAD=str(preloaded))
            done.append(fields)
            each = {name: fields[name] / point.size for name in ("allocations", "copied")}
            row.figures[it.side] = {"peak": fields["peak"], **each}
        same_work(point, done)
        return row

    return measure


def clock(runs: int) -> Callable[[list[Player], Point], Row]:
    """The least nanoseconds of these runs for an entry. The sides' runs alternate, so that other work of the machine meets both."""

    def measure(players: list[Player], point: Point) -> Row:
        row = Row(point)
        for _ in range(runs):
            done = {it.side: play(it, point, rounds_of(point))[0] for it in players}
            same_work(point, done.values())
            for side, fields in done.items():
                least = row.of(side, "ns")
                took = fields["ns"] / point.size
                row.figures[side] = {"ns": took if least is None else min(least, took)}
        return row

    return measure


def points(cases: Iterable[Case], sizes: Iterable[int], settings: Iterable[Setting]) -> Iterator[Point]:
    """What is measured, the short first. A case that doesn't go as far as the largest size is measured at its most."""
    sizes = sorted(set(sizes))
    for setting in settings:
        for case in cases:
            for size in sorted({min(it, case.most) for it in sizes if it >= case.least}):
                yield Point(case, size, setting)


def players_of(players: list[Player], point: Point) -> list[Player]:
    """The sides that are measured at a point."""
    return [it for it in players if it.side != "original" or point.size <= point.case.most_of_original]
