"""When a schedule is due: after each interval of some seconds, or by the five fields of cron, as croniter reads them, in a time zone.

A time of the clock that summer time skips is due an hour later. One that comes twice is due at the first, unless the hours are `*`: then both count.
"""

from __future__ import annotations

import datetime
import re
import zoneinfo
from collections.abc import Iterator
from dataclasses import dataclass
from typing import Any

from .extras import needed

_RANDOM = re.compile(r"(?<![a-z])[rh](?![a-z])", re.IGNORECASE)  # croniter's own fields, which mean another time at each reading
_SHIFT = datetime.timedelta(hours=3)  # more than any zone's clock is moved


@dataclass(frozen=True)
class Cron:
    """A cron expression, in a zone."""

    text: str
    zone: zoneinfo.ZoneInfo

    @staticmethod
    def read(text: str, zone: str = "UTC") -> Cron:
        """Raises `ValueError` for what is no expression, is never due, or names no zone."""
        count = len(text.split())
        if count != 5 or _RANDOM.search(text):
            raise ValueError(f"a cron expression has 5 fields, as '0 3 * * mon-fri', and {text!r} has {count}, or one that cron doesn't know")
        try:
            found = Cron(text, zoneinfo.ZoneInfo(zone))
        except (zoneinfo.ZoneInfoNotFoundError, ValueError, OSError):
            raise ValueError(f"{zone!r} is no time zone, as 'Europe/Berlin' is one") from None
        found.after(0)
        return found

    def _walls(self, since: datetime.datetime) -> Iterator[datetime.datetime]:
        """Its times after one, by a clock on the wall."""
        croniter: Any = needed("croniter", "server", "a schedule by cron").croniter
        try:
            times = croniter(self.text, since)
            while True:
                yield times.get_next(datetime.datetime)
        except ValueError as error:
            raise ValueError(f"{self.text!r} is no cron expression, or never due: {error}") from error

    def _instants(self, wall: datetime.datetime) -> Iterator[float]:
        """When the clock on the wall shows a time, in seconds since the epoch."""
        first, second = (wall.replace(tzinfo=self.zone, fold=fold).timestamp() for fold in (0, 1))
        yield first
        if second > first and self.text.split()[1].startswith("*"):
            yield second

    def after(self, now: float) -> float:
        """The first time after `now`, in seconds since the epoch."""
        here = datetime.datetime.fromtimestamp(now, self.zone)
        is_near_a_change = (here - _SHIFT).utcoffset() != (here + _SHIFT).utcoffset()
        wall, shift = here.replace(tzinfo=None, fold=0), _SHIFT if is_near_a_change else datetime.timedelta()
        found: list[float] = []
        for it in self._walls(wall - shift):
            found += [at for at in self._instants(it) if at > now]
            if found and it > wall + shift:
                break
        return min(found)


@dataclass(frozen=True)
class Every:
    """Once each `seconds`, counted from the epoch."""

    seconds: float

    def after(self, now: float) -> float:
        at = (now // self.seconds + 1) * self.seconds
        return at if at > now else at + self.seconds


def times_of(rule: str) -> Cron | Every:
    """The times of a rule, as a schedule's row has it.

    >>> times_of("every 60").after(119.5)
    120.0
    """
    kind, *words = rule.split()
    return Every(float(words[0])) if kind == "every" else Cron.read(" ".join(words[:5]), *words[5:])
