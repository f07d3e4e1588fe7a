"""How numbers and rows are written for people."""

from __future__ import annotations

import datetime
from typing import Any

from .services import TerminalError


def moment(at: float | None) -> str:
    """A time in UTC; nothing for none.

    >>> moment(0.0)
    '1970-01-01 00:00:00'
    """
    if at is None:
        return ""
    return datetime.datetime.fromtimestamp(at, datetime.timezone.utc).strftime("%Y-%m-%d %H:%M:%S")


def moment_of(what: str, text: str) -> float:
    """A time in the form of ISO 8601, in seconds since the epoch; UTC if it names no zone. Raises a `TerminalError` with code 400 for what is none.

    >>> moment_of("since", "2026-11-27T03:00"), moment_of("since", "2026-11-27T04:00:00+01:00")
    (1795748400.0, 1795748400.0)
    """
    try:
        at = datetime.datetime.fromisoformat(text)
        return (at if at.tzinfo is not None else at.replace(tzinfo=datetime.timezone.utc)).timestamp()
    except (ValueError, OverflowError):
        raise TerminalError(f"{what}={text[:40]} is no time, as 2026-11-27T03:00 or 2026-11-27T03:00+01:00", 400) from None


def lasted(seconds: float) -> str:
    """A duration.

    >>> lasted(0.25), lasted(90), lasted(7300)
    ('250 ms', '90.0 s', '2.0 h')
    """
    if seconds < 1:
        return f"{max(seconds, 0) * 1000:.0f} ms"
    if seconds < 120:
        return f"{seconds:.1f} s"
    if seconds < 7200:
        return f"{seconds / 60:.0f} min"
    return f"{seconds / 3600:.1f} h" if seconds < 172_800 else f"{seconds / 86_400:.1f} d"


def target(row: dict[str, Any]) -> str:
    """The service, the key and the handler of an invocation."""
    return "/".join(filter(None, (row["service"], row["key"], row["handler"])))


def limits(given: dict[str, Any]) -> str:
    """What a queue lets through.

    >>> limits({"concurrency": 10, "per_key": 2, "rate": [100, 60]})
    'concurrency 10, per_key 2, rate 100 in 60 s'
    """
    return ", ".join(f"rate {it[0]} in {it[1]:g} s" if name == "rate" else f"{name} {it}" for name, it in given.items())


def attributes(given: dict[str, str]) -> str:
    """What a handler says of its invocation.

    >>> attributes({"customer": "ann", "stage": "paid"})
    'customer=ann stage=paid'
    """
    return " ".join(f"{name}={value}" for name, value in given.items())
