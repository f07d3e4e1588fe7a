"""Which invocations an operator means."""

from __future__ import annotations

from collections.abc import Mapping
from dataclasses import dataclass, fields

from . import attributes
from .services import TerminalError
from .shown import moment_of as moment

STATUSES = ("ready", "running", "suspended", "paused", "done", "failed")
"""What is shown of an invocation: `done` has ended with a value, and `failed` with a failure."""

ASKED = (*STATUSES, "open")
"""What may be asked for: `open` are those that haven't ended."""

_WHERE = {
    "status": "status=?",
    "service": "service=?",
    "handler": "handler=?",
    "key": "key=?",
    "queue": "queue=?",
    "version": "code=?",
    "older": "created<?",
    "newer": "created>=?",
    "since": "created>=?",
    "until": "created<?",
    "error": "LOWER(error) LIKE ? ESCAPE '!'",
    "text": "(LOWER(id) LIKE ? ESCAPE '!' OR LOWER(key) LIKE ? ESCAPE '!' OR LOWER(idem) LIKE ? ESCAPE '!' OR LOWER(error) LIKE ? ESCAPE '!')",
    "before": "seq<?",
    "after": "seq>?",
}
# A status as the table has it. By `status<>'done'` the index of those that haven't ended is known to have them all.
_HAS = "id IN (SELECT invocation FROM attributes WHERE name=? AND value=?)"
_STATUS = {"done": "status='done' AND failed IS NULL", "failed": "failed IS NOT NULL", "open": "status<>'done'"}


def _within(text: str) -> str:
    """The pattern of texts that have this one in them."""
    for it in "!%_":
        text = text.replace(it, f"!{it}")
    return f"%{text.lower()}%"


def _seconds(name: str, text: str) -> float:
    try:
        number = float(text)
    except ValueError:
        number = -1.0
    if not 0 <= number < 1e12:
        raise TerminalError(f"{name}={text[:40]} is no number of seconds from 0 on", 400)
    return number


def _whole(name: str, text: str) -> int:
    if not (text.isascii() and text.isdigit() and len(text) < 19):
        raise TerminalError(f"{name}={text[:40]} is no whole number from 0 on", 400)
    return int(text)


@dataclass(frozen=True)
class Filter:
    """Invocations, by what is given: a status as it is shown, or `open`, a service, a handler, a key, a queue, a `version` of code; made more (`older`) or less (`newer`) than a number
    of seconds ago; made at a time or later (`since`), or before one (`until`), in the form of ISO 8601; with an `attribute`, as `customer=ann`, or
    several of them, as `customer=ann&stage=paid`; a text in the `error`; a `text` in the id, the key, the idempotency key or the error; made before or after the one with a number.
    Texts are compared without regard to the case of letters.

    >>> Filter(status="failed", service="Shop").where(now=0.0)
    ('failed IS NOT NULL AND service=?', ['Shop'])
    """

    status: str | None = None
    service: str | None = None
    handler: str | None = None
    key: str | None = None
    queue: str | None = None
    version: str | None = None
    older: float | None = None
    newer: float | None = None
    since: str | None = None
    until: str | None = None
    attribute: str | None = None
    error: str | None = None
    text: str | None = None
    before: int | None = None
    after: int | None = None

    def __post_init__(self) -> None:
        if self.status is not None and self.status not in ASKED:
            raise TerminalError(f"status={self.status[:40]} is none: it is {', '.join(ASKED[:-1])} or {ASKED[-1]}", 400)
        self._checked()

    def _checked(self) -> None:
        """Refuses what is no time and no attribute."""
        assert self._times is not None and self._attributes is not None

    @property
    def _times(self) -> dict[str, float]:
        return {name: moment(name, it) for name, it in (("since", self.since), ("until", self.until)) if it is not None}

    @property
    def _attributes(self) -> list[tuple[str, str]]:
        return [] if self.attribute is None else attributes.asked(self.attribute)

    @staticmethod
    def names() -> tuple[str, ...]:
        """What a query may name of it."""
        return tuple(it.name for it in fields(Filter))

    @staticmethod
    def of(query: Mapping[str, str]) -> Filter:
        """The filter that a query names; an empty text is none. Raises `TerminalError` with code 400 for a value that is none."""
        given = {it.name: query[it.name] for it in fields(Filter) if query.get(it.name)}
        numbers = {name: _seconds(name, given.pop(name)) for name in ("older", "newer") if name in given}
        places = {name: _whole(name, given.pop(name)) for name in ("before", "after") if name in given}
        return Filter(**given, **numbers, **places)  # type: ignore[arg-type]

    @property
    def given(self) -> dict[str, str]:
        """What is given, as a query."""
        return {name: f"{it:g}" if isinstance(it, float) else str(it) for name, it in vars(self).items() if it is not None}

    def where(self, now: float) -> tuple[str, list[object]]:
        """The condition on rows of `invocations`, with its values. `now` is the database's time."""
        parts, values = [], list[object]()
        for name, it in vars(self).items():
            if it is None:
                continue
            if name == "status":
                parts.append(_STATUS.get(it, "status=? AND status<>'done'"))
                values += [] if it in _STATUS else [it]
                continue
            if name == "attribute":
                parts += [_HAS] * len(self._attributes)
                values += [text for pair in self._attributes for text in pair]
                continue
            parts.append(_WHERE[name])
            if name in ("since", "until"):
                values.append(self._times[name])
            elif name in ("older", "newer"):
                values.append(now - it)
            elif name in ("error", "text"):
                values += [_within(it)] * _WHERE[name].count("?")
            else:
                values.append(it)
        return " AND ".join(parts) or "1=1", values
