"""The log of a worker, as lines or as JSON. What is logged during an attempt, by whatever library, has its invocation, handler, attempt and trace."""

from __future__ import annotations

import contextvars
import logging
import re
from collections.abc import Mapping, Sequence

from .extras import needed

FORMATS = ("text", "json")
LEVELS = ("debug", "info", "warning", "error")
_TEXT = "%(asctime)s %(levelname)s %(name)s %(message)s"
_OURS = {"name", "levelname", "pathname", "filename", "module", "funcName", "threadName", "processName"}  # fields of a record with nothing of a user's
within: contextvars.ContextVar[Mapping[str, object]] = contextvars.ContextVar("palqytun_attempt", default={})
"""The fields of the attempt that this code belongs to; none outside of attempts."""


class Within(logging.Filter):
    """Gives each record the fields of its attempt, except those that it has."""

    def filter(self, record: logging.LogRecord) -> bool:
        for name, value in within.get().items():
            record.__dict__.setdefault(name, value)
        return True


class Redacted(logging.Filter):
    """Replaces what one of these regular expressions finds by `[redacted]`: in a record's message, in its stack, and in its other fields."""

    def __init__(self, expressions: Sequence[str]):
        """Raises `ValueError` for what is no regular expression."""
        super().__init__()
        self._found = [_compiled(it) for it in expressions]

    def _text(self, text: str) -> str:
        for it in self._found:
            text = it.sub("[redacted]", text)
        return text

    def filter(self, record: logging.LogRecord) -> bool:
        if record.exc_info and not record.exc_text:
            record.exc_text = logging.Formatter().formatException(record.exc_info)
        record.msg, record.args, record.exc_info = record.getMessage(), (), None
        for name, value in record.__dict__.items():
            if isinstance(value, str) and name not in _OURS:
                record.__dict__[name] = self._text(value)
        return True


def _compiled(expression: str) -> re.Pattern[str]:
    try:
        return re.compile(expression)
    except re.error as error:
        raise ValueError(f"{expression[:200]!r} is no regular expression: {error}") from None


def set_up(form: str = "text", level: str = "info", redacts: Sequence[str] = ()) -> None:
    """Logs to the standard error from here on; what one of the regular expressions `redacts` finds isn't shown. Raises `MissingExtra` for `json` if the extra
    `json` isn't installed, and `ValueError` for what is no regular expression."""
    handler = logging.StreamHandler()
    if form == "json":
        library = needed("pythonjsonlogger.jsonlogger", "json", "--log-format json")
        names = {"levelname": "level", "name": "logger", "asctime": "time"}
        handler.setFormatter(library.JsonFormatter("%(asctime)s %(levelname)s %(name)s %(message)s", rename_fields=names))
    else:
        handler.setFormatter(logging.Formatter(_TEXT))
    handler.addFilter(Within())
    if redacts:
        handler.addFilter(Redacted(redacts))
    logging.basicConfig(level=level.upper(), handlers=[handler], force=True)
