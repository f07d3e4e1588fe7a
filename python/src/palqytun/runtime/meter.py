"""What a worker counts and measures, as it happens. `metrics.py` keeps it for Prometheus; without the extra `server` nothing is kept."""

from __future__ import annotations

from dataclasses import dataclass
from typing import Protocol


@dataclass(frozen=True)
class Ended:
    """An invocation that has ended, `seconds` after it was made. `outcome` is `done`, `failed` or `continued`."""

    service: str
    handler: str
    outcome: str
    seconds: float


class Meter(Protocol):
    """Each method is one observation; times are in seconds."""

    def ended(self, it: Ended) -> None: ...
    def failed(self, handler: str, event: str) -> None:
        """An attempt failed or was lost, or an invocation was paused; the handler is `Service/handler`."""

    def attempt(self, service: str, handler: str, how: str, seconds: float) -> None:
        """An attempt has stopped: it is suspended, ready for another try, paused or done, or something else has stopped it."""

    def claimed(self, service: str, handler: str, late: float) -> None:
        """A ready invocation was claimed, `late` seconds after it was due."""

    def fired(self, late: float) -> None:
        """A timer fired, `late` seconds after it was due."""

    def committed(self, operations: int, seconds: float) -> None:
        """A group of operations was committed."""


class NoMeter:
    """Keeps nothing."""

    def ended(self, it: Ended) -> None:
        pass

    def failed(self, handler: str, event: str) -> None:
        pass

    def attempt(self, service: str, handler: str, how: str, seconds: float) -> None:
        pass

    def claimed(self, service: str, handler: str, late: float) -> None:
        pass

    def fired(self, late: float) -> None:
        pass

    def committed(self, operations: int, seconds: float) -> None:
        pass
