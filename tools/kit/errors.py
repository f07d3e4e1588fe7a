"""What is said to the user in one line, in the place of a traceback."""

from __future__ import annotations

import signal
import sys
from collections.abc import Callable


class Refused(Exception):
    """What was asked for can't be done: its text says why, and what would help."""


def ended(command: str, does: Callable[[], None]) -> int:
    """Does something, and returns the exit status of the command: 1 if it was refused, which is said. If it is told to stop, what it
    started is ended, and its temporary folders are removed."""
    for number in (signal.SIGTERM, signal.SIGHUP):
        signal.signal(number, lambda number, _: sys.exit(128 + number))
    try:
        does()
    except Refused as error:
        print(f"{command}: {error}", file=sys.stderr)
        return 1
    except KeyboardInterrupt:
        print(f"{command}: interrupted", file=sys.stderr)
        return 130
    return 0
