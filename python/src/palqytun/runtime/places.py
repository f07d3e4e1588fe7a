"""Places in a user's own code: which line an error came from, and which frame of a stack is a user's."""

from __future__ import annotations

import os
import pathlib
import sysconfig
import traceback
from types import FrameType

_OWN = str(pathlib.Path(__file__).parent.parent)
_LIBRARY = sysconfig.get_path("stdlib")


def is_own(frame: FrameType) -> bool:
    """Whether a frame is of this package."""
    return frame.f_code.co_filename.startswith(_OWN)


def is_users(frame: FrameType) -> bool:
    """Whether a frame is neither of this package nor of Python's library."""
    file = frame.f_code.co_filename
    return not file.startswith((_OWN, "<")) and (not file.startswith(_LIBRARY) or "-packages" in file)


def _short(file: str) -> str:
    """A file as one names it in the folder of this process."""
    inside = os.path.relpath(file)
    return file if inside.startswith("..") else inside


def of_error(error: BaseException | None) -> str | None:
    """The line of a user's code in which an error was raised, as `shop.py:95`; none if no such line was on the way.

    >>> of_error(None) is None
    True
    """
    if error is None:
        return None
    lines = [f"{_short(frame.f_code.co_filename)}:{line}" for frame, line in traceback.walk_tb(error.__traceback__) if is_users(frame)]
    return lines[-1] if lines else None
