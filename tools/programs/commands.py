"""Runs commands that are asked nothing, and have a limit of seconds."""

from __future__ import annotations

import subprocess
from dataclasses import dataclass


@dataclass(frozen=True)
class Ended:
    """How a command ended: its status, which is None if it hadn't ended in time, its output, and what it said on standard error."""

    status: int | None
    output: str
    said: str

    def shown(self) -> str:
        return f"status {self.status}, {self.output[-300:]!r}, {self.said[-600:]!r}"


def _text(output: bytes | str | None) -> str:
    """What was read of a command's output until it was ended."""
    return output.decode(errors="replace") if isinstance(output, bytes) else output or ""


def ended(words: list[str], env: dict[str, str] | None, cwd: str | None, seconds: int) -> Ended:
    """Runs a command."""
    try:
        ran = subprocess.run(words, env=env, cwd=cwd, stdin=subprocess.DEVNULL, capture_output=True, text=True, errors="replace", timeout=seconds)
    except subprocess.TimeoutExpired as error:
        return Ended(None, _text(error.stdout), f"{_text(error.stderr)}had not ended after {seconds} seconds")
    except OSError as error:
        return Ended(None, "", str(error))
    return Ended(ran.returncode, ran.stdout, ran.stderr)
