"""Other programs, run for what they say or make."""

from __future__ import annotations

import shlex
import subprocess
from collections.abc import Iterable
from pathlib import Path

from .errors import Refused

Word = str | Path
MOST_SAID = 4000


def run(command: Iterable[Word], what: str, folder: Path | None = None) -> str:
    """Runs a command that has to succeed, and returns its output. `what` says what it was for."""
    words = [str(it) for it in command]
    try:
        ran = subprocess.run(words, cwd=folder, stdin=subprocess.DEVNULL, capture_output=True, text=True, errors="replace")
    except OSError as error:
        raise Refused(f"{what}: {words[0]} can't be started: {error.strerror}") from error
    if ran.returncode != 0:
        said = (ran.stderr or ran.stdout).strip()[-MOST_SAID:]
        raise Refused(f"{what}: `{shlex.join(words[:1])}` ended with status {ran.returncode}{': ' if said else ''}{said}")
    return ran.stdout
