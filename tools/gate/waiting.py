"""Waits for runs of rt ci, whose output goes to files.

usage: python3 tools/gate/waiting.py LOG,.. CRATE COMMAND [WORD ..]     runs a command once one of them has proved the crate, or all have ended
"""

from __future__ import annotations

import os
import re
import sys
import time
from collections.abc import Iterable, Sequence
from pathlib import Path

PROVED = re.compile(r"^rt: (\w+) (?:proved$|is kept: )", re.M)
ENDED = re.compile(r"^\d+ passed, \d+ failed", re.M)


def wait_for(names: Iterable[str], logs: Sequence[Path], pause: float = 1) -> list[str]:
    """Waits until the output of a run says that these crates are proved, or that of each run that it has ended, and returns those that weren't."""
    left = set(names)
    while left:
        time.sleep(pause)
        texts = [it.read_text(encoding="utf-8", errors="replace") if it.is_file() else "" for it in logs]
        left -= {name for text in texts for name in PROVED.findall(text)}
        if all(ENDED.search(text) for text in texts):
            break
    return sorted(left)


if __name__ == "__main__":
    wait_for([sys.argv[2]], [Path(it) for it in sys.argv[1].split(",")])
    os.execvp(sys.argv[3], sys.argv[3:])
