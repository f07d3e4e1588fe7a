"""docs/evidence/DATE.md: what the night run has done, a row a run of a part."""

from __future__ import annotations

import datetime
import fcntl
import os
import subprocess
from dataclasses import dataclass
from pathlib import Path

FOLDER = Path("docs/evidence")
HEAD = """# Evidence of {date}

What `./prove all` has run on this day, a row a run of a part. CONTRIBUTING says how to run them again.

| Part | What was run, and what came of it | Seconds | Commit | Kit | Machine |
|---|---|---|---|---|---|
"""


@dataclass(frozen=True)
class Evidence:
    """A run of a part: what was run and what came of it, and the seconds that it took."""

    part: str
    figure: str
    seconds: float


def _said(*words: str) -> str:
    ran = subprocess.run(words, stdin=subprocess.DEVNULL, capture_output=True, text=True)
    return ran.stdout.strip() if ran.returncode == 0 else ""


def commit() -> str:
    """The commit that stands here, and whether files that it has were changed since."""
    name = _said("git", "rev-parse", "--short=8", "HEAD") or "unknown"
    changed = [it for it in _said("git", "status", "--porcelain", "--untracked-files=no").splitlines() if str(FOLDER) not in it]
    return f"{name} with changes" if changed else name


def kit() -> str:
    return _said("rt", "version") or "unknown"


def machine() -> str:
    """The processor, how many of its cores are ours, and the memory."""
    lines = Path("/proc/cpuinfo").read_text(encoding="utf-8", errors="replace").splitlines()
    model = next((it.partition(":")[2].strip() for it in lines if it.startswith("model name")), "unknown processor")
    memory = os.sysconf("SC_PAGE_SIZE") * os.sysconf("SC_PHYS_PAGES") / 2**30
    return f"{model}, {len(os.sched_getaffinity(0))} cores, {memory:.0f} GB"


def cell(text: str) -> str:
    """A text as a cell of a table."""
    return " ".join(text.split()).replace("|", "\\|")


def row(it: Evidence) -> str:
    cells = [it.part, it.figure, f"{it.seconds:.0f}", commit(), kit(), machine()]
    return f"| {' | '.join(map(cell, cells))} |\n"


def page(today: datetime.date | None = None) -> Path:
    """The page of a day, by its date in UTC."""
    return FOLDER / f"{today or datetime.datetime.now(datetime.UTC).date()}.md"


def add(it: Evidence, to: Path) -> None:
    """Adds a row to the table of a page, which is made if it isn't there. What stands below the table stays there. Parts that run side by side may end at once,
    so each waits until the other has written its row."""
    to.parent.mkdir(parents=True, exist_ok=True)
    with to.open("a+", encoding="utf-8") as page:
        fcntl.flock(page, fcntl.LOCK_EX)
        page.seek(0)
        text = page.read() or HEAD.format(date=to.stem)
        lines = text.splitlines(keepends=True)
        last = max(at for at, line in enumerate(lines) if line.startswith("|"))
        page.truncate(0)
        page.write("".join([*lines[: last + 1], row(it), *lines[last + 1 :]]))
