"""How many seconds of a processor the proof of a crate takes, by the modules that the prover checks.

Under ANTT_CACHE_DEBUG the prover says when it begins a module, and when it is done with it. What its process takes between two such lines is for the
module that it began last and isn't done with. What it takes before the first, and between two modules, is for what it loads.
"""

from __future__ import annotations

import os
import re
import subprocess
from collections.abc import Callable, Iterable, Sequence
from dataclasses import dataclass, field
from pathlib import Path

from .crates import Crate, Crates
from .errors import Refused
from .toolchain import Kit

LOADING = "(loading)"
TICKS = os.sysconf("SC_CLK_TCK")
_SAID = "antt: cache: "
_BEGUN = re.compile(rf"{_SAID}(\S+): elaborating")
_ENDED = re.compile(rf"{_SAID}(\S+): artifact encoded")


@dataclass
class Times:
    """The seconds of each module, as far as the lines tell."""

    seconds: dict[str, float] = field(default_factory=dict)
    _open: list[str] = field(default_factory=list)
    _used: float = 0

    def said(self, line: str, used: float) -> None:
        """Takes a line, and the seconds that the process had taken by then."""
        if not line.startswith(_SAID):
            return
        name = self._open[-1] if self._open else LOADING
        self.seconds[name] = self.seconds.get(name, 0) + used - self._used
        self._used = used
        if found := _BEGUN.match(line):
            self._open.append(found[1])
        elif (found := _ENDED.match(line)) and found[1] in self._open:
            self._open.remove(found[1])

    def lines(self, most: int) -> list[str]:
        """The modules that took most, and the sum of all."""
        dearest = sorted(self.seconds.items(), key=lambda it: -it[1])[:most]
        return [*(f"{taken:7.2f}  {name}" for name, taken in dearest), f"{sum(self.seconds.values()):7.2f}  in all"]


def words(crates: Crates, kit: Kit, crate: Crate, paths: Iterable[str]) -> list[str]:
    """The prover's words that check these functions of a crate, or all, over the libraries that stand in crates/NAME/out/rlib."""
    below = crates.below(crate.uses)
    if lacking := [it.name for it in below if not (it.folder / f"out/rlib/{it.name}.rlib").is_dir()]:
        raise Refused(f"{lacking[0]} has no library in crates/{lacking[0]}/out/rlib: ./prove leaves one of each crate, and `rt lib` in crates/{crate.name} makes them")
    found = ["check", "--crate-name", crate.name, "src/main.rt" if crate.is_program else "src/lib.rt"]
    for name in crates.of_kit([crate]):
        found += ["--extern", f"{name}={kit.folder}/rlibs/{name}.rlib"]
    found += ["-L", f"dependency={kit.folder}/rlibs"]
    for it in below:
        found += ["--extern", f"{it.name}={it.folder}/out/rlib/{it.name}.rlib"] * (it.name in crate.uses) + ["-L", f"dependency={it.folder}/out/rlib"]
    found += ["--antt-project", f"{kit.folder}/rattle/logic/antt-project.json", "--logic-built", f"{kit.folder}/logic_built"]
    found += ["--links", f"{crate.name}=", "--jobs", "1"]
    return [*found, *(word for it in paths for word in ("--only", it))]


def used_by(pid: int) -> float:
    """The seconds of a processor that a process has taken, with its threads that have ended."""
    try:
        row = Path(f"/proc/{pid}/stat").read_text(encoding="utf-8", errors="replace").rpartition(")")[2].split()
    except OSError:
        return 0
    return (int(row[11]) + int(row[12])) / TICKS


def measured(command: Sequence[str], folder: Path, told: Callable[[str], None]) -> Times:
    """Runs the prover, and returns the seconds of each module. What it says of functions is told; it is refused if it doesn't prove them."""
    times = Times()
    env = {**os.environ, "ANTT_CACHE_DEBUG": "1"}
    how = {"stdin": subprocess.DEVNULL, "stdout": subprocess.PIPE, "text": True, "errors": "replace"}
    with subprocess.Popen(command, cwd=folder, env=env, stderr=subprocess.STDOUT, **how) as ran:  # type: ignore[call-overload]
        for line in ran.stdout:
            times.said(line, used_by(ran.pid))
            if line.startswith(("fn ", "error", "rattle: ")) and not line.endswith(": proved\n"):
                told(line.rstrip("\n"))
    if ran.returncode != 0:
        raise Refused(f"the prover ended with status {ran.returncode}")
    return times
