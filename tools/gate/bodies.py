"""Has the prover refuse the wrong bodies in crates/NAME/wrong-bodies, which the gate doesn't try.

usage: python3 -m tools.gate.bodies [--minutes N] [--anew] [--jobs N] [CRATE ..]

They are tried in copies, some crates at a time, over the libraries that ./prove has proved and left, so run it first. What was refused is
kept in out/prove/wrong-bodies.json: a run that was stopped goes on with the crates that are left, and what hasn't changed since isn't tried
again. After --minutes no further crate is begun. The last line is 'N passed, M failed'; above it stands how many are left."""

from __future__ import annotations

import argparse
import hashlib
import json
import os
import re
import shutil
import subprocess
import sys
import tempfile
import threading
import time
from collections.abc import Callable, Iterable
from concurrent.futures import ThreadPoolExecutor
from dataclasses import dataclass
from pathlib import Path

from . import tree
from .environment import TOP, lanes
from .proofs import read_crates
from .texts import PARTS, sum_of_crate, sum_of_crates

KEPT = Path("out/prove/wrong-bodies.json")
RESULT = re.compile(r"^rt: must-fail (\w+)/(\S+\.edit): (.*)$")
REFUSED = "refused, as it must be"


@dataclass(frozen=True)
class Tried:
    """What was tried: the sum of all that an edit stands on, and what the prover said."""

    sum: str
    said: str

    @property
    def is_refused(self) -> bool:
        return self.said.startswith(REFUSED)


def read_kept(path: Path = KEPT) -> dict[str, Tried]:
    """What earlier runs have tried, by the edits' paths."""
    try:
        return {name: Tried(it["sum"], it["said"]) for name, it in json.loads(path.read_text(encoding="utf-8")).items()}
    except (OSError, ValueError, KeyError, TypeError, AttributeError):
        return {}


def write_kept(found: dict[str, Tried], path: Path = KEPT) -> None:
    path.parent.mkdir(parents=True, exist_ok=True)
    new = path.with_suffix(".new")
    new.write_text(json.dumps({name: vars(it) for name, it in sorted(found.items())}, indent=1) + "\n", encoding="utf-8")
    new.replace(path)


def results(output: str) -> dict[str, str]:
    """What rt ci said of each edit, by the paths that these have in wrong-bodies/."""
    found = [it for line in output.splitlines() if (it := RESULT.match(line))]
    return {f"{it[1]}/wrong-bodies/{it[2]}": it[3] for it in found}


def linked(one: str, to: str) -> None:
    """Puts a file that nobody changes at another place: a library may be large."""
    try:
        os.link(one, to)
    except OSError:  # on another disk
        shutil.copy2(one, to)


class Bodies:
    """The wrong bodies of a repository."""

    def __init__(self, top: Path) -> None:
        self.top = top
        self.crates = read_crates(top, ())
        self.kit = subprocess.run(["rt", "version"], capture_output=True, text=True).stdout.split()[-1:]

    def edits(self, crate: str) -> list[Path]:
        return sorted((self.top / "crates" / crate / "wrong-bodies").glob("*.edit"))

    def names(self) -> list[str]:
        """The crates that have some, each after what it stands on."""
        return [it for it in self.crates if self.edits(it)]

    def below(self, crate: str) -> set[str]:
        """A crate, and all crates that it stands on."""
        return tree.below(self.crates, [crate])

    def sums(self, crate: str) -> dict[str, str]:
        """A sum, for each edit of a crate, of all that a try of it stands on."""
        base = [(it, sum_of_crate(self.top / "crates" / it)) for it in sorted(self.below(crate))]
        return {self.name(it): hashlib.sha256(repr((self.kit, base, it.read_bytes())).encode()).hexdigest() for it in self.edits(crate)}

    def name(self, edit: Path) -> str:
        return str(edit.relative_to(self.top / "crates"))

    def not_proved(self, crate: str) -> str | None:
        """A library below a crate that ./prove hasn't left as its text stands now; none if it has left all."""
        for it in sorted(self.below(crate) - {crate}):
            text = self.top / "crates" / it / tree.TEXT
            if not text.is_file() or text.read_text(encoding="ascii") != sum_of_crates(self.top, self.below(it)):
                return it
        return None

    def copy(self, room: Path, crate: str, parts: Iterable[str], by: Callable[[str, str], object] = shutil.copy2) -> None:
        """Copies these folders of a crate, as far as it has them."""
        for part in parts:
            if (self.top / "crates" / crate / part).is_dir():
                shutil.copytree(self.top / "crates" / crate / part, room / "crates" / crate / part, copy_function=by)

    def attempt(self, crate: str, edits: Iterable[Path]) -> dict[str, str]:
        """Tries these edits of a crate in a copy, over what is proved below it, and returns what rt said of each."""
        with tempfile.TemporaryDirectory(prefix="wrong-bodies-") as folder:
            room = Path(folder)
            for it in self.below(crate):
                self.copy(room, it, PARTS)
                if it != crate:
                    self.copy(room, it, ("out/rlib",), linked)
            (room / "crates.txt").write_text(tree.rows(self.top, self.below(crate)), encoding="utf-8")
            shutil.copy(self.top / "HANDLES", room)
            (room / "crates" / crate / "must-fail").mkdir()
            for edit in edits:
                shutil.copy(edit, room / "crates" / crate / "must-fail")
            env = {**os.environ, "PYTHONPATH": str(Path(__file__).resolve().parents[2]), "PYTHONDONTWRITEBYTECODE": "1"}
            words = [sys.executable, "-m", "tools.gate.refusals", crate]
            ran = subprocess.run(words, cwd=room, env=env, stdin=subprocess.DEVNULL, capture_output=True, text=True, errors="replace")
        found = results(ran.stdout)
        if not found:
            print(ran.stdout[-4000:], ran.stderr[-2000:], flush=True)
        return found


KEEPING = threading.Lock()


def try_crate(bodies: Bodies, crate: str, kept: dict[str, Tried], anew: bool) -> bool:
    """Tries the edits of a crate that weren't refused as they stand now, and keeps what came of them. Says whether all were refused."""
    sums, begun = bodies.sums(crate), time.monotonic()
    missing = [it for it in bodies.edits(crate) if anew or not is_settled(kept, bodies.name(it), sums)]
    lacking = bodies.not_proved(crate) if missing else None
    said = bodies.attempt(crate, missing) if missing and not lacking else {}
    otherwise = f"NOT TRIED: {lacking} isn't proved as it stands, so run ./prove first" if lacking else "NOT TRIED: rt said nothing of it"
    with KEEPING:
        for it in missing:
            name = bodies.name(it)
            kept[name] = Tried(sums[name], said.get(name, otherwise))
            if not kept[name].is_refused:
                print(f"{name}: {kept[name].said}")
        write_kept(kept)
        many = sum(kept[name].is_refused for name in sums)
        print(f"{crate}: {many} of {len(sums)} refused, {len(missing)} tried now, {time.monotonic() - begun:.0f} s", flush=True)
    return many == len(sums)


def is_settled(kept: dict[str, Tried], name: str, sums: dict[str, str]) -> bool:
    """Whether an edit was refused as all stands now."""
    return name in kept and kept[name].is_refused and kept[name].sum == sums[name]


def arguments(words: list[str], names: list[str]) -> argparse.Namespace:
    parser = argparse.ArgumentParser("bodies", description=__doc__, formatter_class=argparse.RawDescriptionHelpFormatter)
    parser.add_argument("--minutes", type=float, default=float("inf"))
    parser.add_argument("--anew", action="store_true", help="try all, also what was refused before")
    parser.add_argument("--jobs", type=int, default=lanes(), metavar="N", help="crates at a time (%(default)s)")
    parser.add_argument("crates", nargs="*", metavar="CRATE")
    options = parser.parse_args(words)
    if unknown := [it for it in options.crates if it not in names]:
        parser.error(f"{unknown[0]} has no wrong bodies: {', '.join(names)} have")
    if options.jobs < 1:
        parser.error("--jobs wants a number above 0")
    return options


def main(words: list[str]) -> int:
    os.chdir(TOP)
    bodies, kept = Bodies(TOP), read_kept()
    options = arguments(words, bodies.names())
    until = time.monotonic() + 60 * options.minutes

    def try_in_time(crate: str) -> str | None:
        """Tries a crate's edits; if there is no time for it, nothing is tried, and nothing returned."""
        if time.monotonic() > until:
            return None
        try_crate(bodies, crate, kept, options.anew)
        return crate

    wanted = options.crates or bodies.names()
    with ThreadPoolExecutor(options.jobs) as pool:
        tried = [it for it in pool.map(try_in_time, wanted) if it]
    left = sum(len(bodies.edits(it)) for it in wanted if it not in tried)
    those = [kept[bodies.name(edit)] for it in tried for edit in bodies.edits(it)]
    passed = sum(it.is_refused for it in those)
    failed, limits = len(those) - passed, sum("only by a limit" in it.said for it in those)
    of_all = f"{passed} of {len(those) + left} wrong bodies refused, {limits} of them only by a limit of the prover"
    print(f"{of_all}; {failed} not refused, {left} left")
    print(f"{passed} passed, {failed} failed")
    return 1 if failed else 0


if __name__ == "__main__":
    sys.exit(main(sys.argv[1:]))
