"""The inputs of programs in crates/NAME/runs, and what a program has to do with them.

An input is CASE.in, with its arguments in CASE.args, one word a line. If CASE.out and CASE.status stand beside it, the ordinary run must
write the one and end with the other; if CASE.said does, it must write that to standard error. A program that writes text has CASE.lines in the
place of CASE.out, vmscript CASE.transcript, vmrounds CASE.report, and vmengine CASE.engine."""

from __future__ import annotations

import os
from dataclasses import dataclass
from pathlib import Path

from .refusing import Run

TEXTS = (".report", ".transcript", ".engine", ".lines")


def types(output: bytes) -> list[int] | None:
    """Returns the types of an output's frames, or None if it doesn't end with a whole one."""
    found, at = [], 0
    while at < len(output):
        end = at + 10 + int.from_bytes(output[at + 2 : at + 10], "big")
        if at + 10 > len(output) or end > len(output):
            return None
        found.append(int.from_bytes(output[at : at + 2], "big"))
        at = end
    return found


def is_whole(output: bytes, by_lines: bool) -> bool:
    return output[-1:] in (b"", b"\n") if by_lines else types(output) is not None


def shown(output: bytes) -> str:
    return output.hex() if len(output) < 1000 else f"{output[:1000].hex()}.."


def expected(given: str, ending: str) -> bytes | None:
    """What stands beside an input, if anything does."""
    path = os.path.splitext(given)[0] + ending
    if not given.endswith(".in") or not os.path.isfile(path):
        return None
    return Path(path).read_bytes()


@dataclass(frozen=True)
class Wanted:
    """What the ordinary run must write and end with, if that is given, whether it writes lines, and what it must write to standard error."""

    output: bytes | None
    status: int | None
    by_lines: bool
    said: bytes | None = None

    @classmethod
    def of(cls, path: str) -> Wanted:
        text = next((it for ending in TEXTS if (it := expected(path, ending)) is not None), None)
        status = expected(path, ".status")
        output, number = expected(path, ".out") if text is None else text, None if status is None else int(status)
        return cls(output, number, text is not None, expected(path, ".said"))

    def wrong(self, ran: Run) -> str | None:
        """Returns what is wrong with the run that nothing is refused to."""
        if ran.status is None or ran.status < 0:
            return ran.ended()
        if self.status is not None and ran.status != self.status:
            return f"{ran.ended()}, and not {self.status}"
        if self.output is not None and ran.output != self.output:
            return f"wrote {shown(ran.output)}, and not {shown(self.output)}"
        if self.said is not None and ran.said != self.said:
            return f"wrote {ran.said[:300]!r} to standard error, and not {self.said[:300]!r}"
        if self.output is None and not is_whole(ran.output, self.by_lines):
            return "wrote no whole frames or lines"
        return None


@dataclass(frozen=True)
class Input:
    """An input of a program: the file, the arguments, and what has to come of it."""

    path: str
    arguments: tuple[str, ...]
    wanted: Wanted


def inputs(program: str) -> list[Input]:
    """The inputs of a program in its runs/."""
    found = []
    for path in sorted(Path("crates", program, "runs").glob("*.in")):
        found.append(Input(str(path), words_of(path.with_suffix(".args")), Wanted.of(str(path))))
    return found


def words_of(path: Path) -> tuple[str, ...]:
    """The words of a file of arguments, one a line, if it is there."""
    return tuple(path.read_text(encoding="utf-8").splitlines()) if path.is_file() else ()


def own_input(program: str) -> Input | None:
    """The input that stands beside a program's src/, which rt ci runs it on."""
    folder = Path("crates", program)
    if not any((folder / it).is_file() for it in ("stdin", "stdout", "args", "status")):
        return None
    output, status = (folder / "stdout", folder / "status")
    wanted = Wanted(output.read_bytes() if output.is_file() else b"", int(status.read_text()) if status.is_file() else 0, True)
    return Input(str(folder / "stdin"), words_of(folder / "args"), wanted)


def programs() -> list[str]:
    """The programs of the repository."""
    return sorted(it.parent.parent.name for it in Path("crates").glob("*/src/main.rt"))
