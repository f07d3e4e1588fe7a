"""What is tried of the binding of each language."""

from __future__ import annotations

import json
import os
import re
import shutil
import subprocess
import sys
from pathlib import Path
from typing import Protocol

from tools.abi import words
from tools.gate import counts as counting
from tools.programs.commands import Ended, ended

SECONDS = 2400  # for a command that builds or tests, beside all else that the gate runs


class Checks(Protocol):
    """What counts the checks of tools/bindings."""

    counts: counting.Counts

    def tell(self, name: str, wrong: str | None, more: str = "") -> bool: ...
    def build(self, name: str, words: list[str], env: dict[str, str] | None = None, cwd: str | None = None) -> bool: ...
    def prints(self, name: str, words: list[str], wanted: str, env: dict[str, str] | None = None, cwd: str | None = None) -> bool: ...
    def has(self, what: str, *names: str) -> bool: ...


class Bindings(Protocol):
    """The library that is tried, a folder for what is made, and how many workers of the two SDKs are killed."""

    @property
    def checks(self) -> Checks: ...
    @property
    def library(self) -> str: ...
    @property
    def room(self) -> str: ...
    @property
    def kills(self) -> int: ...
    def env(self, library: str = "") -> dict[str, str]: ...
    def counted(self, name: str, words: list[str], env: dict[str, str] | None = None) -> None: ...


def copied(it: Bindings, language: str, into: str = "") -> str:
    """The folder of a binding's copy, so that nothing is made within the repository."""
    folder = into or f"{it.room}/{language}"
    shutil.copytree(f"bindings/{language}", folder, ignore=shutil.ignore_patterns("target", "build", "node_modules", "__pycache__", "*.so", "*.node"))
    return folder


def plays(it: Bindings, language: str, player: list[str]) -> None:
    """Plays the suite, of which each row counts; a row that is changed has to be noticed."""
    it.counted(f"the suite through {language}", [sys.executable, "tools/conform", " ".join(player)])
    step = {"call": "new", "content_type": "application/vnd.restate.invocation.v8", "options": {}}
    for more in ({"returns": 7}, {"error": {"code": 415, "message": "BadContentType"}}):
        row = json.dumps({"row": "changed", "under": "version 8", "steps": [step | more]})
        ran = subprocess.run(player, input=row + "\n", capture_output=True, text=True, env=it.env(), timeout=SECONDS)
        found = Ended(ran.returncode, ran.stdout, ran.stderr)
        is_noticed = ran.returncode == 1 and ran.stdout.splitlines()[-1:] == ["not ok changed"]
        it.checks.tell(f"{language} notices a row that is changed", None if is_noticed else found.shown())


def other_library(it: Bindings, name: str, code: str) -> str | None:
    """A shared object that isn't Palqytun's as this repository has it."""
    made, source = f"{it.room}/{name}.so", f"{it.room}/{name}.c"
    Path(source).write_text(code, encoding="utf-8")
    if not os.path.exists(made) and not it.checks.build(f"{name}.so", ["cc", "-shared", "-fPIC", "-o", made, source]):
        return None
    return made


def installation_of(language: str) -> str:
    """The commands by which a binding's README says that a program of one's own gets it. They know the repository as PALQYTUN."""
    found = re.findall(r"^```sh\n(.*?)^```$", Path(f"bindings/{language}/README.md").read_text(encoding="utf-8"), re.M | re.S)
    return f"export PALQYTUN='{os.getcwd()}'\n{found[0]}" if len(found) == 1 else "false # README has no installation"


def example_of(language: str, fence: str) -> tuple[str, str]:
    """The example of a binding's README, and what it prints."""
    blocks = re.findall(r"^```(\w+)\n(.*?)^```$", Path(f"bindings/{language}/README.md").read_text(encoding="utf-8"), re.M | re.S)
    (code, *_), (printed, *_) = ([text for name, text in blocks if name == it] for it in (fence, "text"))
    return code, printed


def loads(it: Bindings, language: str, about: list[str]) -> None:
    """`about` prints which library there is. Of one that is missing, is another, or has another interface, it has to name the path and say what
    to do."""
    said = ended(about, it.env(), None, SECONDS)
    it.checks.tell(f"{language} loads the library", None if said.status == 0 and " logic " in said.output else said.shown())
    cases: list[tuple[str, str | None, str]] = [
        ("missing", f"{it.room}/nowhere/libpalqytun.so", "cannot open shared object file"),
        ("of another interface", other_library(it, "libnext", "unsigned palqytun_abi(void) { return 999; }\n"), "its interface has the number 999, and this"),
        ("another", other_library(it, "libother", "int other;\n"), "its interface has no number, and this"),
    ]
    for what, path, why in cases:
        if path is None:
            continue
        ran = ended(about, {**it.env(), "PALQYTUN_LIBRARY": path}, None, SECONDS)
        is_well = ran.status == 1 and all(part in ran.said for part in (path, why, words.HOW_TO_MAKE_IT, words.ANOTHER))
        it.checks.tell(f"{language} says that a library is {what}", None if is_well else ran.shown())
