"""What a library or a wheel says of itself: the version, the commit, the kit's logic, and whether it was proved."""

from __future__ import annotations

import shutil
import subprocess
import tomllib
from pathlib import Path

from .errors import Refused
from .toolchain import Kit


def version(top: Path) -> str:
    """The version, which stands in python/pyproject.toml alone."""
    with open(top / "python/pyproject.toml", "rb") as file:
        found = tomllib.load(file)["project"]["version"]
    if not isinstance(found, str):
        raise Refused("python/pyproject.toml has no version")
    return found


def _git(top: Path, *words: str) -> str | None:
    """What git says, or None without git or outside of a repository of git."""
    if shutil.which("git") is None or not (top / ".git").exists():
        return None
    ran = subprocess.run(["git", *words], cwd=top, stdin=subprocess.DEVNULL, capture_output=True, text=True)
    return ran.stdout.strip() if ran.returncode == 0 else None


def commit(top: Path) -> str:
    """The commit that is checked out, with `-modified` if a file of it was changed since, or `unknown`."""
    found = _git(top, "rev-parse", "--short=12", "HEAD")
    changed = _git(top, "status", "--porcelain", "--untracked-files=no")
    return f"{found}-modified" if found and changed else found or "unknown"


def text(top: Path, kit: Kit, is_proved: bool) -> str:
    """What `palqytun_build` returns."""
    return f"{version(top)} commit {commit(top)} logic {kit.logic} {'proved' if is_proved else 'unproved'}"


def flags(top: Path, kit: Kit, is_proved: bool) -> list[str]:
    """The words by which `bindings/about.c` is compiled."""
    return [f'-DPALQYTUN_LIBRARY_VERSION="{version(top)}"', f'-DPALQYTUN_BUILD="{text(top, kit, is_proved)}"', f"-DPALQYTUN_PROVED={int(is_proved)}"]
