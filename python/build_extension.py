"""Builds the module in C, `palqytun._c`, of the sources in `extension`: by the C compiler `cc`, or the one that the environment variable `CC` names, and
the headers of this Python.

What the environment variable `CFLAGS` has comes after the flags of this file.

It is on the limited API (abi3), so the same file is for each CPython from 3.11 on. It loads the shared object at run time, and isn't linked to it.

usage: build_extension.py FILE

A module stays as it is if it was built of the same sources, by the same compiler with the same flags: a file beside it says by what it was built."""

from __future__ import annotations

import hashlib
import os
import pathlib
import shlex
import shutil
import subprocess
import sys
import sysconfig
import tempfile

HERE = pathlib.Path(__file__).resolve().parent
SOURCES = HERE / "extension"
NAME = "_c.abi3.so"
FLAGS = ("-std=c11", "-O2", "-Wall", "-Wextra", "-fPIC", "-shared", "-fvisibility=hidden", "-s")


class Unbuilt(Exception):
    """The module can't be built: the text says why."""


def compiler() -> list[str]:
    """The command of the C compiler."""
    words = shlex.split(os.environ.get("CC") or "cc")
    if not words or shutil.which(words[0]) is None:
        raise Unbuilt(f"there is no C compiler {words[0] if words else 'cc'}")
    return words


def headers() -> pathlib.Path:
    """The folder of Python's headers."""
    folder = pathlib.Path(sysconfig.get_path("include"))
    if not (folder / "Python.h").is_file():
        raise Unbuilt(f"there is no {folder}/Python.h; Debian: apt-get install python3-dev")
    return folder


def flags() -> list[str]:
    """The flags of this file, and those of the environment."""
    return [*FLAGS, *shlex.split(os.environ.get("CFLAGS", ""))]


def built_by() -> str:
    """By what a module is built: the compiler, its flags, the folder of the headers, and the sum of the sources and of this file."""
    words = compiler()
    found = os.path.realpath(shutil.which(words[0]) or words[0])
    files = [pathlib.Path(__file__), *sorted(it for it in SOURCES.iterdir() if it.suffix in (".c", ".h"))]
    sums = "".join(f"{it.name} {hashlib.sha256(it.read_bytes()).hexdigest()}\n" for it in files)
    return f"{shlex.join([found, *words[1:], *flags(), f'-I{headers()}'])}\n{hashlib.sha256(sums.encode()).hexdigest()}\n"


def stamp(made: pathlib.Path) -> pathlib.Path:
    """The file that says by what a module was built."""
    return made.with_name(f".{made.name}.built")


def put(module: bytes, made: pathlib.Path) -> None:
    """Writes a module that was built now in the place of the one before, so that no program is disturbed which has loaded that."""
    beside = made.with_name(f".{os.getpid()}.{made.name}")
    beside.write_bytes(module)
    beside.chmod(0o755)
    stamp(made).unlink(missing_ok=True)
    beside.replace(made)
    stamp(made).write_text(built_by())


def build(*more: str) -> bytes:
    """Builds the module, with more words for the compiler if there are some. `Unbuilt` says why it can't be."""
    if sys.implementation.name != "cpython" or sysconfig.get_config_var("Py_GIL_DISABLED"):
        raise Unbuilt(f"{sys.executable} has no limited API")
    given = ["-include", str(SOURCES / "portable.h"), f"-I{headers()}", *map(str, sorted(SOURCES.glob("*.c")))]
    with tempfile.TemporaryDirectory(prefix="palqytun-") as room:
        made = pathlib.Path(room, NAME)
        ran = subprocess.run([*compiler(), *flags(), *more, *given, "-o", str(made)], capture_output=True, text=True)
        if ran.returncode:
            raise Unbuilt(f"the C compiler refused it: {ran.stderr.strip()[-2000:]}")
        return made.read_bytes()


def is_current(made: pathlib.Path) -> bool:
    """Whether a module was built by what it would be built by now."""
    return made.is_file() and stamp(made).is_file() and stamp(made).read_text() == built_by()


def main(words: list[str]) -> None:
    if len(words) != 1:
        sys.exit("usage: build_extension.py FILE")
    made = pathlib.Path(words[0])
    try:
        if not is_current(made):
            put(build(), made)
    except Unbuilt as error:
        sys.exit(f"build_extension.py: {error}")


if __name__ == "__main__":
    main(sys.argv[1:])
