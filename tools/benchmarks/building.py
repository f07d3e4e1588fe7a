"""The players: Palqytun's of the library and c/typed.c, and the original's of its own sources, which the user names, and those in original/."""

from __future__ import annotations

import ctypes
import os
import shutil
import subprocess
from pathlib import Path

from tools.kit.commands import run
from tools.kit.errors import Refused
from tools.kit.linking import need, soname
from tools.kit.progress import Progress
from tools.kit.stamps import Stamp

from .measuring import Player

TOP = Path(__file__).resolve().parents[2]
HERE = Path(__file__).resolve().parent
OUT = TOP / "out/bench"
REGISTRY = Path("/usr/share/cargo/registry")
FLAGS = ["-std=gnu11", "-O2", "-Wall", "-Wextra", "-Werror"]
NOW = ("-Wl,-z,relro", "-Wl,-z,now")  # as rustc links the other side: functions are looked up when a program begins, not at their first call
CRATES = ("prost", "prost-derive", "bytes", "tracing", "tracing-attributes", "thiserror", "paste", "sha2", "strum-macros")
NEEDED = ("src/lib.rs", "src/retries.rs", "src/vm/mod.rs")  # what of the original is measured
UNKNOWN_DERIVE = ", strum::EnumIs"  # Debian's strum-macros has no such derive, and nothing here calls what it makes


def about(library: Path) -> str:
    """What a library says of itself: its version, commit and logic, and whether it was proved."""
    try:
        build = ctypes.CDLL(str(library)).palqytun_build
    except (OSError, AttributeError) as error:
        raise Refused(f"{library} is no library of Palqytun: {error}") from error
    build.restype = ctypes.c_char_p
    return str(build().decode())


def compile_c(name: str, library: Path) -> Path:
    """Compiles a program of c/ against a copy of a library, which stands beside it."""
    need("cc")
    if not library.is_file():
        raise Refused(f"there is no library {library}: ./bindings/build makes it, or --library names another")
    made, kept = OUT / name, OUT / "lib" / soname(TOP)
    kept.parent.mkdir(parents=True, exist_ok=True)
    shutil.copy(library, kept)
    source, runtime = HERE / f"c/{name}.c", "-Wl,-rpath,$ORIGIN/lib"
    run(["cc", *FLAGS, f"-I{TOP}/bindings", source, "-o", made, kept, *NOW, runtime, "-ldl"], f"compiling {name}.c")
    return made


def compile_heap() -> Path:
    """Compiles what counts the heap of a player."""
    made = OUT / "heap.so"
    made.parent.mkdir(parents=True, exist_ok=True)
    run(["cc", *FLAGS, "-shared", "-fPIC", HERE / "c/heap.c", "-o", made], "compiling heap.c")
    return made


def here(library: Path) -> Player:
    return Player("here", compile_c("typed", library))


def check(folder: Path) -> None:
    """Refuses a folder that isn't the original's, and a machine that can't build it."""
    missing = [it for it in NEEDED if not (folder / it).is_file()]
    if missing:
        raise Refused(f"{folder} has no {missing[0]}: --original wants the folder of the original, shared core 8.2.0, with its src")
    if shutil.which("cargo") is None:
        raise Refused("cargo is not on the path: the original is built by it, with Rust 1.77 or later")
    absent = [it for it in CRATES if not any(REGISTRY.glob(f"{it.replace('-', '[-_]')}-[0-9]*"))]
    if absent:
        raise Refused(f"{REGISTRY} lacks {', '.join(absent)}; Debian: apt-get install {' '.join(f'librust-{it}-dev' for it in absent)}")


def copy(folder: Path, to: Path) -> None:
    """Makes a crate of the original's sources and those in original/, without what cargo made before."""
    shutil.rmtree(to / "src", ignore_errors=True)
    shutil.copytree(HERE / "original", to, dirs_exist_ok=True)
    source = to / "src"
    shutil.copytree(folder / "src/vm", source / "vm", dirs_exist_ok=True)
    shutil.copy(folder / "src/retries.rs", source)
    shutil.move(source / "errors.rs", source / "vm/errors.rs")
    root = (folder / "src/lib.rs").read_text(encoding="utf-8").replace(UNKNOWN_DERIVE, "")
    (source / "lib.rs").write_text(f"{root}\npub mod fed;\n", encoding="utf-8")


def original(folder: Path, progress: Progress) -> Player:
    """Builds the original's player, unless it was built of the same sources by the same compiler. That takes some minutes."""
    check(folder)
    made = OUT / "original"
    made.parent.mkdir(parents=True, exist_ok=True)
    ours = sorted(it for it in (HERE / "original").rglob("*") if it.is_file())
    theirs = sorted(it for it in (folder / "src").rglob("*.rs"))
    parts = [run(["cargo", "--version"], "cargo"), *(it.read_text(encoding="utf-8") for it in theirs)]
    stamp = Stamp(TOP, made, [*parts, *ours])
    if not stamp.is_current():
        stamp.forget()
        crate = OUT / "crate"
        copy(folder, crate)
        progress.step("cargo builds the original: two to five minutes")
        source = ["--config", 'source.crates-io.replace-with="debian"', "--config", f'source.debian.directory="{REGISTRY}"']
        words = ["cargo", *source, "build", "--release", "--offline", "--quiet"]
        ran = subprocess.run(words, cwd=crate, stdin=subprocess.DEVNULL, capture_output=True, text=True, env=os.environ)
        if ran.returncode != 0:
            raise Refused(f"cargo couldn't build the original: {ran.stderr.strip()[-2000:]}")
        shutil.copy(crate / "target/release/original", made)
        stamp.keep()
    return Player("original", made)
