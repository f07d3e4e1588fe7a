"""`tools/bench languages`: what a call of the VM takes from each language that is installed, in nanoseconds of the processor; with --allocations, what it
allocates.

Each program makes 1,000 calls on a VM that has its input, round after round, and says what a call took in the best round. A sleep, a state that is set
and a call are new commands; an await waits for input.

Allocations are counted by what each language offers, so only rows of one kind can be compared. They don't depend on what else the host does."""

from __future__ import annotations

import argparse
import os
import shutil
import subprocess
import sys
import tempfile
from collections.abc import Callable
from pathlib import Path

from tools.kit.errors import Refused

from . import core

CASES = ("sleep", "state", "call", "await")
HERE = Path(__file__).resolve().parent / "callers"
BINDINGS = Path(__file__).resolve().parents[2] / "bindings"
Words = list[str]


def add(parser: argparse.ArgumentParser) -> None:
    parser.add_argument("--library", type=Path, default=core.LIBRARY, metavar="FILE", help="Palqytun's library (bindings/out/libpalqytun.so)")
    parser.add_argument("--rounds", type=int, default=1000, metavar="N", help="how many rounds (1000)")
    parser.add_argument("--allocations", action="store_true", help="what a call allocates, in the least of 3 rounds, instead of its time")
    parser.add_argument("--only", default="", metavar="NAME,..", help="these languages alone")


def _run(words: Words, cwd: Path, **env: str) -> str:
    ran = subprocess.run(words, cwd=cwd, env={**os.environ, **env}, capture_output=True, text=True)
    if ran.returncode != 0:
        raise Refused(f"{' '.join(words)}: {ran.stderr[-1000:]}")
    return ran.stdout


def c(room: Path, library: Path) -> Words:
    words = ["cc", "-std=c11", "-O2", f"-I{BINDINGS}", "-o", f"{room}/bench", f"{HERE}/bench.c", f"{library}", f"-Wl,-rpath,{library.parent}"]
    _run(words, room)
    return [f"{room}/bench"]


def rust(room: Path, library: Path) -> Words:
    _run(["cargo", "build", "--release", "--offline", "--example", "bench"], BINDINGS / "rust", CARGO_TARGET_DIR=f"{room}/target")
    return [f"{room}/target/release/examples/bench"]


def go(room: Path, library: Path) -> Words:
    _run(["go", "build", "-o", f"{room}/go-bench", "./cmd/bench"], BINDINGS / "go", GOFLAGS="-mod=mod", GOPROXY="off")
    return [f"{room}/go-bench"]


def node(room: Path, library: Path) -> Words:
    shutil.copytree(BINDINGS / "node", room / "node")
    _run(["node", "build.js"], room / "node")
    return ["node", f"{room}/node/examples/bench.js"]


def java(room: Path, library: Path) -> Words:
    _run([str(BINDINGS / "java/build.sh"), f"{room}/java"], room)
    classes = ["-cp", f"{room}/java/palqytun.jar:{room}/java"]
    _run(["javac", *classes, "-d", f"{room}/java", str(BINDINGS / "java/examples/Bench.java")], room)
    return ["java", *classes, "Bench"]


def ruby(room: Path, library: Path) -> Words:
    shutil.copytree(BINDINGS / "ruby", room / "ruby")
    ext = room / "ruby/ext/palqytun"
    for words in (["ruby", "extconf.rb"], ["make"]):
        _run(words, ext)
    shutil.copyfile(ext / "palqytun_ext.so", room / "ruby/lib/palqytun/palqytun_ext.so")
    return ["ruby", "-I", f"{room}/ruby/lib", f"{room}/ruby/examples/bench.rb"]


def python(room: Path, library: Path) -> Words:
    return [sys.executable, f"{HERE}/bench.py"]


LANGUAGES: dict[str, tuple[str, Callable[[Path, Path], Words]]] = {
    "C": ("cc", c),
    "Rust": ("cargo", rust),
    "Go": ("go", go),
    "Java": ("javac", java),
    "JavaScript": ("node", node),
    "Ruby": ("ruby", ruby),
    "Python": ("python3", python),
    "Python by ctypes": ("python3", python),
}
"""The command that each language needs, and what builds its program."""
IMPLEMENTATIONS = {"Python": "c", "Python by ctypes": "ctypes"}
CALLS_OF_MALLOC, ROUNDS = "calls of malloc", 3
COUNTED = {"Go": "objects of Go", "Java": "bytes of Java's heap", "JavaScript": "bytes of V8's heap and of buffers", "Ruby": "objects of Ruby"}
"""What is counted where it isn't calls of malloc, which are the core's and the binding's. With `PYTHONMALLOC=malloc` each of Python's own is one."""
COLLECTS = ["--expose-gc", "--max-semi-space-size=256"]
"""By these words of Node nothing is collected within a round."""


def build_module() -> None:
    """Builds the module by which Python makes calls in C."""
    made = BINDINGS.parent / "python/src/palqytun/_c.abi3.so"
    _run([sys.executable, str(BINDINGS.parent / "python/build_extension.py"), str(made)], BINDINGS.parent)


def environment(name: str, library: Path) -> dict[str, str]:
    """The environment of a language's program."""
    env = {"PALQYTUN_LIBRARY": str(library), "PYTHONPATH": str(BINDINGS.parent / "python/src"), "PYTHONDONTWRITEBYTECODE": "1"}
    return {**env, "PALQYTUN_IMPLEMENTATION": IMPLEMENTATIONS[name]} if name in IMPLEMENTATIONS else env


def rows_of(name: str, library: Path, rounds: int) -> dict[str, float]:
    """Nanoseconds of each case in a language."""
    with tempfile.TemporaryDirectory(prefix="bench-") as made:
        words = LANGUAGES[name][1](Path(made), library)
        return _rows(_run([*words, str(rounds)], Path(made), **environment(name, library)))


def allocations_of(name: str, library: Path) -> dict[str, float]:
    """What each case allocates in a language."""
    with tempfile.TemporaryDirectory(prefix="bench-") as made:
        words, env = LANGUAGES[name][1](Path(made), library), environment(name, library)
        if name not in COUNTED:
            _run(["cc", "-O2", "-shared", "-fPIC", "-o", f"{made}/counted.so", f"{HERE}/counted.c"], Path(made))
            env |= {"LD_PRELOAD": f"{made}/counted.so", "PYTHONMALLOC": "malloc"}
        program, *more = words
        return _rows(_run([program, *(COLLECTS if name == "JavaScript" else []), *more, str(ROUNDS), "allocations"], Path(made), **env))


def _rows(said: str) -> dict[str, float]:
    return {case: float(number) for case, number in (line.split() for line in said.splitlines())}


def chosen(only: str) -> list[str]:
    names = only.split(",") if only else [name for name, (tool, _) in LANGUAGES.items() if shutil.which(tool)]
    if unknown := [it for it in names if it not in LANGUAGES]:
        raise Refused(f"there is no language {unknown[0]}: they are {', '.join(LANGUAGES)}")
    return names


def measure(options: argparse.Namespace) -> None:
    library = options.library.resolve()
    names = chosen(options.only)
    if IMPLEMENTATIONS.keys() & set(names):
        build_module()
    last = [" counted |", "---|"] if options.allocations else ["", ""]
    print(f"| | {' | '.join(f'`{it}`' for it in CASES)} |{last[0]}\n|---|{'---|' * len(CASES)}{last[1]}")
    for name in names:
        rows = allocations_of(name, library) if options.allocations else rows_of(name, library, options.rounds)
        what = f" {COUNTED.get(name, CALLS_OF_MALLOC)} |" if options.allocations else ""
        print(f"| {name} | {' | '.join(f'{rows[it]:,.0f}' for it in CASES)} |{what}", flush=True)
