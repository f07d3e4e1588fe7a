"""The tools that tests use: which are found, and how the others are installed. The table is tools/packages.

usage: python3 -m tools.gate.packages [--install | --python]

It prints what isn't found. With --install Debian's packages of these tools are installed, as root. With --python it prints which Python runs the tests."""

from __future__ import annotations

import glob
import os
import shutil
import subprocess
import sys
import tempfile
from dataclasses import dataclass
from pathlib import Path

TABLE = Path(__file__).resolve().parents[1] / "packages"
SERVERS = "/usr/lib/postgresql/*/bin"
SYSTEM = "/usr/bin/python3"  # the Python that Debian's packages are for
KINDS = ("command", "version", "header", "mkmf", "library", "server", "module", "modules", "include", "jar", "sanitizer")
INCLUDES = "import pathlib, sys, sysconfig; sys.exit(not pathlib.Path(sysconfig.get_path('include'), sys.argv[1]).is_file())"
SECONDS = 300  # for one tool to say its version
JARS = "/usr/share/java"
NODE_MODULES = "/usr/share/nodejs", "/usr/local/share/nodejs"  # Debian's of Node, and those that another Node than Debian's is given


class BadTable(Exception):
    """A row of the table that can't be read."""


@dataclass(frozen=True)
class Tool:
    """A row of the table."""

    name: str
    kind: str
    names: tuple[str, ...]
    packages: tuple[str, ...]
    skipped: str

    def is_found(self, python: str) -> bool:
        match self.kind:
            case "command":
                return all(_runs(it) for it in self.names)
            case "version":
                return all(bool(shutil.which(it)) and _succeeds([it, "version"]) for it in self.names)
            case "mkmf":
                return all(_succeeds([it, "-e", "require 'mkmf'"]) for it in self.names)
            case "header":
                return all(_succeeds(["cc", "-fsyntax-only", "-include", it, "-x", "c", os.devnull]) for it in self.names)
            case "library":
                return all(_succeeds(["pkg-config", "--exists", it]) for it in self.names)
            case "server":
                return all(_runs(it) or glob.glob(f"{SERVERS}/{it}") for it in self.names)
            case "modules":
                env = {**os.environ, "NODE_PATH": node_path()}
                return bool(shutil.which("node")) and all(_succeeds(["node", "-e", f"require({it!r})"], env) for it in self.names)
            case "module":
                return not missing_modules(python, list(self.names))
            case "jar":
                return all(Path(JARS, f"{it}.jar").is_file() for it in self.names)
            case "include":
                return all(_succeeds([python, "-c", INCLUDES, it]) for it in self.names)
            case _:
                return all(_sanitizes(it) for it in self.names)

    @property
    def how(self) -> str:
        """How it is installed."""
        return f"{' and '.join(self.names)} not found; Debian: apt-get install {' '.join(self.packages)}"


def read(path: Path = TABLE) -> dict[str, Tool]:
    """Reads the table."""
    found: dict[str, Tool] = {}
    for number, line in enumerate(path.read_text(encoding="utf-8").splitlines(), 1):
        if not line or line.startswith("#"):
            continue
        cells = [it.strip() for it in line.split("|")]
        kind, *names = cells[1].split() if len(cells) == 4 else ("",)
        if kind not in KINDS or not names or not all(cells):
            raise BadTable(f"{path.name}:{number}: a row is NAME | FOUND BY | PACKAGES | SKIPPED, not: {line}")
        found[cells[0]] = Tool(cells[0], kind, tuple(names), tuple(cells[2].split()), cells[3])
    return found


def _runs(command: str) -> bool:
    """Whether a command is on the path and says its version. One that only stands for others, as pyenv's do, fails."""
    return _succeeds([command, "--version"]) if shutil.which(command) else False


def node_path() -> str:
    """Where Node looks for modules, beside its own folders. Debian's Node looks into Debian's folder by itself, and another one doesn't."""
    return os.pathsep.join([*filter(None, [os.environ.get("NODE_PATH", "")]), *NODE_MODULES])


def _succeeds(words: list[str], env: dict[str, str] | None = None) -> bool:
    try:
        return subprocess.run(words, stdin=subprocess.DEVNULL, capture_output=True, timeout=SECONDS, env=env).returncode == 0
    except (OSError, subprocess.TimeoutExpired):
        return False


def _sanitizes(compiler: str) -> bool:
    """Whether a compiler makes a program with its sanitizers in it that runs."""
    with tempfile.TemporaryDirectory() as room:
        source, program = Path(room, "empty.c"), Path(room, "empty")
        source.write_text("int main(void) { return 0; }\n", encoding="utf-8")
        return _succeeds([compiler, "-fsanitize=address,undefined", str(source), "-o", str(program)]) and _succeeds([str(program)])


def missing_modules(python: str, modules: list[str]) -> list[str]:
    """Which of these modules a Python doesn't have. One that doesn't run, or is older than 3.11, has none."""
    code = "import sys, importlib.util as it\nassert sys.version_info >= (3, 11)\nprint(*[m for m in sys.argv[1:] if it.find_spec(m)])"
    try:
        words = [python, "-c", code, *modules]
        ran = subprocess.run(words, stdin=subprocess.DEVNULL, capture_output=True, text=True, timeout=SECONDS)
    except (OSError, subprocess.TimeoutExpired):
        return modules
    return [it for it in modules if it not in ran.stdout.split()] if ran.returncode == 0 else [*modules, "python"]


def chosen_python(tools: dict[str, Tool]) -> str:
    """The Python of the tests: that of PALQYTUN_PYTHON, else that on the path, unless the system's own has more of the modules that tests
    use. Debian's packages are for the system's own, which needn't be the first on the path.

    Raises SystemExit if it can't run the tests."""
    modules = _modules(tools)
    candidates = [it for it in (shutil.which("python3"), sys.executable, SYSTEM) if it and os.access(it, os.X_OK)]
    path = os.environ.get("PALQYTUN_PYTHON") or min(candidates, key=lambda it: len(missing_modules(it, modules)))
    if missing_modules(path, ["unittest"]):
        raise SystemExit(f"{path} is no Python 3.11 or newer: apt-get install python3")
    return path


def lacking(tools: dict[str, Tool], python: str) -> str:
    """What a Python lacks of the modules that tests use, and how it is installed; empty if it has all."""
    modules = set(missing_modules(python, _modules(tools)))
    lacks = [it for it in tools.values() if it.kind == "module" and modules & set(it.names)]
    install = " ".join(package for it in lacks for package in it.packages)
    return f"{python} lacks {' and '.join(it.name for it in lacks)}: apt-get install {install}" if lacks else ""


def _modules(tools: dict[str, Tool]) -> list[str]:
    return [name for it in tools.values() if it.kind == "module" for name in it.names]


def missing() -> list[Tool]:
    """The tools that aren't found."""
    tools = read()
    return not_found(tools, chosen_python(tools))


def not_found(tools: dict[str, Tool], python: str) -> list[Tool]:
    """The tools that aren't found, with the modules of this Python."""
    return [it for it in tools.values() if not it.is_found(python)]


def to_install(tools: dict[str, Tool], python: str) -> list[Tool]:
    """The tools to install. If a module is missing, all modules have to be those of the system's Python: Debian's packages are for that one,
    so it is the Python of the tests afterwards, whichever has more of the modules before."""
    found = not_found(tools, python)
    if any(it.kind == "module" for it in found) and not os.environ.get("PALQYTUN_PYTHON"):
        return not_found(tools, SYSTEM)
    return found


def installed(tools: list[Tool]) -> int:
    """Installs Debian's packages of these tools, and returns the status of what failed. Debian's modules of Node want Debian's Node: beside another one
    they are unpacked."""
    modules = [it for it in tools if it.kind == "modules"]
    status = _installed([it for it in tools if it.kind != "modules"])
    return _installed(modules) and unpacked(modules) or status if modules else status


def unpacked(tools: list[Tool], into: str = NODE_MODULES[1]) -> int:
    """Puts the modules of Debian's packages of these tools into a folder, and returns the status of what failed."""
    names = [package for it in tools for package in it.packages]
    with tempfile.TemporaryDirectory() as room:
        if status := _ended(["apt-get", "-o", "APT::Sandbox::User=root", "download", "-q", *names], room):
            return status
        for it in sorted(Path(room).glob("*.deb")):
            if status := _ended(["dpkg-deb", "-x", it.name, "unpacked"], room):
                return status
        shutil.copytree(f"{room}/unpacked{NODE_MODULES[0]}", into, dirs_exist_ok=True)
    return 0


def _ended(words: list[str], folder: str) -> int:
    """Runs a command in a folder, and returns its status."""
    return subprocess.run(words, stdin=subprocess.DEVNULL, cwd=folder).returncode


def _installed(tools: list[Tool]) -> int:
    names = sorted({package for it in tools for package in it.packages})
    if not names:
        return 0
    if not shutil.which("apt-get") or os.geteuid() != 0:
        print(f"only root on Debian can install {' '.join(names)} by apt-get", flush=True)
        return 1
    env = {**os.environ, "DEBIAN_FRONTEND": "noninteractive"}
    how = ["-o", "DPkg::Lock::Timeout=300", "-o", "Acquire::Retries=3"]
    for words in (["update", "-q"], ["install", "-q", "-y", "--no-install-recommends", *names]):
        if status := subprocess.run(["apt-get", *how, *words], stdin=subprocess.DEVNULL, env=env).returncode:
            return status
    return 0


def main(words: list[str]) -> int:
    if words not in ([], ["--install"], ["--python"]):
        print(__doc__, file=sys.stderr)
        return 2
    if words == ["--python"]:
        print(chosen_python(read()))
        return 0
    found = missing()
    for it in found:
        print(f"{it.name}: {it.how} ({it.skipped})", flush=True)
    tools = read()
    status = installed(to_install(tools, chosen_python(tools))) if words else 0
    for it in missing() if words and found else []:
        print(f"{it.name} is still not found", flush=True)
        status = status or 1
    return status


if __name__ == "__main__":
    sys.exit(main(sys.argv[1:]))
