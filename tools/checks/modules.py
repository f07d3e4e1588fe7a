"""The modules of a tree's crates, by text: which file a module's name stands for, what it defines, and which Rust source a generated one has."""

from __future__ import annotations

import re
from pathlib import Path

from tools.survey.tree import crates_of

from .clauses import bare, defined

# Modules that are made for a function, beside its proofs.
GENERATED = {"Goals", "Given", "Code", "Statement", "TheSendSync"}


class Modules:
    """The crates of a tree: what each file of specs and proofs defines."""

    def __init__(self, top: Path) -> None:
        self.top = top
        self.crates = {path.name for path in (top / "crates").iterdir()}
        self.known: dict[str, dict[str, bool] | None] = {}
        self.passes: dict[str, dict[str, str]] = {}
        self.lacking: dict[tuple[str, str | None], str | None] = {}
        self.texts: dict[Path, tuple[str, set[str]]] = {}
        lines = top / "crates.txt"
        crates = crates_of(lines.read_text(encoding="utf-8")) if lines.is_file() else {}
        self.libraries = {name: it.below for name, it in crates.items()}

    def unlisted(self, crate: str, module: str) -> str | None:
        """Says that a crate names a module of a library that its line of crates.txt lacks, if that is so."""
        library = module.split(".")[1]
        if library == crate or library not in self.crates or library in self.libraries.get(crate, (library,)):
            return None
        return f"{crate} names {library}, which its line of crates.txt lacks"

    def passed(self, crate: str) -> dict[str, str]:
        """Returns the modules that a crate's specs pass on, by their last word."""
        if crate not in self.passes:
            path = self.top / "crates" / crate / "specs" / "Lib.antt"
            lines = re.findall(r"^pub use (Rattle\.[\w.]+)$", path.read_text(), re.MULTILINE) if path.is_file() else []
            self.passes[crate] = {line.rpartition(".")[2]: line for line in lines}
        return self.passes[crate]

    def home(self, module: str) -> str:
        """Returns the module that a path names, by its own path."""
        parts = module.split(".")
        while parts[2:3] == ["specs"] and len(parts) > 3 and (there := self.passed(parts[1]).get(parts[3])):
            parts = [*there.split("."), *parts[4:]]
        return ".".join(parts)

    def path(self, module: str) -> Path:
        """Returns where the file of a module is, if it has one."""
        return (self.top / "crates").joinpath(*module.split(".")[1:]).with_suffix(".antt")

    def definitions(self, module: str) -> dict[str, bool] | None:
        """Returns what a module's file defines or passes on, each with whether it is public; none if there is no such file."""
        module = self.home(module)
        if module not in self.known:
            path = self.path(module)
            self.known[module] = defined(bare(path.read_text(), "--")) if path.is_file() else None
        return self.known[module]

    def source(self, module: str) -> tuple[Path, list[str]] | None:
        """Returns the Rust source of a generated module of types, and what of the module's path is left below it."""
        _, crate, _, _, *rest = module.split(".")
        for most in range(len(rest), -1, -1):
            path = (self.top / "crates" / crate / "src").joinpath(*rest[:most] or ["lib"]).with_suffix(".rt")
            if path.is_file():
                return path, rest[most:]
        return None

    def words(self, path: Path) -> tuple[str, set[str]]:
        """Returns a file's text and its words."""
        if path not in self.texts:
            text = path.read_text()
            self.texts[path] = text, set(re.findall(r"\w+", text))
        return self.texts[path]

    def lacks(self, module: str, name: str | None) -> str | None:
        """Returns why a module, or a name in it, can't be imported; none if it can."""
        if (module, name) not in self.lacking:
            self.lacking[module, name] = self._lacks(module, name)
        return self.lacking[module, name]

    def _lacks(self, module: str, name: str | None) -> str | None:
        module = self.home(module)
        parts = module.split(".")
        if parts[0] != "Rattle" or parts[1] not in self.crates or len(parts) < 4:
            return None
        found = self.definitions(module)
        if found is None and (above := self.definitions(".".join(parts[:-1]))) is not None:  # a type of data as a module
            found, name = above, f"{parts[-1]}.{name}" if name else parts[-1]
        if found is not None:
            return None if name is None or found.get(name) else f"{module} has no public {name}"
        if parts[2:4] == ["specs", "declared"]:
            return self.lacks_type(module, name)
        is_generated = parts[2:4] == ["specs", "contracts"] or parts[2] == "proofs" and parts[-1] in GENERATED
        return None if is_generated else f"there is no module {module}"

    def lacks_type(self, module: str, name: str | None) -> str | None:
        source = self.source(module)
        if not source or not source[1]:
            return f"there is no source of {module}"
        path, (type_name, *rest) = source
        text, words = self.words(path)
        if type_name not in words and not re.search(rf"\b(?:struct|enum|trait|type) {re.escape(type_name)}\b", text):
            return f"the source of {module} declares no {type_name}"
        if rest == ["TheVariants"] and name and "-" not in name and not re.search(rf"^\s+{re.escape(name)}\b", text, re.MULTILINE):
            return f"{module} has no {name}"
        if not rest and name and name != type_name and "-" not in name:
            return f"{module} has no {name}"
        return None
