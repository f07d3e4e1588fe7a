"""The reference of the Python package, docs/API.md, made from its docstrings: each public name, with its signature.

The sources are parsed and not imported, so neither the library nor an extra is needed. A name is public if its package's `__all__` has it; so is
a method whose name has no `_` in front."""

from __future__ import annotations

import ast
import inspect
import re
from collections.abc import Iterator
from dataclasses import dataclass
from pathlib import Path

PAGE = Path("docs", "API.md")
SOURCES = Path("python", "src")
HEAD = """# The Python API

<!-- `tools/api --write` writes this page from the docstrings in python/src. -->

Each public class and function with its docstring. [RUNTIME.md](RUNTIME.md) is the guide, and [SDK.md](SDK.md) explains the core. Times are in
seconds in `palqytun.runtime`, and in milliseconds in `palqytun`, except where a docstring says otherwise.
"""
PACKAGES = {"palqytun.runtime": "The durable runtime", "palqytun": "The core"}
# What the runtime makes, and a user doesn't: how these are made isn't shown.
MADE = {"Call", "Context", "Handler", "Promise"}
# What the runtime's own modules call.
INTERNAL = {"App.find", "App.has_limit", "App.limited", "App.retry_of", "Context.end", "Context.entered", "Context.pass_patches", "Context.write_output"}
INTERNAL |= {f"Durable.{it}" for it in ("leaves", "outcome", "result", "tree")}
Function = ast.FunctionDef | ast.AsyncFunctionDef


@dataclass(frozen=True)
class Found:
    """A definition, and the module that has it."""

    module: str
    node: ast.AST


def _parsed(root: Path, module: str) -> ast.Module:
    path = root / SOURCES / module.replace(".", "/")
    file = path / "__init__.py" if path.is_dir() else path.with_suffix(".py")
    return ast.parse(file.read_text(encoding="utf-8"))


def _public(root: Path, tree: ast.Module) -> list[str]:
    """The names in `__all__`, which may be that of another module."""
    for node in tree.body:
        if isinstance(node, ast.ImportFrom) and node.module and any(it.name == "__all__" for it in node.names):
            return _public(root, _parsed(root, node.module))
        if isinstance(node, ast.Assign) and any(isinstance(it, ast.Name) and it.id == "__all__" for it in node.targets):
            return [str(it) for it in ast.literal_eval(node.value)]
    return []


def _absolute(module: str, node: ast.ImportFrom) -> str:
    """The module from which a package imports."""
    parts = module.split(".")
    base = parts[: len(parts) - node.level + 1] if node.level else []
    return ".".join([*base, *([node.module] if node.module else [])])


def _find(root: Path, module: str, name: str, is_package: bool) -> Found | None:
    """The definition of a name, through the modules that pass it on."""
    tree = _parsed(root, module)
    for node in tree.body:
        if isinstance(node, (ast.ClassDef, ast.FunctionDef, ast.AsyncFunctionDef)) and node.name == name:
            return Found(module, node)
        targets = node.targets if isinstance(node, ast.Assign) else [node.target] if isinstance(node, ast.AnnAssign) else []
        if any(isinstance(it, ast.Name) and it.id == name for it in targets):
            return Found(module, node)
        if isinstance(node, ast.ImportFrom) and any((it.asname or it.name) in (name, "*") for it in node.names):
            own = next((it.name for it in node.names if (it.asname or it.name) == name), name)
            source = _absolute(module if is_package else module.rpartition(".")[0], node)
            path = root / SOURCES / source.replace(".", "/")
            is_ours = path.is_dir() or path.with_suffix(".py").is_file()
            if is_ours and (found := _find(root, source, own, path.is_dir())):
                return found
    return None


def _signature(node: Function, *, is_method: bool) -> str:
    """A function's parameters and result, as they are written, without those that take nothing."""
    arguments = re.sub(r", \*\w+: Never(, |$)", r", *\1" if node.args.kwonlyargs else r"\1", ast.unparse(node.args))
    if is_method:
        arguments = re.sub(r"^(?:self|cls)(?:, /)?(?:, )?", "", arguments)
    result = f" -> {ast.unparse(node.returns)}" if node.returns else ""
    return f"{node.name}({arguments}){result}"


def _decorators(node: Function) -> set[str]:
    return {ast.unparse(it).rpartition(".")[2] for it in node.decorator_list}


def _doc(node: ast.AST) -> str:
    text = ast.get_docstring(node, clean=False) if isinstance(node, (ast.ClassDef, ast.FunctionDef, ast.AsyncFunctionDef)) else None
    return inspect.cleandoc(text) if text else ""


def _with_sessions(text: str) -> str:
    """A docstring in which an example of the interpreter is a block of code."""
    lines: list[str] = []
    inside = False
    for line in text.splitlines():
        begins = line.lstrip().startswith(">>> ")
        if begins and not inside and lines and lines[-1].strip():
            lines.append("")
        inside = begins or inside and bool(line.strip())
        lines.append(f"    {line.strip() if begins else line}" if inside and not line.startswith("    ") else line)
    return "\n".join(lines)


def _fields(node: ast.ClassDef) -> str:
    """The fields of a dataclass as parameters."""
    those = [it for it in node.body if isinstance(it, ast.AnnAssign) and isinstance(it.target, ast.Name) and not it.target.id.startswith("_")]
    return ", ".join(f"{ast.unparse(it.target)}: {ast.unparse(it.annotation)}{f' = {ast.unparse(it.value)}' if it.value else ''}" for it in those)


def _class(node: ast.ClassDef) -> Iterator[str]:
    """A class: how it is made, what it is, and its public methods."""
    made = next((it for it in node.body if isinstance(it, ast.FunctionDef) and it.name == "__init__"), None)
    is_data = any("dataclass" in ast.unparse(it) for it in node.decorator_list)
    given = _fields(node) if is_data else re.match(r"\w+\((.*?)\)(?: ->.*)?$", _signature(made, is_method=True))[1] if made else ""  # type: ignore[index]
    yield f"### `{node.name}`"
    if given and node.name not in MADE:
        yield f"`{node.name}({given})`"
    if text := _doc(node):
        yield _with_sessions(text)
    seen: set[str] = set()
    for it in node.body:
        if not isinstance(it, (ast.FunctionDef, ast.AsyncFunctionDef)) or it.name.startswith("_") or it.name in seen or "overload" in _decorators(it):
            continue
        if f"{node.name}.{it.name}" in INTERNAL:
            continue
        seen.add(it.name)
        shown = it.name if _decorators(it) & {"property", "cached_property"} else _signature(it, is_method="staticmethod" not in _decorators(it))
        if text := _doc(it):
            yield f"#### `{shown}`"
            yield _with_sessions(text)


def _entry(found: Found, name: str) -> Iterator[str]:
    node = found.node
    if isinstance(node, ast.ClassDef):
        yield from _class(node)
    elif isinstance(node, (ast.FunctionDef, ast.AsyncFunctionDef)):
        yield f"### `{_signature(node, is_method=False)}`"
        if text := _doc(node):
            yield _with_sessions(text)
    elif isinstance(node, (ast.Assign, ast.AnnAssign)) and node.value is not None:
        yield f"### `{name}`"
        yield f"`{name} = {ast.unparse(node.value)}`"


def text(root: Path) -> str:
    """The page."""
    parts = [HEAD.rstrip()]
    for package, title in PACKAGES.items():
        tree = _parsed(root, package)
        parts += [f"## {title}: `{package}`", inspect.cleandoc(ast.get_docstring(tree) or "")]
        for name in sorted(_public(root, tree), key=str.lower):
            if found := _find(root, package, name, True):
                parts += _entry(found, name)
    return "\n\n".join(parts) + "\n"


def check(root: Path) -> Iterator[tuple[str, str | None]]:
    """Says whether the page is what the docstrings say."""
    page = root / PAGE
    is_well = page.is_file() and page.read_text(encoding="utf-8") == text(root)
    yield f"{PAGE}:1", None if is_well else "it isn't what the docstrings in python/src say; write it by tools/api --write"
