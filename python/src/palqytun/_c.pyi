"""The module in C (`python/extension`). Its calls are as `_ctypes` has them."""

from typing import Any

METHODS: tuple[str, ...]
"""The methods of a VM that it makes."""

def load(path: str) -> str | None:
    """Loads the library at a path. Returns what is wrong with it."""

def about() -> tuple[str, str, bool]:
    """The library's build, its version, and whether it was proved."""

def vm_class(behind: dict[str, Any], texts: dict[str, str], void: object, waits: tuple[object, ...], states: tuple[str, ...], run: type) -> type:
    """The class below `VM`: of the methods in Python that are behind its own, their signatures with their docstrings, and what calls return."""

def __getattr__(name: str) -> Any: ...
