"""Libraries that the package doesn't need as such: an extra of it has them, and one line says which if one isn't installed."""

from __future__ import annotations

import importlib
from typing import Any


class MissingExtra(ImportError):
    """A library isn't installed that something needs."""


def needed(module: str, extra: str, what: str) -> Any:
    """A module, whose libraries an extra has. Raises `MissingExtra` if one isn't installed."""
    try:
        return importlib.import_module(module)
    except ModuleNotFoundError as error:
        if error.name is None or error.name.startswith("palqytun"):
            raise
        raise MissingExtra(f"{what} needs {error.name}, which isn't installed: pip install 'palqytun[{extra}]'", name=error.name) from error
