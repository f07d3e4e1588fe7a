"""The class `VM` with its methods in C, where these were built. Each has a method in Python behind it, of the same name and with the same text."""

from __future__ import annotations

from collections.abc import Callable
from types import FunctionType
from typing import Any, TypeVar

from palqytun import _library
from palqytun._replies import WAITS
from palqytun.values import VOID, Run

_Class = TypeVar("_Class", bound=type)


def _signature(function: FunctionType) -> str:
    """A function's parameters as `inspect` reads them of C: a default that is no literal is `...`."""
    code, by_name = function.__code__, function.__kwdefaults__ or {}
    names = code.co_varnames[: code.co_argcount + code.co_kwonlyargcount]
    rows = ["$self"]
    for at, name in enumerate(names[1:], 1):
        if at == code.co_argcount:
            rows.append("*")
        default = by_name.get(name)
        is_literal = default is None or isinstance(default, (str, int, tuple))
        rows.append(f"{name}={default!r}" if name in by_name and is_literal else f"{name}=..." if name in by_name else name)
    return f"({', '.join(rows)})"


def hastened(states: tuple[str, ...]) -> Callable[[_Class], _Class]:
    """A decorator of the class: the same class, with the methods in C in place of those in Python, if there are some."""

    def made(of: _Class) -> _Class:
        module = _library.extension
        if module is None:
            return of
        behind: dict[str, Any] = {name: vars(of)[name] for name in module.METHODS}
        texts = {name: f"{name}{_signature(it)}\n--\n\n{it.__doc__ or ''}" for name, it in behind.items()}
        below = module.vm_class(behind, texts, VOID, tuple(it for row in WAITS for it in row), states, Run)
        own = {name: it for name, it in vars(of).items() if name not in ("__dict__", "__weakref__")}
        return type(of)(of.__name__, (below,), {**own, **{name: vars(below)[name] for name in behind}})

    return made
