"""The shared object, and its functions (`palqytun.h`) on plain values: by the module in C, `_c`, or by ctypes."""

from __future__ import annotations

import functools
import os
import pathlib
from collections.abc import Callable
from types import ModuleType
from typing import Any, Literal

from palqytun import _abi

Call = Callable[..., Any]
Implementation = Literal["c", "ctypes"]
VARIABLE = "PALQYTUN_IMPLEMENTATION"
KEPT = 65536
"""Bytes of the largest buffer that is kept between calls, and of the largest payload that is copied while no other thread runs."""


def why(status: int) -> str:
    """Why a call wasn't made."""
    return _abi.TEXTS.get(status, f"the library returned {status}")


def _found() -> ModuleType | None:
    """The module in C, if it was built for this interpreter and this package, and isn't refused by the environment."""
    wanted = os.environ.get(VARIABLE, "")
    if wanted not in ("", "c", "ctypes"):
        raise ImportError(f"{VARIABLE} must be c or ctypes, not {wanted[:100]!r}")
    if wanted == "ctypes":
        return None
    try:
        from palqytun import _c
    except ImportError as error:
        if wanted == "c":
            raise ImportError(f"{VARIABLE} is c, but there is no module in C for this interpreter: {error}") from error
        return None
    return _c


extension = _found()
implementation: Implementation = "ctypes" if extension is None else "c"
"""How calls of the library are made: by the module in C, or by ctypes."""


class Library:
    """The functions, each under its name in `calls`. Those that copy payloads are also in `released`, which lets other threads run meanwhile: it is
    for payloads above `KEPT`. By the module in C both are the same, since it looks at the size itself."""

    path: str
    """The file that was loaded."""
    build: str
    """The library's version, the commit and the sum of the kit's logic that it was built of, and `proved` or `unproved`."""
    version: str
    """The library's version."""
    is_proved: bool
    calls: dict[str, Call]
    released: dict[str, Call]

    def __init__(self, path: str) -> None:
        self.path = path
        if extension is not None:
            self._load_by_c(extension)
        else:
            self._load_by_ctypes()

    def _load_by_c(self, module: ModuleType) -> None:
        wrong = module.load(self.path)
        if wrong is not None:
            raise ImportError(wrong)
        self.calls = self.released = {name: it for name, it in vars(module).items() if callable(it)}
        self.build, self.version, self.is_proved = module.about()

    def _load_by_ctypes(self) -> None:
        from palqytun import _ctypes

        try:
            loaded = _ctypes.Loaded(self.path)
        except (OSError, AttributeError) as error:
            raise ImportError(f"{error}: {_abi.HOW_TO_MAKE_IT}; {_abi.ANOTHER}") from error
        self.calls, self.released = loaded.calls, loaded.released
        self.build, self.version, self.is_proved = loaded.build, loaded.version, loaded.is_proved


@functools.cache
def library() -> Library:
    """The shared object, loaded once: the file that the environment variable `PALQYTUN_LIBRARY` names, else the one in this package."""
    beside = pathlib.Path(__file__).resolve().with_name("libpalqytun.so")
    return Library(os.environ.get("PALQYTUN_LIBRARY") or str(beside))
