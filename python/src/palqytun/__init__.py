"""The invocation VM for Python: `palqytun.core` has all of it, and each of its names stands here too.

>>> from palqytun import VM
>>> VM("application/vnd.restate.invocation.v7").state()
'WaitingPreFlight'

`palqytun.is_proved` says whether the shared object was built of sources that were proved, and `palqytun.build` which it is: its version, the
commit, the sum of the kit's logic, and `proved` or `unproved`. Both load it.

>>> import palqytun
>>> palqytun.build.endswith(" proved") == palqytun.is_proved
True

`palqytun.implementation` says how the shared object is called: `c`, by the module in C that was built with the package, or `ctypes`, which is slower.
The environment variable `PALQYTUN_IMPLEMENTATION` demands one of both.
"""

from typing import TYPE_CHECKING

from palqytun._library import implementation as implementation
from palqytun._library import library as _library_of
from palqytun.core import *
from palqytun.core import __all__ as __all__

__version__ = "0.1.0"
build: str
is_proved: bool

if not TYPE_CHECKING:  # a type checker refuses other names

    def __getattr__(name: str) -> str | bool:
        if name in ("build", "is_proved"):
            return getattr(_library_of(), name)
        raise AttributeError(f"module {__name__!r} has no attribute {name!r}")
