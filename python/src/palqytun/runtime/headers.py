"""Which headers of a request a handler gets: those that its app names. Others may be secrets, and what is stored is read by others too."""

from __future__ import annotations

import re
from collections.abc import Iterable

# Secrets, and what the runtime itself reads of a request or tells a handler.
KEPT = frozenset(("authorization", "cookie", "idempotency-key", "proxy-authorization", "schedule", "scheduled-for", "traceparent"))
_OWN = "palqytun-"
_NAME = re.compile(r"[a-z0-9!#$%&'*+.^_`|~-]{1,100}")


def checked(names: Iterable[str]) -> tuple[str, ...]:
    """The names of headers, in lower case, each once. Raises `ValueError` for one that is no header's name, or that a handler can't get."""
    if isinstance(names, str):
        raise ValueError(f"the headers are a list of names, and not the text {names!r}")
    found = []
    for it in names:
        name = it.lower() if isinstance(it, str) else ""
        if _NAME.fullmatch(name) is None:
            raise ValueError(f"{it!r} is no name of a header")
        if name in KEPT or name.startswith(_OWN):
            raise ValueError(f"a handler can't get the header {name}: {', '.join(sorted(KEPT))} and those that begin with {_OWN} are kept from it")
        found.append(name)
    return tuple(dict.fromkeys(found))
