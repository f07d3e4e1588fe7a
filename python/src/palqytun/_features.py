"""What a call asks for that the version of a VM doesn't have."""

from __future__ import annotations

from collections.abc import Iterable, Iterator

from palqytun import _abi

METADATA, SCOPE, LIMIT_KEY = "metadata of a failure", "a scope", "a limit key"
PAUSE, BEHAVIOUR, EPHEMERAL_READ = "a policy that pauses", "another behaviour than retry", "an ephemeral read"
_SINCE = {METADATA: 6, SCOPE: 7, LIMIT_KEY: 7, PAUSE: 7, BEHAVIOUR: 7, EPHEMERAL_READ: 8}


def lacking(name: str, given: Iterable[object], version: int) -> str | None:
    """What a typed call of this name, with these arguments, needs a later version for, and which."""
    for it in _asked(name, given):
        if version < _SINCE[it]:
            return f"{it} needs version {_SINCE[it]}, and the VM has version {version}"
    return None


def _asked(name: str, given: Iterable[object]) -> Iterator[str]:
    """What a call asks for that some version lacks."""
    if name == "ephemeral_state_get":
        yield EPHEMERAL_READ
    for it in given:
        match it:
            case _abi.Value(metadata=(_, *_)):
                yield METADATA
            case _abi.Target() | _abi.Invocation() if it.scope is not None:
                yield SCOPE
            case _abi.Target() if it.limit_key is not None:
                yield LIMIT_KEY
            case _abi.Policy(pauses=True):
                yield PAUSE
            case _abi.Error() if it.behavior != _abi.BEHAVIOR_RETRY:
                yield BEHAVIOUR
