"""An answer of a line as what a call returns: a dict that JSON can hold."""

from __future__ import annotations

from collections.abc import Callable

from .calls import Json
from .tokens import Tokens, Unreadable

Want = dict[str, Json]


def want_of(call: str, answer: str, types: dict[str, int]) -> Want:
    """What this call returns, by the answer of its line: `{"returns": ..}`, `{"error": ..}`, or `{"frames": [..]}` with the numbers of the
    frames' types.

    >>> want_of("sys_sleep", "ok 17", {})
    {'returns': 17}
    >>> want_of("sys_sleep", 'err 598 "ClosedError"', {})
    {'error': {'code': 598, 'message': 'ClosedError'}}
    >>> want_of("take_output", "frames Error End", {"Error": 3, "End": 5})
    {'frames': [3, 5]}
    """
    left = Tokens(answer)
    kind = left.word()
    if kind == "frames":
        return {"frames": [types[it] for it in answer.split()[1:]]}
    if kind == "err":
        found: Want = {"error": {"code": left.number(), "message": left.text()}}
    elif kind == "ok":
        found = {"returns": RETURNED.get(call, handles)(left)}
    else:
        raise Unreadable(f"no answer is called {kind}")
    if left:
        raise Unreadable(f"{left.take()!r} is one too many")
    return found


def truth(left: Tokens) -> Json:
    return left.word() == "true"


def handles(left: Tokens) -> Json:
    """Handles: one as it is, several as a list, and null for none."""
    found: list[Json] = []
    while left:
        found.append(left.number())
    return found if len(found) > 1 else next(iter(found), None)


def version(left: Tokens) -> Json:
    return int(left.word().removeprefix("V"))


def head(left: Tokens) -> Json:
    return {"status_code": left.number(), "version": version(left), "headers": left.pairs()}


def awaited(left: Tokens) -> Json:
    kind = left.word()
    if kind in ("any", "cancelled"):
        return kind
    if kind == "run":
        return {"run": left.number()}
    if kind == "ephemeral":
        return {"ephemeral": left.number()}
    return {"wait": {"input": truth(left), "run": truth(left)}}


def taken(left: Tokens) -> Json:
    kind = left.word()
    if kind in ("none", "void"):
        return kind
    if kind == "success":
        return {"success": left.data().hex()}
    if kind == "invocation":
        return {"invocation": left.text()}
    if kind == "keys":
        keys: list[Json] = []
        left.sign("[")
        while not left.next_is("]"):
            keys.append(left.text())
        left.sign("]")
        return {"keys": keys}
    return {"failure": {"code": left.number(), "message": left.text(), "metadata": left.pairs()}}


def handed(left: Tokens) -> Json:
    """The input that the handler was called with."""
    found: dict[str, Json] = {}
    names = {"id": "invocation_id", "seed": "random_seed", "limit": "limit_key", "idem": "idempotency_key"}
    while left:
        name = left.word()
        left.sign("=")
        if name == "headers":
            left.sign("[")
            found["headers"] = left.pairs()
            left.sign("]")
        elif name == "value":
            found["value"] = left.data().hex()
        else:
            found[names.get(name, name)] = left.number() if name == "seed" else left.text_or_none()
    return found


def awakeable(left: Tokens) -> Json:
    return {"handle": left.number(), "id": left.text()}


def run(left: Tokens) -> Json:
    return {"handle": left.number(), "replayed": truth(left)}


def output(left: Tokens) -> Json:
    return left.data().hex()


RETURNED: dict[str, Callable[[Tokens], Json]] = {
    "new": version,
    "get_response_head": head,
    "take_output": output,
    "is_ready_to_execute": truth,
    "is_completed": truth,
    "state": Tokens.word,
    "last_command_index": Tokens.number,
    "do_await": awaited,
    "take_notification": taken,
    "sys_input": handed,
    "take_ephemeral_notification": taken,
    "sys_awakeable": awakeable,
    "sys_run": run,
}
