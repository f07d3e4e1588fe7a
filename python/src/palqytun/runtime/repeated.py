"""Calls whose idempotency key is that of an invocation which is there: each is that invocation again, if its argument is the same."""

from __future__ import annotations

from typing import Any

from . import journal
from .codec import BadValue, Codec, Unreadable, decoded
from .database import Database
from .services import IdempotencyConflict

# One that goes on as a new invocation has handed its key over; the argument of the first of them is that of the call.
_FIRST = "SELECT frame FROM journal WHERE at=0 AND invocation=COALESCE((SELECT chain FROM invocations WHERE id=?), ?)"


def is_same(codec: Codec, one: bytes, other: bytes) -> bool:
    """Whether these are one value, however it is written. As in JSON, `true` isn't 1, and 1 is 1.0. What is encrypted by a key that isn't there can't be
    told apart, and is the same.

    >>> from palqytun.runtime import JsonCodec
    >>> [is_same(JsonCodec(), *pair) for pair in ((b'{"a": 1, "b": [2]}', b'{"b":[2.0],"a":1}'), (b"[1]", b"[true]"), (b"1", b'"1"'))]
    [True, False, False]
    """
    try:
        return one == other or _are_equal(decoded(codec, one, Any), decoded(codec, other, Any))
    except Unreadable:
        return True
    except BadValue:
        return False


def _are_equal(one: Any, other: Any) -> bool:
    """Equality of values that a codec has read. Python's own takes `True` and 1 as equal; and values may be nested deeper than it goes."""
    pairs = [(one, other)]
    while pairs:
        one, other = pairs.pop()
        if isinstance(one, dict) and isinstance(other, dict):
            if one.keys() != other.keys():
                return False
            pairs += [(value, other[name]) for name, value in one.items()]
        elif isinstance(one, list) and isinstance(other, list):
            if len(one) != len(other):
                return False
            pairs += zip(one, other)
        elif isinstance(one, bool) is not isinstance(other, bool) or one != other:
            return False
    return True


async def check(db: Database, codec: Codec, id: str, idempotency_key: str, argument: bytes) -> None:
    """`IdempotencyConflict` if the invocation that has this key was called with another argument."""
    rows = await db.rows(_FIRST, (id, id))
    first = next((it for frame, in rows for it, _ in journal.commands_in(bytes(frame))), None)
    if isinstance(first, journal.Input) and not is_same(codec, first.value, argument):
        raise IdempotencyConflict(idempotency_key, id)
