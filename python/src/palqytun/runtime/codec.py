"""Values as bytes: arguments, results and state. JSON by default; `App(.., codec=..)` takes another one.

`JsonCodec` writes what `json` writes, and dataclasses, enums, dates, UUIDs, `Decimal` (as a text), `bytes` (as base64) and pydantic's models (if
pydantic is installed). It reads a value by the type that the handler's annotations name: a dataclass from an object, a tuple from a list, and so on. Without
an annotation, and for `Any`, a value is what `json` reads. `None` is no bytes at all.
"""

from __future__ import annotations

import base64
import dataclasses
import datetime
import decimal
import enum
import inspect
import json
import types
import typing
import uuid
from collections.abc import Callable
from typing import Any, Protocol, Union

from .texts import said


class Codec(Protocol):
    """How values are stored. `decode` is given the type that is wanted, or `Any`. Both raise `ValueError` or `TypeError` for a value that
    they can't take."""

    content_type: str

    def encode(self, value: Any) -> bytes: ...
    def decode(self, data: bytes, kind: Any) -> Any: ...


def _finite(number: decimal.Decimal) -> decimal.Decimal:
    if not number.is_finite():
        raise ValueError(f"{number} is no JSON")
    return number


def _decimal(text: str) -> decimal.Decimal:
    try:
        return _finite(decimal.Decimal(text))
    except decimal.InvalidOperation:
        raise ValueError(f"{text[:40]!r} is no decimal number") from None


_TEXTS: dict[Any, Callable[[str], Any]] = {
    bytes: lambda text: base64.b64decode(text, validate=True),
    decimal.Decimal: _decimal,
    datetime.datetime: datetime.datetime.fromisoformat,
    datetime.date: datetime.date.fromisoformat,
    datetime.time: datetime.time.fromisoformat,
    uuid.UUID: uuid.UUID,
}


def _plain(value: Any) -> Any:
    """What `json` can write for a value that it can't write itself."""
    if dataclasses.is_dataclass(value) and not isinstance(value, type):
        return {it.name: getattr(value, it.name) for it in dataclasses.fields(value)}
    if isinstance(value, enum.Enum):
        return value.value
    if isinstance(value, (datetime.datetime, datetime.date, datetime.time)):
        return value.isoformat()
    if isinstance(value, uuid.UUID):
        return str(value)
    if isinstance(value, decimal.Decimal):
        return str(_finite(value))
    if isinstance(value, bytes):
        return base64.b64encode(value).decode()
    if isinstance(value, (set, frozenset)):
        return sorted(value)
    dump = getattr(value, "model_dump", None) or getattr(value, "dict", None)  # pydantic 2 and 1
    if callable(dump) and _is_model(type(value)):
        return dump()
    if inspect.isawaitable(value):
        raise TypeError(f"a value of type {type(value).__name__} is not JSON: it is to be awaited, and `await` gives its result")
    raise TypeError(f"a value of type {type(value).__name__} is not JSON")


def _is_model(kind: Any) -> bool:
    return isinstance(kind, type) and any(it.__module__.startswith("pydantic") for it in kind.__mro__)


def _mismatch(kind: Any, value: Any) -> ValueError:
    return ValueError(f"{json.dumps(value)[:200]} is no {getattr(kind, '__name__', kind)}")


def _object(kind: Any, value: Any) -> Any:
    """A dataclass from a JSON object."""
    if not isinstance(value, dict):
        raise _mismatch(kind, value)
    hints = typing.get_type_hints(kind)
    known = {it.name: it for it in dataclasses.fields(kind) if it.init}
    extra = value.keys() - known.keys()
    if extra:
        raise ValueError(f"{kind.__name__} has no field {', '.join(sorted(extra))}")
    try:
        return kind(**{name: typed(hints[name], it) for name, it in value.items()})
    except TypeError as error:
        raise ValueError(f"{kind.__name__}: {error}") from error


def _tuple(parts: tuple[Any, ...], value: Any) -> Any:
    if not isinstance(value, list):
        raise _mismatch(tuple, value)
    if len(parts) == 2 and parts[1] is Ellipsis:
        return tuple(typed(parts[0], it) for it in value)
    if parts and len(parts) != len(value):
        raise ValueError(f"a tuple of {len(parts)} is wanted, and {len(value)} came")
    return tuple(typed(part, it) for part, it in zip(parts, value)) if parts else tuple(value)


def _union(kinds: tuple[Any, ...], value: Any) -> Any:
    """The value as it is, if its type is one of them; else as the first of them that takes it."""
    if type(value) in kinds and type(value) in _AS_READ:
        return value
    for kind in kinds:
        try:
            return typed(kind, value)
        except (ValueError, TypeError):
            continue
    raise ValueError(f"{json.dumps(value)[:200]} is of none of the types {', '.join(map(str, kinds))}")


def _generic(origin: Any, parts: tuple[Any, ...], value: Any) -> Any:
    if origin in (Union, types.UnionType):
        return _union(parts, value)
    if origin is typing.Literal:
        if value in parts:
            return value
        raise _mismatch(f"one of {parts}", value)
    if origin is typing.Annotated:
        return typed(parts[0], value)
    if origin is tuple:
        return _tuple(parts, value)
    if origin in (list, set, frozenset):
        if not isinstance(value, list):
            raise _mismatch(origin, value)
        items = [typed(parts[0], it) for it in value]
        return items if origin is list else frozenset(items) if origin is frozenset else set(items)
    if origin is dict:
        if not isinstance(value, dict):
            raise _mismatch(origin, value)
        return {typed(parts[0], key): typed(parts[1], it) for key, it in value.items()}
    return value


_AS_READ = frozenset([int, float, str, bool, list, dict])


def typed(kind: Any, value: Any) -> Any:
    """A value that `json` read, as one of a type."""
    if kind is Any or kind is object or (type(value) is kind and kind in _AS_READ):
        return value
    if kind is None or kind is type(None):
        if value is None:
            return None
        raise _mismatch(None, value)
    origin = typing.get_origin(kind)
    if origin is not None:
        return _generic(origin, typing.get_args(kind), value)
    if not isinstance(kind, type):
        return value
    if _is_model(kind):
        read: Callable[[Any], Any] = getattr(kind, "model_validate", None) or getattr(kind, "parse_obj")  # pydantic 2 and 1
        return read(value)
    if dataclasses.is_dataclass(kind):
        return _object(kind, value)
    if issubclass(kind, enum.Enum):
        return kind(value)
    if kind in _TEXTS:
        if kind is decimal.Decimal and type(value) is int:
            return decimal.Decimal(value)
        if not isinstance(value, str):
            raise _mismatch(kind, value)
        return _TEXTS[kind](value)
    if kind in (tuple, set, frozenset):
        if not isinstance(value, list):
            raise _mismatch(kind, value)
        return tuple(value) if kind is tuple else set(value) if kind is set else frozenset(value)
    if kind is float and isinstance(value, int) and not isinstance(value, bool):
        return float(value)
    if kind in (int, float, str, bool, list, dict):
        if not isinstance(value, kind) or (kind is int and isinstance(value, bool)):
            raise _mismatch(kind, value)
    elif not _is_read(kind, value):
        raise ValueError(f"JSON isn't read as {kind.__name__}: make it a dataclass, an enum or a model of pydantic, or give the app a codec that reads it")
    return value


def _is_read(kind: type, value: Any) -> bool:
    """Whether a value of JSON may stand for one of this class, of which nothing else is known: a plain class of one's own would get a dict instead."""
    if typing.is_typeddict(kind) or issubclass(kind, (str, int, float, list, tuple, dict)):
        return True
    try:
        return isinstance(value, kind)
    except TypeError:  # a protocol, which asks nothing while the program runs
        return True


# `json.dumps` and `json.loads` make these anew for each call, and look which of UTF-8, 16 and 32 some bytes are.
_ENCODER = json.JSONEncoder(separators=(",", ":"), default=_plain, allow_nan=False)


def _constant(word: str) -> Any:
    raise ValueError(f"{word} is no JSON")


_DECODER = json.JSONDecoder(parse_constant=_constant)


def encoded(codec: Codec, value: Any) -> bytes:
    """A value's bytes; a codec that gives something else is a `TypeError`."""
    data = codec.encode(value)
    if not isinstance(data, (bytes, bytearray, memoryview)):
        raise TypeError(f"{type(codec).__name__}.encode gave a value of type {type(data).__name__}, and not bytes")
    return bytes(data)


class Unreadable(Exception):
    """A value can't be read by this worker, and may be by another one: what needs it is tried again."""


class BadValue(ValueError):
    """A value can't be read as the type that is wanted."""


def decoded(codec: Codec, data: bytes, kind: Any) -> Any:
    """The value of these bytes. Whatever else a codec or a type's own code raises for them is a `BadValue`."""
    try:
        return codec.decode(data, kind)
    except (MemoryError, Unreadable):
        raise
    except (ValueError, TypeError) as error:
        raise BadValue(said(error).partition(": ")[2]) from error
    except BaseException as error:  # also `SystemExit`, which would end the loop
        raise BadValue(said(error)) from error


class JsonCodec:
    content_type = "application/json"

    def encode(self, value: Any) -> bytes:
        if value is None:
            return b""
        return _ENCODER.encode(value).encode()

    def decode(self, data: bytes, kind: Any) -> Any:
        value = _DECODER.decode(data.decode()) if data else None
        return typed(kind, value)
