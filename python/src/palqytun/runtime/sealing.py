"""A codec that encrypts what another one writes: arguments, results, states, progress, and the texts of failures and errors.

    codec = Sealed(JsonCodec(), {"2026-11": key}, "2026-11")
    app = App(shop, codec=codec)

An attempt has to write the same bytes as the one before, so equal values are encrypted alike: by AES-SIV, which keeps them secret and shows only
that they are equal. An invocation stays with the key by which its argument was written, and what it makes begins with the newest one.
"""

from __future__ import annotations

import base64
import re
from collections.abc import Mapping
from typing import Any, cast

from .codec import Codec, Unreadable
from .extras import needed

_FORM = re.compile(r"sealed:([\w.-]{1,64}):([\w-]+)")
_NAME = re.compile(r"[\w.-]{1,64}")
_LENGTHS = (32, 48, 64)  # bytes of a key


class Sealed:
    """`inner` writes the values, and `keys` are those by which they are encrypted, by their ids: 32, 48 or 64 random bytes each. What is new is encrypted
    by the key `newest`; the others are for what is there.

    To rotate keys, give all workers and clients the new one, and then name it as the newest. Take an old one away once nothing has it any more. A value
    that isn't encrypted, since it was written before, is read as it is, and its invocation goes on so. An invocation whose key a worker lacks is tried again by
    its retry policy, and then paused.

    Raises `ValueError` for a key or an id that is none, and `MissingExtra` without the library cryptography."""

    def __init__(self, inner: Codec, keys: Mapping[str, bytes], newest: str):
        library = needed("cryptography.hazmat.primitives.ciphers.aead", "sealed", "palqytun.runtime.Sealed")
        for id, key in keys.items():
            if not _NAME.fullmatch(id) or len(key) not in _LENGTHS:
                raise ValueError(f"the key {id[:64]!r} has {len(key)} bytes: a key has 32, 48 or 64, and its id at most 64 letters, digits, -, _ and .")
        if newest not in keys:
            raise ValueError(f"the newest key is {newest[:64]!r}, and there are {', '.join(keys) or 'none'}")
        self.content_type, self._inner, self._newest = inner.content_type, inner, newest
        self._ciphers: dict[str, Any] = {id: library.AESSIV(key) for id, key in keys.items()}

    # ---- values

    def encode(self, value: Any) -> bytes:
        return self._sealed(bytes(self._inner.encode(value)))

    def decode(self, data: bytes, kind: Any) -> Any:
        return self._inner.decode(self.opened(data), kind)

    def _sealed(self, data: bytes) -> bytes:
        if not data:
            return data  # None, which says nothing
        secret = self._ciphers[self._newest].encrypt(data, [self._newest.encode()])
        return f"sealed:{self._newest}:".encode() + base64.urlsafe_b64encode(secret).rstrip(b"=")

    def opened(self, data: bytes) -> bytes:
        """The bytes that the inner codec has written. Raises `Unreadable` if the key isn't known, and `ValueError` if they were changed."""
        found = _FORM.fullmatch(data.decode("latin-1"))
        return data if found is None else self._open(found)

    def _open(self, found: re.Match[str]) -> bytes:
        id, secret = found.groups()
        cipher = self._ciphers.get(id)
        if cipher is None:
            raise Unreadable(f"it is encrypted by the key {id}, and there are {', '.join(self._ciphers)}")
        try:
            return bytes(cipher.decrypt(base64.urlsafe_b64decode(secret + "=" * (-len(secret) % 4)), [id.encode()]))
        except Exception as error:  # InvalidTag, or no base64
            raise ValueError(f"it isn't what the key {id} has written") from error

    def renewed(self, data: bytes) -> bytes:
        """The same value by the newest key. One whose key isn't known stays as it is."""
        try:
            return self._sealed(self.opened(data))
        except (ValueError, Unreadable):
            return data

    def like(self, data: bytes) -> Codec:
        """The codec of an invocation whose argument this is."""
        found = _FORM.fullmatch(data.decode("latin-1"))
        if found is None and data:
            return _Open(self)
        if found is None:
            return self
        return self if found[1] == self._newest or found[1] not in self._ciphers else self._by(found[1])

    def _by(self, id: str) -> Sealed:
        other = object.__new__(type(self))
        other.__dict__ |= {**self.__dict__, "_newest": id}
        return other

    # ---- texts

    def sealed_text(self, text: str) -> str:
        return self._sealed(text.encode()).decode()

    def opened_text(self, text: str) -> str:
        """The text with all in it in clear that these keys open."""

        def opened(found: re.Match[str]) -> str:
            try:
                return self._open(found).decode("utf-8", "replace")
            except (ValueError, Unreadable):
                return found[0]

        return _FORM.sub(opened, text)


class _Open:
    """The codec of an invocation that began without encryption: it writes as it did, and reads both."""

    def __init__(self, sealed: Sealed):
        self._sealed, self.content_type = sealed, sealed.content_type
        self.decode, self.opened, self.opened_text = sealed.decode, sealed.opened, sealed.opened_text

    def encode(self, value: Any) -> bytes:
        return bytes(self._sealed._inner.encode(value))

    def like(self, data: bytes) -> Codec:
        return self._sealed.like(data)


# ---- what the runtime asks of any codec


def of(codec: Codec, argument: bytes) -> Codec:
    """The codec of an invocation with this argument."""
    like = getattr(codec, "like", None)
    return codec if like is None else cast(Codec, like(argument))


def renewed(codec: Codec, data: bytes) -> bytes:
    """A value as the codec writes new ones."""
    renew = getattr(codec, "renewed", None)
    return data if renew is None else bytes(renew(data))


def opened(codec: Codec, data: bytes) -> bytes:
    """A value in clear."""
    opens = getattr(codec, "opened", None)
    return data if opens is None else bytes(opens(data))


def text(codec: Codec, clear: str) -> str:
    """A text that is stored: of a failure, or of a stack."""
    seals = getattr(codec, "sealed_text", None)
    return clear if seals is None else str(seals(clear))


def error(codec: Codec, said: str) -> str:
    """What an error says: the name of its type stays in clear."""
    kind, colon, rest = said.partition(": ")
    return f"{kind}{colon}{text(codec, rest)}" if colon else said


def clear(codec: Codec, stored: str) -> str:
    """A stored text in clear."""
    opens = getattr(codec, "opened_text", None)
    return stored if opens is None else str(opens(stored))
