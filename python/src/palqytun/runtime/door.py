"""The ingress's door: which requests come in. A foreign web site can't use a visitor's browser to call handlers, and with a token nobody
can who doesn't have it.

A browser says from where a request comes (`Origin`), and which name it asked for (`Host`). A site whose name is made to lead here asks for
a foreign name; so without a token only names of this host are taken, and those that the door was given.
"""

from __future__ import annotations

import urllib.parse
from collections.abc import Iterable, Mapping
from dataclasses import dataclass, field

from .tokens import Token, Tokens

_LOOPBACK = frozenset(["localhost", "127.0.0.1", "::1"])


def is_loopback(host: str) -> bool:
    """Whether only this host reaches what listens there.

    >>> is_loopback("127.0.0.1"), is_loopback("0.0.0.0")
    (True, False)
    """
    return host in _LOOPBACK


def _name(address: str) -> str | None:
    """The name in `name:port`."""
    try:
        return urllib.parse.urlsplit(f"//{address}").hostname
    except ValueError:
        return None


@dataclass(frozen=True)
class Door:
    """Who may come in: those who have a token, if there are `tokens`. `origins` are the addresses under which browsers know the ingress besides its own,
    as `https://ops.example`, if a proxy stands before it."""

    tokens: Tokens = field(default_factory=Tokens)
    origins: tuple[str, ...] = ()

    @staticmethod
    def of(tokens: Tokens, origins: Iterable[str]) -> Door:
        """Raises `ValueError` for an origin that is none: it is a scheme and a name, and a port if it has one."""
        found = tuple(it.rstrip("/") for it in origins)
        for it in found:
            parts = urllib.parse.urlsplit(it)
            if parts.scheme not in ("http", "https") or not parts.netloc or parts.path or parts.query:
                raise ValueError(f"{it!r} is no origin, which is http:// or https:// and a name, as https://ops.example")
        return Door(tokens, found)

    def foreign(self, headers: Mapping[str, str]) -> str | None:
        """Why a request is refused as one of a foreign web site; none if it isn't."""
        host, origin = headers.get("host", ""), headers.get("origin")
        names = _LOOPBACK | {urllib.parse.urlsplit(it).hostname for it in self.origins}
        if not self.tokens.are_asked and host and _name(host) not in names:
            return f"the host {host[:200]!r} isn't known here: without a token, a host is localhost, or the name of an --origin"
        if origin is not None and origin not in self.origins and (not host or urllib.parse.urlsplit(origin).netloc != host):
            return f"the origin {origin[:200]!r} isn't this address: a page of another site may not ask, unless it is an --origin"
        return None

    def refusal(self, role: str, headers: Mapping[str, str], cookies: Mapping[str, str] | None = None) -> tuple[int, str] | None:
        """Why a request that needs this role is refused, with the code 401 or 403; none if it isn't."""
        if not self.tokens.are_asked:
            return None
        token = self.tokens.of(headers, cookies)
        if token is None:
            return 401, "the header `authorization: Bearer TOKEN` is missing or wrong"
        if not token.may(role):
            return 403, f"the token of {token.name} hasn't the role {role}: it has {', '.join(sorted(token.roles))}"
        return None

    def who(self, headers: Mapping[str, str], cookies: Mapping[str, str] | None = None) -> str:
        """Who asks, for the audit."""
        token: Token | None = self.tokens.of(headers, cookies) if self.tokens.are_asked else None
        return "ingress" if token is None else token.name
