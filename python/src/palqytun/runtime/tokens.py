"""The tokens of an ingress: whose each one is, and what it may do.

A file has them, a line each: a name, its roles, and the token. It is read again when it changes. So a token is rotated without a restart: a second line
with the same name, and later the first line goes.
"""

from __future__ import annotations

import hashlib
import hmac
import logging
import os
import pathlib
from collections.abc import Mapping
from dataclasses import dataclass

COOKIE = "palqytun"
CALL, READ, OPERATE = "call", "read", "operate"
ROLES = (CALL, READ, OPERATE)
SHORTEST = 16  # characters of a token in the file, and of one that other hosts may guess at
log = logging.getLogger("palqytun")


class BadTokens(ValueError):
    """The file of tokens can't be used, and why."""


def _is_same(given: str, wanted: str) -> bool:
    """Compares secrets, in a time that says nothing of the place of a difference."""
    return hmac.compare_digest(given.encode(), wanted.encode())


@dataclass(frozen=True)
class Token:
    """Whoever has the secret is known by the name, and may do what the roles say: `call` handlers, `read` what there is of invocations, and `operate`,
    which is to read and to change."""

    name: str
    roles: frozenset[str]
    secret: str

    def may(self, role: str) -> bool:
        return role in self.roles or (role == READ and OPERATE in self.roles)

    @property
    def cookie(self) -> str:
        """What a browser keeps of it."""
        return hashlib.sha256(f"page {self.secret}".encode()).hexdigest()


def parsed(text: str, path: str) -> tuple[Token, ...]:
    """The tokens of a file. Raises `BadTokens` with the number of the line that is wrong.

    >>> [(it.name, sorted(it.roles)) for it in parsed("# ours\\nann call,read 0123456789abcdef\\n", "tokens")]
    [('ann', ['call', 'read'])]
    """
    found = []
    for number, line in enumerate(text.splitlines(), 1):
        words = line.split()
        if not words or words[0].startswith("#"):
            continue
        at = f"{path}:{number}"
        if len(words) != 3:
            raise BadTokens(f"{at}: a line is NAME ROLE,.. TOKEN")
        roles = frozenset(words[1].split(","))
        if not roles <= set(ROLES):
            raise BadTokens(f"{at}: {words[1][:40]!r} are no roles, which are {', '.join(ROLES)}")
        if len(words[2]) < SHORTEST:
            raise BadTokens(f"{at}: the token of {words[0][:40]} has {len(words[2])} characters, and at least {SHORTEST} are needed")
        found.append(Token(words[0], roles, words[2]))
    if not found:
        raise BadTokens(f"{path} has no token, and nobody could ask anything")
    return tuple(found)


class Tokens:
    """One token that may do everything, or those of a file, or both; none at all is an ingress that asks nobody. Raises `BadTokens`."""

    def __init__(self, token: str | None = None, path: str | None = None):
        self._own = () if not token else (Token("token", frozenset(ROLES), token),)
        self._path, self._stamp, self._of_file = path, (0, 0), tuple[Token, ...]()
        if path is not None:
            self._read(path)

    def _read(self, path: str) -> None:
        try:
            found = os.stat(path)
            stamp = (found.st_mtime_ns, found.st_size)
            if stamp != self._stamp:
                self._of_file = parsed(pathlib.Path(path).read_text(), path)
                self._stamp = stamp
        except (OSError, UnicodeDecodeError) as error:
            raise BadTokens(f"the tokens of {path} can't be read: {error}") from error

    @property
    def all(self) -> tuple[Token, ...]:
        """Those that count now. If the file can't be used any more, the ones that it had do."""
        if self._path is not None:
            try:
                self._read(self._path)
            except BadTokens as error:
                log.error("the tokens stay as they were: %s", error)
        return (*self._own, *self._of_file)

    @property
    def are_asked(self) -> bool:
        """Whether a request needs a token."""
        return bool(self._own) or self._path is not None

    def _by(self, given: str, wanted: Mapping[Token, str]) -> Token | None:
        matching = [it for it, secret in wanted.items() if _is_same(given, secret)]  # all are compared, so the time says nothing
        return matching[0] if matching else None

    def given(self, secret: str) -> Token | None:
        """The token with this secret."""
        return self._by(secret, {it: it.secret for it in self.all})

    def of(self, headers: Mapping[str, str], cookies: Mapping[str, str] | None = None) -> Token | None:
        """The token of a request: by its header, or by the page's cookie."""
        found = self._by(headers.get("authorization", ""), {it: f"Bearer {it.secret}" for it in self.all})
        if found is None and cookies is not None:
            found = self._by(cookies.get(COOKIE, ""), {it: it.cookie for it in self.all})
        return found


def needed(method: str, parts: tuple[str, ...]) -> str:
    """The role that a request needs.

    >>> needed("POST", ("Shop", "order")), needed("GET", ("-", "metrics")), needed("POST", ("-", "invocations", "inv_1", "kill"))
    ('call', 'read', 'operate')
    """
    is_of_one = parts[1:2] == ("invocations",) and parts[3:4] in (("result",), ("signals",))
    if parts[0] != "-" or parts[1:2] == ("awakeables",) or is_of_one:
        return CALL
    return READ if method in ("GET", "HEAD") else OPERATE
