"""The servers that a URL of PostgreSQL names: each is tried by itself, for a limited time.

libpq tries them in turn too. But it waits for a server that says nothing until TCP gives up, which may take minutes. And psycopg 3.1 lets it take a
connection that is only begun for one that is made: when that one fails, libpq tries no other. So a primary whose host has lost its power would hide its
standby.
"""

from __future__ import annotations

from collections.abc import Iterator
from dataclasses import dataclass
from typing import Any

from psycopg.conninfo import conninfo_to_dict, make_conninfo

_LISTS = ("host", "hostaddr", "port")


@dataclass(frozen=True)
class Server:
    """One server: its name for people, and what connects to it."""

    name: str
    conninfo: str


class Servers:
    """The servers of a URL. The one that was reached last is tried first.

    >>> [it.name for it in Servers("postgresql://ann@db1:5432,db2:5433/shop").in_turn()]
    ['db1:5432', 'db2:5433']
    """

    def __init__(self, url: str):
        """Raises `psycopg.ProgrammingError` for what is neither a URL nor a conninfo."""
        self._all = _each(url)

    def __len__(self) -> int:
        return len(self._all)

    def in_turn(self) -> Iterator[Server]:
        """The servers, until the caller has reached one and asks for no more: those that it couldn't reach are the last ones next time."""
        for it in [*self._all]:
            yield it
            self._all.remove(it)
            self._all.append(it)


def _each(url: str) -> list[Server]:
    """Each server of a URL. Lists that don't fit each other stay as they are: libpq refuses them by a text of its own."""
    values: dict[str, Any] = conninfo_to_dict(url)
    lists = {name: str(values[name]).split(",") for name in _LISTS if values.get(name)}
    hosts = lists.get("host") or lists.get("hostaddr") or [""]
    if len(lists.get("port", ())) == 1:
        lists["port"] *= len(hosts)
    if len(hosts) == 1 or any(len(it) != len(hosts) for it in lists.values()):
        return [Server(url, url)]
    ports = lists.get("port") or [""] * len(hosts)
    names = [f"{host}:{port}" if port else host for host, port in zip(hosts, ports)]
    own = [{name: it[number] for name, it in lists.items()} for number in range(len(hosts))]
    return [Server(name, make_conninfo(**(values | it))) for name, it in zip(names, own)]
