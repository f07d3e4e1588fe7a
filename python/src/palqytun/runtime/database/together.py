"""Statements on one row that a server makes for many rows at once: the operations of a group have many of the same shape.

A statement costs a server and a worker some 50 microseconds each, whatever it changes, and a further row of the same statement a fraction of that.
"""

from __future__ import annotations

from collections.abc import Sequence


def _listed(sql: str, types: Sequence[str]) -> str:
    """The statement with the columns of `asked`, the rows that it is made for, instead of its values."""
    first, *rest = sql.split("?")
    if len(rest) != len(types):
        raise ValueError(f"{len(types)} types of {len(rest)} values: {sql}")
    return "".join([first, *(f"asked.v{at}{it}" for at, it in enumerate(rest))])


def _rows(types: Sequence[str]) -> tuple[str, str]:
    """The values of all rows, a list for each column, and the names of the columns."""
    return ", ".join(f"?::{it}[]" for it in types), ", ".join(f"v{at}" for at in range(len(types)))


class Each:
    """A change of one row: `one`, with a `?` for each value; and of many, `many`, with a list for each value. In `sql`, `{rows}` is where the many
    rows stand, after the word `by`: `FROM`, or `USING`.

    >>> Each(1, "DELETE FROM locks{rows} WHERE key=?", "text", by="USING").many
    'DELETE FROM locks USING unnest(?::text[]) AS asked(v0) WHERE key=asked.v0'

    A transaction makes changes of a lower `rank` first, and those of the same one in the order of their first rows. Without types the change is never
    made together, and those of a rank stay in their order.
    """

    def __init__(self, rank: int, sql: str, *types: str, by: str = "FROM"):
        values, names = _rows(types)
        self.rank, self.one = rank, sql.replace("{rows}", "")
        self.many = _listed(sql, types).replace("{rows}", f" {by} unnest({values}) AS asked({names})") if types else None


class Listed(Each):
    """A change that a list for each value makes, on a server also if there is one row: `sql` has a `?::TYPE[]` for each."""

    def __init__(self, rank: int, sql: str):
        self.rank, self.one, self.many = rank, "", sql


class Reading:
    """A query of one thing, `one`, with a `?` for each value; and of many, `many`, whose rows begin by the number of the thing that each is of.

    >>> Reading("SELECT seq FROM inbox WHERE invocation=?", "text").many
    'SELECT asked.number, found.* FROM unnest(?::bigint[], ?::text[]) AS asked(number, v0), LATERAL (SELECT seq FROM inbox WHERE invocation=asked.v0) AS found'
    """

    def __init__(self, sql: str, *types: str):
        values, names = _rows(types)
        asked = f"unnest(?::bigint[], {values}) AS asked(number, {names})"
        self.one = sql
        self.many = f"SELECT asked.number, found.* FROM {asked}, LATERAL ({_listed(sql, types)}) AS found"


__all__ = ["Each", "Listed", "Reading"]
