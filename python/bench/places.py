"""Which statements of docs/PROTOCOL.md touch more than one partition, and what partitions cost: places.py [--db URL] [--partitions N..]

A schema of its own gets the tables, with partitions, and is removed at the end. Each statement is explained there. Printed is a row for each that touches more
than one partition of a table, with these tables. With --partitions a second table has the milliseconds in which the server plans and executes some statements,
without partitions and with so many: the median of 50, on tables without rows. Without --db the database is one of a temporary cluster."""

from __future__ import annotations

import argparse
import contextlib
import functools
import json
import pathlib
import re
import statistics
import sys
import urllib.parse
from collections import defaultdict
from collections.abc import Iterator
from typing import Any

TOP = pathlib.Path(__file__).resolve().parents[2]
sys.path[:0] = [str(TOP / "python/src"), str(TOP / "python/tests"), str(TOP)]
from palqytun.runtime.database import connect  # noqa: E402
from palqytun.runtime.database.plain import Plain  # noqa: E402
from tools.pages import protocol  # noqa: E402

PARTITIONS = 3
EXPLAIN = "EXPLAIN (ANALYZE, COSTS OFF, TIMING OFF, SUMMARY OFF, FORMAT JSON) "  # what a statement does, and not only might do
_SCHEMA = "palqytun_places"
# A value of each type.
_VALUES = {"text": "'a'", "text[]": "ARRAY['a']", "bytea": "'a'", "bytea[]": "ARRAY['a'::bytea]", "bigint[]": "ARRAY[1]"}
_VERBS = ("SELECT", "INSERT", "UPDATE", "DELETE", "WITH")


def in_schema(url: str, schema: str) -> str:
    """The same database, with the tables in this schema."""
    return f"{url}{'&' if '?' in url else '?'}options={urllib.parse.quote(f'-csearch_path={schema}')}"


@contextlib.contextmanager
def partitioned(url: str, parts: int = PARTITIONS, schema: str = _SCHEMA) -> Iterator[str]:
    """The URL of new tables with partitions, in a schema of their own, which is removed at the end."""

    def removed() -> None:
        with Plain(url) as db:
            db.done(lambda to: to.change(f"DROP SCHEMA IF EXISTS {schema} CASCADE"))

    removed()
    with Plain(url) as db:
        db.done(lambda to: to.change(f"CREATE SCHEMA {schema}"))
    try:
        own = in_schema(url, schema)
        Plain(own, functools.partial(connect, migrates=True, parts=parts)).close()
        yield own
    finally:
        removed()


def _scanned(node: Any, is_sure: bool) -> Iterator[str]:
    """The tables that a plan has read, and all below it. With `is_sure` also those of a part of it that wasn't executed, for want of rows, and might read them."""
    if isinstance(node, dict):
        was_executed = node.get("Actual Loops", 1) > 0
        if "Relation Name" in node and node["Node Type"] != "ModifyTable" and (was_executed or (is_sure and node.get("unexecuted"))):
            yield node["Relation Name"]
        if node.get("Node Type") in ("Append", "Merge Append") and not was_executed:
            node = {**node, "Plans": [{**it, "unexecuted": True} for it in node["Plans"]]}
        node = [it for name, it in node.items() if name != "Target Tables"]
    if isinstance(node, list):
        for it in node:
            yield from _scanned(it, is_sure)


def several_of(plan: Any, most: int = 1, is_sure: bool = False) -> list[str]:
    """The tables of which a plan that was executed reads more than so many partitions. With `is_sure` also those of which it would with other rows."""
    parts = defaultdict[str, set[str]](set)
    for name in _scanned(plan if isinstance(plan, list) else json.loads(plan), is_sure):
        if found := re.fullmatch(r"(\w+)_\d+", name):
            parts[found[1]].add(name)
    return sorted(table for table, those in parts.items() if len(those) > most)


def statements() -> Iterator[tuple[str, str]]:
    """Each statement of the page, with values in it, and the name of those it belongs to."""
    for name, those in protocol.statements((TOP / protocol.PAGE).read_text(encoding="utf-8")):
        for sql in those:
            if sql.startswith(_VERBS) and name != "session":
                yield name, protocol.with_values(sql, lambda _, kind: f"{_VALUES.get(kind, '1')}::{kind}")


def several_in(url: str) -> dict[str, list[str]]:
    """Of each of the page's statements that touches more than one partition of a table: these tables. The URL is of tables with partitions."""
    found = defaultdict[str, set[str]](set)
    with Plain(url) as db:
        for name, sql in statements():
            db.begin()
            [(plan,)] = db.rows(f"{EXPLAIN}{sql}")
            db.rollback()
            found[name].update(several_of(plan, is_sure=True))
    return {name: sorted(those) for name, those in found.items() if those}


HOT = ("create", "lease", "fence", "steps", "inbox", "suspend", "end", "gone", "newest", "ready", "next")  # whose cost is shown


def cost(url: str) -> dict[str, str]:
    """Of some statements: the milliseconds in which the server plans and executes them."""
    took = defaultdict[str, list[float]](list)
    with Plain(url) as db:
        for _ in range(50):
            rounds = dict.fromkeys(HOT, 0.0)
            for name, sql in statements():
                if name in rounds:
                    db.begin()
                    [(plan,)] = db.rows(f"EXPLAIN (ANALYZE, FORMAT JSON) {sql}")
                    db.rollback()
                    rounds[name] += plan[0]["Planning Time"] + plan[0]["Execution Time"]
            for name, milliseconds in rounds.items():
                took[name].append(milliseconds)
    return {name: f"{statistics.median(those):.2f}" for name, those in took.items()}


def costs(url: str, counts: list[int]) -> None:
    """Prints the cost without partitions, and with each number of them."""
    found = {"none": cost(url)}
    for parts in counts:
        with partitioned(url, parts) as own:
            found[f"{parts}"] = cost(own)
    print(f"\n| milliseconds, by the number of partitions | {' | '.join(found)} |\n|{'---|' * (1 + len(found))}")
    for name in HOT:
        print(f"| `{name}` | {' | '.join(it[name] for it in found.values())} |")


def main() -> None:
    parser = argparse.ArgumentParser("places.py", description="Which statements of the protocol touch more than one partition.")
    parser.add_argument("--db", default="", help="a PostgreSQL database of this version")
    parser.add_argument("--partitions", type=int, nargs="+", default=[], help="what statements cost with so many, too")
    options = parser.parse_args()
    with contextlib.ExitStack() as stack:
        if not options.db:
            import postgres

            options.db = stack.enter_context(postgres.cluster({"max_locks_per_transaction": "1000"})).url
        with partitioned(options.db) as own:
            found, all_of_them = several_in(own), {name for name, _ in statements()}
        if options.partitions:
            costs(options.db, options.partitions)
    for name, those in found.items():
        print(f"| `{name}` | {', '.join(f'`{it}`' for it in those)} |")
    print(f"{len(all_of_them) - len(found)} of {len(all_of_them)} touch one partition of each table at most")


if __name__ == "__main__":
    main()
