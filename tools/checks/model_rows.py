"""Looks up what the tables of docs/internals/MODEL-ROWS.md name: tables, columns and indexes of the schema, functions of the runtime, and what the proved
engine has. Each row names a test, and each kind of event, of effect and of what waits has a row. That the tests are there, features.py looks up."""

from __future__ import annotations

import re
import runpy
import sqlite3
from collections.abc import Iterator
from pathlib import Path

from .features import NAMED

PAGE = "docs/internals/MODEL-ROWS.md"
HEAD = "| In the engine | Rows | Written by |"
RUNTIME = "python/src/palqytun/runtime"
SCHEMA = f"{RUNTIME}/database/schema.py"
ENGINE = ("crates/engine_fences", "crates/engines", "crates/engine_inboxes", "crates/journal_store")
KINDS = {"Happening": "crates/engines/src/types.rt", "Waiting": "crates/engine_inboxes/src/types.rt", "Effect": "crates/journal_store/src/effect.rt"}
QUOTED = re.compile(r"`([^`]+)`")
TYPES = {"serial": "INTEGER PRIMARY KEY", "blob": "BLOB", "float": "REAL", "plain": "", "failed": "NULL"}


def columns(schema: Path) -> set[str]:
    """The tables and indexes that the migrations make, and each table's columns, as `table.column`: SQLite makes them here, without the views."""
    made = runpy.run_path(str(schema))
    db = sqlite3.connect(":memory:")
    for migration in made["MIGRATIONS"]:
        for it in migration.split(";"):
            if "VIEW" not in it and "remade" not in it:
                db.execute(it.format(**TYPES))
    found = {str(name) for (name,) in db.execute("SELECT name FROM sqlite_master")}
    return found | {f"{table}.{row[1]}" for table in found for row in db.execute(f"PRAGMA table_info({table})")}


def variants(source: str, kind: str) -> list[str]:
    """The cases of an enum of a source in Rattle."""
    inside = re.search(rf"pub enum {kind} \{{\n(.*?)\n\}}", source, re.DOTALL)
    return re.findall(r"^    (\w+)", inside[1], re.MULTILINE) if inside else []


def rows(lines: list[str]) -> Iterator[tuple[int, list[str]]]:
    """The rows of the tables, as cells, with their numbers."""
    is_table = False
    for at, line in enumerate(lines, 1):
        if line.startswith(HEAD):
            is_table = True
        elif not line.startswith("|"):
            is_table = False
        elif is_table and not line.startswith("|---"):
            yield at, [it.strip() for it in line.strip().strip("|").split("|")]


def is_function(root: Path, name: str) -> bool:
    """Whether the runtime has this function, as `module.function` or `module.Class.method`."""
    module, *owner, last = name.split(".")
    path = root / RUNTIME / f"{module}.py"
    text = path.read_text(encoding="utf-8") if path.is_file() else ""
    return f"def {last}(" in text and all(f"class {it}" in text for it in owner)


def check(root: Path) -> Iterator[tuple[str, str | None]]:
    """Yields for each name that the page has in its tables its place, and what is wrong with it."""
    lines = (root / PAGE).read_text(encoding="utf-8").splitlines()
    known = columns(root / SCHEMA)
    sources = "\n".join(it.read_text(encoding="utf-8") for name in ENGINE for end in ("rt", "antt") for it in sorted((root / name).rglob(f"*.{end}")))
    named = list(rows(lines))
    for at, cells in named:
        where = f"{PAGE}:{at}"
        for it in QUOTED.findall(cells[0]):
            yield where, None if re.search(rf"\b{it.rpartition(':')[2]}\b", sources) else f"the engine has no {it}"
        for it in QUOTED.findall(cells[1]):
            yield where, None if it in known else f"the schema has no {it}"
        for it in QUOTED.findall(cells[2]):
            yield where, None if is_function(root, it) else f"the runtime has no function {it}"
        yield where, None if NAMED.search(cells[-1]) else "no test shows this line"
    first = {it for _, cells in named for it in QUOTED.findall(cells[0])}
    for kind, file in KINDS.items():
        for it in variants((root / file).read_text(encoding="utf-8"), kind):
            yield f"{PAGE}:1", None if f"{kind}::{it}" in first else f"no line is about {kind}::{it}"
