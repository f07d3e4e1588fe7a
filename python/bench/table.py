"""The tables of docs/BENCHMARKS.md: table.py [--before FOLDER] [--scale F] [--only NAME..] [--workers N..] [--write]

Each workload is run on SQLite, and on a temporary PostgreSQL cluster with 1, 2 and 4 workers; with --before by the package of another copy of
the repository too, in turn. A cell is how many units a second, and in brackets the milliseconds of the processor that one unit took: of all
workers, and after a `+` of PostgreSQL. On a busy machine the second figure says more. `http` is the time from a request for an empty workflow
to its result: the median, and in brackets the 99th of 100.

The second table is what a unit costs on PostgreSQL, counted: round trips, statements and commits of the workers, and flushes of the server's log.
The third says what limits the workers: how much faster the last number of them is than one, how much faster it can be by the processors that
it was seen to need, and how much of the machine all of this had. --write puts them into docs/BENCHMARKS.md."""

from __future__ import annotations

import argparse
import json
import os
import pathlib
import re
import subprocess
import sys
import tempfile
import time
from collections.abc import Iterator

HERE = pathlib.Path(__file__).parent
PAGE = HERE.parent.parent / "docs/BENCHMARKS.md"
MARKS = "<!-- python/bench/table.py --write -->", "<!-- end of the table of the runtime -->"
sys.path.insert(0, str(HERE.parent / "tests"))
import postgres  # noqa: E402

NAMES = ("empty", "steps", "calls", "fans", "sleeps", "sleepers", "keys", "http")
Cell = dict[str, float]
Place = tuple[str, int]  # `SQLite` or `PostgreSQL`, and how many workers


def measured(package: pathlib.Path, url: str, workers: int, name: str, scale: float) -> Cell:
    words = [sys.executable, str(HERE / "one.py"), url, str(workers), name, str(scale)]
    environment = {**os.environ, "PYTHONPATH": str(package)}
    found: Cell = json.loads(subprocess.run(words, env=environment, stdout=subprocess.PIPE, check=True, timeout=900).stdout)
    return found


def calls_by(package: pathlib.Path) -> str:
    """How a version calls the core: by the module in C, if it is built (`build_extension.py`), or by ctypes, as versions without such a module do."""
    asks = "from palqytun import _library; print(getattr(_library, 'implementation', 'ctypes'))"
    environment = {**os.environ, "PYTHONPATH": str(package)}
    return subprocess.run([sys.executable, "-c", asks], env=environment, stdout=subprocess.PIPE, check=True, text=True).stdout.strip()


def database(cluster: str, name: str) -> str:
    """A new database of the cluster: each version has its own, as their tables differ."""
    import psycopg

    with psycopg.connect(cluster, autocommit=True) as db:
        db.execute(f"CREATE DATABASE {name}")
    return cluster.replace("/postgres?", f"/{name}?").removesuffix("/postgres") + (f"/{name}" if cluster.endswith("/postgres") else "")


def shown(place: Place, found: Cell) -> str:
    if "p50 ms" in found:
        return f"{found['p50 ms']:.1f} ms ({found['p99 ms']:.1f})"
    server = f" + {found['server ms']:.2f}" if place[0] != "SQLite" else ""
    return f"{found['a second']:,.0f} ({found['worker ms']:.2f}{server})"


def counted(found: Cell) -> str:
    return " / ".join(f"{found.get(it, 0.0):.2f}" for it in ("trips", "statements", "commits", "flushes"))


def limits(cells: dict[Place, Cell]) -> list[str]:
    """How many times as fast the most workers are as one; and as all processors would make them, if one worker had one to itself."""
    places = [it for it in cells if it[0] != "SQLite"]
    one, most = cells[places[0]], cells[places[-1]]
    bound = (os.cpu_count() or 1) * one["worker ms"] / (most["worker ms"] + most["server ms"])
    return [f"{most['a second'] / one['a second']:.2f}", f"{bound:.2f}", f"{most['processors']:.0%}", f"{1 - most['processors'] - most['idle']:.0%}"]


def rows(title: str, heads: list[str], body: list[list[str]]) -> list[str]:
    return [f"| {title} | {' | '.join(heads)} |", "|---" * (1 + len(heads)) + "|", *(f"| {' | '.join(it)} |" for it in body), ""]


def tables(found: dict[tuple[str, str], dict[Place, Cell]], places: list[Place]) -> Iterator[str]:
    """The three tables, in lines."""
    named = {it: it[0] if it[0] == "SQLite" else f"PostgreSQL, {it[1]} {'worker' if it[1] == 1 else 'workers'}" for it in places}
    by = {key: f"{key[0]}{key[1] and f', {key[1]}'}" for key in found}
    body = [[by[key], *(shown(it, cells[it]) if it in cells else "" for it in places)] for key, cells in found.items()]
    yield from rows("", list(named.values()), body)
    servers = [it for it in places if it[0] != "SQLite"]
    own = {key: cells for key, cells in found.items() if key[0] != "http"}
    yield from rows("trips / statements / commits / flushes", [named[it] for it in servers], [[by[key], *(counted(cells[it]) for it in servers)] for key, cells in own.items()])
    if len(servers) > 1:
        heads = [f"{servers[-1][1]} workers by one", "by the processors at most", "of the processors, this run", "others"]
        yield from rows("limits", heads, [[by[key], *limits(cells)] for key, cells in own.items()])


def write(text: str) -> None:
    """Puts the tables into the page, between their marks."""
    page = PAGE.read_text(encoding="utf-8")
    between = re.compile(f"{re.escape(MARKS[0])}.*{re.escape(MARKS[1])}", re.DOTALL)
    if not between.search(page):
        raise SystemExit(f"{PAGE} has no {MARKS[0]}")
    PAGE.write_text(between.sub(lambda _: f"{MARKS[0]}\n\n{text}\n{MARKS[1]}", page), encoding="utf-8")


def processor() -> str:
    names = re.findall(r"^model name\s*: (.*)$", pathlib.Path("/proc/cpuinfo").read_text(), re.MULTILINE)
    return names[0] if names else os.uname().machine


def options() -> argparse.Namespace:
    parser = argparse.ArgumentParser("table.py", description="The runtime's figures, as tables.")
    parser.add_argument("--before", type=pathlib.Path, help="another copy of the repository, with its library in the package")
    parser.add_argument("--scale", type=float, default=1.0, help="how many workflows, as a part of the usual")
    parser.add_argument("--only", nargs="+", choices=NAMES, default=NAMES)
    parser.add_argument("--workers", nargs="+", type=int, default=[1, 2, 4], help="on PostgreSQL")
    parser.add_argument("--write", action="store_true", help="into docs/BENCHMARKS.md")
    return parser.parse_args()


def main() -> None:
    asked = options()
    versions = {"after" if asked.before else "": HERE.parent / "src"}
    if asked.before:
        versions = {"before": asked.before.resolve() / "python/src", **versions}
    places = [("SQLite", 1), *(("PostgreSQL", it) for it in asked.workers)]
    found: dict[tuple[str, str], dict[Place, Cell]] = {(name, version): {} for name in asked.only for version in versions}
    load = os.getloadavg()[0]
    with postgres.cluster() as cluster, tempfile.TemporaryDirectory(prefix="palqytun-bench-") as folder:
        os.environ["PALQYTUN_BENCH_SERVER"] = (cluster.folder / "data" / "postmaster.pid").read_text().split()[0]
        urls = {version: database(cluster.url, f"bench{at}") for at, version in enumerate(versions)}
        for name in asked.only:
            for place in places if name != "http" else [("SQLite", 1), ("PostgreSQL", 1)]:
                for at, (version, package) in enumerate(versions.items()):
                    url = f"{folder}/{name}-{at}.db" if place[0] == "SQLite" else urls[version]
                    cell = found[name, version][place] = measured(package, url, place[1], name, asked.scale)
                    print(name, version, *place, json.dumps({what: round(it, 3) for what, it in cell.items()}), file=sys.stderr, flush=True)
    loads = f"a load of {load:.0f} at its begin and {os.getloadavg()[0]:.0f} at its end"
    head = f"{time.strftime('%Y-%m-%d %H:%M', time.gmtime())} UTC, {processor()}, {os.cpu_count()} processors, {loads}, Python {sys.version.split()[0]},"
    core = ", ".join(f"{calls_by(package)}{version and f' {version}'}" for version, package in versions.items())
    text = "\n".join([f"{head} `--scale {asked.scale:g}`. The core is called by {core}.", "", *tables(found, places)])
    print(text)
    if asked.write:
        write(text)


if __name__ == "__main__":
    main()
