"""A loss of power, as the file system sees it (SQLite).

A worker runs over a layer (disk.c) that writes down each write to the database and its log, and each time that one is brought to the disk. Its clients
write down what they were told. From that this makes what a disk may hold if the power goes after any of these writes. What was brought to the disk is
there. Of what was written later any sectors may be there, so a page of the main file may be torn, in the middle of a checkpoint too.
"""

from __future__ import annotations

import asyncio
import contextlib
import os
import pathlib
import random
import sqlite3
import struct
import subprocess
import sys
from collections.abc import Iterator
from dataclasses import dataclass, field

HERE = pathlib.Path(__file__).parent
sys.path[:0] = [str(HERE.parent.parent / "src"), str(HERE)]

from checked import Wrong  # noqa: E402
from palqytun.runtime import App, ObjectContext, VirtualObject  # noqa: E402
from palqytun.runtime.database.plain import Plain  # noqa: E402
from palqytun.runtime.database.sqlite import SQLite  # noqa: E402
from palqytun.runtime.engine import Engine  # noqa: E402
from palqytun.runtime.invocations import New  # noqa: E402

DATABASE, LOG, ACKNOWLEDGED = range(3)
WRITTEN, CUT, SYNCED = range(1, 4)
NAMES = {DATABASE: "", LOG: "-wal"}
SECTOR = 512
LONG = 600.0  # seconds that a worker may take on a host that is busy with other things
AT_ONCE = 4
KEYS = 3

cell = VirtualObject("Cell")


@cell.handler()
async def adds(ctx: ObjectContext, n: int) -> int:
    total = (await ctx.get("total", int) or 0) + n
    ctx.set("total", await ctx.run("sums", lambda: total))
    return total


app = App(cell)


@dataclass(frozen=True)
class Record:
    """What the layer wrote down: a write at an offset, a cut to a length, or that a file was brought to the disk."""

    kind: int
    file: int
    at: int
    length: int
    data: bytes


def records(path: pathlib.Path) -> Iterator[Record]:
    """The records of the layer's file, in order."""
    data, at = path.read_bytes(), 0
    while at < len(data):
        kind, file, where, length, follow = struct.unpack_from("=5Q", data, at)
        at += 40
        yield Record(kind, file, where, length, data[at : at + follow])
        at += follow


def _put(to: bytearray, at: int, data: bytes) -> None:
    to.extend(bytes(max(0, at - len(to))))
    to[at : at + len(data)] = data


def _sectors(it: Record) -> Iterator[tuple[int, bytes]]:
    """The parts of a write that a disk takes as a whole."""
    at = it.at
    while at < it.at + it.length:
        end = min(at - at % SECTOR + SECTOR, it.at + it.length)
        yield at, it.data[at - it.at : end - it.at]
        at = end


@dataclass
class File:
    """A file: what of it is on the disk for sure, and what was asked for since."""

    durable: bytearray
    pending: list[Record] = field(default_factory=list)

    def asked(self, it: Record) -> None:
        if it.kind != SYNCED:
            self.pending.append(it)
            return
        for one in self.pending:
            self._done(self.durable, one)
        self.pending.clear()

    def _done(self, to: bytearray, it: Record) -> None:
        if it.kind == CUT:
            del to[it.length :]
            to.extend(bytes(it.length - len(to)))
        else:
            _put(to, it.at, it.data)

    def after_a_loss(self, chance: random.Random, how: str) -> bytes:
        """What the disk may hold: nothing of what is pending; all of it; some of its sectors; or the first of it, with the last write torn."""
        found = bytearray(self.durable)
        some = self.pending[: chance.randint(0, len(self.pending))] if how == "the first" else [] if how == "nothing" else self.pending
        for it in some:
            if it.kind == CUT or how == "all" or (how == "the first" and it is not some[-1]):
                if it.kind != CUT or how != "some" or chance.random() < 0.5:
                    self._done(found, it)
                continue
            for at, data in _sectors(it):
                if chance.random() < 0.5:
                    _put(found, at, data)
        return bytes(found)


HOW = ("nothing", "all", "some", "the first")


@dataclass(frozen=True)
class Told:
    """What clients were told: that invocations were stored, and results."""

    sent: frozenset[str]
    ended: frozenset[tuple[str, int]]

    @staticmethod
    def of(data: bytes) -> Told:
        lines = [it.split() for it in data.decode().splitlines()]
        return Told(frozenset(it[0] for it in lines if len(it) == 1), frozenset((it[0], int(it[1])) for it in lines if len(it) == 2))


def check(path: pathlib.Path, told: Told) -> None:
    """Raises `Wrong` if the database is broken, or lacks what clients were told."""
    try:
        with contextlib.closing(sqlite3.connect(path)) as db:
            found = db.execute("PRAGMA integrity_check").fetchall()
            there = dict(db.execute("SELECT id, status FROM invocations").fetchall())
    except sqlite3.DatabaseError as error:
        raise Wrong(f"the database is broken: {error}") from error
    if found != [("ok",)]:
        raise Wrong(f"the database is broken: {found[:3]}")
    if lost := told.sent - there.keys():
        raise Wrong(f"{len(lost)} invocations of which clients were told aren't there")
    if open := [id for id, _ in told.ended if there[id] != "done"]:
        raise Wrong(f"{len(open)} invocations whose results clients were told haven't ended")


def finish(path: pathlib.Path, told: Told) -> int:
    """A worker goes on from there to the end of each invocation: each has added its number to its key once. Returns how many there are."""
    asyncio.run(asyncio.wait_for(_to_the_end(path), LONG))
    with Plain(str(path)) as db:
        rows = db.rows("SELECT key, id, idem FROM invocations")
        totals = {key: int(bytes(it)) for key, it in db.rows("SELECT key, value FROM state")}
    for key in {it[0] for it in rows}:
        if totals[key] != (wanted := sum(int(idem) for at, _, idem in rows if at == key)):
            raise Wrong(f"the key {key} has the total {totals[key]}, and its invocations add {wanted}")
    return len(rows)


async def _to_the_end(path: pathlib.Path) -> None:
    engine = Engine(app, str(path), idle=0, poll=0.1)
    task = asyncio.create_task(engine.run())
    await engine.is_open()
    while await engine.transact(lambda db: db.rows("SELECT 1 FROM invocations WHERE status<>'done' LIMIT 1")):
        await asyncio.sleep(0.02)
    engine.stop()
    await task


def _in_checkpoints(asked: list[Record]) -> Iterator[int]:
    """The moments at which something is written to the main file that wasn't brought to the disk yet."""
    is_pending = False
    for number, it in enumerate(asked):
        is_pending = it.kind != SYNCED if it.file == DATABASE else is_pending
        if is_pending:
            yield number


def losses(folder: pathlib.Path, seed: int, cuts: int, lies: bool = False) -> Iterator[tuple[pathlib.Path, Told]]:
    """Files as they may be after a loss of power, at so many moments of the run in `folder` and as many within checkpoints, with what clients had been
    told by then. The last moment is the end of the run, when nothing that is pending is on the disk. `lies`: by a disk that doesn't bring the main file
    to it."""
    chance, asked = random.Random(seed), [it for it in records(folder / "asked") if not (lies and it.kind == SYNCED and it.file == DATABASE)]
    files = {DATABASE: File(bytearray((folder / "begun").read_bytes())), LOG: File(bytearray())}
    some = [chance.sample(among, min(cuts, len(among))) for among in (range(len(asked)), list(_in_checkpoints(asked)))]
    moments, acknowledged = sorted({*some[0], *some[1], len(asked) - 1}), bytearray()
    for number, it in enumerate(asked):
        if it.file == ACKNOWLEDGED:
            acknowledged += it.data
        else:
            files[it.file].asked(it)
        if number in moments:
            how = "nothing" if number == moments[-1] else chance.choice(HOW)
            path = folder / f"after-{number}"
            for file, one in files.items():
                pathlib.Path(f"{path}{NAMES[file]}").write_bytes(one.after_a_loss(chance, how))
            yield path, Told.of(bytes(acknowledged))


def run(folder: pathlib.Path, layer: pathlib.Path, *, count: int = 48, synchronous: str = "FULL", pages: int = 20) -> None:
    """A worker over the layer, and its clients, who submit so many invocations. A checkpoint is made when the log has so many pages."""
    path = folder / "db"
    Plain(str(path)).close()
    (folder / "begun").write_bytes(path.read_bytes())
    env = {**os.environ, "LD_PRELOAD": str(layer), "DISK_OF": str(path), "DISK_LOG": str(folder / "asked")}
    words = [sys.executable, str(pathlib.Path(__file__)), str(path), str(count), synchronous, str(pages)]
    ended = subprocess.run(words, env=env, capture_output=True, text=True, timeout=LONG)
    if ended.returncode:
        raise Wrong(f"the worker over the layer ended with {ended.returncode}: {ended.stderr[-2000:]}")


def built(folder: pathlib.Path) -> pathlib.Path:
    """The layer, compiled into the folder."""
    layer = folder / "disk.so"
    words = ["cc", "-std=c11", "-O2", "-Wall", "-Wextra", "-Werror", "-fPIC", "-shared", "-o", str(layer), str(HERE / "disk.c"), "-ldl", "-lpthread"]
    subprocess.run(words, check=True)
    return layer


async def _work(path: str, count: int, synchronous: str, pages: int) -> None:
    """The whole of the process over the layer. It ends without closing its database."""

    async def connect(url: str) -> SQLite:
        db = SQLite(url, synchronous=synchronous, worker=True)
        await db.change(f"PRAGMA wal_autocheckpoint={pages}")
        return db

    engine = Engine(app, path, idle=0, poll=0.1, connect=connect)
    task = asyncio.create_task(engine.run())
    await engine.is_open()
    told = os.open(f"{path}-acknowledged", os.O_CREAT | os.O_WRONLY | os.O_APPEND)

    async def one(n: int) -> None:
        id = await engine.submit(New("Cell", "adds", str(n % KEYS), str(n).encode(), idempotency_key=str(n)))
        os.write(told, f"{id}\n".encode())
        await engine.result(id, LONG)
        os.write(told, f"{id} {n}\n".encode())

    for first in range(0, count, AT_ONCE):
        await asyncio.gather(*[one(n) for n in range(first, first + AT_ONCE)])
    os._exit(1 if task.done() else 0)


if __name__ == "__main__":
    asyncio.run(_work(sys.argv[1], int(sys.argv[2]), sys.argv[3], int(sys.argv[4])))
