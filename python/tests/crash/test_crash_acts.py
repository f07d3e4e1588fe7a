"""What operators do, at any moment of an invocation's life: a worker dies in place of a commit, somebody cancels, kills, pauses or restarts, another worker
dies, and a last one does the rest. And what somebody does whose own process dies in place of its commit."""

import contextlib
import functools
import os
import pathlib
import sqlite3
import sys
import tempfile
import unittest
from collections.abc import Awaitable, Callable

HERE = pathlib.Path(__file__).parent
sys.path[:0] = [str(HERE), str(HERE.parent)]
import scenarios  # noqa: E402
from checked import LEFTOVERS, Wrong  # noqa: E402
from crash_app import effect  # noqa: E402
from palqytun.runtime import App, Cancelled, Context, Schedule, Service, acts, invocations, journal, keyed, operate, restarting, schedules, scheduling  # noqa: E402
from palqytun.runtime.database import Database  # noqa: E402
from palqytun.runtime.database.plain import Plain  # noqa: E402
from palqytun.runtime.invocations import New  # noqa: E402
from palqytun.runtime.outcome import Outcome  # noqa: E402

IS_THOROUGH = os.environ.get("PALQYTUN_TEST_THOROUGH") == "1"
trips = Service("Trips")


@trips.handler()
async def trip(ctx: Context, it: None) -> None:
    """Takes two steps, waits, and undoes each step that it has begun if it is cancelled."""
    undo = []
    try:
        for name in ("flight", "hotel"):
            undo.append(f"undid-{name}-{ctx.uuid()}")
            await ctx.run(name, effect, undo[-1].removeprefix("un"))
        await ctx.call(waits)
    except Cancelled:
        with ctx.shield():
            for key in reversed(undo):
                await ctx.run("undo", effect, key)
        raise


@trips.handler()
async def waits(ctx: Context, it: None) -> None:
    await ctx.sleep(100_000)


app = App(trips)
clocked = App(trips, schedules=[Schedule("daily", waits, cron="0 3 * * *")])


def _expect(is_so: bool, what: object) -> None:
    if not is_so:
        raise Wrong(f"{what}")


def _acted(db: Plain, name: str, id: str) -> str:
    """Does an act as an operator does, and answers in words what it did."""
    return db.done(lambda to: acts.known(name).act(to, app, Outcome(), id, "ann"))


def _row(db: Plain, id: str) -> dict:
    return db.done(lambda to: operate.invocation(to, id))


def acted(folder: pathlib.Path, act: str, commit: int) -> None:
    """One life: `Wrong` if anything isn't as it has to be."""
    here = folder / f"{act}-{commit}"
    here.mkdir()
    path, effects = here / "db", here / "effects"
    effects.touch()
    with Plain(str(path)) as db:
        db.done(lambda to: invocations.create(to, app, Outcome(), New("Trips", "trip", id="inv_trip", argument=b"null")))
    worker = functools.partial(scenarios._worker, path, effects, app=app)
    _expect(worker(dies=commit) in (0, scenarios.faulty.DIED, scenarios.faulty.STUCK), "the first worker has failed")
    before, id = effects.read_text(), "inv_trip"
    with Plain(str(path)) as db:
        if act in ("kill", "restart", "step"):
            _acted(db, "kill", id)
        step, recorded = _last_step(db, id) if act == "step" else (0, [])
        if act in ("restart", "step"):
            id = db.done(lambda to: restarting.restart(to, app, Outcome(), "inv_trip", "ann", step))
        if act == "pause":
            _acted(db, "pause", id)
    if act == "pause":
        worker()
        _expect(effects.read_text() == before, "a paused invocation went on")
        with Plain(str(path)) as db:
            _acted(db, "resume", id)
    worker(dies=commit * 5 % 11 + 1)
    with Plain(str(path)) as db:
        if act != "kill" and _acted(db, "cancel", id) == "cancelled":
            _expect(_acted(db, "cancel", id) == "was cancelled before", "two cancellations")
    worker(dies=commit * 3 % 7 + 1)
    _expect(worker() == 0, "the last worker has failed")
    with Plain(str(path)) as db:
        _looked_at(db, id, act, before, effects.read_text())
        for name in recorded:
            _expect(_done(effects.read_text(), name) == _done(before, name), f"{name} stands before the step, and was done again")


def _done(effects: str, name: str) -> int:
    """How often a step was done; that it was undone is another effect."""
    return sum(it.startswith(f"did-{name}") for it in effects.split())


def _frames(db: Plain, id: str) -> list[bytes]:
    return [bytes(it) for it, in db.rows("SELECT frame FROM journal WHERE invocation=? ORDER BY at", (id,))]


def _last_step(db: Plain, id: str) -> tuple[int, list[str]]:
    """The number of a journal's last command, and the names of the runs before it, each of which is recorded; 0 if the handler has made none."""
    commands = {at: it for at, frame in enumerate(_frames(db, id)) for it, _ in journal.commands_in(frame)}
    return max(commands), [it.name for at, it in commands.items() if isinstance(it, journal.Run) and at < max(commands)]


def _looked_at(db: Plain, id: str, act: str, before: str, after: str) -> None:
    row = _row(db, id)
    _expect((row["status"], row["failed"], row["error"]) == ("failed", 409, "409 killed" if act == "kill" else "409 cancelled"), row)
    left = {table: db.rows(f"SELECT COUNT(*) FROM {table}")[0][0] for table in LEFTOVERS}
    _expect(not any(left.values()), left)
    _expect(db.rows("SELECT status FROM invocations WHERE status<>'done'") == [], "a child is left")
    done, undone = ({it for it in after.split() if it.startswith(word)} for word in ("did-", "undid-"))
    if act == "kill":
        _expect(after == before, "a killed invocation went on")
        return
    begun = [it for it, _ in journal.commands_in(b"".join(_frames(db, id))) if isinstance(it, journal.Run) and it.name != "undo"]
    _expect(len(undone) == len(begun), (undone, begun))
    own = done if act not in ("restart", "step") else {it for it in done if it not in before.split()}
    _expect({f"un{it}" for it in own} <= undone, (done, undone))


class Acts(unittest.TestCase):
    kind = "sqlite"

    def test_at_commits(self) -> None:
        commits = range(1, 16, 1 if IS_THOROUGH else 4)
        with tempfile.TemporaryDirectory(prefix="palqytun-acts-", ignore_cleanup_errors=True) as folder:
            kinds = ("cancel", "kill", "pause", "restart", "step")
            lives = [functools.partial(acted, pathlib.Path(folder), act, it) for act in kinds for it in commits]
            self.assertEqual(len(list(scenarios.side_by_side(lives))), len(lives))


async def _dying(url: str) -> Database:
    db = scenarios.faulty.Dying(url)
    db.dies = db.commits + 1
    return db


def _lost(path: str, does: Callable[[Database], Awaitable[object]]) -> None:
    with Plain(path, _dying) as db:
        db.done(does)


def _stored(path: str) -> list[str]:
    """All that a database holds."""
    with contextlib.closing(sqlite3.connect(path)) as db:
        return list(db.iterdump())


def _does(name: str, id: str) -> Callable[[Database], Awaitable[object]]:
    return lambda db: acts.known(name).act(db, app, Outcome(), id, "ann")


# What an operator does, in this order, each with how many rows of the audit it makes.
DONE: list[tuple[str, Callable[[Database], Awaitable[object]]]] = [
    ("pause", _does("pause", "inv_trip")),
    ("resume", _does("resume", "inv_trip")),
    ("cancel", _does("cancel", "inv_trip")),
    ("kill", _does("kill", "inv_other")),
    ("restart", lambda db: restarting.restart(db, app, Outcome(), "inv_other", "ann")),
    ("set", lambda db: keyed.change(db, "Stock", "pen", "left", b"5", "ann")),
    ("clear", lambda db: keyed.change(db, "Stock", "pen", None, None, "ann")),
    ("pause of a schedule", lambda db: scheduling.act(db, clocked, Outcome(), "pause", "daily", "ann")),
    ("trigger", lambda db: scheduling.act(db, clocked, Outcome(), "trigger", "daily", "ann")),
]


class Lost(unittest.TestCase):
    """The process of an operator dies in place of its commit: nothing is stored. Done again, it is done, and is one row of the audit."""

    kind = "sqlite"

    def test_each_act(self) -> None:
        with tempfile.TemporaryDirectory(prefix="palqytun-acts-") as folder:
            path = f"{folder}/db"
            with Plain(path) as db:
                for id in ("inv_trip", "inv_other"):
                    db.done(lambda to, id=id: invocations.create(to, app, Outcome(), New("Trips", "trip", id=id, argument=b"null")))
                db.done(lambda to: schedules.enter(to, clocked, {"Trips"}))
            for at, (name, does) in enumerate(DONE):
                with self.subTest(name):
                    before = _stored(path)
                    process = scenarios._FORK.Process(target=_lost, args=(path, does))
                    process.start()
                    process.join(scenarios.LONG)
                    self.assertEqual(process.exitcode, scenarios.faulty.DIED)
                    self.assertEqual(_stored(path), before)
                    with Plain(path) as db:
                        db.done(does)
                        self.assertEqual(db.rows("SELECT COUNT(*) FROM audit"), [(at + 1,)])
                    self.assertNotEqual(_stored(path), before)


if __name__ == "__main__":
    unittest.main()
