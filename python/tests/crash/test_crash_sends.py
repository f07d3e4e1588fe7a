"""A send that nobody serves, at any moment: its sender's worker dies in place of a commit, another one does the rest, and workers that serve it come, of
which one dies too. Each send has one invocation, which is executed once."""

import functools
import pathlib
import sys
import tempfile
import unittest

HERE = pathlib.Path(__file__).parent
sys.path[:0] = [str(HERE), str(HERE.parent)]
import scenarios  # noqa: E402
from checked import LEFTOVERS, Wrong  # noqa: E402
from crash_app import effect  # noqa: E402
from palqytun.runtime import App, Context, ObjectContext, Service, VirtualObject, invocations  # noqa: E402
from palqytun.runtime.database.plain import Plain  # noqa: E402
from palqytun.runtime.invocations import New  # noqa: E402
from palqytun.runtime.outcome import Outcome  # noqa: E402

shop, mail = Service("Shop"), VirtualObject("Mail")
SENT = 3


@shop.handler()
async def order(ctx: Context, _: None) -> None:
    for number in range(SENT):
        await ctx.run("step", effect, f"step-{number}-{ctx.uuid()}")
        await ctx.send("Mail/letter", number, key="ann")


@mail.handler()
async def letter(ctx: ObjectContext, number: int) -> None:
    ctx.set("seen", [*(await ctx.get("seen", list) or ()), number])
    await ctx.run("letter", effect, f"letter-{number}-{ctx.uuid()}")


def sent(folder: pathlib.Path, commit: int) -> None:
    """One life: `Wrong` if anything isn't as it has to be."""
    here = folder / f"{commit}"
    here.mkdir()
    path, effects = here / "db", here / "effects"
    effects.touch()
    with Plain(str(path)) as db:
        db.done(lambda to: invocations.create(to, App(shop), Outcome(), New("Shop", "order", id="inv_order", argument=b"null")))
    worker = functools.partial(scenarios._worker, path, effects)
    worker(app=App(shop), dies=commit)
    worker(app=App(shop))
    with Plain(str(path)) as db:
        waiting = db.rows("SELECT status, how FROM invocations WHERE service='Mail'")
        if waiting != [("paused", "unserved")] * SENT:
            raise Wrong(f"{waiting}")
    worker(app=App(shop, mail), serves_all=True, dies=commit)
    if worker(app=App(shop, mail), serves_all=True) != 0:
        raise Wrong("the last worker has failed")
    with Plain(str(path)) as db:
        _looked_at(db, effects.read_text().split())


def _looked_at(db: Plain, effects: list[str]) -> None:
    ended = db.rows("SELECT service, status, failed FROM invocations ORDER BY seq")
    left = {table: db.rows(f"SELECT COUNT(*) FROM {table}")[0][0] for table in LEFTOVERS}
    [(seen,)] = db.rows("SELECT value FROM state WHERE service='Mail' AND key='ann'")
    expected = [("Shop", "done", None), *[("Mail", "done", None)] * SENT]
    if ended != expected or any(left.values()) or bytes(seen) != b"[0,1,2]":
        raise Wrong(f"{ended}, {left}, {bytes(seen)!r}")
    if len(set(effects)) != 2 * SENT or len(effects) > 2 * SENT + 2:  # two deaths, of which each may repeat one
        raise Wrong(f"{effects}")


class Sends(unittest.TestCase):
    kind = "sqlite"

    def test_at_commits(self) -> None:
        with tempfile.TemporaryDirectory(prefix="palqytun-sends-", ignore_cleanup_errors=True) as folder:
            lives = [functools.partial(sent, pathlib.Path(folder), it) for it in range(1, 15, 2)]
            self.assertEqual(len(list(scenarios.side_by_side(lives))), len(lives))


if __name__ == "__main__":
    unittest.main()
