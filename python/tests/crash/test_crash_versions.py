"""An invocation that one version of the code begins and another one ends: workers of both die in place of a commit. What the old code has recorded isn't done
again, and each effect has one key."""

import functools
import pathlib
import sys
import tempfile
import unittest

HERE = pathlib.Path(__file__).parent
sys.path[:0] = [str(HERE), str(HERE.parent)]
import scenarios  # noqa: E402
from checked import LEFTOVERS, Wrong  # noqa: E402
from crash_app import effect  # noqa: E402
from palqytun.runtime import App, Context, Service, invocations  # noqa: E402
from palqytun.runtime.database.plain import Plain  # noqa: E402
from palqytun.runtime.invocations import New  # noqa: E402
from palqytun.runtime.outcome import Outcome  # noqa: E402

DEATHS = 3  # each may repeat one effect
NEVER = 100  # a commit that no worker comes to


def made(is_new: bool) -> App:
    """The app before a change, or after it: it sends a mail, too."""
    shop = Service("Shop")

    @shop.handler()
    async def order(ctx: Context, _: None) -> str:
        await ctx.run("charge", effect, f"charge-{ctx.uuid()}")
        mails = is_new and ctx.patched("mail")
        if mails:
            await ctx.run("mail", effect, "mail-1")
        await ctx.sleep(0.01)
        await ctx.run("ship", effect, f"ship-{ctx.uuid()}")
        return "mailed" if mails else "not mailed"

    return App(shop)


OLD, LATER = made(False), made(True)


def life(folder: pathlib.Path, commit: int) -> str | None:
    """One life, in which the old code's worker dies at a commit: `Wrong` if anything isn't as it has to be. Returns the version that has ended it."""
    here = folder / f"{commit}"
    here.mkdir()
    path, effects = here / "db", here / "effects"
    effects.touch()
    with Plain(str(path)) as db:
        db.done(lambda to: invocations.create(to, OLD, Outcome(), New("Shop", "order", id="inv_order", argument=b"null")))
    worker = functools.partial(scenarios._worker, path, effects)
    worker(app=OLD, version="old", dies=commit)
    before = effects.read_text().split()
    worker(app=LATER, version="new", dies=commit * 3 % 5 + 1)
    worker(app=LATER, version="new", dies=commit * 5 % 7 + 1)
    if (status := worker(app=LATER, version="new")) != 0:
        raise Wrong(f"the last worker has ended with {status}")
    with Plain(str(path)) as db:
        return _looked_at(db, before, effects.read_text().split())


def _looked_at(db: Plain, before: list[str], after: list[str]) -> str | None:
    [(status, failed, code, frame)] = db.rows("SELECT status, failed, code, result FROM invocations")
    left = {table: db.rows(f"SELECT COUNT(*) FROM {table}")[0][0] for table in LEFTOVERS}
    if (status, failed) != ("done", None) or any(left.values()):
        raise Wrong(f"{status}, {failed}, {left}")
    keys, mailed = set(after), b'"mailed"' in bytes(frame)
    if sorted(it.split("-")[0] for it in keys) != ["charge", *["mail"] * mailed, "ship"] or len(after) > len(keys) + DEATHS:
        raise Wrong(f"{after}")
    if mailed and any(it.startswith("ship") for it in before):
        raise Wrong("the old code has shipped, and the new one mails")
    return str(code)


class Versions(unittest.TestCase):
    kind = "sqlite"

    def test_at_commits(self) -> None:
        with tempfile.TemporaryDirectory(prefix="palqytun-versions-", ignore_cleanup_errors=True) as folder:
            lives = [functools.partial(life, pathlib.Path(folder), it) for it in (*range(1, 14, 2), NEVER)]
            ended = list(scenarios.side_by_side(lives))
        self.assertEqual(set(ended), {"new", "old"})  # some were taken over, and some had ended


if __name__ == "__main__":
    unittest.main()
