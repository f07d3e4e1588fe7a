"""Schedules whose worker dies: in place of each commit, or after it, and whatever comes of a time while the last call is open."""

import asyncio
import logging
import os
import pathlib
import sys
import unittest

sys.path[:0] = [str(pathlib.Path(__file__).parent), str(pathlib.Path(__file__).parent.parent.parent / "src")]
from palqytun.runtime import App, Context, Schedule, Service, Unavailable  # noqa: E402
from palqytun.testing import Testing  # noqa: E402

STEP = 1 if os.environ.get("PALQYTUN_TEST_THOROUGH") == "1" else 7  # from one death to the next, in commits
TIMES = 5
EVERY = 6000.0  # seconds from one time to the next: many, since the clock goes on by itself while a busy host recovers from a death
work = Service("Work")


@work.handler()
async def works(ctx: Context, it: object) -> str:
    """A time comes while it works."""
    await ctx.sleep(1.4 * EVERY)
    assert ctx.scheduled is not None
    return ctx.scheduled.isoformat()


async def until(testing: Testing, at: float) -> None:
    """The clock is there, and what was due until then is done, whatever happens to the worker."""
    while testing.now < at or not await settled(testing):
        try:
            await testing.skip(max(0.0, at - testing.now))
        except Unavailable:
            await asyncio.sleep(0.001)


async def settled(testing: Testing) -> bool:
    try:
        return await testing.is_settled()
    except Unavailable:
        return False


async def life(overlap: str, dies: int = 0, is_stored: bool = False) -> tuple[list[tuple[object, ...]], bool]:
    """The calls of some times, each with the number of its time and how it has ended, and whether the worker has died."""
    app = App(work, schedules=[Schedule("often", works, every=EVERY, overlap=overlap)])  # type: ignore[arg-type]
    async with Testing(app) as it:
        memory = it._memory
        [(first,)] = await it._asked("SELECT due FROM schedules")
        memory.dies, memory.is_stored = (memory.commits + dies if dies else 0), is_stored
        await until(it, first + EVERY * (TIMES - 0.02))
        has_died, memory.dies = bool(dies) and memory.commits >= memory.dies, 0
        while not await settled(it):
            await asyncio.sleep(0.001)
        rows = await it._asked("SELECT idem, status, failed FROM invocations")
    return sorted((round((float(idem.split()[-1]) - first) / EVERY), *rest) for idem, *rest in rows), has_died


class Deaths(unittest.TestCase):
    kind = "sqlite"

    def setUp(self) -> None:
        log = logging.getLogger("palqytun")
        self.addCleanup(log.setLevel, log.level)
        log.setLevel(logging.CRITICAL)

    def expect(self, overlap: str, *calls: tuple[object, ...]) -> None:
        """These are the calls without a death, and with each."""
        self.assertEqual(asyncio.run(life(overlap))[0], list(calls))
        for commit in range(1, 500, STEP):
            for is_stored in (False, True):
                found, has_died = asyncio.run(life(overlap, commit, is_stored))
                self.assertEqual(found, list(calls), f"with a death {'after' if is_stored else 'at'} commit {commit}")
            if not has_died:
                return
        self.fail("there aren't as many commits")

    def test_allow(self) -> None:
        self.expect("allow", *[(it, "done", None) for it in range(4)], (4, "suspended", None))

    def test_skip(self) -> None:
        self.expect("skip", (0, "done", None), (2, "done", None), (4, "suspended", None))

    def test_queue(self) -> None:
        self.expect("queue", (0, "done", None), (1, "done", None), (2, "done", None), (3, "suspended", None))

    def test_cancel(self) -> None:
        self.expect("cancel", *[(it, "done", 409) for it in range(4)], (4, "suspended", None))


if __name__ == "__main__":
    unittest.main()
