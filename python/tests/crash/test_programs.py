"""Random programs, and workers that die at random commits: each program ends with what it ends with without deaths.

With PALQYTUN_TEST_THOROUGH=1 there are more of them, and each time others."""

import json
import multiprocessing
import os
import pathlib
import signal
import sys
import tempfile
import unittest

HERE = pathlib.Path(__file__).parent
sys.path[:0] = [str(HERE.parent.parent / "src"), str(HERE), str(HERE.parent)]
import needs  # noqa: E402

if lacks := needs.lacks_module("hypothesis"):
    raise unittest.SkipTest(lacks)

import faulty  # noqa: E402
import programs  # noqa: E402
from checked import LEFTOVERS  # noqa: E402
from hypothesis import HealthCheck, Phase, given, settings  # noqa: E402
from hypothesis import strategies as st  # noqa: E402
from palqytun.runtime import invocations, journal  # noqa: E402
from palqytun.runtime.database.plain import Plain  # noqa: E402
from palqytun.runtime.invocations import New  # noqa: E402
from palqytun.runtime.outcome import Outcome  # noqa: E402

_FORK = multiprocessing.get_context("fork")
IS_THOROUGH = os.environ.get("PALQYTUN_TEST_THOROUGH") == "1"
LEAVES = ["run", "async_run", "failing", "sleep", "send", "timeout", "awakeable", "promise", "cancel", "first"]
NUMBERS = st.integers(0, 5)
STEPS = st.recursive(
    st.tuples(st.sampled_from(LEAVES), NUMBERS).map(list),
    lambda step: st.tuples(st.sampled_from(["call", "beside"]), st.lists(step, max_size=3)).map(list),
    max_leaves=6,
)
PROGRAMS = st.lists(st.lists(STEPS, min_size=2, max_size=6), min_size=2, max_size=5)
DEATHS = st.lists(st.integers(1, 40) | st.floats(0.05, 0.6), min_size=1, max_size=3)  # at a commit, or after some seconds by SIGKILL
_LONG = 600.0  # seconds that a worker may take, on a host that is busy with other things


def _worked(path, effects, dies):
    log = os.open(f"{path}.log", os.O_WRONLY | os.O_CREAT | os.O_APPEND, 0o644)
    os.dup2(log, 2)
    programs.Outside.file = effects
    faulty.until_all_ended(path, effects, app=programs.app, dies=dies)


async def _submitted(db, them):
    for n, program in enumerate(them):
        new = New("Programs", "perform", argument=json.dumps(program).encode(), id=f"inv_{n:06d}")
        await invocations.create(db, programs.app, Outcome(), new)


class Programs(unittest.TestCase):
    kind = "sqlite"

    @settings(
        max_examples=200 if IS_THOROUGH else 12,
        derandomize=not IS_THOROUGH,
        database=None,
        phases=[Phase.generate, Phase.shrink][: 1 + IS_THOROUGH],  # to find a smaller program takes minutes
        deadline=None,
        suppress_health_check=list(HealthCheck),
    )
    @given(PROGRAMS, DEATHS)
    def test_programs_end_as_without_deaths(self, them, deaths):
        with tempfile.TemporaryDirectory(prefix="palqytun-programs-", ignore_cleanup_errors=True) as folder:
            path, effects = f"{folder}/db", pathlib.Path(folder, "effects")
            effects.touch()
            with Plain(path) as db:
                db.done(lambda to: _submitted(to, them))
            for dies in [*deaths, 0]:
                status = self.worked(path, str(effects), dies)
                log = pathlib.Path(f"{path}.log")  # one that is killed early has none
                self.assertIn(status, (0, faulty.DIED, -signal.SIGKILL) if dies else (0,), log.read_text()[-3000:] if log.exists() else "it has no log")
            with Plain(path) as db:
                ended = db.done(lambda to: to.rows("SELECT id, result FROM invocations WHERE id LIKE 'inv_0000__' ORDER BY id"))
                left = {table: db.done(lambda to: to.rows(f"SELECT COUNT(*) FROM {table}"))[0][0] for table in LEFTOVERS}
            results = [journal.answer(journal.Result(bytes(result))) for _, result in ended]
            self.assertEqual([(kind, json.loads(value)) for kind, value in results], [("value", programs.expected(it)) for it in them])
            self.assertEqual(left, dict.fromkeys(LEFTOVERS, 0))

    def worked(self, path, effects, dies):
        is_killed = isinstance(dies, float)
        process = _FORK.Process(target=_worked, args=(path, effects, 0 if is_killed else dies))
        process.start()
        process.join(dies if is_killed else _LONG)
        if process.exitcode is None:
            process.kill()
            process.join()
            return process.exitcode if is_killed else "it hasn't ended"
        return process.exitcode


if __name__ == "__main__":
    unittest.main()
