"""The crash tests of the gate: each scenario for a short time, side by side. `tools/chaos` goes on for as long as one likes.

With PALQYTUN_TEST_THOROUGH=1 there is a death at each commit, and more of all else, which takes some minutes."""

import functools
import os
import pathlib
import subprocess
import sys
import tempfile
import unittest

HERE = pathlib.Path(__file__).parent
sys.path[:0] = [str(HERE), str(HERE.parent)]
import failover  # noqa: E402
import needs  # noqa: E402
import postgres  # noqa: E402
import scenarios  # noqa: E402
import under_patroni  # noqa: E402
from checked import Wrong  # noqa: E402

IS_THOROUGH = os.environ.get("PALQYTUN_TEST_THOROUGH") == "1"
STEP = 1 if IS_THOROUGH else 9  # from one death to the next, in commits
COMMITS = range(1, 400, STEP)  # there are fewer; a test that goes so far has a fault


class InAFolder(unittest.TestCase):
    """A test in a folder of its own, which is there until each process of the test has ended."""

    kind = "sqlite"

    def setUp(self) -> None:
        folder = tempfile.TemporaryDirectory(prefix="palqytun-crash-", ignore_cleanup_errors=True)
        self.addCleanup(folder.cleanup)
        self.folder = pathlib.Path(folder.name)


class Deaths(InAFolder):
    """Eight workflows, one of each kind, and a worker that dies in place of a commit."""

    def setUp(self) -> None:
        super().setUp()
        self.room = scenarios.Room(self.folder / "room")

    def test_at_commits(self) -> None:
        self.assertGreater(scenarios.deaths_at_commits(self.room, COMMITS).deaths, 50 // STEP)

    def test_at_commits_of_attempts_that_wait(self) -> None:
        self.assertGreater(scenarios.deaths_at_commits(self.room, COMMITS, idle=0.5).deaths, 40 // STEP)

    def test_two_deaths(self) -> None:
        numbers = range(1, 80, 8 if IS_THOROUGH else 20)
        again = [functools.partial(scenarios.death_at_commit, self.room, it, again=(it * 7) % 60 + 1) for it in numbers]
        self.assertEqual(sum(it.deaths for it in scenarios.side_by_side(again)), 2 * len(numbers))

    def test_wrong_runtimes_are_found(self) -> None:
        kinds = ("completions_first", "timers_first", "ends_first", "states_first", "calls_first", "early_timers", "keys_twice", "lost_wake_ups")
        tries = [functools.partial(scenarios.is_found, self.room, it) for it in kinds]
        self.assertEqual(dict(zip(kinds, scenarios.side_by_side(tries))), dict.fromkeys(kinds, True))


class Storms(InAFolder):
    """36 workflows, and a failure of the host."""

    def test_storms(self) -> None:
        room, times = scenarios.Room(self.folder / "room", 36), 2 if IS_THOROUGH else 1
        seeds = range(3 * times)
        storms = [functools.partial(scenarios.torn_write, room, seed) for seed in seeds]
        storms += [functools.partial(scenarios.clock_jumps, room, seed) for seed in range(times)]
        self.assertEqual(len(list(scenarios.side_by_side(storms))), 4 * times)

    def test_a_full_disk(self) -> None:
        room, may_mount = scenarios.Room(self.folder / "room", 36), scenarios.may_mount()
        for is_mounted in (True, False)[not may_mount :]:
            with self.subTest(is_mounted=is_mounted):
                reports = [scenarios.full_disk(room, seed, is_mounted) for seed in range(1 + IS_THOROUGH)]
                self.assertGreater(sum(it.lost for it in reports), 0)


class Kills(InAFolder):
    def test_one_worker_on_sqlite(self) -> None:
        faults = 20 if IS_THOROUGH else 6
        reference = scenarios.undisturbed(str(self.folder / "reference.db"), self.folder / "reference", 3 * faults)
        report = scenarios.kills(str(self.folder / "db"), self.folder / "kills", faults=faults, reference=reference)
        print(report, file=sys.stderr)
        self.assertEqual(report.kills, faults)
        self.assertGreater(report.open_at_faults, faults)

    def test_one_worker_on_sqlite_that_is_told_to_stop(self) -> None:
        faults = 20 if IS_THOROUGH else 4
        reference = scenarios.undisturbed(str(self.folder / "reference.db"), self.folder / "reference", 3 * faults)
        report = scenarios.kills(str(self.folder / "db"), self.folder / "stops", faults=faults, stops=True, reference=reference, crew=scenarios.Steady)
        print(report, file=sys.stderr)
        self.assertEqual(report.stops, faults)


class OnAServer(InAFolder):
    """Workers on PostgreSQL."""

    kind = "postgres"
    count = scenarios.COUNT

    @classmethod
    def setUpClass(cls) -> None:
        if lacks := needs.lacks_postgres():
            raise unittest.SkipTest(lacks)
        cls.url = postgres.url()
        with tempfile.TemporaryDirectory(prefix="palqytun-crash-") as folder:
            cls.reference = scenarios.undisturbed(cls.url, pathlib.Path(folder), cls.count)


class OneByOne(OnAServer):
    """Eight workflows, one of each kind, and one failure."""

    def test_deaths_at_commits(self) -> None:
        numbers = range(1, 200) if IS_THOROUGH else (3, 15)
        report = scenarios.deaths_on_a_server(self.url, self.folder / "deaths", numbers, self.reference)
        self.assertGreater(report.deaths, 20 if IS_THOROUGH else 1)

    def test_a_store_after_the_lease_changes_nothing(self) -> None:
        scenarios.late_store(self.url, self.folder / "late", self.reference)

    def test_a_store_without_a_fence_is_found(self) -> None:
        with self.assertRaisesRegex(Wrong, "^a journal is broken: WHOLE"):
            scenarios.late_store(self.url, self.folder / "unfenced", self.reference, "unfenced")


class KillsOfMany(OnAServer):
    """Three workers, and many failures."""

    count = 90

    def test_kills_pauses_and_lost_connections(self) -> None:
        options = {"workers": 3, "pauses": True, "disconnects": True, "reference": self.reference, "crew": scenarios.Forked}
        report = scenarios.kills(self.url, self.folder / "kills", faults=30, **options)
        print(report, file=sys.stderr)
        self.assertEqual((report.pauses, report.disconnects), (3, 6))

    def test_workers_that_are_told_to_stop(self) -> None:
        options = {"workers": 3, "stops": True, "reference": self.reference, "crew": scenarios.ForkedSteady}
        report = scenarios.kills(self.url, self.folder / "stops", faults=30, **options)
        print(report, file=sys.stderr)
        self.assertEqual(report.stops, 30)


class FailsOver(InAFolder):
    """Two workers on a PostgreSQL server with a standby. The server's host stops while they work."""

    kind = "servers of its own"  # whose settings no pass of tools/runtime changes

    def fails_over(self, is_synchronous: bool) -> failover.Failovers:
        if lacks := needs.lacks_postgres():
            self.skipTest(lacks)
        count = 3 if IS_THOROUGH else 1
        with failover.pair(is_synchronous) as servers:
            submitted = failover.EACH * count * (1 if is_synchronous else 2)
            reference = scenarios.undisturbed(servers.url, self.folder / "reference", submitted)
            found = failover.failovers(servers, self.folder / "failovers", count=count, reference=reference)
        print(found, file=sys.stderr)
        self.assertEqual((found.report.failovers, len(found.seconds)), (count, count))
        self.assertGreater(found.report.lost, 0)  # the workers had begun sessions on the server that stopped
        return found

    def test_to_a_synchronous_standby(self) -> None:
        self.assertGreater(self.fails_over(is_synchronous=True).report.open_at_faults, 0)

    def test_to_an_asynchronous_standby(self) -> None:
        self.assertGreater(self.fails_over(is_synchronous=False).report.missing, 0)

    def test_under_patroni(self) -> None:
        """Patroni promotes the standby of a primary that is cut off from it and from etcd. Each is a host of its own; where that isn't allowed, the primary
        is killed. It is a program of its own, which begins in a network of its own."""
        if lacks := next(filter(None, [needs.lacks_postgres(), *map(needs.lacks_command, under_patroni.PROGRAMS)]), ""):
            self.skipTest(lacks)
        count = 3 if IS_THOROUGH else 1
        words = [sys.executable, str(HERE / "chaos.py"), "--db", "postgres", "--failovers", str(count), "--patroni", "--seed", "2"]
        with subprocess.Popen(words, stdout=subprocess.PIPE, stderr=subprocess.STDOUT, text=True) as running:
            try:
                said, _ = running.communicate(timeout=4 * scenarios.LONG)
            finally:
                running.terminate()  # then it ends what it has begun
        print(said, file=sys.stderr)
        self.assertEqual(running.returncode, 0, said)
        self.assertRegex(said, f"nothing wrong: failovers {count},")


if __name__ == "__main__":
    unittest.main()
