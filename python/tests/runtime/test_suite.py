"""What the tests use themselves: a temporary PostgreSQL that is removed, and how tests are counted."""

import os
import pathlib
import re
import signal
import subprocess
import sys
import tempfile
import time
import unittest
from unittest import mock

import support  # isort: skip
import needs
import postgres
from palqytun.runtime.database.plain import Plain
from palqytun.runtime.database.schema import TABLES
from support import PYTHON

TESTS = """\
import unittest
class Some(unittest.TestCase):
    kind = "sqlite"
    def test_good(self):
        pass
    def test_bad(self):
        for n in range(3):
            with self.subTest(n):
                self.assertEqual(n, 0)
    def test_skipped(self):
        self.skipTest("no such thing: apt-get install thing")
class Other(unittest.TestCase):
    kind = "postgres"
    @classmethod
    def setUpClass(cls):
        raise {error}
    def test(self):
        pass
"""

KILLED = """\
import ctypes, pathlib, sys
sys.path.insert(0, {tests!r})
import postgres, psycopg
ctypes.CDLL(None).prctl(36, 1)  # PR_SET_CHILD_SUBREAPER: the server is this process's child, which doesn't wait for it
with postgres.cluster() as found:
    server = int((found.folder / "data" / "postmaster.pid").read_text().splitlines()[0])
    found.kill()
    print(postgres.state(server))
    found.start()
    with psycopg.connect(found.url) as connection:
        print(connection.execute("SELECT 7").fetchone()[0])
"""


class Temporary(support.InAFolder, unittest.TestCase):
    def setUp(self):
        super().setUp()
        if lacks := needs.lacks_postgres():
            self.skipTest(lacks)

    def test_it_goes_when_its_maker_is_killed(self):
        """In a folder whose path is too long for a socket."""
        deep = self.folder / ("long" * 25)
        deep.mkdir()
        for it in (self.folder, deep):
            it.chmod(0o755)
        code = "import os, sys; print(os.environ['PALQYTUN_TEST_POSTGRES'], os.getppid(), flush=True); sys.stdin.read()"
        words = [sys.executable, postgres.__file__, "--set", "work_mem=5MB", sys.executable, "-c", code]
        with subprocess.Popen(words, env={**os.environ, "TMPDIR": str(deep)}, stdin=subprocess.PIPE, stdout=subprocess.PIPE, text=True) as maker:
            url, parent = maker.stdout.readline().split()
            self.assertRegex(url, r"^postgresql://palqytun@/postgres\?host=127\.0\.0\.1&port=\d+$")
            with Plain(url) as db:
                self.assertEqual(db.rows("SHOW work_mem"), [("5MB",)])
            [room] = deep.iterdir()
            server = int((room / "data" / "postmaster.pid").read_text().splitlines()[0])
            self.assertNotEqual(os.stat(f"/proc/{server}").st_uid, 0)
            os.kill(int(parent), signal.SIGKILL)
        until = time.monotonic() + support.LONG
        while time.monotonic() < until and (list(deep.iterdir()) or postgres.is_running(server)):
            time.sleep(0.05)
        self.assertEqual((list(deep.iterdir()), postgres.is_running(server)), ([], False))

    def test_no_server(self):
        postgres.programs.cache_clear()
        self.addCleanup(postgres.programs.cache_clear)
        with mock.patch.dict(os.environ, {"PATH": str(self.folder)}), mock.patch.object(postgres, "_FOLDERS", (str(self.folder / "*"),)):
            with self.assertRaisesRegex(postgres.NoServer, "^no PostgreSQL server: apt-get install postgresql$"), postgres.cluster():
                pass

    def test_a_setting_that_is_wrong(self):
        said = r'^\S+/pg_ctl start failed: .* FATAL: [\s\S]* invalid value for parameter "work_mem": "nonsense"'  # the server's own words
        with self.assertRaisesRegex(postgres.NoServer, said), postgres.cluster({"work_mem": "nonsense"}):
            pass

    def test_it_starts_again_after_it_was_killed(self):
        """Nobody waits for the processes that were killed, as on a busy machine, so their numbers are still taken."""
        words = [sys.executable, "-c", KILLED.format(tests=str(PYTHON / "tests"))]
        done = subprocess.run(words, capture_output=True, text=True, env={**os.environ, "PYTHONPATH": str(PYTHON / "src")})
        self.assertEqual((done.stdout, done.stderr, done.returncode), ("Z\n7\n", "", 0))


class Emptied(support.OnADatabase, unittest.TestCase):
    kind = "postgres"

    def test_no_table_has_a_row(self):
        """Neither one with a few rows nor one that has grown. Only the latter gets a new file."""
        with Plain(self.url) as db:
            db.change("INSERT INTO workers(id, lease) SELECT 'worker_' || it, 0 FROM generate_series(1, 3) AS it")
            db.change("INSERT INTO limits(path) SELECT 'S/handler_' || it FROM generate_series(1, 5000) AS it")
            files = "SELECT pg_relation_filenode('workers'), pg_relation_filenode('limits')"
            [before] = db.rows(files)
            support.emptied("postgres", self.folder)
            [after] = db.rows(files)
            self.assertEqual([it for it in TABLES if db.rows(f"SELECT 1 FROM {it} LIMIT 1")], [])
        self.assertEqual([one == other for one, other in zip(before, after)], [True, False])


class Counts(support.InAFolder, unittest.TestCase):
    def counted(self, error, *options):
        (self.folder / "test_it.py").write_text(TESTS.format(error=error))
        done = subprocess.run([sys.executable, PYTHON / "tests" / "suite.py", *options, self.folder], capture_output=True, text=True)
        return done.returncode, done.stdout

    def test_each_test_counts_once(self):
        status, said = self.counted("ValueError('why')")
        self.assertEqual((status, said.splitlines()[-1]), (1, "1 passed, 2 failed, 1 skipped"))
        self.assertIn("skipped 1: no such thing: apt-get install thing", said)
        self.assertIn("ValueError: why", said)

    def test_one_kind(self):
        self.assertEqual(self.counted("unittest.SkipTest('no server')", "--only", "postgres")[1].splitlines()[-2:], ["skipped 1: no server", "0 passed, 0 failed, 1 skipped"])

    def test_all_but_one_kind(self):
        status, said = self.counted("ValueError('why')", "--but", "postgres")
        self.assertEqual((status, said.splitlines()[-1]), (1, "1 passed, 1 failed, 1 skipped"))

    def test_some_files(self):
        (self.folder / "test_more.py").write_text("import unittest\nclass More(unittest.TestCase):\n    def test_more(self):\n        pass\n")
        self.assertEqual(self.counted("unittest.SkipTest('')", "--files", "test_more")[1].splitlines()[-1], "1 passed, 0 failed, 0 skipped")
        self.assertEqual(self.counted("unittest.SkipTest('')", "--files", "test_more,test_none")[0], 2)

    def ran(self, *options):
        """The tests that ran by their names, and how many of each kind there were."""
        lines = self.counted("unittest.SkipTest('no server')", *options)[1].splitlines()
        return sorted(line.rpartition("  ")[2] for line in lines if re.match(r"\w+ +[\d.]+ s ", line)), lines[-1]

    def test_shares(self):
        """Each test is of one share, and a class that sets something up isn't divided."""
        whole = "import unittest\nclass Whole(unittest.TestCase):\n    @classmethod\n    def setUpClass(cls):\n        pass\n"
        (self.folder / "test_more.py").write_text(whole + "".join(f"    def test_{it}(self):\n        pass\n" for it in range(4)))
        those, said = self.ran()
        self.assertEqual((len(those), said), (7, "5 passed, 1 failed, 2 skipped"))
        for taken in ((), ("--taken", self.folder / "new/taken")):
            shares = [self.ran("--share", f"{it}/3", *taken) for it in (1, 2, 3)]
            self.assertEqual(sorted(it for ran, _ in shares for it in ran), those)
            self.assertEqual([len({it for it in ran if "Whole" in it}) for ran, _ in shares].count(4), 1)
            self.assertTrue(all(ran for ran, _ in shares))
        self.assertEqual(self.counted("", "--share", "4/3")[0], 2)

    def test_a_share_takes_what_the_others_have_left(self):
        """Those that others take meanwhile it leaves."""
        body = "import pathlib, unittest\nclass Many(unittest.TestCase):\n"
        for it in range(6):
            body += f"    def test_{it}(self):\n        pathlib.Path({str(self.folder / 'taken/4')!r}).touch()\n"
        (self.folder / "test_it.py").write_text(body)
        words = [sys.executable, PYTHON / "tests" / "suite.py", "--taken", self.folder / "taken", "--share"]
        said = [subprocess.run([*words, it, self.folder], capture_output=True, text=True) for it in ("2/3", "1/3", "2/3")]
        found = [re.findall(r"test_\d(?= )", it.stdout) for it in said]
        self.assertEqual(found, [["test_1", "test_3", "test_5"], ["test_0"], []])
        self.assertEqual([it.returncode for it in said], [0, 0, 2])
        self.assertIn("taken is of another run: its share 2 has taken its tests", said[2].stderr)

    def test_a_module_that_cannot_be_loaded(self):
        (self.folder / "test_other.py").write_text("import nothing_of_this_name\n")
        self.assertEqual(self.counted("unittest.SkipTest('')", "--only", "postgres")[0], 1)


class Pages(unittest.TestCase):
    def test_each_test_that_a_page_names_is_there(self):
        """In the table of docs/TESTING.md, and in the file that its line links."""
        page = (PYTHON.parent / "docs/TESTING.md").read_text()
        lines = re.findall(r"\[test_\w+\]\(\.\./python/tests/(\w+/\w+\.py)\): ((?:`test_\w+`(?:, )?)+) \|", page)
        self.assertGreater(len(lines), 30)
        for file, named in lines:
            there = (PYTHON / "tests" / file).read_text()
            for name in re.findall(r"test_\w+", named):
                self.assertIn(f"def {name}(", there, file)


if __name__ == "__main__":
    unittest.main()
