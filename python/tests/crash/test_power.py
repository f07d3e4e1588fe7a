"""Losses of power on SQLite: nothing that a client was told is lost, and no file that a disk may hold is broken."""

import logging
import pathlib
import sys
import tempfile
import unittest

HERE = pathlib.Path(__file__).parent
sys.path[:0] = [str(HERE), str(HERE.parent)]
import needs  # noqa: E402
import power  # noqa: E402
from checked import Wrong  # noqa: E402


@unittest.skipIf(lacks := needs.lacks_command("cc"), lacks)
class Losses(unittest.TestCase):
    kind = "sqlite"

    def setUp(self) -> None:
        folder = tempfile.TemporaryDirectory(prefix="palqytun-power-", ignore_cleanup_errors=True)
        self.addCleanup(folder.cleanup)
        self.folder = pathlib.Path(folder.name)
        self.layer = power.built(self.folder)
        logging.disable(logging.WARNING)  # that attempts were lost
        self.addCleanup(logging.disable, logging.NOTSET)

    def run_of(self, name: str, **options) -> pathlib.Path:
        folder = self.folder / name
        folder.mkdir()
        power.run(folder, self.layer, **options)
        return folder

    def looked_at(self, folder: pathlib.Path, cuts: int, **options) -> list:
        """What may be left at so many moments of a run, each looked at."""
        found = []
        for path, told in power.losses(folder, 1, cuts, **options):
            power.check(path, told)
            found.append((path, told))
        return found

    def test_what_clients_were_told_is_there(self) -> None:
        """Also in the middle of checkpoints, of which there are many."""
        folder = self.run_of("full")
        found = self.looked_at(folder, 40)
        asked = list(power.records(folder / "asked"))
        self.assertGreater(sum((it.kind, it.file) == (power.SYNCED, power.DATABASE) for it in asked), 3, "checkpoints")
        self.assertGreater(sum((it.kind, it.file) == (power.SYNCED, power.LOG) for it in asked), 20, "commits")
        self.assertEqual(len(found[-1][1].ended), 48)
        for path, told in found[10::25]:
            self.assertGreaterEqual(power.finish(path, told), len(told.sent))

    def test_a_disk_that_lies_is_found(self) -> None:
        """It doesn't keep what it says that it has brought to the main file, from which the log begins anew after a checkpoint."""
        with self.assertRaises(Wrong):
            self.looked_at(self.run_of("lies"), 0, lies=True)

    def test_a_worker_that_does_not_wait_for_the_disk_is_found(self) -> None:
        for synchronous in ("NORMAL", "OFF"):
            with self.subTest(synchronous), self.assertRaisesRegex(Wrong, "of which clients were told aren't there"):
                self.looked_at(self.run_of(synchronous, count=8, synchronous=synchronous, pages=10_000), 0)


if __name__ == "__main__":
    unittest.main()
