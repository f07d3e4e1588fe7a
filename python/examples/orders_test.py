"""Tests of patched.py: no server, no file, and no waiting. `python3 -m unittest orders_test` in this folder."""

import unittest
from unittest import mock

import patched
from palqytun.testing import Fake, Testing, crash_everywhere
from patched import Order, app, place


class Orders(unittest.IsolatedAsyncioTestCase):
    def setUp(self) -> None:
        self.charge, self.mail, self.ship = Fake("charged"), Fake("mailed"), Fake("shipped")
        for name in ("charge", "mail", "ship"):
            patcher = mock.patch.object(patched, name, getattr(self, name))
            patcher.start()
            self.addCleanup(patcher.stop)

    async def test_a_parcel_waits_for_its_day(self) -> None:
        async with Testing(app) as orders:
            sent = await orders.send(place, Order("ann", days=30))
            await orders.skip(29 * 86400)
            self.assertEqual(len(self.ship.calls), 0)
            await orders.skip(86400)
            self.assertEqual(await sent.result(), ["charged", "mailed", "shipped"])
            self.assertEqual([it.arguments for it in self.ship.calls], [("ann",)])

    async def test_a_bank_that_fails_is_asked_again(self) -> None:
        self.charge.results = (OSError("no bank"), OSError("no bank"), "charged")
        async with Testing(app) as orders:
            self.assertEqual(await orders.call(place, Order("ann")), ["charged", "mailed", "shipped"])
            self.assertEqual(len({it.key for it in self.charge.calls}), 1)

    async def test_no_death_changes_anything(self) -> None:
        deaths = await crash_everywhere(app, place, Order("ann"), fakes=[self.charge, self.mail, self.ship])
        self.assertGreater(deaths, 5)


if __name__ == "__main__":
    unittest.main()
