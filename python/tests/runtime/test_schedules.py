"""Calls by the clock, limits of handlers, and what is purged: transactions of a worker whose handlers don't run."""

import calendar
import contextlib
import datetime
import secrets
import time
import unittest
from unittest import mock

import support  # isort: skip
import needs

if lacks := needs.lacks_module("croniter"):
    raise unittest.SkipTest(lacks)
from palqytun.frames import frame_of
from palqytun.runtime import App, Context, Schedule, Service, TerminalError, VirtualObject, Workflow, invocations, journal, operate, schedules, scheduling
from palqytun.runtime.claiming import Claimer
from palqytun.runtime.cron import Cron, Every
from palqytun.runtime.database.plain import Plain
from palqytun.runtime.invocations import New
from palqytun.runtime.outcome import Outcome

mail, box, flow = Service("Mail"), VirtualObject("Box"), Workflow("Flow")
LEASE = 10 * support.LONG


@mail.handler(limit=2)
async def send(ctx: Context, it: object) -> None: ...


@mail.handler()
async def free(ctx: Context, it: object) -> None: ...


@mail.handler()
async def counts(ctx: Context, it: int) -> None: ...


@box.handler()
async def clean(ctx: Context, it: object) -> None: ...


@flow.main()
async def main(ctx: Context, it: object) -> None: ...


def utc(text):
    return calendar.timegm(time.strptime(text, "%Y-%m-%d %H:%M"))


# A cron expression, a time, and the first time of the expression after it, by the calendar. 2026-11-27 is a Friday.
TIMES = [
    ("* * * * *", "2026-11-27 20:15", "2026-11-27 20:16"),
    ("0 3 * * *", "2026-11-27 03:00", "2026-11-28 03:00"),
    ("0 3 * * *", "2026-11-27 02:59", "2026-11-27 03:00"),
    ("*/15 8-10 * * *", "2026-11-27 08:46", "2026-11-27 09:00"),
    ("*/15 8-10 * * *", "2026-11-27 10:45", "2026-11-28 08:00"),
    ("5,50 * * * *", "2026-11-27 20:05", "2026-11-27 20:50"),
    ("10/25 * * * *", "2026-11-27 20:10", "2026-11-27 20:35"),
    ("0 0 1 1 *", "2026-11-27 00:00", "2027-01-01 00:00"),
    ("0 0 31 * *", "2026-11-27 00:00", "2026-12-31 00:00"),
    ("0 0 29 2 *", "2026-11-27 00:00", "2028-02-29 00:00"),
    ("0 9 * * 1", "2026-11-27 00:00", "2026-11-30 09:00"),
    ("0 9 * * 0", "2026-11-27 00:00", "2026-11-29 09:00"),
    ("0 9 * * 7", "2026-11-27 00:00", "2026-11-29 09:00"),
    ("0 9 * * 1-5", "2026-11-27 09:00", "2026-11-30 09:00"),
    ("0 9 1 * 6", "2026-11-27 09:00", "2026-11-28 09:00"),
    ("0 9 1 * 6", "2026-11-28 09:00", "2026-12-01 09:00"),
]
# The same in Berlin, whose clocks go forward on 2026-03-29 at 01:00 UTC, and back on 2026-10-25 at 01:00 UTC. The times here are in UTC.
IN_BERLIN = [
    ("0 9 * * *", "2026-03-27 12:00", "2026-03-28 08:00"),
    ("0 9 * * *", "2026-03-28 08:00", "2026-03-29 07:00"),
    ("30 2 * * *", "2026-03-28 01:30", "2026-03-29 01:30"),  # there is no 02:30, so it is 03:30
    ("30 2 * * *", "2026-03-29 01:30", "2026-03-30 00:30"),
    ("30 2 * * *", "2026-10-24 00:30", "2026-10-25 00:30"),  # the first 02:30 of two
    ("30 2 * * *", "2026-10-25 00:30", "2026-10-26 01:30"),
    ("30 * * * *", "2026-10-25 00:30", "2026-10-25 01:30"),  # each hour, so both
    ("0 * * * *", "2026-03-29 00:00", "2026-03-29 01:00"),
    ("0 0 29 2 *", "2026-11-27 00:00", "2028-02-28 23:00"),
]
REFUSED = ["R * * * *", "H * * * *", "* * * * * *", "@daily", "", "* * * *", "60 * * * *", "* 24 * * *", "* * 0 * *", "* * * 13 *", "* * * * 8", "5-1 * * * *", "*/0 * * * *", "a * * * *", "1- * * * *", "-1 * * * *", "1/ * * * *", "*-5 * * * *", "0 0 31 2 *"]  # fmt: skip


class Times(unittest.TestCase):
    def test_the_next_time(self):
        for text, now, then in TIMES:
            with self.subTest(text, now=now):
                self.assertEqual(Cron.read(text).after(utc(now)), utc(then))
                self.assertEqual(Cron.read(text).after(utc(then) - 0.5), utc(then))

    def test_in_a_zone(self):
        for text, now, then in IN_BERLIN:
            with self.subTest(text, now=now):
                self.assertEqual(Cron.read(text, "Europe/Berlin").after(utc(now)), utc(then))
                self.assertEqual(Cron.read(text, "Europe/Berlin").after(utc(then) - 0.5), utc(then))
        for zone in ("Mars/Base", "", "../etc/passwd"):
            with self.assertRaisesRegex(ValueError, "is no time zone, as 'Europe/Berlin' is one"):
                Cron.read("* * * * *", zone)

    def test_what_is_no_expression(self):
        for text in REFUSED:
            with self.subTest(text), self.assertRaises(ValueError):
                Cron.read(text)

    def test_every_so_many_seconds(self):
        self.assertEqual(Every(60).after(119.5), 120)
        self.assertEqual(Every(60).after(120), 180)
        at = 0.3
        for _ in range(1000):
            at, before = Every(0.1).after(at), at
            self.assertGreater(at, before)

    def test_a_schedule_that_has_no_meaning(self):
        for options in ({}, {"every": 1, "cron": "* * * * *"}, {"every": 0}, {"every": -1}, {"cron": "x"}, {"every": 1, "key": "k"}, {"every": 1, "overlap": "drop"}):
            with self.subTest(options), self.assertRaises(ValueError):
                Schedule("s", send, **options)
        for name in ("s" * 1025, "a\0b"):
            with self.assertRaisesRegex(ValueError, "the name of the schedule has "):
                Schedule(name, send, every=1)
        for target, key in ((clean, ""), (main, "k")):
            with self.assertRaises(ValueError):
                Schedule("s", target, key=key, every=1)
        for argument, target in ((object(), send), ("x", counts), (None, counts)):
            with self.assertRaisesRegex(ValueError, f"the argument of the schedule s is none that {target.path} takes"):
                App(mail, schedules=[Schedule("s", target, argument, every=1)])
        for wrong in ([Schedule("s", send, every=1)] * 2, [Schedule("s", clean, key="k", every=1)]):
            with self.assertRaises(ValueError):
                App(mail, schedules=wrong)

    def test_a_limit_that_has_no_meaning(self):
        with self.assertRaises(ValueError):
            Service("S").handler(limit=0)(free.function)


class OnAConnection(support.OnADatabase):
    def setUp(self):
        super().setUp()
        self.plain = Plain(self.url)
        self.db = self.plain.db
        self.addCleanup(self.plain.close)

    def done(self, operation, *arguments):
        return self.plain.done(lambda db: operation(db, *arguments))

    def rows(self, sql, *values):
        return self.done(lambda db: db.rows(sql, values))

    def all_are_due(self):
        """A worker knows the server's clock a little late."""
        self.done(lambda db: db.change("UPDATE invocations SET due=due-1000"))


@support.on_each_database
class Schedules(OnAConnection):
    def entered(self, *schedules_of_it):
        app = App(mail, box, schedules=schedules_of_it)
        self.done(Claimer(secrets.token_hex(4), app, LEASE).enter)
        return app

    def fired(self, app, now):
        self.done(schedules.fire, app, Outcome(), now)
        return len(self.rows("SELECT id FROM invocations"))

    def test_each_time_makes_one_call(self):
        app = self.entered(Schedule("often", send, {"to": "ann"}, every=60), Schedule("seldom", clean, key="k", cron="0 0 29 2 *"))
        [(due,)] = self.rows("SELECT due FROM schedules WHERE name='often'")
        self.assertEqual(self.done(schedules.next_due, app, due - 1), due)
        self.assertEqual([self.fired(app, at) for at in (due - 1, due, due + 59, due + 60, due + 60, due + 1000)], [0, 1, 1, 2, 2, 3])
        self.assertEqual(self.rows("SELECT due, last FROM schedules WHERE name='often'"), [(due + 1020, due + 120)])
        [(frame,), *_] = self.rows("SELECT frame FROM journal ORDER BY stored")
        time_of_it = datetime.datetime.fromtimestamp(due, datetime.timezone.utc).isoformat()
        self.assertEqual(journal.line_of(bytes(frame)), f"Input headers=(('schedule', 'often'), ('scheduled-for', '{time_of_it}')) value=b'{{\"to\":\"ann\"}}'")
        self.assertEqual([(it["name"], it["rule"]) for it in self.done(operate.schedules)], [("often", "every 60"), ("seldom", "cron 0 0 29 2 *")])

    def test_another_version_of_the_app(self):
        self.entered(Schedule("a", send, every=60), Schedule("b", send, every=60), Schedule("c", clean, key="k", every=60))
        app = self.entered(Schedule("a", send, every=60), Schedule("b", free, every=10))
        self.assertEqual(self.rows("SELECT name, handler, rule FROM schedules ORDER BY name"), [("a", "send", "every 60"), ("b", "free", "every 10")])
        only_mail = App(mail, schedules=[Schedule("a", send, every=60)])
        self.entered(Schedule("a", send, every=60), Schedule("c", clean, key="k", every=60))
        self.done(Claimer("other", only_mail, LEASE).enter)
        self.assertEqual(self.rows("SELECT name FROM schedules ORDER BY name"), [("a",), ("c",)])
        self.assertEqual(self.fired(app, time.time() + 10**6), 1)  # `c` isn't its own


    def test_the_clock_is_the_databases(self):
        before = self.db.now()
        with mock.patch("time.time", return_value=0.0) if self.kind == "postgres" else contextlib.nullcontext():  # a file's clock is this host's
            self.entered(Schedule("often", send, every=60))
        [(due, now)] = self.rows(f"SELECT due, {self.db.clock} FROM schedules")
        self.assertTrue(before < due <= now + 60, (before, due, now))

    def test_a_clock_that_was_a_day_ahead(self):
        app = self.entered(Schedule("often", send, every=60))
        [(due,)] = self.rows("SELECT due FROM schedules")
        self.assertEqual(self.fired(app, due + 86400), 1)  # as the clock said then
        self.assertEqual(self.rows("SELECT due FROM schedules"), [(due + 86460,)])
        self.assertEqual(self.done(schedules.next_due, app, due + 1), due + 60)
        self.assertEqual([self.fired(app, due + 59), self.fired(app, due + 60)], [1, 2])

    def test_two_versions_side_by_side(self):
        """The row is that of the worker which began last. The other looks at it without haste, and takes it over if nobody calls it."""
        old = self.entered(Schedule("often", send, every=60))
        new = self.entered(Schedule("often", free, every=10))
        [(due,)] = self.rows("SELECT due FROM schedules")
        self.assertEqual([self.fired(old, due + 5), self.done(schedules.next_due, old, due + 5)], [0, due + 60])
        self.assertEqual(self.fired(new, due + 5), 1)
        self.assertEqual(self.done(schedules.next_due, old, due + 500), due + 501)  # never at once
        self.assertEqual(self.fired(old, due + 500), 2)
        self.assertEqual(self.rows("SELECT handler, rule FROM schedules"), [("send", "every 60")])
        [(next_one,)] = self.rows("SELECT due FROM schedules")
        self.assertTrue(due + 500 < next_one <= due + 560)

    def test_what_another_worker_is_calling(self):
        app = self.entered(Schedule("often", send, every=60))
        [(due,)] = self.rows("SELECT due FROM schedules")
        self.assertEqual(self.done(schedules.next_due, app, due + 2), due + 3)

    def test_a_handler_that_cannot_be_called_any_more(self):
        app = self.entered(Schedule("often", clean, key="k", every=60))
        app.services["Box"] = Service("Box")
        self.done(lambda db: db.change("DELETE FROM serving"))  # nor does another worker serve it
        with self.assertLogs("palqytun", "WARNING") as logged:
            self.assertEqual(self.fired(app, time.time() + 100), 0)
        self.assertIn("the schedule often can't call Box/clean: there is no handler Box/clean", logged.output[0])


@support.on_each_database
class Overlaps(OnAConnection):
    """What comes of a time while the last call is open."""

    def entered(self, overlap):
        self.app = App(mail, box, schedules=[Schedule("often", send, {"to": "ann"}, every=60, overlap=overlap)])
        self.done(Claimer(secrets.token_hex(4), self.app, LEASE).enter)
        [(self.first,)] = self.rows("SELECT due FROM schedules")

    def fired(self, *minutes):
        """Lets the clock be some minutes after the first time, and returns for which minutes there are calls."""
        for it in minutes:
            self.done(schedules.fire, self.app, Outcome(), self.first + 60 * it)
        keys = [row[0] for row in self.rows("SELECT idem FROM invocations ORDER BY seq")]
        return [round((float(it.split()[-1]) - self.first) / 60) for it in keys]

    def end(self):
        self.done(lambda db: db.change("UPDATE invocations SET status='done'"))

    def test_allow(self):
        self.entered("allow")
        self.assertEqual(self.fired(0, 1, 2), [0, 1, 2])

    def test_skip(self):
        self.entered("skip")
        self.assertEqual(self.fired(0, 1, 2), [0])
        self.end()
        self.assertEqual(self.fired(2.5), [0])
        self.assertEqual(self.fired(3, 4), [0, 3])

    def test_queue(self):
        self.entered("queue")
        self.assertEqual(self.fired(0, 1, 2, 2.5), [0])
        self.assertEqual(self.rows("SELECT queued FROM schedules"), [(self.first + 60,)])
        self.assertEqual(self.done(schedules.next_due, self.app, self.first + 150), self.first + 151)
        self.end()
        self.assertEqual(self.fired(2.6, 2.7), [0, 1])
        self.end()
        self.assertEqual(self.fired(3, 3.5), [0, 1, 3])
        self.assertEqual(self.fired(4), [0, 1, 3])
        self.end()
        self.assertEqual(self.fired(5), [0, 1, 3, 4])  # the fifth is queued now
        self.end()
        self.assertEqual(self.fired(5.1), [0, 1, 3, 4, 5])

    def test_cancel(self):
        self.entered("cancel")
        self.assertEqual(self.fired(0), [0])
        [(first,)] = self.rows("SELECT called FROM schedules")
        self.assertEqual(self.fired(1), [0, 1])
        self.assertEqual(self.rows("SELECT invocation, frame FROM inbox"), [(first, journal.cancellation())])
        self.assertEqual(self.rows("SELECT who, what, invocation FROM audit"), [("the schedule often", "cancel", first)])
        self.end()
        self.assertEqual(self.fired(2), [0, 1, 2])
        self.assertEqual(len(self.rows("SELECT invocation FROM inbox")), 1)

    def test_another_overlap(self):
        """A new version of the app changes it; what was kept is called."""
        self.entered("queue")
        self.fired(0, 1)
        first = self.first
        self.entered("allow")
        self.assertEqual((self.first, self.rows("SELECT overlap FROM schedules")), (first + 120, [("allow",)]))
        self.first = first
        self.assertEqual(self.fired(1.5, 2), [0, 1, 2])


@support.on_each_database
class ActsOnSchedules(OnAConnection):
    def setUp(self):
        super().setUp()
        self.entered("0 3 * * *")

    def entered(self, cron):
        self.app = App(mail, box, schedules=[Schedule("often", send, {"to": "ann"}, every=60), Schedule("a/b", clean, key="k", cron=cron)])
        self.done(Claimer(secrets.token_hex(4), self.app, LEASE).enter)

    def act(self, what, name="often", since="", until=""):
        """Without the app, as the command does it."""
        return self.done(scheduling.act, None, Outcome(), what, name, "ann", since, until)

    def row(self):
        return next(it for it in self.done(operate.schedules) if it["name"] == "often")

    def test_pause_and_resume(self):
        self.entered(f"0 {(time.gmtime(self.db.now()).tm_hour + 12) % 24} * * *")  # far from now
        due = self.row()["due"]
        self.assertEqual([self.act("pause"), self.act("pause"), self.row()["paused"]], ["paused", "is paused", True])
        self.done(schedules.fire, self.app, Outcome(), due + 1)
        self.assertEqual(self.rows("SELECT id FROM invocations"), [])
        self.assertGreater(self.done(schedules.next_due, self.app, due + 1), due + 60)  # that of the other
        self.done(lambda db: db.change("UPDATE schedules SET due=1"))
        self.assertEqual([self.act("resume"), self.row()["paused"]], ["resumed", False])
        self.assertGreaterEqual(self.row()["due"], due)
        self.assertEqual(self.rows("SELECT id FROM invocations"), [])
        with self.assertRaisesRegex(TerminalError, "the schedule often isn't paused"):
            self.act("resume")
        self.assertEqual(self.rows("SELECT who, what, name FROM audit ORDER BY seq"), [("ann", "pause schedule", "often"), ("ann", "resume schedule", "often")])

    def test_trigger(self):
        self.act("pause")
        said = self.act("trigger")
        [(id, key)] = self.rows("SELECT id, idem FROM invocations")
        self.assertEqual((said, self.row()["called"]), (f"made {id}", id))
        self.assertAlmostEqual(self.row()["last"], time.time(), delta=support.LONG)
        self.assertEqual(key, f"schedule often {self.row()['last']}")
        self.act("trigger", "a/b")
        self.assertEqual(self.rows("SELECT service, handler, key FROM invocations WHERE key<>''"), [("Box", "clean", "k")])
        [(frame,)] = self.rows("SELECT frame FROM journal WHERE invocation=?", id)
        self.assertIn("('schedule', 'often'), ('scheduled-for', '", journal.line_of(bytes(frame)))
        self.assertIn("""value=b'{"to":"ann"}'""", journal.line_of(bytes(frame)))

    def test_backfill(self):
        self.done(scheduling.trigger, None, Outcome(), "often", "ann")
        self.assertEqual(self.act("backfill", "a/b", "2026-11-24", "2026-11-27T03:00"), "3 calls are made")
        self.assertEqual(self.act("backfill", "a/b", "2026-11-26T04:00+01:00", "2026-11-27T03:00:01"), "1 calls are made, and 1 were there")
        keys = sorted(key for key, in self.rows("SELECT idem FROM invocations WHERE service='Box'"))
        self.assertEqual(keys, sorted(f"schedule a/b {float(utc(f'2026-11-{day} 03:00'))}" for day in (24, 25, 26, 27)))
        self.assertIn("1 calls are made, and 1 were there, for 2026-11-26T03:00:00+00:00 to ", self.rows("SELECT detail FROM audit ORDER BY seq DESC LIMIT 1")[0][0])

    def test_what_is_refused(self):
        for words, code, said in (
            (("pause", "none"), 404, "there is no schedule none"),
            (("stop",), 404, "there is no act stop on schedules: it is pause, resume, trigger or backfill"),
            (("backfill",), 400, "a backfill needs `since`"),
            (("backfill", "often", "yesterday"), 400, "since=yesterday is no time, as 2026-11-27T03:00"),
            (("backfill", "often", "2026-11-27", "x"), 400, "until=x is no time"),
            (("backfill", "often", "2026-11-27", "2026-11-26"), 400, "a backfill is of times that have passed"),
            (("backfill", "often", "2026-11-27", "2999-01-01"), 400, "`until` isn't later than now"),
            (("backfill", "often", "2026-11-24", "2026-11-27"), 400, "there are more than 1000 times between these"),
        ):
            with self.subTest(words), self.assertRaisesRegex(TerminalError, said) as raised:
                self.act(*words)
            self.assertEqual(raised.exception.code, code)
        self.assertEqual((self.rows("SELECT id FROM invocations"), self.rows("SELECT who FROM audit")), ([], []))
        self.done(lambda db: db.change("UPDATE schedules SET argument=NULL"))
        with self.assertRaisesRegex(TerminalError, "the argument of the schedule often isn't stored"):
            self.act("trigger")


@support.on_each_database
class Limits(OnAConnection):
    def test_at_most_so_many(self):
        app = App(mail, box)
        one, two = Claimer("one", app, LEASE), Claimer("two", app, LEASE)
        self.done(one.enter)
        if self.db.is_shared:
            self.done(two.enter)
        for _ in range(5):
            self.done(invocations.create, app, Outcome(), New("Mail", "send"))
        self.done(invocations.create, app, Outcome(), New("Mail", "free"))
        self.all_are_due()

        def claims(claimer, room=100):
            return [it.handler for it in self.done(claimer.claim, (), room).claims]

        self.assertEqual(claims(one, 2), ["free", "send"])
        self.assertEqual([claims(it) for it in (one, two if self.db.is_shared else one)], [["send"], []])
        self.done(lambda db: db.change("UPDATE invocations SET status='done' WHERE status='running'"))
        self.assertEqual([claims(one), claims(one)], [["send", "send"], []])
        # What is suspended and awake counts as well, and what a dead worker had goes on beside the limit.
        sleeping = journal.completion(1, journal.void())
        [(id,)] = self.rows("SELECT id FROM invocations WHERE status='ready'")
        self.done(lambda db: db.change("UPDATE invocations SET status='suspended', suspension=? WHERE id=?", (frame_of("Suspension future=(kind=FirstCompleted completions=[1])"), id)))
        self.done(lambda db: db.change("INSERT INTO inbox(invocation, frame) VALUES (?,?)", (id, sleeping)))
        self.assertEqual(claims(one), [])
        self.done(lambda db: db.change("DELETE FROM workers WHERE id='one'"))
        self.done(lambda db: db.change("DELETE FROM inbox"))
        self.assertEqual(claims(two), ["send", "send"])


class Shares(OnAConnection, unittest.TestCase):
    kind = "postgres"

    def test_a_claim_leaves_others_theirs(self):
        app = App(mail)
        workers = [Claimer(name, app, LEASE) for name in ("one", "two", "three")]
        for it in workers:
            self.done(it.enter)
        for _ in range(80):
            self.done(invocations.create, app, Outcome(), New("Mail", "free"))
        self.all_are_due()

        def claimed(claimer, room):
            found = self.done(claimer.claim, (), room)
            return len(found.claims), found.has_more

        self.assertEqual([claimed(workers[0], 90), claimed(workers[1], 30)], [(30, True), (20, True)])
        self.done(workers[1].leave)
        self.done(workers[2].leave)
        self.assertEqual([claimed(workers[0], 100), claimed(workers[0], 100)], [(50, False), (0, False)])


@support.on_each_database
class Broken(OnAConnection):
    def test_a_broken_journal_keeps_nobody_out(self):
        """Two completions of nothing: one stands in a journal, one in an inbox. Their invocations are paused, and the third is claimed."""
        app, claimer = App(mail), Claimer("one", App(mail), LEASE)
        self.done(claimer.enter)
        for id in "abc":
            self.done(invocations.create, app, Outcome(), New("Mail", "free", id=id))
        self.all_are_due()
        nobodys = journal.completion(1, journal.void())
        self.done(lambda db: db.change("INSERT INTO journal(invocation, at, completes, frame) VALUES ('a',1,1,?)", (nobodys,)))
        self.done(lambda db: db.change("UPDATE invocations SET entries=2 WHERE id='a'"))
        self.done(lambda db: db.change("INSERT INTO inbox(invocation, frame) VALUES ('b',?)", (nobodys,)))
        self.assertEqual([it.invocation for it in self.done(claimer.claim, (), 100).claims], ["c"])
        self.assertEqual(self.rows("SELECT id, status FROM invocations ORDER BY id"), [("a", "paused"), ("b", "paused"), ("c", "running")])
        self.assertIn("no stored command has the completion id", self.rows("SELECT error FROM invocations WHERE id='a'")[0][0])


@support.on_each_database
class Purges(OnAConnection):
    def test_some_at_a_time(self):
        app = App(mail, box, flow)
        for service, handler, key in (("Mail", "send", ""), ("Box", "clean", "k"), ("Flow", "main", "k"), ("Mail", "free", "")):
            self.done(invocations.create, app, Outcome(), New(service, handler, key))
        for service in ("Box", "Flow"):
            self.done(lambda db: db.change("INSERT INTO state VALUES (?, 'k', 'n', ?)", (service, b"1")))
        self.done(lambda db: db.change("INSERT INTO promises VALUES ('Flow', 'k', 'p', NULL)"))
        self.done(lambda db: db.change("UPDATE invocations SET status='done', ended=seq WHERE handler<>'free'"))
        self.assertEqual([self.done(operate.purge, 1e10, 2), self.done(operate.purge, 0, 2)], [0, 2])
        found = self.done(operate.purge_by, 0, "ann", operate.Purged(2, None))
        self.assertEqual((found.count, self.done(operate.purge_by, 0, "ann", found)), (3, found))
        self.assertEqual(self.rows("SELECT seq, who, what, detail FROM audit"), [(found.row, "ann", "purge", "3 invocations that ended more than 0 s before")])
        self.assertEqual(self.rows("SELECT handler FROM invocations"), [("free",)])
        self.assertEqual(len(self.rows("SELECT invocation FROM journal")), 1)
        # An object keeps its state; a workflow's key can run again as a new one.
        self.assertEqual((self.rows("SELECT service FROM state"), self.rows("SELECT name FROM promises")), ([("Box",)], []))


if __name__ == "__main__":
    unittest.main()
