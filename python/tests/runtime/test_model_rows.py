"""The rows of the runtime beside the proved engine, line by line of docs/internals/MODEL-ROWS.md: each test makes the runtime's own transactions, by frames
that it wrote out, and looks at the rows after each of them."""

import base64
import time
import unittest
from unittest import mock

import support  # isort: skip
from palqytun import frames
from palqytun.runtime import App, Context, Retry, Service, TerminalError, VirtualObject, acts, effects, inbox, invocations, journal, storing
from palqytun.runtime.claiming import Claimer
from palqytun.runtime.database.plain import Plain
from palqytun.runtime.database.schema import TABLES
from palqytun.runtime.invocations import New
from palqytun.runtime.lease import Fenced
from palqytun.runtime.outcome import Outcome

plain, thing = Service("S"), VirtualObject("O")


@plain.handler()
async def works(ctx: Context, it: object) -> object: ...


@plain.handler(retry=Retry(attempts=1))
async def fails(ctx: Context, it: object) -> object: ...


@thing.handler()
async def alone(ctx: Context, it: object) -> object: ...


@thing.shared()
async def beside(ctx: Context, it: object) -> object: ...


app = App(plain, thing)
LONG = 10 * support.LONG
ENDS = 'Output result=value("1")', "End"
FAR = int((time.time() + 3600) * 1000)


def call(id, result, rest='parameter="0"', path=("S", "works")):
    """The line of a call whose invocation id and result complete these ids; with no result that of a one-way call."""
    kind, end = ("OneWayCall", "") if result is None else ("Call", f" result_completion_id={result}")
    return f'{kind} service_name="{path[0]}" handler_name="{path[1]}" {rest} invocation_id_notification_idx={id}{end}'


def signal(target, name, value):
    return f'SendSignal target_invocation_id="{target}" signal=name("{name}") result=value("{value}")'


def same(value):
    """A value of a row, by whichever driver."""
    return bytes(value) if isinstance(value, (bytes, memoryview)) else value


class OnRows(support.OnADatabase):
    def setUp(self):
        super().setUp()
        self.db = Plain(self.url)
        self.addCleanup(self.db.close)
        self.enter("one")

    def enter(self, worker):
        self.db.done(Claimer(worker, app, LONG).enter)

    def rows(self, sql, *values):
        return [tuple(map(same, row)) for row in self.db.rows(sql, values)]

    def all_rows(self):
        """Those of all tables."""
        return {it: sorted(map(repr, self.rows(f"SELECT * FROM {it}"))) for it in TABLES}

    def lines(self, id):
        """The entries of a journal, as lines."""
        return [frames.line_of(frame) for frame, in self.rows("SELECT frame FROM journal WHERE invocation=? ORDER BY at", id)]

    def waiting(self, id):
        """What is in an inbox, as lines, in its order."""
        return [frames.line_of(frame) for frame, in self.rows("SELECT frame FROM inbox WHERE invocation=? ORDER BY seq", id)]

    def made(self, path, *words, **options):
        """The id of a new invocation, and whether one was made. This worker's clock is past its time then."""
        found = self.db.done(lambda db: invocations.create(db, app, Outcome(), New(*path.split("/"), *words, **options)))
        [(made,)] = self.db.done(lambda db: db.rows(f"SELECT {db.clock}"))
        while self.db.db.now() < made:
            time.sleep(0.001)
        return found

    def claims(self, worker="one"):
        return {it.invocation: it for it in self.db.done(lambda db: Claimer(worker, app, LONG).claim(db, (), 500)).claims}

    def begun(self, path, *words, **options):
        """The claim of a new invocation."""
        id, _ = self.made(path, *words, **options)
        return self.claims()[id]

    def store(self, claim, *lines):
        """What an attempt wrote is stored, in one transaction."""
        output = b"".join(map(frames.frame_of, lines))
        claim.lease.journal.undo()  # what was refused before

        async def operation(db):
            reads = storing.reads(claim, output)
            found = await db.several(reads(db)) if reads is not None else ()
            return await storing.store(db, app, claim, output, claim.lease.journal.written, found=found)

        out = self.db.done(operation)
        claim.lease.journal.keep()
        return out

    def pull(self, claim):
        """What came is put into the journal of an attempt, in one transaction; returns the lines that the attempt is fed."""

        async def operation(db):
            return await storing.pull(db, claim, await db.several(storing.arrivals(claim)(db)))

        out = self.db.done(operation)
        claim.lease.journal.keep()
        return [frames.line_of(it) for it in out.feed]


@support.on_each_database
class Orders(OnRows):
    def test_an_order_is_one_invocation(self):
        """`Submit`: its rows, or those of the one with the same idempotency key."""
        first = self.made("O/alone", "k", b"7", idempotency_key="once")
        sql = "SELECT service, handler, key, exclusive, idem, status, epoch, entries, parent, result FROM invocations"
        self.assertEqual(first[1], True)
        self.assertEqual(self.rows(sql), [("O", "alone", "k", 1, "once", "ready", 0, 1, None, None)])
        self.assertEqual(self.rows("SELECT invocation, at, completes FROM journal"), [(first[0], 0, None)])
        self.assertEqual(self.lines(first[0]), ['Input value="7"'])
        before = self.all_rows()
        self.assertEqual(self.made("O/alone", "k", b"7", idempotency_key="once"), (first[0], False))
        self.assertEqual(self.all_rows(), before)
        others = [self.made("O/alone", "k2", b"7", idempotency_key="once"), self.made("O/beside", "k", b"7", idempotency_key="once"), self.made("O/alone", "k", b"7")]
        self.assertEqual([is_new for _, is_new in others], [True] * 3)
        self.assertEqual(len({first[0], *(id for id, _ in others)}), 4)
        again = [self.made("O/alone", "k2", b"7", idempotency_key="once"), self.made("O/beside", "k", b"7", idempotency_key="once")]
        self.assertEqual(again, [(id, False) for id, _ in others[:2]])

    def test_another_argument_under_one_key_is_refused(self):
        """The model attaches the call, whatever its parameter is."""
        id, _ = self.made("S/works", "", b"7", idempotency_key="once")
        caller = self.begun("S/works")
        asked = call(1, 2, 'idempotency_key="once" parameter="8"')
        self.store(caller, asked)
        own = self.lines(caller.invocation)[2:]
        self.assertRegex(own[0], r'^Notification id=completion\(1\) result=invocation_id\("inv_')
        self.assertRegex(own[1], r"^Notification id=completion\(2\) result=failure\(code=409 ")
        self.assertEqual(self.rows("SELECT COUNT(*) FROM waiters"), [(0,)])
        self.assertEqual(self.rows("SELECT id FROM invocations WHERE idem='once'"), [(id,)])

    def test_a_handler_that_is_not_there(self):
        """The call has the result 404 and makes nothing. Its id is that of nobody, where the model has no text."""
        caller = self.begun("S/works")
        self.store(caller, call(1, 2, path=("No", "such")))
        own, nobody = self.lines(caller.invocation)[2:], effects.child_of(caller.invocation, 1)
        self.assertEqual(own[0], f'Notification id=completion(1) result=invocation_id("{nobody}")')
        self.assertRegex(own[1], r"^Notification id=completion\(2\) result=failure\(code=404 ")
        self.assertEqual(self.rows("SELECT id FROM invocations"), [(caller.invocation,)])

    def test_a_send_to_a_handler_that_is_not_there(self):
        """It is an invocation that is paused. The model makes none."""
        caller = self.begun("S/works")
        self.store(caller, call(1, None, path=("No", "such")))
        id = effects.child_of(caller.invocation, 1)
        self.assertEqual(self.rows("SELECT service, status, how, parent FROM invocations WHERE id=?", id), [("No", "paused", "unserved", caller.invocation)])


@support.on_each_database
class Calls(OnRows):
    def test_a_call_has_one_callee(self):
        """`Store` of a call: its callee, the row of who waits, and the callee's id, all in one transaction."""
        caller = self.begun("S/works")
        self.store(caller, call(1, 2), call(3, None, f'parameter="0" key="k" invoke_time={FAR}', ("O", "alone")))
        one, two = (effects.child_of(caller.invocation, it) for it in (1, 3))
        sql = "SELECT id, service, handler, key, status, epoch, parent FROM invocations WHERE parent IS NOT NULL ORDER BY seq"
        own = caller.invocation
        self.assertEqual(self.rows(sql), [(one, "S", "works", "", "ready", 0, own), (two, "O", "alone", "k", "ready", 0, own)])
        [(soon,), (late,)] = self.rows("SELECT due-created FROM invocations WHERE parent IS NOT NULL ORDER BY seq")
        self.assertLess(soon, 600)
        self.assertGreater(late, 1800)
        self.assertEqual([self.lines(it) for it in (one, two)], [['Input value="0"']] * 2)
        self.assertEqual(self.rows("SELECT invocation, waiter, completes FROM waiters"), [(one, own, 2)])
        told = [f'Notification id=completion({id}) result=invocation_id("{it}")' for id, it in ((1, one), (3, two))]
        self.assertEqual(self.lines(own)[3:], told)
        self.assertEqual(self.rows("SELECT at, completes FROM journal WHERE invocation=? ORDER BY at", own), [(0, None), (1, None), (2, None), (3, 1), (4, 3)])
        self.assertEqual(self.waiting(own), [])

    def test_a_result_comes_to_each_that_waits(self):
        """An end writes it to the inbox of each, after what came before; and to nobody who has ended."""
        asked = call(1, 2, 'parameter="0" idempotency_key="one"')
        callers = [self.begun("S/works", "", b"%d" % it) for it in range(3)]
        for it in callers:
            self.store(it, asked)
        first, second, third = (it.invocation for it in callers)
        child = effects.child_of(first, 1)
        self.assertEqual(self.rows("SELECT invocation, completes FROM waiters"), [(child, 2)] * 3)
        self.db.done(lambda db: inbox.deliver(db, Outcome(), first, journal.named_signal("go", journal.value(b"s"))))
        self.store(callers[2], *ENDS)
        self.assertEqual(self.rows("SELECT waiter FROM waiters ORDER BY waiter"), [(it,) for it in sorted((first, second))])
        callee = self.claims()[child]
        self.assertEqual(self.waiting(first), ['Notification id=name("go") result=value("s")'])
        self.store(callee, 'Output result=value("r")', "End")
        came = 'Notification id=completion(2) result=value("r")'
        self.assertEqual([self.waiting(it) for it in (first, second, third)], [['Notification id=name("go") result=value("s")', came], [came], []])
        self.assertEqual(self.rows("SELECT COUNT(*) FROM waiters"), [(0,)])
        self.assertEqual(self.rows("SELECT status, result FROM invocations WHERE id=?", child), [("done", frames.frame_of('Output result=value("r")'))])
        self.assertEqual(self.pull(callers[0]), ['Notification id=name("go") result=value("s")', came])
        self.assertEqual((self.lines(first)[3:], self.waiting(first)), (['Notification id=name("go") result=value("s")', came], []))

    def test_a_call_of_what_has_ended(self):
        """It is found by its idempotency key, and its result is there at once."""
        target = self.begun("S/works", "", b"0", idempotency_key="one")
        self.store(target, 'Output result=failure(code=418 message="no")', "End")
        caller = self.begun("S/works")
        self.store(caller, call(1, 2, 'parameter="0" idempotency_key="one"'))
        id = target.invocation
        told = [f'Notification id=completion(1) result=invocation_id("{id}")', 'Notification id=completion(2) result=failure(code=418 message="no")']
        self.assertEqual(self.lines(caller.invocation)[2:], told)
        self.assertEqual(self.rows("SELECT (SELECT COUNT(*) FROM waiters), (SELECT COUNT(*) FROM inbox)"), [(0, 0)])
        self.assertEqual(self.rows("SELECT COUNT(*) FROM invocations"), [(2,)])


@support.on_each_database
class Waits(OnRows):
    def test_a_sleep_waits_for_its_time(self):
        """A timer is a row until its time; then it is a completion in the inbox, which the journal gets once."""
        claim = self.begun("S/works")
        id = claim.invocation
        self.store(claim, f"Sleep wake_up_time={FAR} result_completion_id=1", "Sleep wake_up_time=1000 result_completion_id=2")
        self.assertEqual(self.rows("SELECT invocation, completes FROM timers ORDER BY completes"), [(id, 1), (id, 2)])
        [(due,)] = self.rows("SELECT due FROM timers WHERE completes=1")
        self.assertLess(abs(due - FAR / 1000), 600)
        self.assertEqual(self.waiting(id), [])
        self.assertEqual(self.claims(), {})  # a claim fires what is due
        self.assertEqual(self.rows("SELECT invocation, completes FROM timers"), [(id, 1)])
        self.assertEqual(self.waiting(id), ["Notification id=completion(2) result=void"])
        self.assertEqual(self.claims(), {})
        self.assertEqual(self.pull(claim), ["Notification id=completion(2) result=void"])
        self.assertEqual((self.waiting(id), self.pull(claim)), ([], []))
        with mock.patch.object(self.db.db, "now", lambda: FAR / 1000 - 1):
            self.claims()
        self.assertEqual(self.waiting(id), [])
        with mock.patch.object(self.db.db, "now", lambda: FAR / 1000 + 700):
            self.claims()
        self.assertEqual((self.waiting(id), self.rows("SELECT * FROM timers")), (["Notification id=completion(1) result=void"], []))

    def test_signals_come_once_and_in_order(self):
        """Those of two senders, by name and for an awakeable; none for one that isn't there or has ended."""
        target, ended, one, two = (self.begun("S/works") for _ in range(4))
        id, gone = target.invocation, ended.invocation
        self.store(ended, *ENDS)
        awakeable = "sign_1" + base64.urlsafe_b64encode(id.encode() + (17).to_bytes(4, "big")).decode().rstrip("=")
        self.store(one, signal(id, "a", "1"), signal("inv_none", "a", "2"), signal(gone, "a", "3"))
        self.store(two, f'CompleteAwakeable awakeable_id="{awakeable}" result=value("4")', signal(id, "a", "5"))
        self.store(one, signal(id, "b", "6"))
        came = [f"Notification id={name} result=value(\"{it}\")" for name, it in (('name("a")', 1), ("signal(17)", 4), ('name("a")', 5), ('name("b")', 6))]
        self.assertEqual(self.waiting(id), came)
        self.assertEqual(self.rows("SELECT DISTINCT invocation FROM inbox"), [(id,)])
        self.assertEqual(self.pull(target), came)
        self.assertEqual((self.lines(id)[1:], self.waiting(id), self.pull(target)), (came, [], []))
        self.assertEqual(self.rows("SELECT entries FROM invocations WHERE id=?", id), [(5,)])

    def test_what_is_no_awakeable_sends_nothing(self):
        one, target = self.begun("S/works"), self.begun("S/works")
        named = base64.urlsafe_b64encode(target.invocation.encode() + (17).to_bytes(4, "big")).decode().rstrip("=")
        for wrong in ("", "sign_1", named, f"sign_2{named}", f"sign_1{named}=", f"sign_1{named[:5]}!{named[5:]}", f"sign_1{named}\\x0a"):
            with self.subTest(wrong):
                self.store(one, f'CompleteAwakeable awakeable_id="{wrong}" result=value("4")')
                self.assertEqual(self.rows("SELECT * FROM inbox"), [])
        self.store(one, f'CompleteAwakeable awakeable_id="sign_1{named}" result=value("4")')
        self.assertEqual(self.waiting(target.invocation), ['Notification id=signal(17) result=value("4")'])

    def test_a_name_with_nul_names_nothing(self):
        """No text of PostgreSQL has a NUL, and a handler may be given any. So an invocation with this id isn't there, and a value with this name neither."""
        one, nul = self.begun("O/alone", "k"), "a\\x00"
        named = base64.urlsafe_b64encode(b"a\0" + (17).to_bytes(4, "big")).decode().rstrip("=")
        before = {it: rows for it, rows in self.all_rows().items() if it not in ("invocations", "journal")}
        asked = [
            (f'CompleteAwakeable awakeable_id="sign_1{named}" result=value("4")', []),
            (signal(nul, "go", "4"), []),
            (f'SendSignal target_invocation_id="{nul}" signal=index(1) result=void', []),
            (f'ClearState key="{nul}"', []),
            (f'GetLazyState key="{nul}" result_completion_id=1', ["Notification id=completion(1) result=void"]),
            (f'AttachInvocation target=InvocationId("{nul}") result_completion_id=2', ['failure(code=404 message="there is no such invocation"']),
            (f'GetInvocationOutput target=InvocationId("{nul}") result_completion_id=3', ['failure(code=404 message="there is no such invocation"']),
        ]
        for line, wanted in asked:
            with self.subTest(line):
                fed = [frames.line_of(it) for it in self.store(one, line).feed]
                self.assertEqual([it in got for it, got in zip(wanted, fed, strict=True)], [True] * len(wanted))
        self.assertEqual({it: rows for it, rows in self.all_rows().items() if it in before}, before)
        with self.assertRaisesRegex(TerminalError, "is no awakeable"):
            effects.awakeable_of(f"sign_1{named}")

    def test_what_came_before_an_attempt_is_in_its_journal(self):
        """A claim puts the inbox to the journal, as an attempt does that is lost then."""
        id, _ = self.made("S/works")
        self.db.done(lambda db: inbox.deliver(db, Outcome(), id, journal.named_signal("go", journal.void())))
        claim = self.claims()[id]
        came = 'Notification id=name("go") result=void'
        self.assertEqual((self.waiting(id), self.lines(id)), ([], ["Input", came]))
        fed = [frames.line_of(it) for _, it in journal.split(claim.input)]
        self.assertIn("known_entries=2", fed[0])
        self.assertEqual(fed[1:], ["Input", came])


@support.on_each_database
class Keys(OnRows):
    def holders(self):
        return self.rows("SELECT service, key, holder FROM locks ORDER BY key")

    def test_a_key_is_served_in_order(self):
        """A claim takes the lock for the first that waits, and its end frees it."""
        ids = [self.made("O/alone", "k")[0] for _ in range(3)]
        other, shared = self.made("O/alone", "l")[0], self.made("O/beside", "k")[0]
        self.assertEqual(self.holders(), [])
        claims = self.claims()
        self.assertEqual(set(claims), {ids[0], other, shared})
        for at, id in enumerate(ids):
            self.assertEqual(self.holders(), [("O", "k", id), ("O", "l", other)])
            self.assertEqual(self.rows("SELECT id FROM invocations WHERE status='running' AND key='k' AND exclusive=1"), [(id,)])
            self.store(claims[id], "Suspension future=(kind=FirstCompleted signals=[1])")
            self.assertEqual((self.claims(), self.holders()[0]), ({}, ("O", "k", id)))  # it waits, and keeps its key
            self.db.done(lambda db: inbox.deliver(db, Outcome(), id, journal.signal(1, journal.void())))
            again = self.claims()
            self.assertEqual(list(again), [id])
            self.store(again[id], *ENDS)
            self.assertEqual(self.holders(), [("O", "l", other)])
            claims = self.claims()
            self.assertEqual(list(claims), ids[at + 1 : at + 2])

    def test_a_key_has_one_holder(self):
        """Whichever rows a claim has found: one of a key has its lease."""
        ids = [self.made("O/alone", "k")[0] for _ in range(3)]
        rows = [invocations.Claimable(*row) for row in self.db.rows(f"SELECT {invocations.CLAIMED} FROM invocations ORDER BY seq")]
        for at, wanted in (([1, 0], [ids[1]]), ([0], []), ([2, 0], [])):
            claims = self.db.done(lambda db: invocations.claim(db, "one", [rows[it] for it in at]))
            self.assertEqual([it.invocation for it in claims], wanted)
            self.assertEqual(self.holders(), [("O", "k", ids[1])])
        self.assertEqual(self.rows("SELECT id FROM invocations WHERE epoch>0"), [(ids[1],)])

    def test_what_has_not_begun_holds_no_key(self):
        """One whose time hasn't come, or that was paused before it began, lets others of its key begin. In the model it holds the key."""
        late, paused, third = self.made("O/alone", "k", due=time.time() + 3600)[0], self.made("O/alone", "k")[0], self.made("O/alone", "k")[0]
        self.db.done(lambda db: acts.pause(db, app, Outcome(), paused, "ann"))
        claims = self.claims()
        self.assertEqual((list(claims), self.holders()), ([third], [("O", "k", third)]))
        self.store(claims[third], *ENDS)
        self.assertEqual(self.rows("SELECT id, status FROM invocations ORDER BY seq"), [(late, "ready"), (paused, "paused"), (third, "done")])
        self.db.done(lambda db: acts.resume(db, app, Outcome(), paused, "ann"))
        self.assertEqual(list(self.claims()), [paused])

    def test_the_state_is_handed_on(self):
        """A stored change is a row of the key's state, which the next one of the key is handed. A shared handler is handed none."""
        first, second = self.made("O/alone", "k")[0], self.made("O/alone", "k")[0]
        shared = self.made("O/beside", "k")[0]
        claims = self.claims()
        self.store(claims[first], 'SetState key="a" value="1"', 'SetState key="b" value="2"', 'ClearState key="a"')
        self.assertEqual(self.rows("SELECT service, key, name, value FROM state"), [("O", "k", "b", b"2")])
        self.store(claims[first], 'SetState key="c" value="3"', *ENDS)
        given = frames.line_of(next(journal.split(self.claims()[second].input))[1])
        self.assertIn('state=[("b" "2"), ("c" "3")]', given)
        self.assertNotIn("partial=true", given)
        none = frames.line_of(next(journal.split(claims[shared].input))[1])
        self.assertNotIn("state=", none)
        self.assertIn("partial=true", none)


@support.on_each_database
class Attempts(OnRows):
    def taken(self, id):
        """Another worker has its lease, since the first one isn't alive."""
        self.db.change("DELETE FROM workers WHERE id='one'")
        self.enter("two")
        return self.claims("two")[id]

    def test_a_begin_takes_a_greater_epoch(self):
        """Nobody begins one that runs, has ended, or whose time hasn't come."""
        late, _ = self.made("S/works", due=time.time() + 3600)
        claim = self.begun("S/works")
        id, sql = claim.invocation, "SELECT status, epoch, worker FROM invocations WHERE id=?"
        self.assertEqual(self.rows(sql, id), [("running", 1, "one")])
        self.assertEqual((self.claims(), self.claims("other")), ({}, {}))
        again = self.taken(id)
        self.assertEqual((claim.lease.epoch, again.lease.epoch), (1, 2))
        self.assertEqual(self.rows(sql, id), [("running", 2, "two")])
        self.assertEqual(self.rows("SELECT invocation, epoch, worker, how FROM attempts"), [(id, 1, "one", "lost")])
        self.store(again, *ENDS)
        self.assertEqual((self.claims("two"), self.rows(sql, late)), ({}, [("ready", 0, None)]))

    def test_what_a_lost_attempt_asks_for_changes_nothing(self):
        """Each store, delivery and stop of it is refused, and no row of any table is another one."""
        target = self.begun("S/works")
        claim = self.begun("O/alone", "k")
        id, other = claim.invocation, target.invocation
        self.taken(id)
        self.db.done(lambda db: inbox.deliver(db, Outcome(), id, journal.named_signal("go", journal.void())))
        before = self.all_rows()
        asked = [
            ("Sleep wake_up_time=1000 result_completion_id=1",),
            (call(1, 2),),
            (call(1, None),),
            (signal(other, "a", "1"),),
            ('SetState key="a" value="1"',),
            ("ClearAllState",),
            ('GetLazyState key="a" result_completion_id=1',),
            ('Run name="r" result_completion_id=1', 'ProposeRunCompletion id=1 result=value("1")'),
            ("Suspension future=(kind=FirstCompleted signals=[1])",),
            ('Error code=500 message="m" behaviour=Retry',),
            ENDS,
        ]
        for lines in asked:
            with self.subTest(lines):
                with self.assertRaises(Fenced):
                    self.store(claim, *lines)
                self.assertEqual(self.all_rows(), before)
        self.assertEqual(self.pull(claim), [])
        stops = (lambda db: storing.pause(db, app, claim, "why"), lambda db: storing.release(db, app, claim), lambda db: storing.take_back(db, id, 1))
        for it in stops:
            self.db.done(it)
            self.assertEqual(self.all_rows(), before)

    def test_a_start_says_what_was_tried(self):
        """How often attempts have failed since the last progress, and the invocation's own seed."""
        first = self.begun("S/works")
        id = first.invocation
        [(seed,)] = self.rows("SELECT seed FROM invocations WHERE id=?", id)
        self.store(first, 'Error code=500 message="m" behaviour=Retry')
        self.assertEqual(self.rows("SELECT status, retries FROM invocations WHERE id=?", id), [("ready", 1)])
        self.db.change("UPDATE invocations SET due=0 WHERE id=?", (id,))
        starts = [frames.line_of(next(journal.split(it.input))[1]) for it in (first, self.claims()[id])]
        self.assertEqual(["retry_count=1" in it for it in starts], [False, True])
        self.assertEqual([f"random_seed={seed}" in it for it in starts], [True, True])
        self.assertGreater(seed, 0)

    def test_a_stop_leaves_what_is_stored(self):
        """What an attempt wrote and wasn't stored is lost, and nothing else of its invocation."""
        for how, lines in (("released", None), ("suspended", ["Suspension future=(kind=FirstCompleted signals=[1])"]), ("failed", ['Error code=500 message="m" behaviour=Retry'])):
            with self.subTest(how):
                claim = self.begun("S/works")
                id = claim.invocation
                self.store(claim, call(1, 2), f"Sleep wake_up_time={FAR} result_completion_id=3")
                kept = [f"SELECT * FROM {it} WHERE invocation=?" for it in ("journal", "timers")] + ["SELECT * FROM waiters WHERE waiter=?"]
                before = [self.rows(it, id) for it in kept]
                if lines is None:
                    self.db.done(lambda db: storing.release(db, app, claim))
                else:
                    self.store(claim, *lines)
                self.assertEqual([self.rows(it, id) for it in kept], before)
                [(status, found)] = self.rows("SELECT status, how FROM invocations WHERE id=?", id)
                self.assertEqual((status, found), ("suspended" if how == "suspended" else "ready", how))
                self.db.change("UPDATE invocations SET status='paused' WHERE status<>'done'")

    def test_all_stop_with_their_worker(self):
        """What runs by a worker that isn't alive is claimed anew, with a greater epoch and the stored journal."""
        claims = [self.begun("S/works") for _ in range(3)]
        for it in claims:
            self.store(it, f"Sleep wake_up_time={FAR} result_completion_id=1")
        before = self.rows("SELECT invocation, at, frame FROM journal ORDER BY invocation, at")
        self.db.change("DELETE FROM workers WHERE id='one'")
        self.enter("two")
        again = self.claims("two")
        self.assertEqual({id: it.lease.epoch for id, it in again.items()}, {it.invocation: 2 for it in claims})
        self.assertEqual(self.rows("SELECT invocation, at, frame FROM journal ORDER BY invocation, at"), before)
        self.assertEqual(self.rows("SELECT DISTINCT status, worker FROM invocations"), [("running", "two")])


@support.on_each_database
class Ends(OnRows):
    def test_an_invocation_ends_with_its_output(self):
        """Its result is the Output's, it gets and waits for nothing more, and nobody begins it or stores for it."""
        claim = self.begun("O/alone", "k")
        id = claim.invocation
        self.store(claim, call(1, 2), f"Sleep wake_up_time={FAR} result_completion_id=3")
        self.db.done(lambda db: inbox.deliver(db, Outcome(), id, journal.named_signal("go", journal.void())))
        self.store(claim, 'Output result=failure(code=418 message="no")', "End")
        sql = "SELECT status, result, failed, entries FROM invocations WHERE id=?"
        row = ("done", frames.frame_of('Output result=failure(code=418 message="no")'), 418, 5)
        self.assertEqual(self.rows(sql, id), [row])
        for table, column in (("inbox", "invocation"), ("timers", "invocation"), ("waiters", "waiter"), ("locks", "holder")):
            self.assertEqual(self.rows(f"SELECT * FROM {table} WHERE {column}=?", id), [], table)
        before = self.all_rows()
        self.assertFalse(self.db.done(lambda db: inbox.deliver(db, Outcome(), id, journal.void())))
        with self.assertRaises(Fenced):
            self.store(claim, "Sleep wake_up_time=1000 result_completion_id=4")
        with self.assertRaises(TerminalError):
            self.db.done(lambda db: acts.kill(db, app, Outcome(), id, "ann"))
        self.assertEqual(self.all_rows(), before)
        self.assertNotIn(id, self.claims())

    def test_an_output_without_an_end(self):
        """In the model the Output is the end. Here it is the End: until then the invocation runs, and a later attempt ends it with that Output."""
        claim = self.begun("S/works")
        id, sql = claim.invocation, "SELECT status, result FROM invocations WHERE id=?"
        self.store(claim, 'Output result=value("1")')
        self.assertEqual(self.rows(sql, id), [("running", None)])
        self.db.done(lambda db: storing.release(db, app, claim))
        again = self.claims()[id]
        self.assertEqual(self.lines(id), ["Input", 'Output result=value("1")'])
        self.store(again, "End")
        self.assertEqual(self.rows(sql, id), [("done", frames.frame_of('Output result=value("1")'))])

    def test_what_comes_at_once_is_after_the_output(self):
        """A call's id is an entry after all that its transaction stores, also after an Output, where the model leaves it in the inbox."""
        claim = self.begun("S/works")
        self.store(claim, call(1, None), *ENDS)
        child = effects.child_of(claim.invocation, 1)
        self.assertEqual(self.lines(claim.invocation)[2:], ['Output result=value("1")', f'Notification id=completion(1) result=invocation_id("{child}")'])

    def test_an_end_without_an_output(self):
        """An operator's, a time limit's, or a failure for good: the model has none of these."""
        kill, fails = self.begun("S/works"), self.begun("S/fails")
        self.db.done(lambda db: acts.kill(db, app, Outcome(), kill.invocation, "ann"))
        self.store(fails, 'Error code=500 message="m" behaviour=Retry')
        sql = "SELECT status, failed FROM invocations ORDER BY seq"
        self.assertEqual(self.rows(sql), [("done", 409), ("done", 500)])
        self.assertEqual([self.lines(it.invocation) for it in (kill, fails)], [["Input"]] * 2)


if __name__ == "__main__":
    unittest.main()
