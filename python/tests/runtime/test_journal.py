"""The rules of storing, each broken once, and the frames against those of docs/WIRE.md and of the core's own printer."""

import os
import subprocess
import tracemalloc
import unittest

import support  # isort: skip
from palqytun import frames as core
from palqytun.runtime import journal
from palqytun.runtime.invocations import load
from palqytun.runtime.database.plain import Plain
from palqytun.runtime.journal import Begin, BrokenRule, Journal, frames
from palqytun.runtime.lease import Fenced, Growth, Lease


def frame(kind, body):
    return kind.to_bytes(2, "big") + len(body).to_bytes(8, "big") + body


def number(it, size=4):
    return it.to_bytes(size, "big")


def text(it):
    return number(len(it), 8) + it.encode()


def sleep(id, due=1000):
    return frame(18, number(due, 8) + number(id) + text(""))


def run(id):
    return frame(26, text("run") + number(id))


def call(invocation_id, id):
    body = text("S") + text("h") + text("") + b"\0\0\0" + number(0, 8) + text("x") + number(invocation_id) + text("") + number(id)
    return frame(19, body)


def proposal(id):
    return frame(5, number(id) + b"\0" + text("x"))


INPUT = journal.input_command(b"x")

WHOLE = object()  # the frame itself, as the result that it has
CALLED = "S", "h", "k", "i", (("a", "b"), ("c", "d")), b"x", 2
READINGS = [  # a frame by its line, and what it is read as
    ('GetLazyState key="k" result_completion_id=1', frames.Read, (1, "k")),
    ("GetLazyStateKeys result_completion_id=1", frames.Read, (1, None)),
    ('SetState key="k" value="v"', frames.Change, ("k", b"v")),
    ('SetState key="k"', frames.Change, ("k", b"")),
    ('ClearState key="k"', frames.Change, ("k", None)),
    ("ClearAllState", frames.Change, (None, None)),
    ("Sleep wake_up_time=1000 result_completion_id=1", frames.Sleep, (1, 1000)),
    (
        'Call service_name="S" handler_name="h" parameter="x" invocation_id_notification_idx=2 result_completion_id=3',
        frames.Call,
        ("S", "h", "", None, (), b"x", 2, 3, 0),
    ),
    (
        'OneWayCall service_name="S" handler_name="h" key="k" idempotency_key="i" headers=[("a" "b"), ("c" "d")] parameter="x"'
        " invoke_time=5 invocation_id_notification_idx=2",
        frames.Call,
        (*CALLED, None, 5),
    ),
    ('CompleteAwakeable awakeable_id="a" result=value("v")', frames.CompleteAwakeable, ("a", WHOLE)),
    ('SendSignal target_invocation_id="t" signal=index(0) result=void', frames.SendSignal, ("t", 0, None, WHOLE)),
    ('SendSignal target_invocation_id="t" signal=name("go") result=void', frames.SendSignal, ("t", None, "go", WHOLE)),
    ('GetPromise key="k" result_completion_id=1', frames.Promise, (1, "k", False, None)),
    ('PeekPromise key="k" result_completion_id=1', frames.Promise, (1, "k", True, None)),
    ('CompletePromise key="k" completion=value("v") result_completion_id=1', frames.Promise, (1, "k", False, WHOLE)),
    ('Run name="r" result_completion_id=1', frames.Run, (1, "r")),
    ('AttachInvocation target=InvocationId("i") result_completion_id=1', frames.Attach, (1, "i", "", None, "", None, False)),
    ('AttachInvocation target=WorkflowId(name="n" key="k") result_completion_id=1', frames.Attach, (1, None, "n", None, "k", None, False)),
    (
        'GetInvocationOutput target=IdempotencyId(service_name="S" service_key="k" handler_name="h" idempotency_key="i") result_completion_id=1',
        frames.Attach,
        (1, None, "S", "h", "k", "i", True),
    ),
    (
        'GetInvocationOutput target=IdempotencyId(service_name="S" handler_name="h" idempotency_key="i") result_completion_id=1',
        frames.Attach,
        (1, None, "S", "h", "", "i", True),
    ),
    ('Error code=500 message="m" stacktrace="s" behaviour=Pause delay=7', frames.Failed, (500, "m", "s", "pause", 7)),
    ('Error code=500 message="m" behaviour=Retry', frames.Failed, (500, "m", "", "retry", None)),
    ('ProposeRunCompletion id=3 result=value("v")', frames.Proposal, (3, WHOLE)),
    ("Notification id=signal(0) result=void", frames.Notification, ((1, 0), WHOLE)),
    ('Notification id=name("go") result=value("v")', frames.Notification, ((2, "go"), WHOLE)),
    ('Notification id=completion(2) result=failure(code=1 message="m")', frames.Notification, ((0, 2), WHOLE)),
    ('Input headers=[("a" "b"), ("c" "d")] value="x"', frames.Input, ((("a", "b"), ("c", "d")), b"x")),
]


def begun():
    """A journal with an open sleep (1), an open call (2 and 3) and an open run (4), whose attempt has begun."""
    it = Journal()
    for entry in (INPUT, sleep(1), call(2, 3), run(4)):
        it.entry(entry)
    it.keep()
    it.start(Begin("inv", "", 7))
    return it


def broken(rule, method, *arguments):
    try:
        method(*arguments)
    except BrokenRule as error:
        assert error.rule == rule, error
    else:
        raise AssertionError(f"{rule} was broken, and nothing was said")


def stored(folder):
    db = Plain(str(folder / "db"))
    db.change(
        "INSERT INTO invocations(id, service, handler, key, exclusive, version, seed, status, due, epoch, entries, created)"
        " VALUES ('inv','s','h','',0,7,1,'running',0,1,1,0)"
    )
    db.change("INSERT INTO journal(invocation, at, frame) VALUES ('inv',0,?)", (INPUT,))
    return db


def growth(db, epoch):
    loaded = db.wait(load(db.db, "inv", db.rows("SELECT entries FROM invocations")[0][0]))
    loaded.start(Begin("inv", "", 7))
    return Growth(Lease("inv", epoch, loaded))


def suspension(kind, completions=(), nested=()):
    """The frame of a suspension, by the core, and what stands in the brackets of its future."""
    shown = f"(kind={kind} completions={list(completions)} nested=[{', '.join(nested)}])"
    return core.frame_of(f"Suspension future={shown}"), shown


def is_awake(kind, completions, *came):
    return journal.is_awake(suspension(kind, completions)[0], came)


# The two frames that docs/WIRE.md writes out.
SLEEP = "0012 0000000000000014 00000190baf7798e 00000001 0000000000000000"
FAILED = (
    "001e 000000000000002e 00 00000001 02 00000199 0000000000000002 6e6f 0000000000000001 0000000000000001 6b 0000000000000001 76"
)


LINES = """\
Input headers=[("a" "b")] value="x"
Start id="inv" debug_id="inv" key="k" known_entries=3 state=[("n" "v")] partial=true retry_count=2 duration=7 random_seed=9 idempotency_key="i"
Notification id=completion(1) result=void
Notification id=completion(2) result=value("x")
Notification id=completion(3) result=failure(code=409 message="no" metadata=[("k" "v")])
Notification id=completion(4) result=invocation_id("inv2")
Notification id=completion(5) result=state_keys(["a", "b"])
Notification id=signal(17) result=void
Notification id=name("go") result=void
"""


class Rules(support.InAFolder, unittest.TestCase):
    def test_each_id_once(self):
        it = begun()
        assert it.arrive(journal.completion(1, journal.void())).at == 4
        it.keep()
        broken("ONCE", it.arrive, journal.completion(1, journal.void()))
        broken("ONCE", it.arrive, journal.completion(9, journal.void()))
        it.store(proposal(4), 0)
        it.keep()
        broken("ONCE", it.store, proposal(4), it.written)

    def test_the_right_kind(self):
        it = begun()
        broken("KIND", it.arrive, journal.completion(2, journal.void()))
        broken("KIND", it.arrive, journal.completion(4, journal.value(b"x")))
        broken("KIND", it.arrive, sleep(9))
        broken("KIND", it.store, proposal(2), 0)
        assert it.arrive(journal.completion(2, journal.invocation("inv2"))).completes == 2

    def test_the_output_in_order(self):
        it = begun()
        broken("IN-ORDER", it.store, sleep(5), 1)
        it.store(sleep(5), 0)
        broken("IN-ORDER", it.store, sleep(6), 0)
        it.store(sleep(6), len(sleep(5)))

    def test_a_proposal_is_stored_as_its_completion_and_acknowledged(self):
        stored = begun().store(proposal(4), 0)
        assert [(it.at, it.completes, it.frame) for it in stored.entries] == [(4, 4, journal.completion(4, journal.value(b"x")))]
        assert stored.feed == [frame(6, number(4))]

    def test_the_whole_journal_is_handed_out(self):
        it = Journal()
        broken("WHOLE", it.start, Begin("inv", "", 7))
        broken("WHOLE", it.entry, sleep(1))
        it = Journal()
        it.entry(INPUT)
        broken("WHOLE", it.entry, INPUT + sleep(1))
        it.entry(INPUT)
        it.entry(sleep(1))
        begin = it.start(Begin("inv", "", 7))
        assert begin.endswith(INPUT + sleep(1)) and begin[:2] == b"\0\1"
        broken("WHOLE", it.entry, sleep(2))

    def test_what_is_not_committed_is_taken_back(self):
        it = begun()
        it.keep()
        it.store(proposal(4) + sleep(5), 0)
        it.arrive(journal.completion(5, journal.void()))
        it.undo()
        assert (it.entries, it.written) == (4, 0)
        stored = it.store(proposal(4) + sleep(5), 0)
        assert [entry.at for entry in stored.entries] == [4, 5]
        it.keep()
        it.undo()
        broken("ONCE", it.store, proposal(4), it.written)
        assert it.arrive(journal.completion(5, journal.void())).at == 6

    def test_the_state_as_the_commands_leave_it(self):
        it = Journal()
        it.entry(INPUT)
        it.entry(frame(15, text("") + text("a") + text("1")))
        it.entry(frame(17, text("")))
        it.entry(frame(15, text("") + text("b") + text("2")))
        it.entry(frame(15, text("") + text("c") + text("3")))
        it.entry(frame(16, text("") + text("c")))
        assert it.state({"z": b"0"}) == {"b": b"2"}

    def test_the_new_journal_begins_with_the_old(self):
        db = stored(self.folder)
        first, second = growth(db, 1), growth(db, 1)
        for one in (first, second):
            one.store(sleep(1), 0)
        db.wait(first.fence(db.db))
        db.wait(first.write(db.db))
        for step in (second.fence, second.write):
            with self.assertRaises(Fenced):
                db.wait(step(db.db))
        other = growth(db, 1)
        db.change("UPDATE invocations SET epoch=2")
        other.store(sleep(2), 0)
        for step in (other.fence, other.write):
            with self.assertRaises(Fenced):
                db.wait(step(db.db))
        assert db.rows("SELECT COUNT(*) FROM journal") == [(2,)]

    def test_a_journal_with_a_gap_is_refused(self):
        db = stored(self.folder)
        broken("WHOLE", lambda: db.wait(load(db.db, "inv", 2)))
        db.change("INSERT INTO journal(invocation, at, frame) VALUES ('inv',2,?)", (sleep(1),))
        broken("WHOLE", lambda: db.wait(load(db.db, "inv", 2)))

    def test_a_future_of_a_suspension(self):
        won, lost = (journal.completion(1, it) for it in (journal.void(), journal.failure(1, "x")))
        first, all_of, any_of, every = "FirstCompleted", "AllCompleted", "FirstSucceededOrAllFailed", "AllSucceededOrFirstFailed"
        assert is_awake(first, [1, 2], won) and not is_awake(first, [2], won)
        assert not is_awake(all_of, [1, 2], won) and is_awake(all_of, [1, 2], won, journal.completion(2, journal.failure(1, "x")))
        assert is_awake(any_of, [1, 2], won) and not is_awake(any_of, [1, 2], lost)
        assert is_awake(every, [1, 2], lost) and not is_awake(every, [1, 2], won)
        either = [suspension(first, [1, 2])[1], suspension(first, [3])[1]]
        assert journal.is_awake(suspension(all_of, [], either)[0], [won])
        assert not journal.is_awake(suspension(first, [], [suspension(all_of, [1, 2])[1]])[0], [won])
        assert not is_awake("Unknown", [], won)

    def test_the_first_notification_of_an_id_counts(self):
        lost = journal.failure(1, "x")
        waits = core.frame_of('Suspension future=(kind=FirstSucceededOrAllFailed completions=[1] named=["b"])')
        came = [sleep(1), journal.completion(1, lost), journal.completion(1, journal.void()), journal.named_signal("a", journal.void())]
        assert not journal.is_awake(waits, came) and journal.is_awake(waits, [*came, journal.named_signal("b", lost)])

    def test_what_cannot_be_read_is_not_stored(self):
        it = begun()
        broken("IN-ORDER", it.store, sleep(5) + frame(18, b"x"), 0)
        assert (it.entries, it.written) == (4, 0)
        it.store(sleep(5), 0)

    def test_each_message_is_read(self):
        for line, kind, fields in READINGS:
            with self.subTest(line):
                whole = core.frame_of(line)
                [it] = journal.messages_in(whole)
                assert it == kind(*(whole if field is WHOLE else field for field in fields)), it

    def test_results_are_frames(self):
        written = core.frame_of('Output result=failure(code=409 message="no" metadata=[("k" "v")])')
        assert journal.answer(written) == ("failure", (409, "no", (("k", "v"),))) and journal.is_failure(written)
        assert journal.answer(journal.keys(["a", "\u00e9"])) == ("keys", ["a", "\u00e9"])
        assert journal.answer(journal.invocation("inv2")) == ("invocation", "inv2")
        assert journal.answer(journal.value(bytes(range(256)))) == ("value", bytes(range(256)))
        assert journal.answer(journal.value(b"")) == ("value", b"") and journal.answer(journal.void()) == ("void", None)

    def test_an_answer_is_of_the_version(self):
        it = Journal(6)
        for entry in (INPUT, run(4)):
            it.entry(entry)
        it.start(Begin("inv", "", 7))
        assert it.store(proposal(4), 0).feed == [journal.completion(4, journal.value(b"x"))]

    def test_the_frames_of_the_document(self):
        assert next(journal.commands_in(bytes.fromhex(SLEEP)))[0] == journal.Sleep(1, 1721123699086)
        assert journal.completion(1, journal.failure(409, "no", [("k", "v")])) == bytes.fromhex(FAILED)

    def test_frames_cut_short_are_refused(self):
        whole = bytes.fromhex(SLEEP)
        for length in range(1, len(whole)):
            with self.assertRaises(ValueError):
                list(frames.split(whole[:length]))
        with self.assertRaises(ValueError):
            frames.read(18, whole[:20])
        with self.assertRaises(ValueError):
            frames.read(8, frame(8, b""))

    def test_lines_to_read(self):
        assert journal.line_of(bytes.fromhex(SLEEP)) == "Sleep id=1 due=1721123699086"
        assert "failure((409, 'no', (('k', 'v'),)))" in journal.line_of(bytes.fromhex(FAILED))

    def test_frames_are_those_of_the_core(self):
        """By the library, and by the program `frames` if PALQYTUN_FRAMES names it."""
        written = [
            journal.input_command(b"x", [("a", "b")]),
            frames.start(Begin("inv", "k", 9, [("n", b"v")], True, 2, 7, "i"), 3),
            journal.completion(1, journal.void()),
            journal.completion(2, journal.value(b"x")),
            journal.completion(3, journal.failure(409, "no", [("k", "v")])),
            journal.completion(4, journal.invocation("inv2")),
            journal.completion(5, journal.keys(["a", "b"])),
            journal.signal(17, journal.void()),
            journal.named_signal("go", journal.void()),
        ]
        assert "".join(f"{core.line_of(it)}\n" for it in written) == LINES
        if "PALQYTUN_FRAMES" in os.environ:
            printed = subprocess.run([os.environ["PALQYTUN_FRAMES"]], input=b"".join(written), stdout=subprocess.PIPE, check=True).stdout.decode()
            assert printed == LINES


class Large(unittest.TestCase):
    """Values whose bytes are read from lines."""

    def test_the_bytes_of_each_value(self):
        for text in ("", "plain", 'a "quoted" \\\\ word\n\t\0\x7f', "é" * 50, "é" * 40_000, '\\"' * 40_000, "x" * 70_000 + "\n", "\\x41" * 30_000):
            with self.subTest(text=text[:20], size=len(text)):
                data = text.encode()
                self.assertEqual(journal.answer(journal.value(data)), ("value", data))
        every = bytes(range(256)) * 300
        self.assertEqual(journal.answer(journal.value(every)), ("value", every))

    def test_the_memory_of_a_large_value(self):
        """Each byte that isn't ASCII is four characters of a line, which is there some times. It was more than a hundred bytes for each character."""
        for letter, most in (("x", 8), ("ж", 24)):
            result = journal.value(data := letter.encode() * (2_000_000 // len(letter.encode())))
            tracemalloc.start()
            try:
                self.assertEqual(journal.answer(result), ("value", data))
                peak = tracemalloc.get_traced_memory()[1]
            finally:
                tracemalloc.stop()
            self.assertLess(peak, most * len(data), letter)


if __name__ == "__main__":
    unittest.main()
