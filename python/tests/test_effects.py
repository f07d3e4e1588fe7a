"""What each command asks of a runtime. The values are those of the lines that the frames show."""

import base64
import unittest

from palqytun import _abi, _library
from palqytun.effects import Attach, Begin, Change, Effect, Output, Promise, Read, Send, Wait
from palqytun.errors import BadFrame
from palqytun.frames import frame_of
from palqytun.journals import Journal


def awakeable(invocation: bytes, signal: int) -> str:
    """The id of an awakeable: its invocation's id and its signal's number."""
    return "sign_1" + base64.urlsafe_b64encode(invocation + signal.to_bytes(4, "big")).decode().rstrip("=")


def came(id: str, result: str) -> bytes:
    return frame_of(f"Notification id={id} result={result}")


CALL = 'service_name="S" handler_name="h" parameter="x" invocation_id_notification_idx=2'
SENT = f'service_name="S" handler_name="h" key="k" idempotency_key="i" headers=[("a" "b"), ("c" "")] parameter="" invoke_time={2**64 - 1}'
FAILURE = 'failure(code=409 message="no" metadata=[("k" "v")])'
ENDS = 'Output result=value("v")'
DONE = f'CompletePromise key="k" completion={FAILURE} result_completion_id=1'
NAMED = 'target=IdempotencyId(service_name="S" handler_name="h" idempotency_key="i"'

AWAITS = 'GetPromise key="k" result_completion_id=1'
LOOKS = (24).to_bytes(2, "big") + frame_of(AWAITS)[2:]  # the same body

ASKED: list[tuple[str | bytes, Effect | None]] = [
    (f"Call {CALL} result_completion_id=3", Begin("S", "h", "", None, (), b"x", 0, 2, 3)),
    (f"Call {CALL}", Begin("S", "h", "", None, (), b"x", 0, 2, 0)),
    (f"OneWayCall {SENT} invocation_id_notification_idx=2", Begin("S", "h", "k", "i", (("a", "b"), ("c", "")), b"", 2**64 - 1, 2, None)),
    ("Sleep wake_up_time=1000 result_completion_id=1", Wait(1, 1000)),
    ('SendSignal target_invocation_id="t" signal=index(0) result=void', Send(b"t", came("signal(0)", "void"), False)),
    ('SendSignal target_invocation_id="t" signal=name("go") result=value("v")', Send(b"t", came('name("go")', 'value("v")'), False)),
    (f'SendSignal target_invocation_id="" signal=index(7) result={FAILURE}', Send(b"", came("signal(7)", FAILURE), False)),
    (f'CompleteAwakeable awakeable_id="{awakeable(b"inv_1", 17)}" result=value("v")', Send(b"inv_1", came("signal(17)", 'value("v")'), True)),
    (f'CompleteAwakeable awakeable_id="{awakeable(b"", 2**32 - 1)}" result={FAILURE}', Send(b"", came(f"signal({2**32 - 1})", FAILURE), True)),
    (f'CompleteAwakeable awakeable_id="{awakeable(bytes([255]), 1)}" result=value("")', Send(b"\xff", came("signal(1)", 'value("")'), True)),
    ('CompleteAwakeable awakeable_id="sign_1" result=value("v")', None),
    (f'CompleteAwakeable awakeable_id="{awakeable(b"inv_1", 17)}=" result=value("v")', None),
    (ENDS, Output(frame_of(ENDS))),
    (f"Output result={FAILURE}", Output(frame_of(f"Output result={FAILURE}"))),
    ('SetState key="k" value="v"', Change("k", b"v")),
    ('SetState key="k"', Change("k", b"")),
    ('ClearState key="k"', Change("k", None)),
    ("ClearAllState", Change(None, None)),
    ('GetLazyState key="k" result_completion_id=1', Read(1, "k")),
    ("GetLazyStateKeys result_completion_id=1", Read(1, None)),
    (AWAITS, Promise(1, "k", False, None)),
    (LOOKS, Promise(1, "k", True, None)),
    (DONE, Promise(1, "k", False, frame_of(DONE))),
    ('AttachInvocation target=InvocationId("i") result_completion_id=1', Attach(1, "i", "", None, "", None, False)),
    ('AttachInvocation target=WorkflowId(name="n" key="k") result_completion_id=1', Attach(1, None, "n", None, "k", None, False)),
    (f'GetInvocationOutput {NAMED} service_key="k") result_completion_id=1', Attach(1, None, "S", "h", "k", "i", True)),
    (f"GetInvocationOutput {NAMED}) result_completion_id=1", Attach(1, None, "S", "h", "", "i", True)),
    ('Input value="x"', None),
    ('GetEagerState key="k" result=void', None),
    ("GetEagerStateKeys", None),
    ('Run name="r" result_completion_id=1', None),
]

class Effects(unittest.TestCase):
    def test_each_command(self) -> None:
        for asked, wanted in ASKED:
            with self.subTest(asked=asked):
                [row] = Journal().store(asked if isinstance(asked, bytes) else frame_of(asked)).rows
                self.assertEqual(row.effect, wanted)

    def test_rows_of_one_store(self) -> None:
        """Each row has its own effect, and it stays what it was."""
        journal = Journal([frame_of("Input")])
        lines = ("Sleep wake_up_time=5 result_completion_id=1", 'Run name="r" result_completion_id=2', 'ProposeRunCompletion id=2 result=value("v")', 'ClearState key="k"')
        first = journal.store(b"".join(map(frame_of, lines)))
        journal.store(frame_of("ClearAllState"))
        self.assertEqual([row.effect for row in first.rows], [Wait(1, 5), None, None, Change("k", None)])

    def test_the_result_of_a_row(self) -> None:
        """In C a part of an output's effect, and of a promise's completion, is a notification that has the result, or the parts of it."""
        calls = _library.library().calls
        journal = Journal()
        for line, place, wanted in ((ENDS, 1, came("completion(0)", 'value("v")')), (f"Output result={FAILURE}", 1, came("completion(0)", FAILURE)), (DONE, 8, b"no")):
            journal.store(frame_of(line))
            self.assertEqual(calls["journal_effect_part"](journal._handle, 0, place), wanted)
            self.assertEqual(calls["journal_effect_part"](journal._handle, 0, 99), _abi.NO_PART)
            self.assertEqual(calls["journal_effect_part"](journal._handle, 1, place), _abi.NO_ROW)

    def test_silent_rows(self) -> None:
        """The core says of a run and of a completion that they ask for nothing, as the package counts on."""
        calls = _library.library().calls
        journal = Journal([frame_of("Input")])
        made = journal.store(frame_of('Run name="r" result_completion_id=2') + frame_of('ProposeRunCompletion id=2 result=value("v")'))
        for at in range(len(made.rows)):
            said = calls["journal_effect"](journal._handle, at)
            self.assertEqual((said.status, said.kind), (_abi.DONE, _abi.EFFECT_NOTHING))
        self.assertEqual(calls["journal_effect"](journal._handle, 2).status, _abi.NO_ROW)

    def test_a_command_that_cannot_be_read(self) -> None:
        """Nothing of such an output is stored: neither what stands before it nor after."""
        journal = Journal([frame_of("Input")])
        journal.arrive(came("signal(17)", "void"))
        journal.keep()
        cut = (18).to_bytes(2, "big") + (1).to_bytes(8, "big") + b"x"
        no_text = frame_of('ClearState key="k"').replace(b"k", b"\xff")  # a name is UTF-8
        for wrong in (cut, no_text):
            with self.subTest(wrong=wrong):
                self.assertRaises(BadFrame, journal.store, frame_of("ClearAllState") + wrong + frame_of("ClearAllState"))
                self.assertEqual(journal.entries, 2)
