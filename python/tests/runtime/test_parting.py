"""The field in which a call isn't as the recorded command: by the core for each command, and with both values for a reader."""

import unittest

from palqytun.frames import difference, frame_of
from palqytun.runtime.parting import Asked, between, parted
from palqytun.runtime.journal import Begin, input_command

REQUEST = (
    'service_name="s" handler_name="h" key="k" idempotency_key="i" scope="c" limit_key="l" headers=[("a" "b")] parameter="p"'
    ' invocation_id_notification_idx=1 name="n"'
).split(" ")
REQUEST[6:8] = [" ".join(REQUEST[6:8])]
CALLED = ("service_name", "handler_name", "key", "idempotency_key", "scope", "limit_key", "headers", "parameter", "name", "invocation_id_notification_idx")
COMMANDS = {
    "GetEagerState": (['name="n"', 'key="k"', 'result=value("v")'], ("name", "key", "result")),
    "GetLazyState": (['name="n"', 'key="k"', "result_completion_id=1"], ("name", "key", "result_completion_id")),
    "GetEagerStateKeys": (['value=["k"]', 'name="n"'], ("value", "name")),
    "GetLazyStateKeys": (["result_completion_id=1", 'name="n"'], ("name", "result_completion_id")),
    "SetState": (['name="n"', 'key="k"', 'value="v"'], ("name", "key", "value")),
    "ClearState": (['name="n"', 'key="k"'], ("name", "key")),
    "ClearAllState": (['name="n"'], ("name",)),
    "Sleep": (["result_completion_id=1", 'name="n"'], ("name", "result_completion_id")),
    "Call": ([*REQUEST, "result_completion_id=2"], (*CALLED, "result_completion_id")),
    "OneWayCall": (REQUEST, CALLED),
    "CompleteAwakeable": (['awakeable_id="a"', 'result=value("v")'], ("awakeable_id", "result")),
    "SendSignal": (['target_invocation_id="t"', 'signal=name("s")', 'result=value("v")'], ("target_invocation_id", "signal", "result")),
    **{f"{kind}Promise": (['key="k"', "result_completion_id=1"], ("key", "result_completion_id")) for kind in ("Get", "Peek")},
    "CompletePromise": (['key="k"', 'completion=value("v")', "result_completion_id=1"], ("key", "completion", "result_completion_id")),
    "Run": (['name="n"', "result_completion_id=1"], ("name", "result_completion_id")),
    "AttachInvocation": (['target=InvocationId("t")', "result_completion_id=1"], ("target", "result_completion_id")),
    "GetInvocationOutput": (['target=InvocationId("t")', "result_completion_id=1"], ("target", "result_completion_id")),
    "Output": (['result=value("v")'], ("result",)),
}
"""Each command with a field, and its fields in the order in which a difference is looked for."""
PAYLOADS = {("GetEagerState", "result"), ("GetEagerStateKeys", "value"), ("SetState", "value"), ("Call", "parameter"), ("OneWayCall", "parameter")} | {
    ("CompleteAwakeable", "result"), ("SendSignal", "result"), ("CompletePromise", "completion"), ("Output", "result")
}
OTHER = {
    "headers": 'headers=[("a" "c")]', "result": 'result=failure(code=1 message="m")', "completion": 'completion=failure(code=1 message="m")',
    "signal": "signal=index(17)", "target": 'target=InvocationId("u")', "value": None,
}


def _line(command, fields):
    return frame_of(" ".join([command, *fields]))


def _changed(command, fields, name):
    """The fields, of which that of this name has another value."""
    other = OTHER.get(name) or (f"{name}=7" if name.endswith(("_id", "_idx")) and command not in ("CompleteAwakeable", "SendSignal") else f'{name}="x"')
    if command.startswith("GetEagerState") and name in ("value", "result"):
        other = 'value=["x"]' if name == "value" else "result=void"
    return [other if it.startswith(f"{name}=") else it for it in fields]


class Fields(unittest.TestCase):
    """`palqytun.frames.difference`."""

    def test_each_field_of_each_command(self):
        for command, (fields, names) in COMMANDS.items():
            recorded = _line(command, fields)
            self.assertIsNone(difference(recorded, recorded))
            for name in names:
                with self.subTest(command=command, name=name):
                    asked = _line(command, _changed(command, fields, name))
                    self.assertEqual(difference(recorded, asked), name)
                    self.assertEqual(difference(recorded, asked, True), None if (command, name) in PAYLOADS else name)

    def test_the_first_of_two(self):
        for command, (fields, names) in COMMANDS.items():
            for first, second in zip(names, names[1:], strict=False):
                with self.subTest(command=command, first=first, second=second):
                    asked = _line(command, _changed(command, _changed(command, fields, first), second))
                    self.assertEqual(difference(_line(command, fields), asked), first)

    def test_another_type(self):
        for command, (fields, _) in COMMANDS.items():
            for other, (others, _) in COMMANDS.items():
                if command != other:
                    self.assertEqual(difference(_line(command, fields), _line(other, others)), "type")

    def test_what_replay_doesnt_look_at(self):
        self.assertIsNone(difference(frame_of("Sleep wake_up_time=1"), frame_of("Sleep wake_up_time=2")))
        self.assertIsNone(difference(frame_of("OneWayCall invoke_time=1"), frame_of("OneWayCall invoke_time=2")))
        self.assertIsNone(difference(input_command(b"a"), input_command(b"b")))

    def test_no_command(self):
        done, failed = (frame_of(f"Notification id=completion(1) result={it}") for it in ("void", 'failure(code=1 message="m")'))
        self.assertEqual((difference(done, failed), difference(done, failed, True)), ("body", None))


class Values(unittest.TestCase):
    """What a reader gets."""

    def test_a_field_with_both_values(self):
        it = between(2, *(frame_of(f'SetState key="k" value="{value}"') for value in "ab"), "value")
        self.assertEqual((it.command, it.field, it.recorded, it.asked), (2, "value", "b'a'", "b'b'"))
        self.assertEqual(str(it), "command 2, SetState 'k', is recorded with value b'a', and the code gives b'b'")

    def test_a_field_that_a_reader_doesnt_see(self):
        it = between(1, frame_of('Sleep name="a"'), frame_of('Sleep name="b"'), "name")
        self.assertEqual((it.field, it.recorded, it.asked), ("name", 'Sleep name="a"', 'Sleep name="b"'))

    def test_a_value_is_shortened(self):
        it = between(1, *(frame_of(f'Run name="{name * 1000}"') for name in "ab"), "name")
        self.assertEqual((len(it.recorded), len(it.asked)), (120, 120))

    def test_a_read_is_made_in_the_form_that_is_recorded(self):
        begin, input = Begin("abc", "k", 0), input_command(b"")
        for form in ('GetEagerState key="{}" result=value("v")', 'GetLazyState key="{}" result_completion_id=1'):
            entries = [input, frame_of(form.format("old"))]
            it = parted(entries, 1, Asked("sys_state_get", ("new",), {}), 7, begin)
            self.assertEqual(it.field, "key")


if __name__ == "__main__":
    unittest.main()
