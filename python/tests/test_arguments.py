"""Arguments are checked where they are given: each wrong one is refused by its name, and nothing was done."""

import unittest

import palqytun
from attempt import CONTENT_TYPE, begun
from methods import parameters
from palqytun import LAST_COMMAND, VM, AnyOf, BadLine, CommandType, Failure, IdempotencyId, InvocationId, NextCommand, Related, Retryable, WorkflowId
from palqytun import first_completed, retry_exponential, retry_fixed
from palqytun._words import text
from palqytun.frames import Message, difference, frame_of

HALF = "file-\udcff"

# An argument for each type that a parameter has.
SAMPLES = {
    "str": "x",
    "str | None": "x",
    "int": 1,
    "int | None": 1,
    "bool": True,
    "Data": b"",
    "Data | Failure": b"",
    "Data | Failure | Retryable": b"",
    "Behaviour": "retry",
    "int | Future | AnyOf": 17,
    "Iterable[tuple[str, str]]": (),
    "RetryPolicy": retry_fixed(5),
    "RelatedCommand | None": LAST_COMMAND,
    "Target": InvocationId("inv_1"),
}

# Calls with an argument of the wrong type, and what the error says.
WRONG_TYPES = [
    (lambda vm: vm.sys_sleep("x"), "wake_up_time must be an int, not str"),
    (lambda vm: vm.sys_sleep(1.5), "wake_up_time must be an int, not float"),
    (lambda vm: vm.sys_sleep(True), "wake_up_time must be an int, not bool"),
    (lambda vm: vm.sys_sleep(1, name=None), "name must be a str, not NoneType"),
    (lambda vm: vm.sys_sleep(1, now="x"), "now must be an int, not str"),
    (lambda vm: vm.sys_state_get(b"k"), "key must be a str, not bytes"),
    (lambda vm: vm.sys_state_get("k", name=1), "name must be a str, not int"),
    (lambda vm: vm.sys_state_get("k", unstable="no"), "unstable must be a bool, not str"),
    (lambda vm: vm.sys_state_get_keys(name=1), "name must be a str, not int"),
    (lambda vm: vm.ephemeral_state_get(1), "key must be a str, not int"),
    (lambda vm: vm.take_ephemeral_notification("1"), "id must be an int, not str"),
    (lambda vm: vm.sys_state_set("k", 5), "value must be bytes, not int"),
    (lambda vm: vm.sys_state_set("k", "v"), "value must be bytes, not str"),
    (lambda vm: vm.sys_state_set("k", None), "value must be bytes, not NoneType"),
    (lambda vm: vm.sys_state_clear(1), "key must be a str, not int"),
    (lambda vm: vm.sys_state_clear_all(name=1), "name must be a str, not int"),
    (lambda vm: vm.sys_call(1, "h", b""), "service must be a str, not int"),
    (lambda vm: vm.sys_call("s", 1, b""), "handler must be a str, not int"),
    (lambda vm: vm.sys_call("s", "h", 5), "value must be bytes, not int"),
    (lambda vm: vm.sys_call("s", "h", b"", key=1), "key must be a str, not int"),
    (lambda vm: vm.sys_call("s", "h", b"", idempotency_key=1), "idempotency_key must be a str, not int"),
    (lambda vm: vm.sys_call("s", "h", b"", scope=1), "scope must be a str, not int"),
    (lambda vm: vm.sys_call("s", "h", b"", limit_key=1), "limit_key must be a str, not int"),
    (lambda vm: vm.sys_call("s", "h", b"", headers={"a": "b"}), "each of headers must be a pair of str, not str"),
    (lambda vm: vm.sys_call("s", "h", b"", headers="ab"), "headers must be pairs of str, not str"),
    (lambda vm: vm.sys_call("s", "h", b"", headers=[("a", 1)]), "a value of headers must be a str, not int"),
    (lambda vm: vm.sys_call_with_deadline("s", "h", b"", "x"), "wake_up_time must be an int, not str"),
    (lambda vm: vm.sys_send("s", "h", b"", at="x"), "at must be an int, not str"),
    (lambda vm: vm.create_signal_handle(1), "name must be a str, not int"),
    (lambda vm: vm.sys_complete_awakeable(1, b""), "id must be a str, not int"),
    (lambda vm: vm.sys_complete_awakeable("prom_1", 5), "value must be bytes, not int"),
    (lambda vm: vm.sys_complete_signal(1, "n", b""), "invocation_id must be a str, not int"),
    (lambda vm: vm.sys_complete_signal("inv_1", 1, b""), "name must be a str, not int"),
    (lambda vm: vm.sys_complete_signal("inv_1", "n", Failure("x", "no")), "value.code must be an int, not str"),
    (lambda vm: vm.sys_run(1), "name must be a str, not int"),
    (lambda vm: vm.propose_run_completion("17", b""), "handle must be an int, not str"),
    (lambda vm: vm.propose_run_completion(17, 5), "result must be bytes, not int"),
    (lambda vm: vm.propose_run_completion(17, b"", policy="none"), "policy must be a RetryPolicy, not str"),
    (lambda vm: vm.propose_run_completion(17, Retryable(500, 5)), "result.message must be a str, not int"),
    (lambda vm: vm.propose_run_completion(17, Retryable(500, "no", "3")), "result.duration must be an int, not str"),
    (lambda vm: vm.sys_cancel_invocation(1), "invocation_id must be a str, not int"),
    (lambda vm: vm.sys_attach_invocation("inv_1"), "target must be an InvocationId, a WorkflowId or an IdempotencyId, not str"),
    (lambda vm: vm.sys_attach_invocation(InvocationId(1)), "target.id must be a str, not int"),
    (lambda vm: vm.sys_get_invocation_output(WorkflowId("w", 1)), "target.key must be a str, not int"),
    (lambda vm: vm.sys_attach_invocation(IdempotencyId("s", "h", 1)), "target.idempotency_key must be a str, not int"),
    (lambda vm: vm.sys_write_output(5), "value must be bytes, not int"),
    (lambda vm: vm.sys_write_output(Failure(500, "no", (("k", 1),))), "a value of value.metadata must be a str, not int"),
    (lambda vm: vm.do_await("17"), "future must be a handle or a Future, not str"),
    (lambda vm: vm.do_await(True), "future must be a handle or a Future, not bool"),
    (lambda vm: first_completed(17, "18"), "each child must be a handle or a Future, not str"),
    (lambda vm: vm.take_notification("17"), "handle must be an int, not str"),
    (lambda vm: vm.is_completed(None), "handle must be an int, not NoneType"),
    (lambda vm: vm.notify_input(5), "data must be bytes, not int"),
    (lambda vm: vm.notify_input("x"), "data must be bytes, not str"),
    (lambda vm: vm.notify_error("x", "no"), "code must be an int, not str"),
    (lambda vm: vm.notify_error(500, b"no"), "message must be a str, not bytes"),
    (lambda vm: vm.notify_error(500, "no", related="last"), "related must be a Related, a NextCommand or LAST_COMMAND, not str"),
    (lambda vm: vm.notify_error(500, "no", related=NextCommand("Sleep")), "related.type must be a CommandType, not str"),
    (lambda vm: vm.notify_error(500, "no", related=Related(1, CommandType.RUN, None)), "related.name must be a str, not NoneType"),
    (lambda vm: vm.notify_error(500, "no", related=Related("1", CommandType.RUN)), "related.index must be an int, not str"),
    (lambda vm: retry_fixed("x"), "interval must be an int, not str"),
    (lambda vm: retry_fixed(5, pause=1), "pause must be a bool, not int"),
    (lambda vm: retry_exponential(5, 1.5), "numerator must be an int, not float"),
    (lambda vm: AnyOf().add("17"), "handle must be an int, not str"),
    (lambda vm: AnyOf().add([17]), "handle must be an int, not list"),
    (lambda vm: frame_of(5), "line must be a str, not int"),
    (lambda vm: frame_of(b"End"), "line must be a str, not bytes"),
    (lambda vm: Message(frame_of("End")).part("0"), "at must be an int, not str"),
    (lambda vm: difference(frame_of("End"), frame_of("End"), 1), "ignores_payloads must be a bool, not int"),
    (lambda vm: VM(7), "content_type must be a str, not int"),
    (lambda vm: VM(CONTENT_TYPE, cancel=False), "cancel must be a str, not bool"),
    (lambda vm: VM(CONTENT_TYPE, seed="7"), "seed must be an int, not str"),
]

# Each call with a value that the VM can't read, and what the error says.
WRONG_VALUES = [
    (lambda vm: vm.sys_sleep(-1), "wake_up_time must be from 0 to 18446744073709551615, not -1"),
    (lambda vm: vm.sys_sleep(2**64), "wake_up_time must be from 0 to 18446744073709551615, not 18446744073709551616"),
    (lambda vm: vm.sys_sleep(10**5000), "wake_up_time must be from 0 to 18446744073709551615, not a number this long"),
    (lambda vm: vm.do_await(2**32), "future must be from 0 to 4294967295, not 4294967296"),
    (lambda vm: vm.take_notification(-1), "handle must be from 0 to 4294967295, not -1"),
    (lambda vm: vm.sys_write_output(Failure(65536, "no")), "value.code must be from 0 to 65535, not 65536"),
    (lambda vm: vm.notify_error(65536, "no"), "code must be from 0 to 65535, not 65536"),
    (lambda vm: vm.notify_error(500, "no", behaviour="retry delay=5"), "behaviour must be one of retry, pause, fail, not 'retry delay=5'"),
    (lambda vm: vm.notify_error(500, "no", related=Related(2**32, CommandType.RUN)), "related.index must be from 0 to 4294967295, not 4294967296"),
    (lambda vm: vm.propose_run_completion(17, Retryable(500, "no", behaviour="x")), "behaviour must be one of retry, pause, fail, not 'x'"),
    (lambda vm: retry_fixed(5, attempts=2**32), "attempts must be from 0 to 4294967295, not 4294967296"),
    (lambda vm: retry_exponential(5, 3, 0), "denominator must be from 1 to 4294967295, not 0"),
    (lambda vm: VM(CONTENT_TYPE, awaiting="never cancel=off"), "awaiting must be one of norun, always, never, not 'never cancel=off'"),
    (lambda vm: VM(CONTENT_TYPE, seed=2**64), "seed must be from 0 to 18446744073709551615, not 18446744073709551616"),
    (lambda vm: vm.sys_sleep(1, name=HALF), "name is no UTF-8: at 5 stands '\\udcff', half of a surrogate pair"),
    (lambda vm: vm.sys_state_set(HALF, b""), "key is no UTF-8: at 5 stands '\\udcff', half of a surrogate pair"),
    (lambda vm: vm.sys_write_output(Failure(500, HALF)), "value.message is no UTF-8: at 5 stands '\\udcff', half of a surrogate pair"),
    (lambda vm: vm.line(f'run "{HALF}"'), "line is no UTF-8: at 10 stands '\\udcff', half of a surrogate pair"),
    (lambda vm: vm.call("what"), "the VM can't read this line: what"),
    (lambda vm: AnyOf().add(-1), "handle must be from 0 to 4294967295, not -1"),
    (lambda vm: frame_of("what"), "the line has no meaning, and docs/FRAMES.md says which have one: 'what'"),
    (lambda vm: frame_of(HALF), "line is no UTF-8: at 5 stands '\\udcff', half of a surrogate pair"),
    (lambda vm: Message(frame_of("End")).part(-1), "at must be from 0 to 18446744073709551615, not -1"),
]


# Calls with arguments that fit no parameter.
WRONG_CALLS = [
    (lambda vm: vm.sys_sleep(), "VM.sys_sleep() missing 1 required positional argument: 'wake_up_time'"),
    (lambda vm: vm.sys_sleep(1, "nap"), "VM.sys_sleep() takes 2 positional arguments but 3 were given"),
    (lambda vm: vm.sys_sleep(1, nam="nap"), "VM.sys_sleep() got an unexpected keyword argument 'nam'"),
    (lambda vm: vm.sys_sleep(1, wake_up_time=1), "VM.sys_sleep() got multiple values for argument 'wake_up_time'"),
    (lambda vm: vm.state(1), "VM.state() takes 1 positional argument but 2 were given"),
    (lambda vm: vm.sys_state_set("k"), "VM.sys_state_set() missing 1 required positional argument: 'value'"),
    (lambda vm: vm.sys_state_set(**{"key": "k", "value": b"", "": 1}), "VM.sys_state_set() got an unexpected keyword argument ''"),
    (lambda vm: vm.sys_call("s", "h", value=b"", hedaers=()), "VM.sys_call() got an unexpected keyword argument 'hedaers'"),
]


class Whole:
    """A whole number that is no `int`."""

    def __init__(self, number: int) -> None:
        self.number = number

    def __index__(self) -> int:
        return self.number


class Arguments(unittest.TestCase):
    def test_wrong_types(self) -> None:
        with begun() as vm:
            for call, says in WRONG_TYPES:
                with self.subTest(says), self.assertRaises(TypeError) as raised:
                    call(vm)
                self.assertEqual(str(raised.exception), says)
            self.assert_untouched(vm)

    def test_each_parameter_of_each_method(self) -> None:
        """One of a type that no parameter has is refused by the parameter's name."""
        with begun() as vm:
            for name, taken in parameters().items():
                for wrong in taken:
                    given = {it: object() if it == wrong else SAMPLES[kind] for it, kind in taken.items()}
                    with self.subTest(f"{name}: {wrong}"), self.assertRaisesRegex(TypeError, f"^{wrong} must be .*, not object$"):
                        getattr(vm, name)(**given)
            self.assert_untouched(vm)

    def test_arguments_that_fit_no_parameter(self) -> None:
        with begun() as vm:
            for call, says in WRONG_CALLS:
                with self.subTest(says), self.assertRaises(TypeError) as raised:
                    call(vm)
                self.assertEqual(str(raised.exception), says)
            self.assert_untouched(vm)

    def test_wrong_values(self) -> None:
        with begun() as vm:
            for call, says in WRONG_VALUES:
                with self.subTest(says), self.assertRaises(BadLine) as raised:
                    call(vm)
                self.assertEqual(str(raised.exception), says)
            self.assert_untouched(vm)

    def assert_untouched(self, vm: VM) -> None:
        """The VM that was asked goes on as if it hadn't been: no handle was handed out, no command made, nothing written."""
        self.assertEqual((vm.state(), vm.last_command_index(), vm.take_output(), vm.sys_sleep(1)), ("Processing", 0, b"", 17))

    def test_numbers_of_another_class(self) -> None:
        """As an array's: what is whole is taken for the number that it is."""
        with begun() as vm:
            policy = retry_exponential(Whole(5), Whole(3), Whole(2), longest=Whole(9), attempts=Whole(4), duration=Whole(7))
            self.assertEqual(policy, retry_exponential(5, 3, 2, longest=9, attempts=4, duration=7))
            run = vm.sys_run("charge")
            vm.do_await(run.handle)
            with self.assertRaisesRegex(palqytun.VMError, "^418 no tea$"):
                vm.propose_run_completion(Whole(run.handle), Retryable(Whole(418), "no tea", Whole(1)), policy=policy)

    def test_what_errors_say(self) -> None:
        """The name of the code of the VM's own errors, and what is allowed."""
        with self.assertRaises(palqytun.VMError) as raised:
            VM("text/plain")
        allowed = "the content type must be application/vnd.restate.invocation.vN with N from 5 to 8"
        self.assertEqual(str(raised.exception), f"415 UNSUPPORTED_MEDIA_TYPE: BadContentType ({allowed})")
        with begun() as vm, begun() as own:
            vm.sys_end()
            with self.assertRaisesRegex(palqytun.Closed, "^598 CLOSED: ClosedError$") as closed:
                vm.sys_sleep(1)
            own.notify_error(570, "no tea")
            with self.assertRaisesRegex(palqytun.VMError, "^570 no tea$") as handed_in:
                own.sys_end()
        self.assertEqual((closed.exception.is_own, handed_in.exception.is_own), (True, False))

    def test_a_bad_value_is_a_value_error(self) -> None:
        self.assertTrue(issubclass(BadLine, ValueError))

    def test_an_unknown_option_names_the_known_ones(self) -> None:
        with self.assertRaises(TypeError) as raised:
            VM(CONTENT_TYPE, awaitng="never")
        known = "cancel, checks, awaiting, mismatch, replay, delivery, seed"
        self.assertEqual(str(raised.exception), f"VM has no option awaitng; its options are {known}")

    def test_each_option_is_taken(self) -> None:
        words = {
            "cancel": ["calls", "none", "sends", "both", "off"],
            "checks": ["on", "off"],
            "awaiting": ["norun", "always", "never"],
            "mismatch": ["follow", "pause", "fail"],
            "replay": ["on", "off"],
            "delivery": ["queued", "overwrite"],
            "seed": [0, 2**64 - 1],
        }
        for name, values in words.items():
            for value in values:
                with self.subTest(name=name, value=value), VM(CONTENT_TYPE, **{name: value}) as vm:
                    self.assertEqual(vm.version, "V7")

    def test_the_bounds_are_the_vms(self) -> None:
        """The largest numbers are read by the VM, and the next ones aren't, so no argument is refused that the VM would take."""
        for line, most in [("completed {}", 2**32 - 1), ('error {} "no"', 2**16 - 1), (f'vm "{CONTENT_TYPE}" seed={{}}', 2**64 - 1)]:
            with self.subTest(line), begun() as vm:
                self.assertTrue(vm.line(line.format(most)).startswith("ok"))
                self.assertEqual(vm.line(line.format(most + 1)), "bad")
        with begun() as vm:
            self.assertEqual(vm.line(f'sleep "" {2**64 - 1}'), "ok 17")
            self.assertEqual(vm.line(f'sleep "" {2**64}'), 'err 500 "OutOfBoundsDuration"')

    def test_bytes_of_every_kind(self) -> None:
        with begun() as vm:
            for value in (b"ab", bytearray(b"ab"), memoryview(b"ab"), memoryview(b"a-b-")[::2]):
                vm.sys_state_set("k", value)
                self.assertEqual(vm.take_notification(vm.sys_state_get("k")), b"ab")

    def test_texts_are_one_word_each(self) -> None:
        """Quotes, blanks, brackets, backslashes and line ends stay in the text."""
        for key in ('" unstable', "a\\", "\n", "\r\n", "{a} [b]", "\0", "\\x41", "é 𝄞", ""):
            with self.subTest(key), begun() as vm:
                vm.sys_state_set(key, b"v")
                self.assertEqual(vm.take_notification(vm.sys_state_get_keys()), [key])

    def test_a_text_has_no_line_end(self) -> None:
        """So that a line which is printed is one of a script."""
        self.assertEqual(text("name", "a\r\nb"), '"a\\x0d\\x0ab"')

    def test_an_error_gets_through(self) -> None:
        """The error of a file whose name is no UTF-8 is notified, with the half pair written out."""
        with begun() as vm:
            vm.notify_error(500, f"no {HALF}", stacktrace=HALF)
            with self.assertRaises(palqytun.VMError) as raised:
                vm.sys_sleep(1)
            self.assertEqual(raised.exception.text, "no file-\\udcff")
        with begun() as vm:
            vm.do_await(vm.sys_run("charge").handle)
            with self.assertRaises(palqytun.VMError) as raised:
                vm.propose_run_completion(17, Retryable(500, HALF, stacktrace=HALF))
            self.assertEqual(raised.exception.text, "file-\\udcff")


if __name__ == "__main__":
    unittest.main()
