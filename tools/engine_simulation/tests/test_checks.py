"""The rules by which reports of vmengine are judged: a report worked out by hand keeps them, and each change of it breaks one."""

from __future__ import annotations

import unittest

from tools.engine_simulation.checks import check
from tools.engine_simulation.inboxes import awakeable_of
from tools.engine_simulation.steps import step_of, tree_of
from tools.engine_simulation.words import words_of
from tools.simulation.plan import Makes, Tree
from tools.simulation.program import Bad

SCRIPT = """\
handler "Main" "run"
  call "Greeter" "greet" "hi"
  sleep "" 3000
  await 18
  write_output success "done"
  end
handler "Greeter" "greet"
  signal "s"
  await 17
  write_output success "hello"
  end
handler "Key" "one" exclusive
  complete_signal "inv_0" "s" success "x"
  send "Greeter" "greet" "" at=5000 idem="i"
  write_output success "x"
  end
submit "Main" "run" "go"
submit "Key" "one" "1" key="k"
submit "Key" "one" "2" key="k" at=2000
clock 2999
settle 9
"""

REPORT = """\
line 17 invocation 0
line 18 invocation 1
line 19 invocation 2
invocation 0 "Main" "run"
  calls 1 3
  entry Input value="go"
  entry Call service_name="Greeter" handler_name="greet" parameter="hi" invocation_id_notification_idx=1 result_completion_id=2
  entry Sleep wake_up_time=3000 result_completion_id=3
  entry Notification id=completion(1) result=invocation_id("inv_3")
  entry Notification id=name("s") result=value("x")
  entry Notification id=name("s") result=value("x")
  waits result 2 of 1
  waits clock 3 at 3000
  live
invocation 1 "Key" "one" key="k"
  calls 1 4
  entry Input value="1"
  entry SendSignal target_invocation_id="inv_0" signal=name("s") result=value("x")
  entry OneWayCall service_name="Greeter" handler_name="greet" idempotency_key="i" invocation_id_notification_idx=1 invoke_time=5000
  entry Output result=value("x")
  waits id 1
  result value("x")
invocation 2 "Key" "one" key="k" at=2000
  calls 1 4
  entry Input value="2"
  entry SendSignal target_invocation_id="inv_0" signal=name("s") result=value("x")
  entry OneWayCall service_name="Greeter" handler_name="greet" idempotency_key="i" invocation_id_notification_idx=1 invoke_time=5000
  entry Output result=value("x")
  waits id 1
  live
  result value("x")
invocation 3 "Greeter" "greet"
  begun 0 1
  entry Input value="hi"
  live
invocation 4 "Greeter" "greet" idem="i" at=5000
  begun 1 1
  entry Input
"""

CLOCK = '  entry Notification id=completion(3) result=void\n  waits result 2 of 1\n'
"""The sleep of invocation 0 is over."""


class Rules(unittest.TestCase):
    def broken(self, old: str, new: str, why: str, script: str = SCRIPT, is_settled: bool = False) -> None:
        """The report with this change breaks this rule."""
        self.assertEqual(REPORT.count(old), 1, old)
        with self.assertRaisesRegex(Bad, why):
            check(script, REPORT.replace(old, new), is_settled)

    def test_a_report_keeps_the_rules(self) -> None:
        report = check(SCRIPT, REPORT, is_settled=True)
        self.assertEqual(len(report.invocations), 5)

    def test_a_sleep_is_not_over_before_its_time(self) -> None:
        over = REPORT.replace("  waits result 2 of 1\n  waits clock 3 at 3000\n", CLOCK)
        with self.assertRaisesRegex(Bad, "gets void for 'Sleep"):
            check(SCRIPT, over)
        check(SCRIPT.replace("clock 2999", "clock 3000"), over)

    def test_nothing_begins_before_its_time(self) -> None:
        self.broken('idem="i" at=5000\n  begun 1 1\n  entry Input\n', 'idem="i" at=5000\n  begun 1 1\n  entry Input\n  live\n', "begun before 5000")
        with self.assertRaisesRegex(Bad, "begun before 2000"):
            check(SCRIPT.replace("clock 2999", "clock 1999"), REPORT)

    def test_a_key_has_one_at_a_time(self) -> None:
        first = '  entry Output result=value("x")\n  waits id 1\n  result value("x")\ninvocation 2'
        self.broken(first, "  waits id 1\ninvocation 2", r"begun beside \[1\]")

    def test_each_call_has_one_callee(self) -> None:
        self.broken("  calls 1 3\n", "", "rows")
        self.broken("  calls 1 3\n", "  calls 1 3\n  calls 1 3\n", "rows")
        self.broken("  calls 1 3\n", "  calls 1 4\n", "the callee 4, which is another")
        self.broken("  calls 1 3\n", "  calls 1 -\n", "the callee None")
        self.broken("  begun 0 1\n", "  begun 1 1\n", "attached to invocation 3 without an idempotency key")

    def test_a_callee_has_target_key_and_parameter(self) -> None:
        self.broken('  begun 0 1\n  entry Input value="hi"', "  begun 0 1\n  entry Input", "begins at 0 with")
        self.broken('invocation 3 "Greeter" "greet"\n', 'invocation 3 "Greeter" "greet" key="k"\n', "the callee 3, which is another")
        self.broken('invocation 3 "Greeter" "greet"\n', 'invocation 3 "Main" "run"\n', "the callee 3, which is another")
        self.broken('idem="i" at=5000\n', 'idem="i" at=50\n', "the callee 4, which begins at 50")

    def test_an_idempotency_key_is_of_one_invocation(self) -> None:
        second = 'invocation 5 "Greeter" "greet" idem="i" at=5000\n  begun 2 1\n  entry Input\n'
        calls = REPORT.replace('invocation 2 "Key" "one" key="k" at=2000\n  calls 1 4', 'invocation 2 "Key" "one" key="k" at=2000\n  calls 1 5')
        with self.assertRaisesRegex(Bad, "2 invocations are"):
            check(SCRIPT, calls + second)

    def test_what_comes_is_what_there_is(self) -> None:
        self.broken('result=invocation_id("inv_3")', 'result=invocation_id("inv_4")', "and not invocation_id")
        early = '  entry Notification id=completion(2) result=value("x")\n  waits clock 3 at 3000\n'
        self.broken("  waits result 2 of 1\n  waits clock 3 at 3000\n", early, 'gets value\\("x"\\) .* and not None')
        twice = '  entry Notification id=completion(1) result=invocation_id("inv_3")\n'
        self.broken(twice, twice + twice, "for which nothing waits")

    def test_nothing_else_waits(self) -> None:
        self.broken("  waits clock 3 at 3000\n", "", "waits")
        self.broken("  waits clock 3 at 3000\n", "  waits clock 3 at 3001\n", "waits")
        self.broken("  waits result 2 of 1\n", "  waits result 2 of 1\n  waits id 1\n", "waits")

    def test_each_signal_comes_or_waits(self) -> None:
        signal = '  entry Notification id=name("s") result=value("x")\n  waits result 2 of 1\n'
        self.broken(signal, "  waits result 2 of 1\n", "has the signals")
        self.broken(signal, signal.replace("(\"x\")", "(\"y\")"), "has the signals")
        self.broken('  begun 0 1\n  entry Input value="hi"\n', '  begun 0 1\n  entry Input value="hi"\n  waits signal name("s") value("x")\n', "has the signals")
        waits = REPORT.replace(signal, '  waits signal name("s") value("x")\n  waits result 2 of 1\n')
        check(SCRIPT, waits)
        with self.assertRaisesRegex(Bad, "wait for it"):
            check(SCRIPT, waits, is_settled=True)

    def test_the_commands_are_those_of_the_handler(self) -> None:
        sleep = "  entry Sleep wake_up_time=3000 result_completion_id=3\n"
        self.broken(sleep, sleep.replace("3000", "4000"), "has the commands")
        self.broken(sleep, sleep + sleep.replace("3\n", "4\n"), "has the commands")

    def test_what_can_be_stored_is(self) -> None:
        last = '  entry OneWayCall service_name="Greeter" handler_name="greet" idempotency_key="i" invocation_id_notification_idx=1 invoke_time=5000\n'
        ends = f'{last}  entry Output result=value("x")\n  waits id 1\n  live\n  result value("x")\n'
        self.broken(ends, f"{last}  waits id 1\n  live\n", "invocation 2 is left behind", is_settled=True)
        sleepless = REPORT.replace("  entry Sleep wake_up_time=3000 result_completion_id=3\n", "").replace("  waits clock 3 at 3000\n", "")
        check(SCRIPT, sleepless)
        with self.assertRaisesRegex(Bad, "could have"):
            check(SCRIPT, sleepless, is_settled=True)

    def test_a_result_is_that_of_the_output_and_the_last_entry(self) -> None:
        ends = '  waits id 1\n  live\n  result value("x")\n'
        self.broken(ends, ends.replace('value("x")', 'value("y")'), "its output is")
        self.broken(ends, "  entry Notification id=completion(1) result=invocation_id(\"inv_4\")\n  live\n  result value(\"x\")\n", "entries after its output")

    def test_each_submit_has_its_invocation(self) -> None:
        self.broken("line 17 invocation 0\n", "line 17 invocation 1\n", "asks for another")
        self.broken("line 17 invocation 0\n", "line 17 nothing\n", "has the invocation None")
        self.broken('  entry Input value="go"\n', '  entry Input value="stop"\n', "begins at 0 with")
        more = REPORT + 'invocation 5 "Greeter" "greet"\n  entry Input\n'
        with self.assertRaisesRegex(Bad, "nobody has begun"):
            check(SCRIPT, more)


STATE_SCRIPT = """\
handler "Key" "one" exclusive
  get "a"
  set "a" "1"
  set "b" ""
  write_output success "x"
  end
handler "Key" "two" exclusive
  clear "b"
  get "a"
  keys
  write_output success "x"
  end
handler "Key" "three"
  keys
  write_output success "x"
  end
submit "Key" "one" "" key="k"
submit "Key" "two" "" key="k"
submit "Key" "two" "" key="l"
submit "Key" "three" "" key="k"
settle 9
"""

STATE_REPORT = """\
line 17 invocation 0
line 18 invocation 1
line 19 invocation 2
line 20 invocation 3
invocation 0 "Key" "one" key="k"
  entry Input
  entry GetEagerState key="a" result=void
  entry SetState key="a" value="1"
  entry SetState key="b"
  entry Output result=value("x")
  live
  result value("x")
invocation 1 "Key" "two" key="k"
  entry Input
  entry ClearState key="b"
  entry GetEagerState key="a" result=value("1")
  entry GetEagerStateKeys value=["a"]
  entry Output result=value("x")
  live
  result value("x")
invocation 2 "Key" "two" key="l"
  entry Input
  entry ClearState key="b"
  entry GetEagerState key="a" result=void
  entry GetEagerStateKeys value=[]
  entry Output result=value("x")
  live
  result value("x")
invocation 3 "Key" "three" key="k"
  entry Input
  entry GetEagerStateKeys value=[]
  entry Output result=value("x")
  live
  result value("x")
"""


class States(unittest.TestCase):
    def test_an_invocation_reads_what_those_of_its_key_left(self) -> None:
        check(STATE_SCRIPT, STATE_REPORT, is_settled=True)
        reads = '  entry GetEagerState key="a" result=value("1")\n  entry GetEagerStateKeys value=["a"]\n'
        none = '  entry GetEagerState key="a" result=void\n  entry GetEagerStateKeys value=[]\n'
        for old, new in ((reads, none), (none, reads), ('value=["a"]', 'value=["a", "b"]')):
            with self.assertRaisesRegex(Bad, "has the commands"):
                check(STATE_SCRIPT, STATE_REPORT.replace(old, new))


class LeftBehind(unittest.TestCase):
    def test_who_waits_for_nothing_has_ended(self) -> None:
        """The second of a key may begin once the first has ended, and nothing is missing for it."""
        begun = STATE_REPORT.index('invocation 1 "Key" "two" key="k"\n  entry Input\n')
        others = STATE_REPORT.index('invocation 2 "Key"')
        left = f'{STATE_REPORT[:begun]}invocation 1 "Key" "two" key="k"\n  entry Input\n{STATE_REPORT[others:]}'
        check(STATE_SCRIPT, left)
        with self.assertRaisesRegex(Bad, "invocation 1 is left behind"):
            check(STATE_SCRIPT, left, is_settled=True)


class Reading(unittest.TestCase):
    def test_words(self) -> None:
        self.assertEqual(words_of('call "A b" "h" key="k l" at=3'), ["call", '"A b"', '"h"', 'key="k l"', "at=3"])
        self.assertEqual(words_of('Output result=failure(code=409 message="no (x)")'), ["Output", 'result=failure(code=409 message="no (x)")'])

    def test_trees(self) -> None:
        self.assertEqual(tree_of("fc(17,ac(1,2))"), Tree("fc", 0, (Tree("leaf", 17), Tree("ac", 0, (Tree("leaf", 1), Tree("leaf", 2))))))

    def test_steps_have_the_frames_of_the_protocol(self) -> None:
        call = step_of('call "S" "h" "" key="k" idem=""').action
        assert isinstance(call, Makes)
        wanted = 'Call service_name="S" handler_name="h" key="k" idempotency_key="" invocation_id_notification_idx=1 result_completion_id=2'
        self.assertEqual(call.commands[0].format(1, 2), wanted)
        with self.assertRaises(Bad):
            step_of("keep")

    def test_awakeables(self) -> None:
        self.assertEqual(awakeable_of("sign_1aW52XzAAAAAR"), ("inv_0", 17))
        self.assertIsNone(awakeable_of("prom_1aW52XzAAAAAR"))


if __name__ == "__main__":
    unittest.main()
