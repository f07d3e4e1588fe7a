"""How lines become calls, answers what they return, and that a player finds what differs."""

import doctest
import inspect
import json
import sys
import tempfile
import unittest
from pathlib import Path
from unittest import mock

from tools.conformance import calls, command, suite, tokens, wants
from tools.conformance.calls import NotTyped, call_of
from tools.conformance.suite import compact
from tools.conformance.tokens import Unreadable
from tools.conformance.wants import want_of
from tools.programs.plays import Answered

sys.path.insert(0, str(Path(__file__).resolve().parents[3] / "python" / "src"))
from palqytun import VM  # noqa: E402


class Lines(unittest.TestCase):
    def test_examples(self) -> None:
        for module in (tokens, calls, wants):
            self.assertEqual(doctest.testmod(module).failed, 0)

    def test_a_call_with_all_it_may_have(self) -> None:
        line = r'send "s" "h" 0x00ff key="k" idem="i" scope="c" limit="l" header={"a" "b"} header={"c" "\"\\\x0a"} name="n" unstable at=7'
        found = compact(call_of(line))
        self.assertEqual(found["headers"], [["a", "b"], ["c", '"\\\n']])
        self.assertEqual(found["value"], "00ff")
        self.assertEqual(
            {it: found[it] for it in ("key", "idempotency_key", "scope", "limit_key", "name", "unstable", "at")},
            {"key": "k", "idempotency_key": "i", "scope": "c", "limit_key": "l", "name": "n", "unstable": True, "at": 7},
        )

    def test_what_is_not_given_is_left_out(self) -> None:
        self.assertEqual(compact(call_of('call "s" "h" ""')), {"call": "sys_call", "service": "s", "handler": "h", "value": ""})

    def test_a_tree(self) -> None:
        self.assertEqual(call_of("await fc(17, ac(18,19), un())")["future"], {"first_completed": [17, {"all_completed": [18, 19]}, {"unknown": []}]})

    def test_a_run_that_may_be_tried_again(self) -> None:
        found = call_of('propose 17 retryable 20 503 "later" delay=5 policy=exp(initial=1 factor=3/2 attempts=4 pause)')
        self.assertEqual(found["policy"], {"kind": "exp", "initial": 1, "factor": [3, 2], "attempts": 4, "pause": True})
        self.assertEqual(compact(found)["result"], {"retryable": {"code": 503, "message": "later", "duration": 20, "behaviour": "retry", "delay": 5}})

    def test_times(self) -> None:
        self.assertEqual(call_of('sleep "" 2000000ns')["wake_up_time"], 2)
        with self.assertRaisesRegex(NotTyped, "no whole number of milliseconds"):
            call_of('sleep "" 1ns')

    def test_what_is_no_call(self) -> None:
        for line in ("nap 17", 'sleep "" 1000 5', 'sleep "" ', "take 17 18", 'get "k" size=1', 'get "k" soon', "await zz(1)"):
            with self.assertRaises((Unreadable, ValueError), msg=line):
                call_of(line)

    def test_large_numbers(self) -> None:
        self.assertEqual(compact({"call": "sys_sleep", "wake_up_time": 2**53})["wake_up_time"], "9007199254740992")
        self.assertEqual(compact({"call": "sys_sleep", "wake_up_time": 2**53 - 1})["wake_up_time"], 2**53 - 1)

    def test_returns(self) -> None:
        rows = {
            ("do_await", "ok wait true false"): {"wait": {"input": True, "run": False}},
            ("take_notification", 'ok failure 7 "no" {"a" "b"}'): {"failure": {"code": 7, "message": "no", "metadata": [["a", "b"]]}},
            ("take_notification", 'ok keys ["a" "b"]'): {"keys": ["a", "b"]},
            ("take_notification", "ok none"): "none",
            ("sys_call", "ok 17 18"): [17, 18],
            ("sys_sleep", "ok 17"): 17,
            ("sys_run", "ok 17 true"): {"handle": 17, "replayed": True},
            ("notify_input", "ok"): None,
        }
        for (call, answer), returned in rows.items():
            self.assertEqual(want_of(call, answer, {}), {"returns": returned})

    def test_what_is_no_answer(self) -> None:
        for answer in ("fine", "ok 17 true more", 'err 598 "ClosedError" 3'):
            with self.assertRaises(Unreadable, msg=answer):
                want_of("sys_run", answer, {})


class Rows(unittest.TestCase):
    def test_a_row_is_played_under_its_newest_version_and_its_first_options(self) -> None:
        under = ["version 5 checks=off", "version 8 checks=off", "version 6 checks=off", "version 8"]
        plays = [Answered(row, it, b"") for row in ("a:1", "a:2") for it in under]
        self.assertEqual([(it.row, it.under) for it in suite.one_of_each(plays)], [("a:1", under[1]), ("a:2", under[1])])

    def test_a_row_with_two_vms_is_two_rows(self) -> None:
        script = b'vm "a/v7"\n# a remark\nstate\nvm -\nstate\n'
        wanted = ("ok V7", "", "ok Closed", 'err 415 "BadContentType"', "none")
        play = Answered("a:1", "", script, (), tuple((it, "a:2") for it in wanted))
        found = suite.Suite()
        suite.add(found, play, {})
        self.assertEqual([[it["call"] for it in row.steps] for row in found.rows], [["new", "state"], ["new"]])

    def test_a_row_that_only_text_can_play(self) -> None:
        play = Answered("a:1", "", b'vm -\nsleep "" 18446744073709551616\n', (), (("ok V7", "a:2"), ('err 500 "x"', "a:3")))
        found = suite.Suite()
        suite.add(found, play, {})
        self.assertEqual([[it["call"] for it in row.steps] for row in found.rows], [["new"]])
        self.assertEqual(found.cut, {"a number of more than 64 bits": 1})

    def test_each_argument_of_each_call_is_given_in_some_row(self) -> None:
        given: dict[str, set[str]] = {}
        for step in (compact(it) for row in suite.read().rows for it in row.steps):
            given.setdefault(step["call"], set()).update(step, step.get("options", {}))
        methods = {name: it for name, it in vars(VM).items() if inspect.isfunction(it) and not name.startswith("_")}
        wanted = {name: set(inspect.signature(it).parameters) - {"self"} for name, it in methods.items() if name not in ("free", "line", "call")}
        wanted["new"] = set(inspect.signature(VM).parameters) - {"unknown"}
        lacking = {name: those for name, it in wanted.items() if (those := it - given.get(name, set()))}
        self.assertEqual(lacking, {})


class Players(unittest.TestCase):
    def played(self, program: str, count: int = 2) -> tuple[int, int]:
        room = self.enterContext(tempfile.TemporaryDirectory())
        rows, player = Path(room, "rows"), Path(room, "player.py")
        rows.write_text("".join(json.dumps({"row": f"a:{at}", "under": "", "steps": []}) + "\n" for at in range(count)))
        player.write_text(program)
        self.enterContext(mock.patch("builtins.print"))
        return command.played([sys.executable, str(player)], rows, count)

    def test_one_that_plays_all(self) -> None:
        self.assertEqual(self.played("import sys\nfor it in sys.stdin: print('ok it')"), (2, 0))

    def test_one_that_finds_a_difference(self) -> None:
        self.assertEqual(self.played("print('17, not 18\\nnot ok a:0\\nok a:1'); raise SystemExit(1)"), (1, 1))

    def test_one_that_stops_early_or_dies(self) -> None:
        self.assertEqual(self.played("print('ok a:0')"), (1, 1))
        self.assertEqual(self.played("print('ok a:0\\nok a:1'); raise SystemExit(3)"), (2, 1))

    def test_a_suite_that_was_written(self) -> None:
        """It is played as it stands; one that isn't there is no suite."""
        room = self.enterContext(tempfile.TemporaryDirectory())
        written, player = Path(room, "suite.jsonl"), Path(room, "player.py")
        written.write_text('{"row":"a:1"}\n{"row":"a:2"}\n{"row":"a:3"}\n')
        player.write_text("import json, sys\nfor it in sys.stdin: print('ok', json.loads(it)['row'])")
        self.enterContext(mock.patch.dict("os.environ", {command.WRITTEN: str(written)}))
        said = self.enterContext(mock.patch("builtins.print"))
        self.assertEqual(command.main([f"{sys.executable} {player}"]), 0)
        self.assertEqual(said.call_args.args, ("3 passed, 0 failed",))
        written.unlink()
        with self.assertRaises(FileNotFoundError):
            command.main([f"{sys.executable} {player}"])


if __name__ == "__main__":
    unittest.main()
