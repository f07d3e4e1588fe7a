"""What the VM answers is read as the bytes that it shows."""

import time
import unittest

from attempt import begun
from palqytun import VOID, Failure, Input, InvocationId
from palqytun._answers import input_of, result_of, shown

EVERY = bytes(range(256))
MEGABYTE = EVERY * 4096


class Answers(unittest.TestCase):
    def test_every_byte(self) -> None:
        """Each byte comes back alone, between others, and with what looks like another's sign after it."""
        with begun() as vm:
            for value in [bytes([it]) for it in EVERY] + [b"\\x41" + bytes([it]) + b"41\\" for it in EVERY] + [EVERY, EVERY[::-1]]:
                vm.sys_state_set("k", value)
                self.assertEqual(vm.take_notification(vm.sys_state_get("k")), value)

    def test_every_sign(self) -> None:
        for it in EVERY:
            plain = chr(it) if 32 <= it < 127 and chr(it) not in '"\\' else f"\\x{it:02x}"
            self.assertEqual(shown(plain), bytes([it]))

    def test_a_megabyte_comes_back_in_time(self) -> None:
        """It took 373 ms to read a MB, a call for each byte that isn't shown as it is. Reading it by one call takes some 10."""
        with begun() as vm:
            vm.sys_state_set("k", MEGABYTE)
            answer = vm.call(f"take {vm.sys_state_get('k')}")
            taken = min(self.seconds(answer) for _ in range(5))
        self.assertLess(taken, 0.1)

    def seconds(self, answer: str) -> float:
        begun_at = time.process_time()
        self.assertEqual(result_of(answer), MEGABYTE)
        return time.process_time() - begun_at

    def test_results(self) -> None:
        for answer, result in [
            ("none", None),
            ("void", VOID),
            ('success ""', b""),
            ('success "a\\x22\\x5c\\xff b"', b'a"\\\xff b'),
            ('keys ["a" "b\\x20c"]', ["a", "b c"]),
            ("keys []", []),
            ('invocation "inv_1"', InvocationId("inv_1")),
            ('failure 409 "no"', Failure(409, "no")),
            ('failure 409 "" {"k" "v"} {"" "\\xc3\\xa9"}', Failure(409, "", (("k", "v"), ("", "é")))),
        ]:
            with self.subTest(answer):
                self.assertEqual(result_of(answer), result)

    def test_input(self) -> None:
        answer = 'id="abc" seed=7 key="k=1" headers=[{"a" "headers="} {"c" "id=\\x22"}] value="id=\\x22 {\\xff}" scope=- limit="l" idem=-'
        wanted = Input("abc", 7, "k=1", (("a", "headers="), ("c", 'id="')), b'id=" {\xff}', None, "l", None)
        self.assertEqual(input_of(answer), wanted)


if __name__ == "__main__":
    unittest.main()
