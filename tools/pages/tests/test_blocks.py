"""What is read of a page, and how its lines are compared."""

from __future__ import annotations

import unittest

from tools.pages.blocks import Command, File, Unrun, is_line, is_printed, read

PAGE = """Text.

    $ mkdir -p a && cd a
    $ curl -s \\
    >   localhost:8080
    {"id": ".."}
    ..

```python file=a.py same=b/c.py
print(1)
```

```c bindings/example.c
int x;
```

- an item
    with a line of its own

Text.

    not a session

```rust
fn nothing() {}
```
""".splitlines()


class Blocks(unittest.TestCase):
    def test_commands_files_and_what_nothing_runs(self) -> None:
        self.assertEqual(
            list(read(PAGE)),
            [
                Command(3, "mkdir -p a && cd a"),
                Command(4, "curl -s \\\n  localhost:8080", ['{"id": ".."}', ".."]),
                File(9, {"file": "a.py", "same": "b/c.py"}, ["print(1)"]),
                Unrun(22, "not a session"),
                Unrun(24, "```rust"),
            ],
        )

    def test_a_command_that_stays(self) -> None:
        self.assertTrue(Command(1, "sleep 9 &").stays)
        self.assertTrue(Command(1, "sleep 9 &   # it goes on").stays)
        self.assertFalse(Command(1, "true && true").stays)


class Lines(unittest.TestCase):
    def test_dots_stand_for_any_characters(self) -> None:
        self.assertTrue(is_line('{"invocation":"inv_.."}', '{"invocation":"inv_0af1"}'))
        self.assertTrue(is_line("postgresql://..", "postgresql://.."))
        self.assertFalse(is_line('{"invocation":"inv_.."}', '{"code":404}'))

    def test_a_remark_is_no_part(self) -> None:
        self.assertTrue(is_line("answer awake   # of the sleep", "answer awake"))
        self.assertFalse(is_line("answer awake # of the sleep", "answer awake"))

    def test_dots_alone_stand_for_any_lines(self) -> None:
        self.assertTrue(is_printed(["a", "..", "d"], ["a", "b", "c", "d"]))
        self.assertTrue(is_printed(["a", ".."], ["a"]))
        self.assertFalse(is_printed(["a", "..", "d"], ["a", "b"]))
        self.assertFalse(is_printed([], ["more"]))


if __name__ == "__main__":
    unittest.main()
