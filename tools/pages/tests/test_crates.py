"""The crates of a page stand as they do when it runs their tests."""

from __future__ import annotations

import tempfile
import unittest
from pathlib import Path

from tools.pages.crates import tried

PAGE = """    $ mkdir -p crates/one/src
    $ echo 'one: plain bytes' >>crates.txt

```rust file=crates/one/src/lib.rt
mod it;
```

```rust file=crates/one/src/it.rt
first
```

    $ cd crates/one
    $ rt try --test  # both
    tests: 1

```rust file=crates/one/src/it.rt
second
```

    $ rt try --test
    $ cd ../..
    $ cd crates/two
    $ rt try --test
"""


class Tried(unittest.TestCase):
    def test_a_crate_as_it_is_when_it_is_first_tried(self) -> None:
        with tempfile.TemporaryDirectory() as made:
            room = Path(made)
            (one,) = tried(PAGE, room)
            self.assertEqual((one.name, one.uses, one.folder), ("one", ("plain", "bytes"), room / "crates/one"))
            self.assertEqual([it.name for it in one.sources()], ["it.rt", "lib.rt"])
            self.assertEqual((one.folder / "src/it.rt").read_text(encoding="utf-8"), "first\n")


if __name__ == "__main__":
    unittest.main()
