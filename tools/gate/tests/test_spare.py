"""One more job than there are cores begins only if a processor is idle, and memory is left for it."""

import unittest
from unittest import mock

from tools.gate import spare


class Looks(unittest.TestCase):
    def said(self, idle: float, *, seconds: float = 4, memory: int = 7, ours: int = 4) -> bool:
        """What is said if the processors were idle for so long together, at a look after so many seconds."""
        with (
            mock.patch.object(spare, "processors", return_value=ours),
            mock.patch("os.cpu_count", return_value=4),
            mock.patch.object(spare.time, "monotonic", side_effect=[100.0, 100.0 + seconds]),
            mock.patch.object(spare, "idle_seconds", side_effect=[50.0, 50.0 + idle]),
            mock.patch.object(spare, "free_memory", return_value=memory),
        ):
            return spare.Spare(7)()

    def test_a_processor_that_is_idle(self) -> None:
        self.assertTrue(self.said(2.0))
        self.assertFalse(self.said(1.5))

    def test_too_soon(self) -> None:
        self.assertFalse(self.said(1.0, seconds=1))

    def test_no_memory(self) -> None:
        self.assertFalse(self.said(4.0, memory=6))

    def test_processors_of_others(self) -> None:
        self.assertFalse(self.said(4.0, ours=2))

    def test_they_are_idle_for_longer_and_longer(self) -> None:
        before = spare.idle_seconds()
        self.assertGreaterEqual(spare.idle_seconds(), before)


if __name__ == "__main__":
    unittest.main()
