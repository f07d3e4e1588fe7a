"""A payload never becomes text: what its way through the runtime's frames takes of memory."""

import os
import subprocess
import sys
import unittest

import support  # isort: skip

PAYLOAD = 8 << 20
MOST = 8  # times the payload, at its peak

# Each way is a process of its own: the peak of a process never sinks.
WAYS = {
    "an input": "frame = journal.input_command(payload, [('a', 'b')]); [(it, _)] = journal.commands_in(frame); assert it.value == payload",
    "a result": "frame = journal.value(payload); assert journal.answer(frame) == ('value', payload)",
    "a completion": "frame = journal.completion(1, journal.value(payload)); [it] = journal.messages_in(frame); assert it.id == (0, 1)",
}
PROGRAM = """
import resource
from palqytun.runtime import journal
journal.answer(journal.value(b"warm")), journal.input_command(b"", [])
def peak():
    return resource.getrusage(resource.RUSAGE_SELF).ru_maxrss * 1024
payload = "\\u0416".encode() * ({size} // 2)
before = peak()
{way}
print((peak() - before) / len(payload))
"""


def times(way: str) -> float:
    """How many times the payload a way takes, beside the payload itself."""
    run = [sys.executable, "-c", PROGRAM.format(size=PAYLOAD, way=way)]
    return float(subprocess.run(run, env={**os.environ, "PYTHONPATH": str(support.PYTHON / "src")}, stdout=subprocess.PIPE, check=True, text=True).stdout)


class Payloads(unittest.TestCase):
    def test_a_payload_takes_eight_times_its_size_at_most(self):
        for name, way in WAYS.items():
            with self.subTest(name):
                self.assertLessEqual(times(way), MOST)


if __name__ == "__main__":
    unittest.main()
