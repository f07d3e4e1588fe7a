"""The log of a worker as lines and as JSON, without what is to be redacted; and delays of retries, which are shorter by chance."""

import contextlib
import io
import json
import logging
import unittest

import support  # isort: skip
import needs
from palqytun.runtime import Retry, logs

CARD = r"\b\d{4}-\d{4}\b"


class Redacted(unittest.TestCase):
    def setUp(self):
        root = logging.getLogger()
        handlers, level = list(root.handlers), root.level
        self.addCleanup(lambda: (root.handlers.clear(), root.handlers.extend(handlers), root.setLevel(level)))

    def logged(self, form, *redacts):
        """What is logged of an error with a card's number in each of its parts."""
        with contextlib.redirect_stderr(io.StringIO()) as said:
            logs.set_up(form, redacts=redacts)
            with contextlib.suppress(ValueError):
                try:
                    raise ValueError("the card 1234-5678 is refused")
                except ValueError:
                    logging.getLogger("shop").exception("%s of %s has failed", "card 1234-5678", "ann@example.org", extra={"error": "1234-5678", "attempt": 3})
        return said.getvalue()

    def test_lines(self):
        self.assertEqual(self.logged("text").count("1234-5678"), 3)  # the fields aren't part of a line
        said = self.logged("text", CARD, "(?i)ANN@[a-z.]+")
        self.assertNotIn("1234-5678", said)
        self.assertIn("ERROR shop card [redacted] of [redacted] has failed\n", said)
        self.assertIn("ValueError: the card [redacted] is refused", said)

    @unittest.skipIf(needs.lacks_module("pythonjsonlogger"), needs.lacks_module("pythonjsonlogger"))
    def test_json(self):
        self.assertIn("1234-5678", self.logged("json"))
        said = self.logged("json", CARD)
        self.assertNotIn("1234-5678", said)
        found = json.loads(said)
        self.assertEqual((found["message"], found["error"], found["attempt"]), ("card [redacted] of ann@example.org has failed", "[redacted]", 3))
        self.assertIn("ValueError: the card [redacted] is refused", found["exc_info"])

    def test_what_is_no_expression(self):
        with self.assertRaisesRegex(ValueError, r"'\(' is no regular expression: "):
            logs.set_up(redacts=["("])


class Jitter(unittest.TestCase):
    def test_delays(self):
        found = {Retry(jitter=0.5).jittered(8.0) for _ in range(1000)}
        self.assertTrue(all(4.0 <= it <= 8.0 for it in found))
        self.assertGreater(len(found), 900)
        self.assertEqual(Retry(jitter=0).jittered(8.0), 8.0)
        for wrong in (-0.1, 1.1, float("nan")):
            with self.assertRaisesRegex(ValueError, "jitter is a part of a delay, from 0 to 1, and not "):
                Retry(jitter=wrong)


if __name__ == "__main__":
    unittest.main()
