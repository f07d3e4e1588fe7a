"""Plain English in pages: tools/checks/english.py."""

from __future__ import annotations

import unittest

from tools.checks import english

PAGE = """\
# A heading has no words here

One sentence goes over
two lines. `A b c.` is one word (really). See [the page](docs/PAGE.md) too.

- An item without a full stop
- **Bold.** Another one,
  which goes on.

1. First.
    code that isn't prose

| A row | of a table |

```python
print("no prose. none.")
```

<!-- A comment. None. -->
"""


class Sentences(unittest.TestCase):
    def test_prose_is_cut_into_sentences(self) -> None:
        found = [
            "One sentence goes over two lines.",
            "`code` is one word (really).",
            "See the page too.",
            "An item without a full stop",
            "**Bold.",
            "Another one, which goes on.",
            "First. code that isn't prose",
        ]
        self.assertEqual(english.sentences(PAGE), found)

    def test_code_counts_as_one_word(self) -> None:
        self.assertEqual(english.words("`code` is one – word."), 4)

    def test_the_average_is_over_all_sentences(self) -> None:
        self.assertEqual(english.average("One two three. Four.\n\nFive six.\n"), 2.0)

    def test_a_page_without_prose_has_none(self) -> None:
        self.assertEqual(english.average("# Heading\n\n| a | b |\n"), 0.0)


class Phrases(unittest.TestCase):
    def phrases(self, text: str) -> list[str]:
        return [it for it, _ in english.avoided(text)]

    def test_each_phrase_is_found_with_what_to_say_instead(self) -> None:
        rows = {
            "It takes some ten minutes.": ("some ten", "about"),
            "A puts B in the place of C.": ("in the place of", "instead of"),
            "All but for one.": ("but for", "except"),
            "One list begins the other.": ("begins the other", "is a prefix of"),
            "It stands on wire.": ("stands on", "depends on"),
            "Of a report only the texts.": ("Of a", "the subject first"),
            "The same is so of sends.": ("is so", "holds"),
            "It is so.": ("is so", "holds"),
            "The call answers an id.": ("answers an ", "returns"),
            "A policy of retries.": ("policy of retries", "retry policy, await tree, cron expression"),
            "A handler looks so.": ("looks so", "looks like this"),
            "No text begins another's.": ("begins another's", "is a prefix of"),
            "That is what the journal tells.": ("journal tells", "determines"),
            "| a | It stands on wire. |": ("stands on", "depends on"),
        }
        for text, (phrase, instead) in rows.items():
            with self.subTest(text):
                self.assertEqual([it.strip() for it in self.phrases(text)], [phrase.strip()])
                self.assertEqual(english.plainer(phrase), instead)

    def test_plain_sentences_pass(self) -> None:
        plain = "Some commands wait. The answers the handler saw. It is so far. Nothing but forms. A list of what it says. One of a kind."
        self.assertEqual(self.phrases(plain), [])

    def test_a_cell_may_say_of_what_it_speaks(self) -> None:
        self.assertEqual(self.phrases("| failed | of a VM: it has its first error |\n"), [])

    def test_what_a_tool_writes_is_left_out(self) -> None:
        written = "<!-- From here to the end of the map a tool writes. -->\n| a | It stands on wire. |\n<!-- The end of the map. -->\n"
        self.assertEqual(self.phrases(written), [])

    def test_code_and_headings_are_no_prose(self) -> None:
        self.assertEqual(self.phrases("# It stands on wire\n\n`it stands on wire`\n\n    it is so.\n"), [])
