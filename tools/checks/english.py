"""Plain English in pages: how many words a sentence has, and turns of phrase for which there are plainer ones."""

from __future__ import annotations

import re
from collections.abc import Iterator

# How many words a sentence of a page may have on average.
MOST_WORDS = 20
# From how many words on a sentence is long.
LONG = 25
CODE = re.compile(r"`[^`]*`")
LINK = re.compile(r"!?\[([^\]]*)\]\([^)]*\)")
# What ends a sentence: a full stop, with brackets and stars that close after it, before a new beginning.
END = re.compile(r"(?<=[.!?])[)*\"”]*\s+(?=[A-Z`(*\[\d\"“])|(?<=[.!?][)*\"”])\s+(?=[A-Z`(*\[\d\"“])")
# A new paragraph or item of a list. A heading, a row of a table and a line of code are no prose.
ITEM = re.compile(r"\s*(?:[-*+]|\d+\.) +|\s*> ?")
NO_PROSE = re.compile(r"\s*(?:#|\|)|    |<")
NUMBERS = "two|three|four|five|six|seven|eight|nine|ten|twelve|twenty|thirty|fifty|hundred|thousand"
# What a tool writes into a page, up to its end: the words are those of the sources.
WRITTEN = re.compile(r"<!-- From here to the end of .*?<!-- The end of [^>]*-->", re.DOTALL)
# Turns of phrase, each with what to say instead.
PLAINER = {
    r"in the place of": "instead of",
    r"but for\b": "except",
    rf"some (?:{NUMBERS})": "about",
    r"begins? (?:the )?(?:other|those)\b": "is a prefix of",
    r"(?:stands?|stood) on": "depends on",
    r"of one's own": "own",
    r"(?:is|are) so(?= *[.,:;)]|$| of )": "holds",
    r"read it so": "holds",
    r"looks so": "looks like this",
    r"begins? (?:the )?\w+'s(?= *[.,:;)]|$)": "is a prefix of",
    r"(?:journal|point|report|round)s? (?:then )?tells?\b": "determines",
    r"(?<!\bthe )(?<!\bof )(?<!\bits )(?<!\btheir )(?<!\ball )answers (?:`|the |an? |its |no |nothing|out )": "returns",
    r"(?:polic(?:y|ies)|trees?|expressions?) of (?:retries|awaits|cron)": "retry policy, await tree, cron expression",
    r"(?:(?<=[.;] )|^)Of (?:an?|the|what|each|one)\b": "the subject first",
    r"(?:, |\()as `+(?=[,.;)])": "such as",
}
AVOIDED = re.compile("|".join(rf"(?<!\w)(?:{it})" for it in PLAINER), re.IGNORECASE)


def paragraphs(text: str) -> Iterator[str]:
    """Yields the paragraphs and items of a page, each on one line, without code, headings and tables."""
    shown = re.sub(r"<!--.*?-->", "", text, flags=re.DOTALL)
    current: list[str] = []
    fenced = is_item = False
    for line in [*shown.splitlines(), ""]:
        fenced ^= line.startswith("```")
        is_code = line.startswith("    ") and not is_item
        if (begins := ITEM.match(line)) or not line.strip() or fenced or line.startswith("```") or NO_PROSE.match(line) and (is_code or line[0] != " "):
            if current:
                yield " ".join(current)
            current = []
            is_item = bool(begins) or is_item and line.startswith(" ")
        if line.strip() and not (fenced or line.startswith("```") or is_code or NO_PROSE.match(line) and line[0] != " "):
            current.append(line[begins.end() if begins else 0 :].strip())


def sentences(text: str) -> list[str]:
    """Returns the sentences of a page's prose; a piece of code counts as a word, and a link as its text."""
    plain = (LINK.sub(r"\1", CODE.sub("`code`", it)) for it in paragraphs(text))
    return [it.strip() for line in plain for it in END.split(line) if re.search(r"\w", it)]


def cells(text: str) -> Iterator[str]:
    """Yields the cells of a page's tables, except those that a tool writes."""
    fenced = False
    for line in WRITTEN.sub("", text).splitlines():
        fenced ^= line.startswith("```")
        if line.startswith("|") and not fenced:
            yield from (it.strip() for it in CODE.sub("`code`", line).strip("|").split("|"))


def avoided(text: str) -> list[tuple[str, str]]:
    """Returns the turns of phrase to avoid that a page's prose and tables have, each with the sentence where it stands."""
    found = [(it, sentence) for line in paragraphs(text) for it, sentence in _phrases(line)]
    in_tables = ((it, sentence) for line in cells(text) for it, sentence in _phrases(line))
    return found + [it for it in in_tables if not it[0].startswith("of ")]  # a cell says of what it speaks, as a dictionary does


def _phrases(line: str) -> Iterator[tuple[str, str]]:
    plain = LINK.sub(r"\1", CODE.sub("`", line))
    yield from ((it[0], sentence.strip()) for sentence in END.split(plain) for it in AVOIDED.finditer(sentence))


def plainer(phrase: str) -> str:
    """Returns what to say instead of a turn of phrase, or in which form."""
    return next(to for it, to in PLAINER.items() if re.match(it, phrase, re.IGNORECASE))


def words(sentence: str) -> int:
    return sum(re.search(r"\w", it) is not None for it in sentence.split())


def average(text: str) -> float:
    """Returns how many words a sentence of a page has on average; 0 if it has none."""
    found = sentences(text)
    return sum(map(words, found)) / len(found) if found else 0.0
