"""The spellings of a name: `PeekPromise` is also `peek_promise`, `PEEK_PROMISE`, `peekPromise`, `peek-promise`, and part of longer names."""

from __future__ import annotations

import re
from functools import cached_property

from .tree import Fault

WORD = re.compile(r"[A-Z]+(?![a-z])\d*|[A-Z]?[a-z]+\d*|\d+")
AROUND = r"[\w-]*"


def words_of(name: str) -> list[str]:
    """Returns the words of a name in small letters, however it is spelled: at underscores, hyphens, spaces and humps it is cut."""
    return [it.lower() for it in WORD.findall(name)]


class Name:
    """A name, and what spells it. In a text it is found as whole words of a longer name too, as `sys_peek_promise` or
    `PeekPromiseCommand`, unless it has to stand alone; and not inside of a word."""

    def __init__(self, name: str, alone: bool = False) -> None:
        self.name = name
        self.alone = alone
        self.words = words_of(name)
        if not self.words or re.search(r"[^\w\s-]", name):
            raise Fault(f"{name!r} is no name; a name has letters, digits, underscores and hyphens, as PeekPromise or limit_key")

    @cached_property
    def pattern(self) -> re.Pattern[str]:
        """What finds the name in a text."""
        first, *rest = self.words
        small = f"[{first[0].upper()}{first[0]}]{first[1:]}" + "".join(f"[_ -]{it}" for it in rest)
        great = "[_-]".join(it.upper() for it in self.words)
        humps = "".join(f"(?:{it.capitalize()}|{it.upper()})" for it in self.words)
        lead = r"(?<![A-Z])" if len(first) < 3 else ""
        forms = [rf"(?<![A-Za-z0-9]){small}(?![a-z0-9])", rf"(?<![A-Za-z0-9]){great}(?![A-Za-z0-9])", rf"{lead}{humps}(?![a-z0-9])"]
        if rest:
            forms.append(rf"(?<![A-Za-z0-9]){first}{''.join(it.capitalize() for it in rest)}(?![a-z0-9])")
        any_of = "|".join(forms)
        return re.compile(rf"(?<![\w-])(?:{any_of})(?![\w-])" if self.alone else any_of)

    @cached_property
    def whole(self) -> re.Pattern[str]:
        """What finds the name with the longer name that it stands in."""
        return re.compile(rf"(?<![\w-]){AROUND}?(?:{self.pattern.pattern}){AROUND}")

    def may_stand_in(self, text: str) -> bool:
        """Says in a short time whether a text has all words of the name, so that a search is worth while."""
        small = text.lower()
        return all(it in small for it in self.words)

    def spellings(self, text: str) -> list[str]:
        """Returns the names of a text in which this one stands."""
        return [it[0].strip("-") for it in self.whole.finditer(text)]
