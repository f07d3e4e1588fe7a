"""Ruby's tables of the interface: `bindings/ruby/lib/palqytun/abi.rb` has the numbers, names and error texts."""

from __future__ import annotations

import re

from . import words
from .header import Header

MODULE = "bindings/ruby/lib/palqytun/abi.rb"
HEAD = """# frozen_string_literal: true

# tools/header --write writes this file, from palqytun.h.
module Palqytun
  # The numbers, names and error texts of the interface.
  module ABI
"""


def snake(name: str) -> str:
    """A word as a symbol: CallsAndSends is calls_and_sends."""
    return re.sub(r"(?<=[a-z0-9])(?=[A-Z])|(?<=[A-Z])(?=[A-Z][a-z])", "_", name).lower()


def module_of(header: Header) -> str:
    """The text of the file."""
    numbers = {words.plain(name): number for name, number in {**header.numbers, **header.enumerators}.items()}
    rows = [f"    {name} = {number}" for name, number in numbers.items()]
    rows += ["", "    # The name of each status, and what it says.", "    STATUSES = {"]
    rows += [f'      {number} => [:{name.lower()}, "{text}"],' for name, number, text in words.statuses(header)]
    rows.append("    }.freeze")
    for it in words.groups(header):
        rows += ["", f"    # {it.about}", f"    {snake(it.name).upper()}_CASES = {{"]
        rows += [f"      {snake(case)}: {number}," for case, number in it.cases]
        rows.append("    }.freeze")
    return HEAD + "\n".join([*rows, "  end", "end", ""])
