"""In what a call isn't as the journal has it: what an error carries that says so."""

from __future__ import annotations

from dataclasses import dataclass

from palqytun.commands import NO_NAMES, CommandType, Names

__all__ = ["Difference"]


@dataclass(frozen=True)
class Difference:
    """In what a call isn't as the recorded command of this index, the Input being 0.

    `field` is the first one that differs, by its name on the line of a frame (docs/FRAMES.md), and `type` if the two are of different types.
    `recorded` and `asked` are its values, in the journal and by the call, as such a line has them, up to 120 characters; the types, if these
    differ. `None` is a field at its default; a command that isn't recorded; or a call that makes none, which is an await. `recorded_type` and
    `asked_type` say what both are.

    >>> it = Difference(4, "parameter", '"Ada"', '"Bob"', CommandType.CALL, CommandType.CALL)
    >>> str(it)
    'command 4, Call, is recorded with parameter "Ada", and the call gives "Bob"'
    >>> it.in_words({CommandType.CALL: "ctx.service_call"})
    'command 4, ctx.service_call, is recorded with parameter "Ada", and the call gives "Bob"'
    """

    index: int
    field: str
    recorded: str | None
    asked: str | None
    recorded_type: CommandType | None
    asked_type: CommandType | None

    def in_words(self, names: Names = NO_NAMES) -> str:
        """The same as a text, by an SDK's own names of commands."""
        made = "" if self.asked_type is None else names.get(self.asked_type, self.asked_type.value)
        if self.recorded_type is None:
            return f"no command is recorded at {self.index}, and the call makes {made}"
        own = names.get(self.recorded_type, self.recorded_type.value)
        if self.asked_type is None:
            return f"command {self.index} is recorded as {own}, and the code awaits what hasn't come"
        if self.field == "type":
            return f"command {self.index} is recorded as {own}, and the call makes {made}"
        values = f"{self.field} {self.recorded or 'nothing'}, and the call gives {self.asked or 'nothing'}"
        return f"command {self.index}, {own}, is recorded with {values}"

    def __str__(self) -> str:
        return self.in_words()
