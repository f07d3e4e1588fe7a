"""What a type checker says of the core's errors, and of commands to which they relate. A line with `type: ignore[KIND]` has to be refused so: mypy
--strict says of one that it isn't needed if the line is well. It is checked, and never run."""

from __future__ import annotations

from typing import assert_type

from palqytun import LAST_COMMAND, VM, CommandType, Difference, NextCommand, Related, RelatedCommand, VMError


def said(error: VMError) -> None:
    assert_type(error.related, Related | None)
    assert_type(error.difference, Difference | None)
    assert_type(error.in_words({CommandType.CALL: "ctx.service_call"}), str)
    error.in_words({"Call": "ctx.service_call"})  # type: ignore[dict-item]
    error.difference.field  # type: ignore[union-attr]


def fields(it: Difference, related: Related) -> None:
    assert_type((it.index, it.field), tuple[int, str])
    assert_type((it.recorded, it.asked), tuple[str | None, str | None])
    assert_type((it.recorded_type, it.asked_type), tuple[CommandType | None, CommandType | None])
    assert_type((related.index, related.type, related.name), tuple[int, CommandType, str])
    it.field = "key"  # type: ignore[misc]


def handed_in(vm: VM, error: VMError) -> None:
    every: list[RelatedCommand | None] = [None, LAST_COMMAND, NextCommand(CommandType.SLEEP, "nap"), Related(3, CommandType.RUN), error.related]
    for it in every:
        vm.notify_error(418, "no tea", related=it)
    vm.notify_error(418, "no tea", related="last")  # type: ignore[arg-type]
    NextCommand("Sleep")  # type: ignore[arg-type]


def output(vm: VM) -> None:
    with vm.lend_output() as lent:
        assert_type(lent, memoryview)
    assert_type(vm.take_output(), bytes)
