"""The lines of a handler's steps, each with what it means: the steps that the rules of an attempt (tools/simulation/model.py) go by."""

from __future__ import annotations

import re
from functools import lru_cache

from tools.simulation.plan import Action, Awaits, Ends, Looks, Makes, Reads, Step, Takes, Tree, Waits
from tools.simulation.program import Bad

from .words import fields_of, unquoted, words_of

TREE = re.compile(r"(\w+)\((.*)\)$")


def tree_of(text: str) -> Tree:
    """A tree of handles, as a line has it."""
    if text.isdecimal():
        return Tree("leaf", int(text))
    found = TREE.match(text)
    if not found:
        raise Bad(f"{text!r} is no tree")
    children, depth, last = list[str](), 0, ""
    for letter in found[2]:
        depth += (letter == "(") - (letter == ")")
        if letter == "," and depth == 0:
            children.append(last)
            last = ""
        else:
            last += letter
    children += [last] if last else []
    return Tree(found[1], 0, tuple(tree_of(it) for it in children))


def field(name: str, text: str) -> str:
    """A field as a frame has it: nothing if it is empty."""
    return f" {name}={text}" if text not in ('""', "0") else ""


def callee(words: list[str]) -> str:
    """The fields of a call before its ids."""
    fields = fields_of(words)
    key, asked = (field(name, fields.get(it, '""')) for name, it in (("key", "key"), ("idempotency_key", "idem")))
    if "idem" in fields:
        asked = f" idempotency_key={fields['idem']}"
    return f"service_name={words[1]} handler_name={words[2]}{key}{asked}{field('parameter', words[3])}"


def result_of(words: list[str]) -> str:
    """A value or a failure, as a frame has it."""
    if words[0] == "success":
        return f"value({words[1]})"
    return f"failure(code={words[1]} message={words[2]})"


def sends(target: str, signal: str, result: str) -> Makes:
    return Makes((f"SendSignal{field('target_invocation_id', target)} signal={signal} result={result}",))


def action_of(words: list[str]) -> Action:
    match words[0]:
        case "call":
            call = f"Call {callee(words)} invocation_id_notification_idx={{0}} result_completion_id={{1}}"
            return Makes((call,), ("id", "value"), "call", "handles")
        case "send":
            later = field("invoke_time", fields_of(words).get("at", "0"))
            call = f"OneWayCall {callee(words)} invocation_id_notification_idx={{0}}{later}"
            return Makes((call,), ("id",), "send", "handle")
        case "sleep":
            return Makes((f"Sleep{field('wake_up_time', words[2])} result_completion_id={{0}}",), ("void",), answer="handle")
        case "complete_awakeable":
            return Makes((f"CompleteAwakeable awakeable_id={words[1]} result={result_of(words[2:])}",))
        case "complete_signal":
            return sends(words[1], f"name({words[2]})", result_of(words[3:]))
        case "cancel":
            return sends(words[1], "index(1)", "void")
        case "write_output":
            return Makes((f"Output result={result_of(words[1:])}",))
        case "set" | "clear" | "clear_all":
            return changing_of(words)
        case _:
            return waiting_of(words)


def changing_of(words: list[str]) -> Makes:
    """A step that changes the state of its key."""
    match words:
        case ["set", key, value]:
            return Makes((f"SetState key={key}{field('value', value)}",), sets=(unquoted(key), unquoted(value)))
        case ["clear", key]:
            return Makes((f"ClearState key={key}",), sets=(unquoted(key), None))
        case ["clear_all"]:
            return Makes(("ClearAllState",), clears_all=True)
        case _:
            raise Bad(f"{words} is no step that the rules know")


def waiting_of(words: list[str]) -> Action:
    """A step without a command, or a read of the state."""
    match words[0]:
        case "get":
            return Reads(unquoted(words[1]))
        case "keys":
            return Reads(None)
        case "awakeable":
            return Waits(None)
        case "signal":
            return Waits(unquoted(words[1]))
        case "await":
            return Awaits(tree_of(words[1]))
        case "take":
            return Takes(int(words[1]))
        case "completed":
            return Looks(int(words[1]))
        case "end":
            return Ends()
        case _:
            raise Bad(f"{words} is no step that the rules know")


@lru_cache(maxsize=4096)
def step_of(line: str) -> Step:
    return Step(line, action_of(words_of(line)))
