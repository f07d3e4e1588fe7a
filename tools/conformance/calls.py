"""A line of a script as a call: a dict with the call's name and its arguments, which JSON can hold."""

from __future__ import annotations

from collections.abc import Callable
from typing import Any, TypeAlias

from .tokens import Tokens, Unreadable

Json: TypeAlias = Any  # what JSON can hold
Call = dict[str, Json]

KINDS = {
    "fc": "first_completed",
    "ac": "all_completed",
    "fsaf": "first_succeeded_or_all_failed",
    "asff": "all_succeeded_or_first_failed",
    "un": "unknown",
}
OPTIONS = {"cancel": "calls", "checks": "on", "awaiting": "norun", "mismatch": "follow", "replay": "on", "delivery": "queued"}
TARGET = {"key": "key", "idem": "idempotency_key", "scope": "scope", "limit": "limit_key"}


class NotTyped(Exception):
    """A call that no typed call can make: why."""


def call_of(line: str) -> Call:
    """The call that a line makes.

    Raises NotTyped for one that only a line can make, and Unreadable if the line is of another form.

    >>> call_of('sleep "" 1000')
    {'call': 'sys_sleep', 'name': '', 'wake_up_time': 1000, 'now': None}
    """
    left = Tokens(line)
    word = left.word()
    if word not in CALLS:
        raise Unreadable(f"no call is called {word}")
    found = CALLS[word](left)
    if left:
        raise Unreadable(f"{left.take()!r} is one too many")
    return found


def millis(left: Tokens) -> int:
    """A duration in whole milliseconds."""
    word = left.word()
    if word.endswith("ns"):
        whole, rest = divmod(int(word[:-2]), 1_000_000)
        if rest:
            raise NotTyped("a time that is no whole number of milliseconds")
        return whole
    return int(word)


def options(left: Tokens, known: dict[str, Callable[[Tokens], Json]], flags: tuple[str, ...] = ()) -> dict[str, Json]:
    """Options in any order; what isn't given is None, and a flag false. Several headers add up."""
    found: dict[str, Json] = {name: None for name in known} | {name: False for name in flags}
    while left:
        if left.next_is_option():
            name = left.word()
            left.sign("=")
            if name not in known:
                raise Unreadable(f"no option is called {name}")
            value = known[name](left)
            before = found[name]
            found[name] = [*before, *value] if isinstance(before, list) and isinstance(value, list) else value
        else:
            name = left.word()
            if name not in flags:
                raise Unreadable(f"no word {name} stands here")
            found[name] = True
    return found


NAMED: dict[str, Callable[[Tokens], Json]] = {"name": Tokens.text}


def value(left: Tokens) -> Json:
    """A value: bytes in hex, or a failure."""
    kind = left.word()
    if kind == "success":
        return {"success": left.data().hex()}
    if kind != "failure":
        raise Unreadable(f"{kind} is no value")
    return {"failure": {"code": left.number(), "message": left.text(), "metadata": left.pairs()}}


def tree(left: Tokens) -> Json:
    """A handle, or a kind with its trees."""
    word = left.word()
    if word not in KINDS:
        return int(word)
    children: list[Json] = []
    left.sign("(")
    while not left.next_is(")"):
        children.append(tree(left))
        if left.next_is(","):
            left.take()
    left.sign(")")
    return {KINDS[word]: children}


def new(left: Tokens) -> Call:
    if left.next_is("-") or left.next_is("!"):
        if left.take() == "!":
            raise NotTyped("a content type that can't be read")
        content_type = None
    else:
        content_type = left.text()
    words: dict[str, Callable[[Tokens], Json]] = {name: Tokens.word for name in OPTIONS}
    given = options(left, {**words, "seed": Tokens.number})
    return {"call": "new", "content_type": content_type, "options": {name: it for name, it in given.items() if it is not None}}


def related(left: Tokens) -> Json:
    """The command that an error relates to."""
    kind = left.word()
    if kind == "last":
        return "last"
    left.sign("(")
    found: dict[str, Json] = {"kind": kind}
    if kind == "at":
        found["index"] = left.number()
    found |= {"type": left.word(), "name": left.text_or_none()}
    left.sign(")")
    return found


ERROR: dict[str, Callable[[Tokens], Json]] = {"stack": Tokens.text, "behaviour": Tokens.word, "delay": millis, "rel": related}


def error(left: Tokens) -> Call:
    code, message = left.number(), left.text()
    given = options(left, ERROR)
    return {"call": "notify_error", "code": code, "message": message, **spelled(given)}


def spelled(given: dict[str, Json]) -> Call:
    """The options of an error, by their names in a binding."""
    found: Call = {"stacktrace": given["stack"], "behaviour": given["behaviour"] or "retry", "delay": given["delay"]}
    return found | ({"related": given["rel"]} if "rel" in given else {})


def policy(left: Tokens) -> Json:
    """A policy of retries."""
    kind = left.word()
    if kind in ("infinite", "none"):
        return {"kind": kind}
    if kind not in ("fixed", "exp"):
        raise Unreadable(f"{kind} is no policy")
    names = {"interval": "interval", "attempts": "attempts", "max": "duration", "initial": "initial"}
    found: dict[str, Json] = {"kind": kind, "pause": False}
    left.sign("(")
    while not left.next_is(")"):
        name = left.word()
        if name == "pause":
            found["pause"] = True
            continue
        left.sign("=")
        if name == "factor":
            numerator, _, denominator = left.word().partition("/")
            found["factor"] = [int(numerator), int(denominator)]
        else:
            found[names[name]] = left.number() if name == "attempts" else millis(left)
    left.sign(")")
    return found


def proposal(left: Tokens) -> Call:
    handle = left.number()
    if left.next_is("retryable"):
        left.take()
        after, code, message = millis(left), left.number(), left.text()
        known = {name: it for name, it in ERROR.items() if name != "rel"}
        given = options(left, {**known, "policy": policy})
        result: Json = {"retryable": {"code": code, "message": message, "duration": after, **spelled(given)}}
    else:
        result = value(left)
        given = options(left, {"policy": policy})
    return {"call": "propose_run_completion", "handle": handle, "result": result, "policy": given["policy"] or {"kind": "infinite"}}


def headers(left: Tokens) -> Json:
    return left.pairs()


def target(left: Tokens, *times: str) -> dict[str, Json]:
    """The handler that is called, its input, and how."""
    found: dict[str, Json] = {"service": left.text(), "handler": left.text(), "value": left.data().hex()}
    if "wake_up_time" in times:
        found["wake_up_time"] = millis(left)
    known: dict[str, Callable[[Tokens], Json]] = {it: Tokens.text for it in (*TARGET, "name")}
    known["header"] = headers
    if "at" in times:
        known["at"] = millis
    given = options(left, known, ("unstable",))
    found |= {to: given[name] for name, to in TARGET.items()}
    found |= {"headers": given["header"] or [], "name": given["name"], "unstable": given["unstable"]}
    return found | ({"at": given["at"]} if "at" in times else {})


def invocation(left: Tokens) -> Json:
    """The invocation to attach to."""
    kind = left.word()
    if kind == "id":
        return {"invocation_id": left.text()}
    if kind == "workflow":
        name, key = left.text(), left.text()
        return {"workflow": {"name": name, "key": key, "scope": options(left, {"scope": Tokens.text})["scope"]}}
    service, handler, idem = left.text(), left.text(), left.text()
    given = options(left, {"skey": Tokens.text, "scope": Tokens.text})
    those: dict[str, Json] = {"service": service, "handler": handler, "idempotency_key": idem}
    return {"idempotency": those | {"service_key": given["skey"], "scope": given["scope"]}}


def plain(call: str, **arguments: Callable[[Tokens], Json]) -> Callable[[Tokens], Call]:
    """A call whose arguments stand in this order."""
    return lambda left: {"call": call} | {name: read(left) for name, read in arguments.items()}


def with_options(
    call: str, arguments: dict[str, Callable[[Tokens], Json]], known: dict[str, Callable[[Tokens], Json]], *flags: str
) -> Callable[[Tokens], Call]:
    """A call whose arguments stand in this order, with options after them."""

    def read(left: Tokens) -> Call:
        found: Call = {"call": call} | {name: it(left) for name, it in arguments.items()}
        return found | options(left, known, flags)

    return read


def octets(left: Tokens) -> Json:
    return left.data().hex()


def calling(call: str, *times: str) -> Callable[[Tokens], Call]:
    return lambda left: {"call": call} | target(left, *times)


CALLS: dict[str, Callable[[Tokens], Call]] = {
    "vm": new,
    "head": plain("get_response_head"),
    "input": plain("notify_input", data=octets),
    "close": plain("notify_input_closed"),
    "output": plain("take_output"),
    "ready": plain("is_ready_to_execute"),
    "completed": plain("is_completed", handle=Tokens.number),
    "state": plain("state"),
    "index": plain("last_command_index"),
    "error": error,
    "await": plain("do_await", future=tree),
    "take": plain("take_notification", handle=Tokens.number),
    "sys_input": plain("sys_input"),
    "sleep": with_options("sys_sleep", {"name": Tokens.text, "wake_up_time": millis}, {"now": millis}),
    "get": with_options("sys_state_get", {"key": Tokens.text}, NAMED, "unstable"),
    "keys": with_options("sys_state_get_keys", {}, NAMED),
    "ephemeral_get": plain("ephemeral_state_get", key=Tokens.text),
    "take_ephemeral": plain("take_ephemeral_notification", id=Tokens.number),
    "set": with_options("sys_state_set", {"key": Tokens.text, "value": octets}, NAMED, "unstable"),
    "clear": with_options("sys_state_clear", {"key": Tokens.text}, NAMED),
    "clear_all": with_options("sys_state_clear_all", {}, NAMED),
    "call": calling("sys_call"),
    "call_with_deadline": calling("sys_call_with_deadline", "wake_up_time"),
    "send": calling("sys_send", "at"),
    "awakeable": plain("sys_awakeable"),
    "signal": plain("create_signal_handle", name=Tokens.text),
    "complete_awakeable": with_options("sys_complete_awakeable", {"id": Tokens.text, "value": value}, {}, "unstable"),
    "complete_signal": plain("sys_complete_signal", invocation_id=Tokens.text, name=Tokens.text, value=value),
    "cancel": plain("sys_cancel_invocation", invocation_id=Tokens.text),
    "get_promise": plain("sys_get_promise", key=Tokens.text),
    "peek_promise": plain("sys_peek_promise", key=Tokens.text),
    "complete_promise": with_options("sys_complete_promise", {"key": Tokens.text, "value": value}, {}, "unstable"),
    "run": plain("sys_run", name=Tokens.text),
    "propose": proposal,
    "attach": plain("sys_attach_invocation", target=invocation),
    "get_output": plain("sys_get_invocation_output", target=invocation),
    "write_output": with_options("sys_write_output", {"value": value}, {}, "unstable"),
    "end": plain("sys_end"),
}
