"""The stored journal: what a runtime asks of it, and nothing else.

`Journal` holds what the only writer of a stored journal has to know, and keeps the rules of a well-behaved runtime. `frames` are its entries as
typed values. The rest of the runtime names nothing of these two modules but what this file lists, and knows no layout of bytes.

Both use the core: `rules` on its `palqytun.Journal`, `frames` on `palqytun.frames`, which writes and reads frames by their lines, makes
notifications, and judges whether a suspension is awake. What `frames` does beside is tested and not proved.

    entry(frame)             the next entry, at load
    start(begin)             the bytes that a new attempt is fed: its Start, and the whole journal
    arrive(notification)     the entry that is to be stored, or `BrokenRule` with the rule that it breaks
    store(output, at)        the entries of what an attempt wrote, what they ask of the runtime, and the frames to feed back
    effect_of(command)       what a stored command asks of the runtime
    state(base)              the keyed state as the journal's commands leave it
    keep(), undo()           what was stored since is committed; or it wasn't, and is taken back
    is_awake(frame, entries) whether a suspension is awake by the notifications among some entries
"""

from palqytun.journals import DEFAULT_VERSION

from .frames import (
    CANCEL,
    CONTINUED,
    OWN,
    PATCHED,
    Attach,
    Attribute,
    Begin,
    Call,
    Change,
    Command,
    CompleteAwakeable,
    Described,
    End,
    Failed,
    Input,
    Notification,
    Output,
    Promise,
    Read,
    Result,
    Run,
    SendSignal,
    Sleep,
    Suspension,
    answer,
    attribute,
    attributes_in,
    cancellation,
    commands_in,
    completion,
    described,
    failure,
    input_command,
    invocation,
    is_awake,
    is_failure,
    keys,
    line_of,
    messages_in,
    named_signal,
    only_ends,
    only_runs,
    only_steps,
    only_suspends,
    patches_in,
    signal,
    signal_name,
    split,
    value,
    void,
)
from .rules import BrokenRule, Entry, Journal, Stored, effect_of

__all__ = [
    "CANCEL",
    "CONTINUED",
    "DEFAULT_VERSION",
    "OWN",
    "PATCHED",
    "Attach",
    "Attribute",
    "Begin",
    "BrokenRule",
    "Call",
    "Change",
    "Command",
    "CompleteAwakeable",
    "Described",
    "End",
    "Entry",
    "Failed",
    "Input",
    "Journal",
    "Notification",
    "Output",
    "Promise",
    "Read",
    "Result",
    "Run",
    "SendSignal",
    "Sleep",
    "Stored",
    "Suspension",
    "answer",
    "attribute",
    "attributes_in",
    "cancellation",
    "commands_in",
    "completion",
    "described",
    "effect_of",
    "failure",
    "input_command",
    "invocation",
    "is_awake",
    "is_failure",
    "keys",
    "line_of",
    "messages_in",
    "named_signal",
    "only_ends",
    "only_runs",
    "only_steps",
    "only_suspends",
    "patches_in",
    "signal",
    "signal_name",
    "split",
    "value",
    "void",
]
