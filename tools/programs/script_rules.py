"""Rows of vmscript that follow from a rule: each call that has a command in each state, each kind of await, and a thousand deliveries.

A rule is a function that yields the text of its rows (docs/ROWS.md). What is wanted stands here, in tables and in the rule's own words."""

from __future__ import annotations

from collections.abc import Callable, Iterator
from dataclasses import dataclass
from itertools import product

Rule = Callable[[], Iterator[str]]

EACH_OPTION = "-- versions 5 6 7 8\n-- options idle, replay=off\n"
# With replay disabled no recorded command is left once the input is read.
EACH_REPLAYING = "-- versions 5 6 7 8\n-- options idle\n"

INPUT = "<input_till>"
CLEAR_ALL_N = "0011000000000000000900000000000000016e"


def start(known: int) -> str:
    """Start, in hex, of an invocation with this many known entries and a part of the state, which is empty."""
    return f"000100000000000000420000000000000003616263000000000000000361626300000000000000000000{known:04x}" + "0" * 17 + "1" + "0" * 46


def recorded(entries: str, count: int) -> str:
    """The lines up to a call, with an input and `known` further known entries, which are these, in hex."""
    return f"input 0x{start(count + 1)} => ok\ninput {INPUT} => ok\ninput 0x{entries} => ok\n@read\n"


# ---- calls that have a command


@dataclass(frozen=True)
class Command:
    """A call that has a command, and what it gives where it is carried out. Frames are in hex, and were written from the layout."""

    line: str
    answer: str
    # its frames as the first of the handler's calls
    first: str
    # the same after as many dropped commands like it: their ids are passed
    later: str
    # a recorded command of its type with another header; none if it has nothing but a payload
    other: str | None
    # how many commands it has
    many: int = 1
    # a read of the state, which doesn't count as a command if the state refuses it
    is_read: bool = False


COMMANDS = (
    Command(
        'sleep "" 1000',
        "ok 17",
        "0012000000000000001400000000000003e8000000010000000000000000",
        "0012000000000000001400000000000003e8000000020000000000000000",
        "0012000000000000001500000000000003e80000000100000000000000016e",
    ),
    Command(
        'call "s" "h" "v"',
        "ok 17 18",
        "0013000000000000003e0000000000000001730000000000000001680000000000000000000000000000000000000000000000000000017600000001"
        "000000000000000000000002",
        "0013000000000000003e0000000000000001730000000000000001680000000000000000000000000000000000000000000000000000017600000003"
        "000000000000000000000004",
        "0013000000000000003e0000000000000001730000000000000001670000000000000000000000000000000000000000000000000000017600000001"
        "000000000000000000000002",
    ),
    Command(
        'send "s" "h" "v"',
        "ok 17",
        "001400000000000000420000000000000001730000000000000001680000000000000000000000000000000000000000000000000000017600000001"
        "00000000000000000000000000000000",
        "001400000000000000420000000000000001730000000000000001680000000000000000000000000000000000000000000000000000017600000002"
        "00000000000000000000000000000000",
        "001400000000000000420000000000000001730000000000000001670000000000000000000000000000000000000000000000000000017600000001"
        "00000000000000000000000000000000",
    ),
    Command(
        'call_with_deadline "s" "h" "v" 1000',
        "ok 17 18 19",
        "0013000000000000003e0000000000000001730000000000000001680000000000000000000000000000000000000000000000000000017600000001"
        "0000000000000000000000020012000000000000001400000000000003e8000000030000000000000000",
        "0013000000000000003e0000000000000001730000000000000001680000000000000000000000000000000000000000000000000000017600000004"
        "0000000000000000000000050012000000000000001400000000000003e8000000060000000000000000",
        "0013000000000000003e0000000000000001730000000000000001670000000000000000000000000000000000000000000000000000017600000001"
        "0000000000000000000000020012000000000000001400000000000003e8000000030000000000000000",
        many=2,
    ),
    Command(
        'set "k" "v"',
        "ok",
        "000f000000000000001a000000000000000000000000000000016b000000000000000176",
        "000f000000000000001a000000000000000000000000000000016b000000000000000176",
        "000f000000000000001a000000000000000000000000000000016c000000000000000176",
    ),
    Command(
        'clear "k"',
        "ok",
        "00100000000000000011000000000000000000000000000000016b",
        "00100000000000000011000000000000000000000000000000016b",
        "00100000000000000011000000000000000000000000000000016c",
    ),
    Command(
        "clear_all",
        "ok",
        "001100000000000000080000000000000000",
        "001100000000000000080000000000000000",
        "0011000000000000000900000000000000016e",
    ),
    Command(
        'get "k"',
        "ok 17",
        "000c0000000000000015000000000000000000000000000000016b00000001",
        "000c0000000000000015000000000000000000000000000000016b00000002",
        "000c0000000000000015000000000000000000000000000000016c00000001",
        is_read=True,
    ),
    Command(
        "keys",
        "ok 17",
        "000e000000000000000c000000010000000000000000",
        "000e000000000000000c000000020000000000000000",
        "000e000000000000000d0000000100000000000000016e",
        is_read=True,
    ),
    Command(
        'complete_awakeable "a" success "v"',
        "ok",
        "0015000000000000001300000000000000016100000000000000000176",
        "0015000000000000001300000000000000016100000000000000000176",
        "0015000000000000001300000000000000016200000000000000000176",
    ),
    Command(
        'complete_signal "x" "s" success "v"',
        "ok",
        "0016000000000000001d0000000000000001780100000000000000017301000000000000000176",
        "0016000000000000001d0000000000000001780100000000000000017301000000000000000176",
        "0016000000000000001d0000000000000001790100000000000000017301000000000000000176",
    ),
    Command(
        'cancel "x"',
        "ok",
        "0016000000000000000f000000000000000178000000000100",
        "0016000000000000000f000000000000000178000000000100",
        "0016000000000000000f000000000000000179000000000100",
    ),
    Command(
        'get_promise "p"',
        "ok 17",
        "0017000000000000000d00000000000000017000000001",
        "0017000000000000000d00000000000000017000000002",
        "0017000000000000000d00000000000000017100000001",
    ),
    Command(
        'peek_promise "p"',
        "ok 17",
        "0018000000000000000d00000000000000017000000001",
        "0018000000000000000d00000000000000017000000002",
        "0018000000000000000d00000000000000017100000001",
    ),
    Command(
        'complete_promise "p" success "v"',
        "ok 17",
        "001900000000000000170000000000000001700000000000000000017600000001",
        "001900000000000000170000000000000001700000000000000000017600000002",
        "001900000000000000170000000000000001710000000000000000017600000001",
    ),
    Command(
        'run "r"',
        "ok 17 false",
        "001a000000000000000d00000000000000017200000001",
        "001a000000000000000d00000000000000017200000002",
        "001a000000000000000d00000000000000017100000001",
    ),
    Command(
        'attach id "x"',
        "ok 17",
        "001b000000000000000e0000000000000000017800000001",
        "001b000000000000000e0000000000000000017800000002",
        "001b000000000000000e0000000000000000017900000001",
    ),
    Command(
        'get_output id "x"',
        "ok 17",
        "001c000000000000000e0000000000000000017800000001",
        "001c000000000000000e0000000000000000017800000002",
        "001c000000000000000e0000000000000000017900000001",
    ),
    Command(
        'write_output success "v"',
        "ok",
        "001d000000000000000a00000000000000000176",
        "001d000000000000000a00000000000000000176",
        None,
    ),
)

@dataclass(frozen=True)
class Refusing:
    """A state in which each of these calls is refused, and the index of the last command after it."""

    before: str
    error: str
    sent: str
    index: int
    # the same after a call that doesn't count as a command
    uncounted: int


BEFORE_THE_INPUT_IS_READ = (
    Refusing("", 'err 571 "UnexpectedStateError"', "frames Error", 0, -1),
    Refusing("@entries_missing", 'err 571 "UnexpectedStateError"', "frames Error", 0, -1),
    # The recorded command is the input. In replay a state read is matched as the others are, so it counts.
    Refusing("@unread", 'err 570 "CommandTypeMismatchError"', "frames Error", 0, 0),
    # The known entries are there, and none of them is a command.
    Refusing(
        "input <start_1 completion_9> => ok\nstate => ok Replaying\nindex => ok -1", 'err 571 "UnavailableEntryError"', "frames Error", 0, 0
    ),
)

AFTER_THE_END = (
    Refusing("@closed", 'err 598 "ClosedError"', "ok 0x", 1, 0),
    Refusing("@suspended", 'err 598 "ClosedError"', "ok 0x", 2, 1),
    # A failed VM answers its first error, and counts nothing.
    Refusing("@failed", 'err 571 "KNOWN_ENTRIES_IS_ZERO"', "ok 0x", -1, -1),
)


def each_command_is_refused() -> Iterator[str]:
    """Before the input is read, and after the end."""
    for it, state in product(COMMANDS, (*BEFORE_THE_INPUT_IS_READ, *AFTER_THE_END)):
        index = state.uncounted if it.is_read else state.index
        yield f"== {it.line} is refused\n{EACH_OPTION}{state.before}\n"
        yield f"{it.line} => {state.error}\nstate => ok Closed\nindex => ok {index}\noutput => {state.sent}\n"
        yield f"{it.line} => {state.error}\noutput => ok 0x\n"


def each_command_is_written() -> Iterator[str]:
    """In Processing, and once."""
    for it in COMMANDS:
        yield f"== {it.line} is written\n{EACH_OPTION}@processing\n{it.line} => {it.answer}\n"
        yield f"state => ok Processing\nindex => ok {it.many}\noutput => ok 0x{it.first}\noutput => ok 0x\n"


def each_command_is_popped() -> Iterator[str]:
    """Recorded commands that are equal to its own are popped, also if another follows; nothing is written."""
    for it, (further, more, state) in product(COMMANDS, [("", 0, "Processing"), (CLEAR_ALL_N, 1, "Replaying")]):
        yield f"== {it.line} is popped\n{EACH_REPLAYING}{recorded(it.first + further, it.many + more)}"
        yield f"{it.line} => {it.answer}\nstate => ok {state}\nindex => ok {it.many}\noutput => ok 0x\n"


def each_command_with_another_header_is_a_mismatch() -> Iterator[str]:
    error = 'err 570 "CommandMismatchError"'
    for it in COMMANDS:
        if it.other is not None:
            yield f"== {it.line} is a mismatch\n{EACH_REPLAYING}{recorded(it.other, it.many)}"
            yield f"{it.line} => {error}\nstate => ok Closed\nindex => ok 1\noutput => frames Error\n{it.line} => {error}\noutput => ok 0x\n"


def each_command_is_written_again_without_replay() -> Iterator[str]:
    """With replay disabled recorded commands are dropped: the call writes its own, and their ids aren't given again."""
    for it in COMMANDS:
        yield f"== {it.line} is written again\n-- versions 5 6 7 8\n-- options replay=off\n{recorded(it.first, it.many)}index => ok {it.many}\n"
        yield f"{it.line} => {it.answer}\nstate => ok Processing\nindex => ok {2 * it.many}\noutput => ok 0x{it.later}\n"


# ---- awaits of two children

PENDING, SUCCEEDED, FAILED = "pending", "succeeded", "failed"
KINDS = ("fc", "un", "ac", "fsaf", "asff")


@dataclass(frozen=True)
class Awaited:
    """An await of two sleeps, by the kind of its node and what became of them."""

    kind: str
    children: tuple[str, str]

    @property
    def title(self) -> str:
        return f"{self.kind} of one that is {self.children[0]} and one that is {self.children[1]}"

    @property
    def is_awake(self) -> bool:
        """By each kind's rule."""
        is_pending = PENDING in self.children
        if self.kind == "ac":  # all are completed
            return not is_pending
        if self.kind == "fsaf":  # one succeeded, or all failed
            return SUCCEEDED in self.children or not is_pending
        if self.kind == "asff":  # one failed, or all succeeded
            return FAILED in self.children or not is_pending
        return self.children != (PENDING, PENDING)  # one is completed

    @property
    def arrivals(self) -> list[str]:
        """The frames by which the sleeps are over, under the ids 1 and 2, in hex."""
        frames = {
            SUCCEEDED: "001e0000000000000006000000000{}00",
            FAILED: "001e000000000000001c000000000{}02000001f400000000000000026e6f0000000000000000",
        }
        return [frames[child].format(number) for number, child in enumerate(self.children, 1) if child != PENDING]

    @property
    def asked(self) -> str:
        """The lines up to the await: both sleeps are made, and what is over has come."""
        sleeps = 'sleep "" 1000 => ok 17\nsleep "" 1000 => ok 18\noutput => frames Sleep Sleep\n'
        return f"@processing\n{sleeps}input 0x{''.join(self.arrivals)} => ok\n"

    @property
    def line(self) -> str:
        return f"await {self.kind}(17,18)"


STATES = (PENDING, SUCCEEDED, FAILED)
ALL_AWAITED = tuple(Awaited(kind, (first, second)) for kind, first, second in product(KINDS, STATES, STATES))

# By these options an await that waits says what for, from version 7 on; by `awaiting=never` it says nothing.
SAYS = "idle but awaiting=never, replay=off"


def awaits_wake_by_their_kind() -> Iterator[str]:
    for it in ALL_AWAITED:
        answer = "any" if it.is_awake else "wait true false"
        for versions, options, says in (("5 6", "idle, replay=off", False), ("7 8", SAYS, True), ("7 8", "awaiting=never", False)):
            said = "frames AwaitingOn" if says and not it.is_awake else "ok 0x"
            yield f"== {it.title}\n-- versions {versions}\n-- options {options}\n{it.asked}{it.line} => ok {answer}\n"
            yield f"output => {said}\nstate => ok Processing\nindex => ok 2\n"


def awaits_suspend_once_the_input_is_closed() -> Iterator[str]:
    for it in ALL_AWAITED:
        answer, sent, state = ("ok any", "ok 0x", "Processing") if it.is_awake else ('err 599 "SUSPENDED"', "frames Suspension", "Closed")
        yield f"== {it.title}, and the input is closed\n{EACH_OPTION}{it.asked}close => ok\n"
        yield f"{it.line} => {answer}\noutput => {sent}\nstate => ok {state}\nindex => ok 2\n"


def awaits_in_replay_are_awake_or_refused() -> Iterator[str]:
    """Two sleeps are recorded, and a clear of all keys, which is left."""
    sleeps = "0012000000000000001400000000000003e80000000100000000000000000012000000000000001400000000000003e8000000020000000000000000"
    refused = 'err 570 "UncompletedDoProgressDuringReplay"'
    for it in ALL_AWAITED:
        answer, sent, state = ("ok any", "ok 0x", "Replaying") if it.is_awake else (refused, "frames Error", "Closed")
        entries = [sleeps, "001100000000000000080000000000000000", *it.arrivals]
        yield f"== {it.title}, in replay\n{EACH_REPLAYING}{recorded(''.join(entries), 3 + len(it.arrivals))}"
        yield f'sleep "" 1 => ok 17\nsleep "" 1 => ok 18\n{it.line} => {answer}\noutput => {sent}\nstate => ok {state}\nindex => ok 2\n'


def runs_are_executed_proposed_and_taken() -> Iterator[str]:
    """A proposal is acknowledged; before version 7 it comes back as a completion, and no await says what it waits for. Of an await beside a
    run that is executing `awaiting=always` alone says it."""
    completion, acknowledgement = "001e000000000000000f000000000101000000000000000178", "0006000000000000000400000001"
    for versions, options, beside, alone, returned in (
        ("5 6", "idle, replay=off", "", "", completion),
        ("7 8", "idle but awaiting=never but awaiting=always, replay=off", "", "AwaitingOn", acknowledgement),
        ("7 8", "awaiting=never", "", "", acknowledgement),
        ("7 8", "awaiting=always", "AwaitingOn", "AwaitingOn", acknowledgement),
    ):
        yield f"== a run is executed, proposed and taken\n-- versions {versions}\n-- options {options}\n@processing\n"
        yield f'run "r" => ok 17 false\nawait 17 => ok run 17\nawait 17 => ok wait true true\noutput => frames Run {beside}\n'
        yield f'propose 17 success "x" => ok\nawait 17 => ok wait true false\noutput => frames ProposeRunCompletion {alone}\n'
        yield f'input 0x{returned} => ok\nawait 17 => ok any\ntake 17 => ok success "x"\noutput => ok 0x\n'


# ---- deliveries of one signal

DELIVERIES = 1_000
SLEEP_IS_OVER = "001e0000000000000006000000000100"


def delivery(value: str) -> str:
    """The frame by which the signal "a" comes with this value, in hex."""
    body = f"0200000000000000016101{len(value):016x}{value.encode().hex()}"
    return f"001e{len(body) // 2:016x}{body}"


def named_signals_queue_by_the_thousand() -> Iterator[str]:
    """The signal "a" comes a thousand times, each time with its number, and then a sleep is over, which is awaited: so all deliveries are used.
    If they queue, a thousand handles take them in order. If they overwrite, the first handle takes the last. A further handle has none."""
    values = [str(number) for number in range(1, DELIVERIES + 1)]
    arrivals = "".join(map(delivery, values)) + SLEEP_IS_OVER
    for options, taken in (("none", values), ("delivery=overwrite", values[-1:])):
        handles = range(18, 18 + len(taken))
        further = handles.stop
        yield f"== {DELIVERIES} deliveries of one signal\n-- versions 5 6 7 8\n-- options {options}\n@processing\n"
        yield f'sleep "" 1000 => ok 17\ninput 0x{arrivals} => ok\nawait 17 => ok any\n'
        yield "".join(f'signal "a" => ok {handle}\n' for handle in (*handles, further))
        yield "".join(f'take {handle} => ok success "{value}"\n' for handle, value in zip(handles, taken, strict=True))
        yield f"completed {further} => ok false\ntake {further} => ok none\n"


RULES: tuple[Rule, ...] = (
    each_command_is_refused,
    each_command_is_written,
    each_command_is_popped,
    each_command_with_another_header_is_a_mismatch,
    each_command_is_written_again_without_replay,
    awaits_wake_by_their_kind,
    awaits_suspend_once_the_input_is_closed,
    awaits_in_replay_are_awake_or_refused,
    runs_are_executed_proposed_and_taken,
    named_signals_queue_by_the_thousand,
)
