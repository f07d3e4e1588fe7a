"""Rows of vmrounds that follow from a rule: a round that is stopped after each of its lines, and an input that is cut at each byte.

A rule is a function that yields the text of its rows (docs/ROWS.md). What is wanted stands here, in the rule's own words."""

from __future__ import annotations

from collections.abc import Callable, Iterator
from dataclasses import dataclass

Rule = Callable[[], Iterator[str]]


def text(lines: tuple[str, ...]) -> str:
    return "".join(f"{it}\n" for it in lines)


@dataclass(frozen=True)
class Stopped:
    """A round that is stopped, and what comes after it."""

    handler: str
    versions: str
    # the lines of the round that is stopped
    first: tuple[str, ...]
    # after this many of them what the handler awaits is stored
    stored: int
    # the round to the end, in which it comes
    brings: str
    # the round to the end, if it is stored before
    replays: str
    # how the report ends
    journal: str


SLEEPER = Stopped(
    handler="sleeper",
    versions="7",
    first=(
        "round",
        "piece all",
        "step",
        "step",
        "close",
        "store 1",
        "arrive Notification id=completion(1) result=void",
    ),
    stored=7,
    brings="""\
round
piece all
step 2
store all
arrive Notification id=completion(1) result=void
piece all
step 4
store all
""",
    replays="""\
round
piece all
step 6
store all
""",
    journal="""\
entries 4
journal
Input value="Till"
Sleep wake_up_time=1000 result_completion_id=1
Notification id=completion(1) result=void
Output result=value("")
""",
)

# If its result isn't stored the run is executed again.
CHARGE = Stopped(
    handler="charge",
    versions="6 7",
    first=(
        "round",
        "piece all",
        "step",
        "step",
        "step",
        "step",
        'run_result 17 success "x"',
        "store all",
        "piece all",
        "step",
        "step",
        "step",
        "step",
        "store all",
    ),
    stored=8,
    brings="""\
round
piece all
step 3
run_result 17 success "x"
store all
piece all
step 4
store all
""",
    replays="""\
round
piece all
step 6
store all
""",
    journal="""\
entries 4
journal
Input value="Till"
Run name="charge" result_completion_id=1
Notification id=completion(1) result=value("x")
Output result=value("x")
""",
)

# The two commands of the call are stored one by one, so the round is stopped between them too.
DEADLINE = Stopped(
    handler="deadline",
    versions="6 7",
    first=(
        "round",
        "piece all",
        "step",
        "step",
        "store 1",
        "step",
        "store 1",
        "arrive Notification id=completion(3) result=void",
        "piece all",
        "step",
        "step",
        "step",
        "step",
        "store 1",
        "step",
    ),
    stored=8,
    brings="""\
round
piece all
step 2
store all
arrive Notification id=completion(3) result=void
piece all
step 5
store all
""",
    replays="""\
round
piece all
step 7
store all
""",
    journal="""\
entries 5
journal
Input value="Till"
Call service_name="Greeter" handler_name="greet" parameter="Till" invocation_id_notification_idx=1 result_completion_id=2
Sleep wake_up_time=1000 result_completion_id=3
Notification id=completion(3) result=void
Output result=value("timeout")
""",
)


def a_stopped_round_leaves_no_trace() -> Iterator[str]:
    """Stopped after each of its lines in turn, and then played to the end: the journal is the same."""
    for it in (SLEEPER, CHARGE, DEADLINE):
        for at in range(len(it.first) + 1):
            yield f'== {it.handler} is stopped after {at} lines\n-- handler {it.handler}\n-- versions {it.versions}\nworld input="Till"\n'
            yield f"{text(it.first[:at])}{it.brings if at < it.stored else it.replays}=> ends\n{it.journal}"


# ---- a parent that is cancelled

CALLS = "round\npiece all\nstep 3\nstore 2\n"
ARRIVALS = (
    'Notification id=completion(1) result=invocation_id("inv1")',
    'Notification id=completion(3) result=invocation_id("inv2")',
    "Notification id=signal(1) result=void",
)
# The round after the calls, which is stopped. What arrives stays in the journal.
BEFORE = ("round", "piece all", "step", "step", "step", "step")
ROUND = (*BEFORE, *(f"arrive {it}" for it in ARRIVALS), "piece all", "step", "store 1")
CALLED = """\
journal
Input
Call service_name="Child" handler_name="a" invocation_id_notification_idx=1 result_completion_id=2
Call service_name="Child" handler_name="b" invocation_id_notification_idx=3 result_completion_id=4
"""
SENT = """\
SendSignal target_invocation_id="inv1" signal=index(1) result=void
SendSignal target_invocation_id="inv2" signal=index(1) result=void
Output result=failure(code=409 message="cancelled")
"""

def arrived(at: int) -> int:
    """How many of the three have arrived if the round is stopped after this many lines."""
    return min(max(at - len(BEFORE), 0), len(ARRIVALS))


def a_cancelled_round_leaves_no_trace() -> Iterator[str]:
    """What didn't arrive in the round that is stopped does in the next, and the journal ends the same."""
    for at in range(len(ROUND) + 1):
        left = text(tuple(f"arrive {it}" for it in ARRIVALS[arrived(at) :]))
        yield f"== a cancelled parent is stopped after {at} lines\n-- handler parent\n{CALLS}{text(ROUND[:at])}"
        yield f"round\npiece all\nstep 8\n{left}piece all\nstep 8\nstore all\n=> ends\n{SENT}"


def a_stopped_round_is_gone_on_with() -> Iterator[str]:
    """A last round, in which nothing arrives, goes as far as it can: if all three arrived, the signals and the output are stored."""
    for at in range(len(ROUND) + 1):
        count = arrived(at)
        yield f"== a cancelled parent is stopped after {at} lines, and gone on with\n-- handler parent\n{CALLS}{text(ROUND[:at])}"
        yield f"round\npiece all\nstep 8\nstore 10\n=> ends\n{CALLED}{text(ARRIVALS[:count])}{SENT if count == len(ARRIVALS) else ''}"


# ---- an input that is cut

# A cancelled parent's journal from elsewhere. The second child's id comes after it.
ENTRIES = (
    "Input",
    'Call service_name="Child" handler_name="a" invocation_id_notification_idx=1 result_completion_id=2',
    'Call service_name="Child" handler_name="b" invocation_id_notification_idx=3 result_completion_id=4',
    'Notification id=completion(1) result=invocation_id("inv1")',
    "Notification id=signal(1) result=void",
)
ARRIVES = 'Notification id=completion(3) result=invocation_id("inv2")'
# The lengths of Start, the input, both calls, the first child's id and the signal: each has ten bytes before its body.
KNOWN = 76 + 26 + 75 + 75 + 28 + 16
# With the second child's id.
WHOLE = KNOWN + 28

MISSING = """\
round 1
output Error code=571 message="INPUT_CLOSED_WHILE_WAITING_ENTRIES" behaviour=Retry
error 571 "INPUT_CLOSED_WHILE_WAITING_ENTRIES"
"""
WAITING = """\
round 1
answer input id="abc" seed=0 key="" headers=[] value="" scope=- limit=- idem=-
answer handles 17 18
answer handles 19 20
output Suspension future=(kind=FirstCompleted completions=[3])
"""
ENDED = """\
round 1
answer input id="abc" seed=0 key="" headers=[] value="" scope=- limit=- idem=-
answer handles 17 18
answer handles 19 20
answer cancelled
answer unit
output SendSignal target_invocation_id="inv1" signal=index(1) result=void
output SendSignal target_invocation_id="inv2" signal=index(1) result=void
output Output result=failure(code=409 message="cancelled")
output End
"""

def an_input_is_cut_at_each_byte_and_closed() -> Iterator[str]:
    """A known entry is missing, or the second child's id is, or nothing is."""
    for at in range(WHOLE + 1):
        report = MISSING if at < KNOWN else WAITING if at < WHOLE else ENDED
        entries = text(tuple(f"entry {it}" for it in ENTRIES))
        yield f"== the input is cut after {at} bytes\n-- handler parent\n{entries}round\narrive {ARRIVES}\npiece {at}\nclose\nstep 8\n"
        yield f"=>\n{report}entries 6\njournal\n{text(ENTRIES)}{ARRIVES}\n"


RULES: tuple[Rule, ...] = (
    a_stopped_round_leaves_no_trace,
    a_cancelled_round_leaves_no_trace,
    a_stopped_round_is_gone_on_with,
    an_input_is_cut_at_each_byte_and_closed,
)
