"""`tools/bench lines`: entries a second of long scripts, by the programs vmscript and vmrounds.

If nothing grows with the journal, the numbers of a line stay alike. Reading the script and printing what comes of it is counted too."""

from __future__ import annotations

import argparse
import re
import subprocess
import time
from collections.abc import Callable, Iterator
from pathlib import Path

from tools.kit.errors import Refused
from tools.kit.progress import Progress
from tools.kit.unproved import build_program

from . import building, core

REFUSED = re.compile(r"^(bad|err|fault)", re.M)


def hexed(value: int, width: int) -> str:
    """A number in this many bytes."""
    return value.to_bytes(width, "big").hex()


def text(value: bytes) -> str:
    return hexed(len(value), 8) + value.hex()


def frame(kind: int, body: str) -> str:
    return hexed(kind, 2) + hexed(len(body) // 2, 8) + body


def completion(at: int, result: str = "00") -> str:
    """The completion of an id, void if nothing else is given."""
    return frame(30, "00" + hexed(at, 4) + result)


def opening(known: int, is_partial: int) -> str:
    """The frames with which an attempt begins: Start, without state, and the input command."""
    start = text(b"abc") * 2 + text(b"") + hexed(known, 4) + hexed(0, 8) + hexed(is_partial, 1) + hexed(0, 20) + hexed(0, 3)
    return frame(1, start) + frame(10, text(b"") + text(b"input"))


def begin(known: int, is_partial: int, after: str = "", options: str = "", version: int = 7) -> Iterator[str]:
    """The lines up to sys_input. `after` is fed after the input command."""
    yield f'vm "application/vnd.restate.invocation.v{version}" cancel=off{options}'
    yield f"input 0x{opening(known, is_partial)}{after}"
    yield "sys_input"


def take(handle: int) -> Iterator[str]:
    yield f"await {handle}"
    yield f"take {handle}"


def recorded(at: int) -> str:
    return frame(18, hexed(1000, 8) + hexed(at, 4) + text(b""))


def sleeps(n: int) -> Iterator[str]:
    yield from begin(1, 1)
    for i in range(1, n + 1):
        yield 'sleep "" 1000'
        yield f"input 0x{completion(i)}"
        yield from take(16 + i)


def replay(n: int) -> Iterator[str]:
    yield from begin(1 + 2 * n, 1, "".join(recorded(i) + completion(i) for i in range(1, n + 1)))
    for i in range(1, n + 1):
        yield 'sleep "" 1000'
        yield from take(16 + i)


def skip(n: int) -> Iterator[str]:
    yield from begin(1 + n, 1, "".join(recorded(i) for i in range(1, n + 1)), " replay=off")
    yield 'sleep "" 1000'


def in_order(n: int, order: range) -> Iterator[str]:
    yield from begin(1, 1)
    yield from ['sleep "" 1000'] * n
    yield "output"
    yield "input 0x" + "".join(completion(i) for i in range(1, n + 1))
    for i in order:
        yield from take(16 + i)


def first(n: int) -> Iterator[str]:
    return in_order(n, range(1, n + 1))


def last(n: int) -> Iterator[str]:
    return in_order(n, range(n, 0, -1))


def signals(n: int) -> Iterator[str]:
    yield from begin(1, 1)
    yield "input 0x" + "".join(frame(30, "02" + text(b"a") + "01" + text(i.to_bytes(4, "big"))) for i in range(1, n + 1))
    for i in range(1, n + 1):
        yield 'signal "a"'
        yield from take(16 + i)


def state(n: int) -> Iterator[str]:
    yield from begin(1, 0)
    for i in range(1, n + 1):
        yield from (f'set "key{i}" "value{i}"', f'get "key{i}"', f"take {16 + i}")


def ephemeral(n: int) -> Iterator[str]:
    yield from begin(1, 1, version=8)
    for i in range(1, n + 1):
        yield from ('ephemeral_get "u"', f"input 0x{frame(9, hexed(i, 4) + '0101' + text(b'v'))}", "await 17", f"take_ephemeral {i}")


def runs_in(n: int, order: range) -> Iterator[str]:
    yield from begin(1, 1)
    yield from ['run ""'] * n
    for i in order:
        yield from (f"await {16 + i}", f'propose {16 + i} success "r"')
    for i in order:
        yield f"input 0x{frame(6, hexed(i, 4))}"
    for i in range(1, n + 1):
        yield from take(16 + i)


def runs(n: int) -> Iterator[str]:
    return runs_in(n, range(1, n + 1))


def last_runs(n: int) -> Iterator[str]:
    return runs_in(n, range(n, 0, -1))


def calls(n: int) -> Iterator[str]:
    yield from begin(1, 1)
    yield from ['call "Service" "handler" "parameter" key="k"'] * n
    each = (completion(2 * i - 1, "04" + text(b"inv")) + completion(2 * i, "01" + text(b"result")) for i in range(1, n + 1))
    yield "input 0x" + "".join(each)
    for i in range(1, 2 * n + 1):
        yield from take(16 + i)


def entries(n: int) -> Iterator[str]:
    yield 'entry Input value="input"'
    yield from (f"entry Sleep wake_up_time=1000 result_completion_id={i}" for i in range(1, n + 1))
    yield "round"


def arrivals(n: int) -> Iterator[str]:
    yield from entries(n)
    yield from (f"arrive Notification id=completion({i}) result=void" for i in range(1, n + 1))


ROUNDS = (entries, arrivals)  # of vmrounds, the others of vmscript
CASES: dict[Callable[[int], Iterator[str]], str] = {
    sleeps: "a sleep that is completed, awaited and taken before the next",
    replay: "the same, all of it recorded",
    skip: "a sleep that is recorded and dropped, all of them in one pass",
    first: "a sleep of many that wait, awaited and taken in the order in which they were made",
    last: "the same, the last first",
    signals: "a signal of one name, its next delivery awaited and taken",
    state: "a key that is set, got and taken",
    ephemeral: "an ephemeral read of a key that isn't known, its value awaited and taken",
    runs: "a run of many that wait, executed, proposed and acknowledged in the order in which they were called, and taken",
    last_runs: "the same, the last first",
    calls: "a call, its invocation id and its result awaited and taken",
    entries: "a sleep of the journal with which a world of vmrounds begins",
    arrivals: "the same, whose completion arrives too",
}


def script(case: Callable[[int], Iterator[str]], n: int) -> str:
    """The script of a case with this many entries."""
    after = [] if case in ROUNDS else ["end", "output"]
    return "\n".join([*case(n), *after]) + "\n"


def add(parser: argparse.ArgumentParser) -> None:
    parser.add_argument("--sizes", type=core.numbers, default=[1_000, 10_000, 100_000], metavar="N,..", help="entries of a case (1000,10000,100000)")
    parser.add_argument("--programs", type=Path, metavar="FOLDER", help="where vmscript and vmrounds are; built without a proof if none is named")


def speed(words: list[str], name: str, said: str, n: int) -> int:
    """Entries a second."""
    begun = time.monotonic()
    ran = subprocess.run(words, input=said, capture_output=True, text=True)
    took = time.monotonic() - begun
    if ran.returncode != 0 or REFUSED.search(ran.stdout):
        raise Refused(f"{name}: the script is refused at {n:,} entries: {REFUSED.search(ran.stdout) or ran.stderr[-200:]}")
    return int(n / took)


def measure(options: argparse.Namespace) -> None:
    programs = options.programs or building.OUT
    if options.programs is None:
        for name in ("vmscript", "vmrounds"):
            build_program(name, building.OUT / name, Progress())
    script_words, round_words = [f"{programs}/vmscript"], [f"{programs}/vmrounds", "application/vnd.restate.invocation.v7", "sleeper"]
    print(f"{'case':<9}", *(f"{f'{it:,}':>10}" for it in options.sizes), "  entries a second; an entry is")
    for case, what in CASES.items():
        words = round_words if case in ROUNDS else script_words
        cells = [f"{speed(words, case.__name__, script(case, it), it):>10,}" for it in options.sizes]
        print(f"{case.__name__:<9}", *cells, f"  {what}", flush=True)
