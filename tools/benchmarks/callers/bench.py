"""What a call takes from Python, in nanoseconds of the processor: the best of some rounds, of 1,000 calls each. With `allocations` it is how many allocations
a call makes, by counted.c, which is preloaded. With CASE one case is played, CALLS times, and nothing is printed, so that its instructions can be counted.

usage: bench.py ROUNDS [allocations]
       bench.py CASE CALLS"""

import ctypes
import sys
import time
from collections.abc import Callable

from palqytun import VM
from palqytun.frames import frame_of

CALLS = 1000
START = frame_of('Start id="abc" debug_id="abc" known_entries=1') + frame_of('Input value="Till"')
DONE = frame_of("Notification id=completion(0) result=void")


def whole(vm: VM, at: int) -> None:
    """A sleep that is sent, completed, awaited and taken."""
    slept = vm.sys_sleep(1000)
    vm.take_output()
    vm.notify_input(DONE[:11] + (at + 2).to_bytes(4, "big") + DONE[15:])
    vm.do_await(slept)
    vm.take_notification(slept)


CASES: dict[str, Callable[[VM, int], object]] = {
    "sleep": lambda vm, at: vm.sys_sleep(1000),
    "state": lambda vm, at: vm.sys_state_set("key", b"value"),
    "call": lambda vm, at: vm.sys_call("Greeter", "greet", b"Ada"),
    "await": lambda vm, at: vm.do_await(17),
    "whole": whole,
    "state_of": lambda vm, at: vm.state(),
    "is_completed": lambda vm, at: vm.is_completed(17),
    "take": lambda vm, at: vm.take_notification(17),
}


def allocations() -> int:
    return int(ctypes.CDLL(None).palqytun_allocations())


def round_of(case: Callable[[VM, int], object], calls: int = CALLS, read: Callable[[], int] = time.process_time_ns) -> float:
    with VM("application/vnd.restate.invocation.v7") as vm:
        vm.notify_input(START)
        vm.sys_input()
        vm.sys_sleep(1000)
        begun = read()
        for at in range(calls):
            case(vm, at)
        return (read() - begun) / max(1, calls)


if sys.argv[2:] and sys.argv[2] != "allocations":
    round_of(CASES[sys.argv[1]], int(sys.argv[2]))
else:
    read = allocations if sys.argv[2:] else time.process_time_ns
    for name, case in CASES.items():
        print(name, f"{min(round_of(case, read=read) for _ in range(int(sys.argv[1]))):.1f}", flush=True)
