"""Steps: functions with the name, the retries and the time limit of their runs."""

from __future__ import annotations

from collections.abc import Callable
from dataclasses import dataclass
from typing import Generic, ParamSpec, TypeVar

from .services import Retry

P = ParamSpec("P")
R_co = TypeVar("R_co", covariant=True)


def _check(retry: Retry | None, **limits: float | None) -> None:
    if retry is not None and not isinstance(retry, Retry):
        raise TypeError(f"the retry of a run is a Retry, as Retry(attempts=5), and not {retry!r}")
    for name, seconds in limits.items():
        if seconds is not None and not (isinstance(seconds, (int, float)) and seconds > 0):
            raise ValueError(f"a {name} is a number of seconds above 0, and not {seconds!r}")


@dataclass(frozen=True)
class Step(Generic[P, R_co]):
    """A function that handlers run: `await ctx.run(pay, order, amount=5)`. Called by itself it is the function, as in a test."""

    function: Callable[P, R_co]
    name: str
    retry: Retry | None = None
    timeout: float | None = None
    heartbeat: float | None = None

    def __post_init__(self) -> None:
        _check(self.retry, timeout=self.timeout, heartbeat=self.heartbeat)

    def __call__(self, *arguments: P.args, **named: P.kwargs) -> R_co:
        return self.function(*arguments, **named)


def step(
    *, name: str | None = None, retry: Retry | None = None, timeout: float | None = None, heartbeat: float | None = None
) -> Callable[[Callable[P, R_co]], Step[P, R_co]]:
    """Makes a step of a function. Its runs are named by the function, or by `name`; they are tried again by `retry`, and for ever without it; and
    one that takes longer than `timeout` seconds has failed, which is tried again too. So has one that calls `palqytun.runtime.heartbeat` not once in
    `heartbeat` seconds.

        @step(retry=Retry(attempts=5), timeout=10)
        async def pay(key: str, amount: int) -> str: ..

        receipt = await ctx.run(pay, ctx.uuid(), amount=5)
    """
    _check(retry, timeout=timeout, heartbeat=heartbeat)

    def made(function: Callable[P, R_co]) -> Step[P, R_co]:
        return Step(function, getattr(function, "__name__", "step") if name is None else name, retry, timeout, heartbeat)

    return made
