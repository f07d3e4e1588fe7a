"""When a run whose execution failed is executed again."""

from __future__ import annotations

from dataclasses import dataclass
from operator import index

from palqytun._words import COUNT, flag, number, whole

__all__ = ["RetryPolicy", "retry_exponential", "retry_fixed", "retry_forever", "retry_never"]


Numbers = tuple[int, int, int, int, bool, int, bool, int, bool, int, bool]
"""The fields of a policy as `palqytun.h` has them."""


@dataclass(frozen=True, slots=True, repr=False)
class RetryPolicy:
    """When a run whose execution failed is executed again. The four functions of this module make the policies. As a text it is what a line writes."""

    words: str
    numbers: Numbers

    def __str__(self) -> str:
        return self.words

    def __repr__(self) -> str:
        return f"<RetryPolicy {self.words}>"


def _limits(attempts: int | None, duration: int | None, pause: bool) -> str:
    most = number("attempts", "attempts", attempts, COUNT) + number("max", "duration", duration)
    return most + flag("pause", pause)


def _bound(most: int | None) -> tuple[bool, int]:
    """Whether there is a bound, and which."""
    return most is not None, 0 if most is None else index(most)


def _numbers(
    kind: int,
    growth: tuple[int, int, int] = (0, 0, 0),
    interval: int | None = None,
    attempts: int | None = None,
    duration: int | None = None,
    pause: bool = False,
) -> Numbers:
    initial, numerator, denominator = growth
    bounds = *_bound(interval), *_bound(attempts), *_bound(duration)
    return (kind, index(initial), index(numerator), index(denominator), *bounds, pause)


def retry_forever() -> RetryPolicy:
    """Tried again as often as it fails; the default."""
    return RetryPolicy("infinite", _numbers(0))


def retry_never() -> RetryPolicy:
    """Never tried again: the error is the run's result."""
    return RetryPolicy("none", _numbers(1))


def retry_fixed(interval: int | None = None, *, attempts: int | None = None, duration: int | None = None, pause: bool = False) -> RetryPolicy:
    """Tried again after `interval` ms, until that many attempts were made or that many ms have passed. `pause` pauses the invocation then;
    without it the error is the run's result.

    >>> str(retry_fixed(500, attempts=3))
    'fixed(interval=500 attempts=3)'
    """
    words = number("interval", "interval", interval) + _limits(attempts, duration, pause)
    return RetryPolicy(f"fixed({words.lstrip()})", _numbers(2, (0, 0, 0), interval, attempts, duration, pause))


def retry_exponential(
    initial: int,
    numerator: int,
    denominator: int = 1,
    *,
    longest: int | None = None,
    attempts: int | None = None,
    duration: int | None = None,
    pause: bool = False,
) -> RetryPolicy:
    """Tried again after `initial` ms at first and then after a growing time: each by the factor `numerator`/`denominator`, and never above
    `longest` ms. The rest is as in `retry_fixed`.

    >>> str(retry_exponential(100, 3, 2, longest=10_000))
    'exp(initial=100 factor=3/2 interval=10000)'
    """
    factor = f"{whole('numerator', numerator, COUNT)}/{whole('denominator', denominator, COUNT, least=1)}"
    words = f"initial={whole('initial', initial)} factor={factor}{number('interval', 'longest', longest)}"
    growth = initial, numerator, denominator
    return RetryPolicy(f"exp({words}{_limits(attempts, duration, pause)})", _numbers(3, growth, longest, attempts, duration, pause))
