"""What a handler awaits, and the combinators over it. Each is a node of the VM's await trees."""

from __future__ import annotations

import asyncio
from collections.abc import Callable, Coroutine, Generator, Iterator
from typing import Any, Generic, TypeVar

from .. import core
from .services import Cancelled, TerminalError

T = TypeVar("T")
T_co = TypeVar("T_co", covariant=True)


class NotDurable(TypeError):
    """A handler awaited something else than what its context gave it."""


class Durable(Generic[T_co]):
    """Something that the journal gives. `await` gives its result, or raises its failure."""

    is_used = False  # it was awaited, or is part of what may be

    def __await__(self) -> Generator[Durable[Any], None, T_co]:
        self.is_used = True
        if self.outcome() is None:
            yield self
        return self.result()

    def outcome(self) -> bool | None:
        """Whether it has succeeded; none while it is pending."""
        raise NotImplementedError

    def result(self) -> T_co:
        raise NotImplementedError

    def tree(self) -> int | core.Future | None:
        """What is left of it for the VM to await, while it is pending."""
        raise NotImplementedError

    def leaves(self) -> Iterator[Leaf[Any]]:
        """The handles in it that are pending."""
        raise NotImplementedError

    def pending(self) -> Iterator[Durable[Any]]:
        """The handles and coroutines in it that are pending."""
        if self.outcome() is None:
            yield self


class Leaf(Durable[T]):
    """A handle of the VM. `read` makes its result of what the VM has for it."""

    def __init__(self, handle: int, read: Callable[[Any], T]):
        self.handle, self.read = handle, read
        self.came: Any = None

    def outcome(self) -> bool | None:
        return None if self.came is None else not isinstance(self.came, core.Failure)

    def result(self) -> T:
        if isinstance(self.came, core.Failure):
            raise TerminalError(self.came.message, self.came.code, tuple(self.came.metadata))
        return self.read(self.came)

    def tree(self) -> int | core.Future | None:
        return self.handle

    def leaves(self) -> Iterator[Leaf[Any]]:
        yield self


class Run(Leaf[T]):
    """The result of a run. `forgot` gets its name when nobody can await it any more, and nobody has: so it wasn't executed."""

    def __init__(self, handle: int, read: Callable[[Any], T], name: str, forgot: Callable[[str], None]):
        super().__init__(handle, read)
        self._name, self._forgot = name, forgot

    def __del__(self) -> None:
        if not self.is_used:
            self._forgot(f"the run {self._name[:100]!r}")


class Timer(Leaf[None]):
    """The end of a sleep. `left` gets its number when nobody can await it any more, and it hasn't come: as when a `select` had another first. `forgot` is
    called too if nobody has awaited it at all."""

    def __init__(self, handle: int, number: int, left: Callable[[int], None], forgot: Callable[[str], None]):
        super().__init__(handle, lambda came: None)
        self._number, self._left, self._forgot = number, left, forgot

    def __del__(self) -> None:
        if self.came is None:
            self._left(self._number)
            if not self.is_used:
                self._forgot("a sleep")


class _Over(Durable[T]):
    """A node over others."""

    make: Callable[..., core.Future]

    def __init__(self, *children: Durable[Any]):
        for child in children:
            if not isinstance(child, Durable):
                several = ": give the items, as gather(*items)" if isinstance(child, (list, tuple)) else ""
                raise NotDurable(f"what the context gives can be combined, and not {child!r}"[:300] + several)
            child.is_used = True
        self.children = children

    def tree(self) -> int | core.Future | None:
        left = [it.tree() for it in self.children if it.outcome() is None]
        left = [it for it in left if it is not None]
        return type(self).make(*left) if left else None

    def leaves(self) -> Iterator[Leaf[Any]]:
        for child in self.children:
            if child.outcome() is None:
                yield from child.leaves()

    def pending(self) -> Iterator[Durable[Any]]:
        for child in self.children:
            yield from child.pending()

    def outcomes(self) -> list[bool | None]:
        return [it.outcome() for it in self.children]


class _Gather(_Over[list[Any]]):
    make = staticmethod(core.all_succeeded_or_first_failed)

    def outcome(self) -> bool | None:
        came = self.outcomes()
        return False if False in came else None if None in came else True

    def result(self) -> list[Any]:
        for child in self.children:
            if child.outcome() is False:
                child.result()
        return [it.result() for it in self.children]


class _Settled(_Over[list[Any]]):
    make = staticmethod(core.all_completed)

    def outcome(self) -> bool | None:
        return None if None in self.outcomes() else True

    def result(self) -> list[Any]:
        results: list[Any] = []
        for child in self.children:
            try:
                results.append(child.result())
            except TerminalError as error:
                results.append(error)
        return results


class _Select(_Over[tuple[int, Any]]):
    make = staticmethod(core.first_completed)

    def _first(self) -> int | None:
        return next((at for at, it in enumerate(self.outcomes()) if it is not None), None)

    def outcome(self) -> bool | None:
        first = self._first()
        return None if first is None else self.children[first].outcome()

    def result(self) -> tuple[int, Any]:
        first = self._first()
        assert first is not None
        return first, self.children[first].result()


class _AnySuccess(_Over[Any]):
    make = staticmethod(core.first_succeeded_or_all_failed)

    def outcome(self) -> bool | None:
        came = self.outcomes()
        return True if True in came else None if None in came else False

    def result(self) -> Any:
        return next((it for it in self.children if it.outcome()), self.children[-1]).result()


def _some(what: str, children: tuple[Durable[T], ...]) -> tuple[Durable[T], ...]:
    if not children:
        raise TypeError(f"{what} of nothing would never end")
    return children


def gather(*children: Durable[Any], return_exceptions: bool = False) -> Durable[list[Any]]:
    """All results, in order. The first failure is raised; with `return_exceptions` each failure stands as its `TerminalError`."""
    return _Settled(*children) if return_exceptions else _Gather(*children)


def select(*children: Durable[Any]) -> Durable[tuple[int, Any]]:
    """The number, from 0, and the result of the first that has an outcome; a failure is raised."""
    return _Select(*_some("select", children))


def wait_any(*children: Durable[T]) -> Durable[T]:
    """The result of the first that succeeds. If all fail, the failure of the last is raised."""
    return _AnySuccess(*_some("wait_any", children))


class ContinuedAsNew(BaseException):
    """The handler ends, and goes on as a new invocation with this argument, as the codec has written it. A handler doesn't catch this."""

    def __init__(self, argument: bytes):
        super().__init__("ctx.continue_as_new ends the handler, and this isn't to be caught: catch `Exception` instead")
        self.argument = argument


def _instead(awaited: object) -> str:
    """What a handler does instead of awaiting this."""
    if isinstance(awaited, asyncio.Future):
        return "gather, select and wait_any of palqytun.runtime combine these, ctx.sleep sleeps, and other work belongs in ctx.run"
    return "other work belongs in ctx.run"


class Task(Durable[T]):
    """A coroutine of the handler, which awaits durables. The handler itself is one."""

    def __init__(self, coroutine: Coroutine[Durable[Any], None, T]):
        self.coroutine = coroutine
        self.waits: Durable[Any] | None = None
        self.value: T | None = None
        self.failure: TerminalError | None = None
        self.done = False
        self.continued: ContinuedAsNew | None = None  # how it has ended, if the handler goes on as a new invocation
        self.thrown: Cancelled | None = None  # what it gets when it next runs

    def outcome(self) -> bool | None:
        return None if not self.done else self.failure is None

    def result(self) -> T:
        if self.failure is not None:
            raise self.failure
        return self.value  # type: ignore[return-value]

    def tree(self) -> int | core.Future | None:
        return None  # it awaits its own tree

    def leaves(self) -> Iterator[Leaf[Any]]:
        return iter(())

    def step(self, thrown: Cancelled | None = None) -> None:
        """Runs it until it waits or is done."""
        while not self.done:
            try:
                self.waits = self.coroutine.throw(thrown) if thrown else self.coroutine.send(None)
            except StopIteration as end:
                self.done, self.value = True, end.value
            except TerminalError as failure:
                self.done, self.failure = True, failure
            except ContinuedAsNew as continued:
                self.done, self.continued = True, continued
            else:
                if not isinstance(self.waits, Durable):
                    raise NotDurable(f"a handler awaits what its context gives, and not {self.waits!r}; {_instead(self.waits)}")
                if self.waits.outcome() is None:
                    return
            thrown = None
