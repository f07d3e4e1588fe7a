"""The coroutines of one attempt, and what they await. A step costs what has moved in it, and not what waits beside it."""

from __future__ import annotations

import heapq
from collections.abc import Callable, Iterator
from typing import Any

from .. import core
from .durable import Durable, Leaf, Task
from .services import Cancelled


class Tasks:
    """The coroutines of one attempt. They run in the order in which they were made, so a replay runs them alike."""

    def __init__(self, main: Task[Any]):
        self.main = main
        self._all = dict[int, Task[Any]]()  # by number, those that aren't done
        self._made = 0
        self._woken = set[int]()  # those that may go on, in the next pass
        self._now: list[int] = []  # and in this one, as a heap
        self._passed = (0, 0)  # numbers from the first to the second one may still go on in this pass
        self._waiting = dict[Durable[Any], list[int]]()  # who waits for one handle, or for one coroutine
        self._over = dict[int, Durable[Any]]()  # who waits for several things, and for what
        self._joins = dict[int, Durable[Any]]()  # the same of those that wait for other coroutines alone
        self._handles = core.AnyOf()
        self.add(main)

    def add(self, task: Task[Any]) -> None:
        """One more coroutine. It begins once those before it wait."""
        self._all[self._made] = task
        self._woken.add(self._made)
        self._made += 1

    def open(self) -> list[Task[Any]]:
        """Those that aren't done."""
        return list(self._all.values())

    # ---- steps

    def run(self, thrown: Cancelled | None = None) -> None:
        """Runs each that can go on, until all wait or the handler is done. A cancellation reaches each that waits for the journal."""
        if thrown is not None:
            self._throw(thrown)
        while self._woken and not self.main.done:
            self._pass()

    def _throw(self, thrown: Cancelled) -> None:
        for number, task in list(self._all.items()):
            waits = task.waits
            if waits is not None and waits.tree() is not None:
                self._step(number, task, thrown)
            elif waits is None or waits.outcome() is not None:
                self._step(number, task)
            if self.main.done:
                return

    def _pass(self) -> None:
        """Runs each that can go on once, in their order. Who is woken by one before it runs too; who is woken by a later one, or is new, runs in the
        next pass."""
        self._now, self._woken, made = sorted(self._woken), set(), self._made
        last = -1
        while self._now and not self.main.done:
            number = heapq.heappop(self._now)
            task = self._all.get(number)
            if number == last or task is None:
                continue
            waits = task.waits is not None and task.waits.outcome() is None
            thrown, task.thrown = task.thrown if waits else None, None
            if waits and thrown is None:
                continue
            last, self._passed = number, (number + 1, made)
            self._step(number, task, thrown)
        self._passed = (0, 0)

    def _step(self, number: int, task: Task[Any], thrown: Cancelled | None = None) -> None:
        self._forget(number, task.waits)
        task.step(thrown)
        if task.done:
            if task.continued is not None and task is not self.main:
                raise RuntimeError("ctx.continue_as_new is called in a coroutine of ctx.spawn: it belongs to the handler itself, which then ends")
            del self._all[number]
            self._wake(task)
            return
        waits = task.waits
        assert waits is not None
        if isinstance(waits, (Leaf, Task)):
            if isinstance(waits, Leaf):
                self._handles.add(waits.handle)
            self._waiting.setdefault(waits, []).append(number)
        else:
            (self._joins if waits.tree() is None else self._over)[number] = waits

    def _forget(self, number: int, waits: Durable[Any] | None) -> None:
        """It doesn't wait any more for what it waited for."""
        if waits is None or self._over.pop(number, None) is not None or self._joins.pop(number, None) is not None:
            return
        numbers = self._waiting.get(waits, [])
        if number in numbers:
            numbers.remove(number)
            if not numbers:
                del self._waiting[waits]
                if isinstance(waits, Leaf):
                    self._handles.discard(waits.handle)

    def _wake(self, moved: Durable[Any]) -> None:
        """Those that wait for this may go on, and so may those that wait for several things."""
        for number in (*self._waiting.pop(moved, ()), *self._over, *(self._joins if isinstance(moved, Task) else ())):
            self._may_go_on(number)

    def _may_go_on(self, number: int) -> None:
        first, end = self._passed
        if first <= number < end:
            heapq.heappush(self._now, number)
        else:
            self._woken.add(number)

    def cancel(self, task: Task[Any]) -> None:
        """It gets `Cancelled` at what it awaits, if that is of the journal. If it waits for coroutines alone, these get it."""
        number = next((number for number, it in self._all.items() if it is task), None)
        if number is not None and (task.waits is None or task.waits.tree() is not None):
            task.thrown = Cancelled()
            self._may_go_on(number)

    # ---- what they await

    def tree(self) -> int | core.Future | core.AnyOf:
        """What the coroutines wait for, all together."""
        trees = [tree for it in self._over.values() if (tree := it.tree()) is not None]
        if not trees and not len(self._handles):
            raise RuntimeError("the handler's coroutines wait for each other")
        if len(trees) + len(self._handles) == 1:
            return trees[0] if trees else next(iter(self._handles))
        self._handles.beside(trees)
        return self._handles

    def leaves(self) -> Iterator[Leaf[Any]]:
        """The handles that are awaited, and that nothing came for."""
        for over in self._over.values():
            yield from over.leaves()
        for it in self._waiting:
            if isinstance(it, Leaf):
                yield it

    def taken(self, take: Callable[[int], Any]) -> Iterator[Leaf[Any] | None]:
        """Takes what has come, after the await of `tree`: each handle that has something, and nothing for each that was looked at in vain. The
        handles that a coroutine waits for alone come one at a time, and mostly the one that was asked for first: so the others aren't looked at."""
        for over in list(self._over.values()):
            for leaf in over.leaves():
                yield leaf if self._came(leaf, take) else None
        for it in self._waiting:
            if isinstance(it, Leaf):
                has_come = self._came(it, take)
                yield it if has_come else None
                if has_come:
                    return  # it waits for nothing any more

    def _came(self, leaf: Leaf[Any], take: Callable[[int], Any]) -> bool:
        if leaf.came is None:
            leaf.came = take(leaf.handle)
            if leaf.came is None:
                return False
            if leaf in self._waiting:
                self._handles.discard(leaf.handle)
            self._wake(leaf)
        return True
