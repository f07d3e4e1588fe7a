"""What can be awaited beside a handle: trees of handles."""

from __future__ import annotations

from array import array
from collections.abc import Iterable, Iterator, Sequence

from palqytun._words import HANDLE, integer

__all__ = ["AnyOf", "Future", "all_completed", "all_succeeded_or_first_failed", "first_completed", "first_succeeded_or_all_failed", "unknown"]


Nodes = tuple[tuple[int, int], ...]
"""The nodes of a tree, each after those of its children: a kind and how many children, or 0 and a handle."""
_WORDS = ("", "fc", "ac", "fsaf", "asff", "un")  # of the kinds, in a line


def _row(nodes: Iterable[tuple[int, int]]) -> array[int]:
    return array("I", [number for node in nodes for number in node])


class Future:
    """A node over handles and futures. The five functions of this module make them. As a text it is what a line writes.

    >>> str(first_completed(17, all_completed(18, 19)))
    'fc(17,ac(18,19))'
    """

    __slots__ = ("_lent", "nodes")
    nodes: Nodes

    def __init__(self, nodes: Nodes) -> None:
        self.nodes = nodes
        self._lent: array[int] | None = None

    def lent(self) -> array[int]:
        """The nodes as a typed call takes them. They are made once, since a tree is often asked again."""
        if self._lent is None:
            self._lent = _row(self.nodes)
        return self._lent

    def __str__(self) -> str:
        below = list[str]()
        for kind, count in self.nodes:
            if kind:
                first = len(below) - count
                below[first:] = [f"{_WORDS[kind]}({','.join(below[first:])})"]
            else:
                below.append(str(count))
        return below[0]

    def __repr__(self) -> str:
        return f"<Future {self}>"

    def __eq__(self, other: object) -> bool:
        return isinstance(other, Future) and self.nodes == other.nodes

    def __hash__(self) -> int:
        return hash(self.nodes)

    def __reduce__(self) -> tuple[object, ...]:
        return Future, (self.nodes,)


def handle_of(name: str, future: object) -> int:
    """A handle that stands for itself."""
    if isinstance(future, int) and not isinstance(future, bool):
        return integer(name, future, HANDLE)
    raise TypeError(f"{name} must be a handle or a Future, not {type(future).__name__}")


def _over(kind: int, children: tuple[int | Future, ...]) -> Future:
    below = list[tuple[int, int]]()
    for it in children:
        if isinstance(it, Future):
            below += it.nodes
        else:
            below.append((0, handle_of("each child", it)))
    return Future((*below, (kind, len(children))))


def first_completed(*children: int | Future) -> Future:
    """Awaited until some child has an outcome."""
    return _over(1, children)


def all_completed(*children: int | Future) -> Future:
    """Awaited until all children have an outcome."""
    return _over(2, children)


def first_succeeded_or_all_failed(*children: int | Future) -> Future:
    """Awaited until some child succeeds, or all have failed."""
    return _over(3, children)


def all_succeeded_or_first_failed(*children: int | Future) -> Future:
    """Awaited until all children succeed, or some child has failed."""
    return _over(4, children)


def unknown(*children: int | Future) -> Future:
    """Some way of the caller's own: asked again at each outcome of a child."""
    return _over(5, children)


class AnyOf:
    """`first_completed` over many handles that come and go: each is added and taken away in the same time, however many there are. It is awaited
    as a `Future` is, with at least one handle or tree in it.

    >>> awaited = AnyOf()
    >>> for handle in (17, 18, 19):
    ...     awaited.add(handle)
    >>> awaited.discard(17)
    >>> sorted(awaited), len(awaited)
    ([18, 19], 2)
    """

    def __init__(self) -> None:
        self._places: dict[int, int] = {}
        self._row = array("I")  # the handles' nodes
        self._trees: Sequence[int | Future] = ()

    def __len__(self) -> int:
        return len(self._places)

    def __iter__(self) -> Iterator[int]:
        return iter(self._row[1::2])

    def add(self, handle: int) -> None:
        """One handle more; nothing if it is there."""
        handle = integer("handle", handle, HANDLE)
        if handle not in self._places:
            self._places[handle] = len(self._places)
            self._row.extend((0, handle))

    def discard(self, handle: int) -> None:
        """One handle less; nothing if it isn't there."""
        at = self._places.pop(handle, None)
        if at is None:
            return
        moved = self._row[-1]
        del self._row[-2:]
        if moved != handle:
            self._row[2 * at + 1], self._places[moved] = moved, at

    def beside(self, trees: Sequence[int | Future]) -> None:
        """These trees, in place of those before, are awaited beside the handles."""
        self._trees = trees

    def lent(self) -> array[int]:
        """The nodes."""
        below = [node for it in self._trees for node in (it.nodes if isinstance(it, Future) else ((0, it),))]
        return self._row + _row([*below, (1, len(self._places) + len(self._trees))])
