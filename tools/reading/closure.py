"""The closure of a statement: each definition that it mentions, through definitions, in the order in which they are read."""

from __future__ import annotations

from collections import Counter
from collections.abc import Iterable
from dataclasses import dataclass

from tools.survey.tree import Fault, House

from .definitions import Definition, Place, Sources
from .statements import Stated

# The crate under whose name the layer of messages is known: its definitions and those of the crates below it say how messages and bytes
# are laid out.
LAYER = "journal_protocol"


@dataclass(frozen=True)
class Closure:
    """What a statement needs: the definitions and types that it mentions itself, and those that these mention. Definitions are in reading order:
    each stands after those that mention it, as far as they don't mention each other. Those of the layer of messages are apart; types are those
    of the others."""

    roots: tuple[Place, ...]
    above: tuple[Definition, ...]
    messages: tuple[Definition, ...]
    types: tuple[Place, ...]

    @property
    def lines(self) -> int:
        return count(self.above)

    @property
    def files(self) -> int:
        return len({it.place.path for it in self.above})


def count(definitions: Iterable[Definition]) -> int:
    return sum(len(it.lines) for it in definitions)


def layer(house: House) -> frozenset[str]:
    """Returns the crates of the layer of messages."""
    if LAYER not in house.crates:
        raise Fault(f"crates.txt names no {LAYER}, which is the layer of messages; name its crate in tools/reading/closure.py")
    found, waiting = set[str](), [LAYER]
    while waiting:
        name = waiting.pop()
        found.add(name)
        waiting += [it for it in house.crates[name].below if it not in found]
    return frozenset(found)


def in_order(sources: Sources, roots: Iterable[Place]) -> list[Place]:
    """Returns these places and all that they cite, each before what it cites, and else as they are first cited."""
    done: dict[Place, None] = {}
    seen = set[Place]()
    waiting = [(it, False) for it in roots]
    while waiting:
        place, is_left = waiting.pop()
        if is_left:
            done[place] = None
        elif place not in seen:
            seen.add(place)
            waiting.append((place, True))
            if not place.is_type:
                waiting += [(it, False) for it in sources.definition(place).cites if it not in seen]
    return list(reversed(done))


def closure_of(sources: Sources, statements: Iterable[Stated], messages: frozenset[str]) -> Closure:
    """Returns the closure of some clauses, where these crates are the layer of messages."""
    roots = dict.fromkeys(place for it in statements for place in it.cites)
    places = in_order(sources, roots)
    found = [sources.definition(it) for it in places if not it.is_type]
    above = tuple(it for it in found if it.place.crate not in messages)
    mentioned = {*roots, *(place for it in above for place in it.cites)}
    return Closure(
        tuple(roots),
        above,
        tuple(it for it in found if it.place.crate in messages),
        tuple(it for it in places if it.is_type and it in mentioned),
    )


def weights(of: Closure) -> list[tuple[Definition, tuple[Definition, ...]]]:
    """Returns each definition with those that needn't be read without it, itself among them, the heaviest first."""
    known = {it.place: it for it in of.above}
    below = {it: [to for to in definition.cites if to in known] for it, definition in known.items()}

    def reached(without: Place) -> set[Place]:
        found, waiting = set[Place](), [it for it in of.roots if it in known and it != without]
        while waiting:
            place = waiting.pop()
            if place not in found:
                found.add(place)
                waiting += [to for to in below[place] if to != without]
        return found

    def alone(it: Place) -> tuple[Definition, ...]:
        kept = reached(it)
        return tuple(definition for place, definition in known.items() if place not in kept)

    return sorted(((it, alone(it.place)) for it in of.above), key=lambda it: -count(it[1]))


def once(of: Closure) -> list[tuple[Definition, list[Definition]]]:
    """Returns each definition that mentions others which neither the statement nor another definition mentions, with these."""
    users = Counter(place for it in of.above for place in it.cites)
    known = {it.place: it for it in of.above if users[it.place] == 1 and it.place not in of.roots}
    found = [(it, [known[place] for place in it.cites if place in known]) for it in of.above]
    return [(it, those) for it, those in found if those]
