"""The cases that c/typed.c and original/src/player/cases.rs play, call by call alike."""

from __future__ import annotations

from dataclasses import dataclass

MOST = 1_000_000_000  # entries that any case is played with
LONG = 10_000  # the entries of a case to which its target belongs
SHORT = 5
TARGET_OF_SHORT = 0.8  # of each case of so few entries


@dataclass(frozen=True)
class Case:
    """A case, and what an entry of it is. At sizes below `least` it shows nothing, and above `most` it takes too long or too much memory; above
    `most_of_original` the original takes too long. `target` is how many instructions an entry of a long case is to take at most for one
    that it takes the original; of a case whose entries are `apart`, at any size."""

    name: str
    what: str
    least: int = 1
    most: int = MOST
    most_of_original: int = MOST
    target: float | None = None
    apart: bool = False

    def is_at(self, size: int) -> bool:
        return self.least <= size <= self.most

    def target_at(self, size: int) -> float | None:
        """The target at a size, if it has one there."""
        if self.target is None or self.apart or size == min(LONG, self.most):
            return self.target
        return TARGET_OF_SHORT if size == SHORT else None


CASES = (
    Case("sleeps", "a sleep that is sent, completed, awaited and taken before the next", target=0.45),
    Case("waits", "the same, awaited too before it is completed, so that the await says what it waits for", target=0.45),
    Case("replay", "a recorded sleep that is replayed, awaited and taken", target=0.4),
    Case("first", "a sleep of many that wait and are completed at once, awaited and taken in the order in which they were made", target=0.35),
    Case("last", "the same, the last first", target=0.35),
    Case("signals", "a signal of one name, its next delivery awaited and taken", target=0.5),
    Case("lazy", "a read of state that isn't known, its value of 20 bytes completed, awaited and taken", target=0.6),
    Case("eager", "a read of one of 100 known keys, awaited and taken", target=0.6),
    Case("new_keys", "a key of its own that is set, got, awaited and taken", target=0.7),
    Case("one_key", "the same with one key", target=0.6),
    Case("calls_100", "a call with 100 bytes, its invocation id and its result of 100 bytes awaited and taken", target=0.5),
    Case("calls_10k", "the same with 10,240 bytes of parameter", most=10_000, target=0.85),
    Case("runs", "a run that is executed, its result of 100 bytes proposed, acknowledged, awaited and taken", target=0.6),
    Case("tree", "a sleep of a tree that awaits all of them twice, before they are completed and after", most_of_original=1_000),
    Case("attempts", "an attempt: four recorded sleeps and a fifth that is pending, replayed until it is suspended", most=100_000, target=0.6, apart=True),
    Case("megabytes_out", "a value of 1 MiB that is set and sent", most=100, target=1.0, apart=True),
    Case("megabytes_in", "a value of 1 MiB that is read from state", most=100),
    Case("cut_64", "as replay, the input fed in pieces of 64 bytes", least=100),
    Case("cut_4k", "as replay, the input fed in pieces of 4,096 bytes", least=1_000),
    Case("cut_64k", "as replay, the input fed in pieces of 65,536 bytes", least=10_000),
)

NAMES = tuple(it.name for it in CASES)
