"""Random scripts: handlers that call each other, and what happens to their invocations, as the dice fall."""

from __future__ import annotations

from dataclasses import dataclass, field
from random import Random

from tools.simulation.plan import NODES
from tools.simulation.texts import awakeable_id

DIGITS = 100
"""All times of a script are equal modulo this. A wrong engine is wrong while its clock has the number of its fault: see wrong.py."""


@dataclass(frozen=True)
class Target:
    service: str
    handler: str
    exclusive: bool

    def __str__(self) -> str:
        return f'"{self.service}" "{self.handler}"'


TARGETS = (
    Target("A", "one", True),
    Target("B", "two", False),
    Target("A", "three", True),
    Target("C", "four", False),
    Target("A", "five", False),
)
"""Each calls those after it alone, so that every tree of calls ends."""
NOBODY = Target("No", "body", False)
KEYS = ("", "", "k", "l")
NAMES = ("a", "b")
"""Of the state of a key."""


@dataclass
class Dice:
    """What all parts of a script are thrown with: the dice, the last two digits of each time, and how many invocations are there at first."""

    random: Random
    digits: int
    first: int

    def chance(self, part: float) -> bool:
        return self.random.random() < part

    def time(self) -> int:
        return self.random.randrange(1, 40) * DIGITS + self.digits

    def word(self) -> str:
        return self.random.choice(("x", "yy", "zzz", ""))

    def callee(self, targets: tuple[Target, ...]) -> str:
        """A target, a parameter and options."""
        target = NOBODY if not targets or self.chance(0.05) else self.random.choice(targets)
        key, asked = self.random.choice(KEYS), self.random.choice(("", "", "", "i", "j"))
        options = (f' key="{key}"' if key else "") + (f' idem="{asked}"' if asked else "")
        return f'{target} "{self.word()}"{options}'

    def invocation(self) -> str:
        return f"inv_{self.random.randrange(self.first)}"


@dataclass
class Steps:
    """The steps of a handler, and the handles that they are given."""

    dice: Dice
    callees: tuple[Target, ...]
    lines: list[str] = field(default_factory=list)
    next_handle: int = 17
    handles: list[int] = field(default_factory=list)

    def add(self, line: str, handles: int = 0) -> None:
        self.lines.append(line)
        self.handles += range(self.next_handle, self.next_handle + handles)
        self.next_handle += handles

    def handle(self) -> int:
        if not self.handles or self.dice.chance(0.03):
            return self.dice.random.choice((1, 99))
        return self.dice.random.choice(self.handles[-6:])

    def tree(self, depth: int) -> str:
        if depth == 0 or self.dice.chance(0.6):
            return str(self.handle())
        children = [self.tree(depth - 1) for _ in range(self.dice.random.choice((1, 2, 2, 3)))]
        return f"{self.dice.random.choice(NODES)}({','.join(children)})"

    def call(self) -> None:
        self.add(f"call {self.dice.callee(self.callees)}", 2)
        if self.dice.chance(0.7):
            self.add(f"await {self.handles[-1]}")

    def send(self) -> None:
        later = f" at={self.dice.time()}" if self.dice.chance(0.5) else ""
        self.add(f"send {self.dice.callee(self.callees)}{later}", 1)

    def message(self) -> None:
        """A signal to an invocation that was there first."""
        to, value = self.dice.invocation(), self.dice.word()
        match self.dice.random.randrange(5):
            case 0:
                self.add(f'cancel "{to}"')
            case 1 | 2:
                self.add(f'complete_signal "{to}" "s" success "{value}"')
            case _:
                result = self.dice.random.choice((f'success "{value}"', 'failure 409 "no"'))
                self.add(f'complete_awakeable "{awakeable_id(to, 17)}" {result}')

    def wait(self) -> None:
        self.add("awakeable" if self.dice.chance(0.5) else 'signal "s"', 1)

    def use(self) -> None:
        match self.dice.random.randrange(4):
            case 0 | 1:
                self.add(f"await {self.tree(2)}")
            case 2:
                self.add(f"take {self.handle()}")
            case _:
                self.add(f"completed {self.handle()}")

    def state(self) -> None:
        name = self.dice.random.choice(NAMES)
        match self.dice.random.randrange(8):
            case 0 | 1 | 2:
                self.add(f'get "{name}"', 1)
            case 3:
                self.add("keys", 1)
            case 4 | 5:
                self.add(f'set "{name}" "{self.dice.word()}"')
            case 6:
                self.add(f'clear "{name}"')
            case _:
                self.add("clear_all")

    def step(self) -> None:
        match self.dice.random.randrange(14):
            case 0 | 1 | 2:
                self.call()
            case 3:
                self.send()
            case 4 | 5:
                self.message()
            case 6 | 7:
                self.add(f'sleep "" {self.dice.time()}', 1)
            case 8:
                self.wait()
            case 9 | 10:
                self.state()
            case _:
                self.use()

    def end(self) -> None:
        """Mostly an output, and at times something after it, which is never stored."""
        if self.dice.chance(0.9):
            result = self.dice.random.choice((f'success "{self.dice.word()}"', 'success "done"', 'failure 500 "bad"'))
            self.add(f"write_output {result}")
            if self.dice.chance(0.3):
                self.send()
        self.add("end")


def handler_lines(dice: Dice, at: int) -> list[str]:
    """The handler at a place of the targets."""
    target = TARGETS[at]
    steps = Steps(dice, TARGETS[at + 1 :])
    for _ in range(dice.random.randrange(0, 8)):
        steps.step()
    steps.end()
    return [f"handler {target}{' exclusive' if target.exclusive else ''}", *(f"  {it}" for it in steps.lines)]


def submit_line(dice: Dice) -> str:
    later = f" at={dice.time()}" if dice.chance(0.2) else ""
    return f"submit {dice.callee(TARGETS)}{later}"


def opening(dice: Dice) -> list[str]:
    """The handlers, the clock, and the first invocations, which have no idempotency keys, so that there are as many as are asked for."""
    lines = [line for at in range(len(TARGETS)) for line in handler_lines(dice, at)]
    lines += [f"clock {dice.digits}"] if dice.digits else []
    for _ in range(dice.first):
        target, key = dice.random.choice(TARGETS[:3]), dice.random.choice(KEYS)
        lines.append(f'submit {target} "{dice.word()}"' + (f' key="{key}"' if key else ""))
    return lines


@dataclass
class Events:
    """Events of random invocations, mostly of one that was made of late."""

    dice: Dice
    made: int

    def number(self) -> int:
        return self.dice.random.randrange(self.made + 1)

    def attempt(self) -> list[str]:
        """An attempt that is fed, makes steps, and stores."""
        number = self.number()
        lines = [f"begin {number}", f"piece {number} all", f"step {number} {self.dice.random.randrange(1, 12)}"]
        return [*lines, f"store {number} {self.dice.random.choice(('1', '2', 'all'))}"]

    def lines(self) -> list[str]:
        dice, number = self.dice.random, self.number()
        match dice.randrange(24):
            case 0 | 1 | 2 | 3 | 4:
                return self.attempt()
            case 5 | 6:
                return [f"begin {number}"]
            case 7 | 8:
                return [f"piece {number} {dice.choice(('all', 'all', str(dice.randrange(300))))}"]
            case 9 | 10:
                return [f"step {number} {dice.randrange(1, 9)}"]
            case 11 | 12:
                return [f"store {number} {dice.choice(('1', 'all'))}"]
            case 13 | 14:
                return [f"deliver {number} {dice.randrange(3)}"]
            case 15 | 16:
                return [f"deliver {number} all"]
            case 17:
                return [dice.choice((f"stop {number}", f"close {number}"))]
            case 18:
                return ["crash"]
            case 19:
                return [submit_line(self.dice)]
            case 20 | 21:
                return [f"clock {self.dice.time()}"]
            case _:
                return [f"settle {dice.randrange(1, 3)}"]
