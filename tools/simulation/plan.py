"""Plans: the steps of a random handler, each with the line that says it and with what it means."""
from dataclasses import dataclass
from random import Random

from .texts import quoted


@dataclass(frozen=True)
class Tree:
    """What is awaited: a handle, or a node over others."""

    kind: str
    handle: int = 0
    children: tuple["Tree", ...] = ()

    def __str__(self) -> str:
        if self.kind == "leaf":
            return str(self.handle)
        return f"{self.kind}({','.join(str(it) for it in self.children)})"


@dataclass(frozen=True)
class Makes:
    """A call with commands. A command's ids stand in braces, `{0}` for the call's first; `brings` says what completes each of them.
    The call is tracked as a `call` or a `send` if its invocation is cancelled with the handler's."""

    commands: tuple[str, ...]
    brings: tuple[str, ...] = ()
    tracked: str = ""
    answer: str = "unit"
    sets: tuple[str, str | None] | None = None
    clears_all: bool = False


@dataclass(frozen=True)
class Reads:
    """A read of a key, or of all keys if there is none."""

    key: str | None


@dataclass(frozen=True)
class Waits:
    """A handle for a signal: an awakeable, or a signal by name."""

    name: str | None


@dataclass(frozen=True)
class Awaits:
    tree: Tree


@dataclass(frozen=True)
class Takes:
    handle: int


@dataclass(frozen=True)
class Looks:
    """Whether a result is there."""

    handle: int


@dataclass(frozen=True)
class Ends:
    pass


Action = Makes | Reads | Waits | Awaits | Takes | Looks | Ends


@dataclass(frozen=True)
class Step:
    line: str
    action: Action


KEYS = ("a", "b", "c")
NODES = ("fc", "ac", "fsaf", "asff", "un")


class Planner:
    """Makes a plan, and counts the handles that its steps are given."""

    def __init__(self, dice: Random) -> None:
        self.dice = dice
        self.next_handle = 17
        self.handles: list[int] = []
        self.steps: list[Step] = []

    def word(self) -> str:
        return self.dice.choice(("x", "yy", "zzz", ""))

    def add(self, line: str, action: Action, handles: int = 0) -> None:
        self.steps.append(Step(line, action))
        self.handles += range(self.next_handle, self.next_handle + handles)
        self.next_handle += handles

    def handle(self) -> int:
        """A handle: mostly one of the last, at times the cancel signal's or one that nobody has."""
        if not self.handles or self.dice.random() < 0.04:
            return self.dice.choice((1, 99))
        return self.dice.choice(self.handles[-6:])

    def tree(self, depth: int) -> Tree:
        if depth == 0 or self.dice.random() < 0.5:
            return Tree("leaf", self.handle())
        children = tuple(self.tree(depth - 1) for _ in range(self.dice.choice((0, 1, 2, 2, 3, 4))))
        return Tree(self.dice.choice(NODES), 0, children)

    def asks_for(self, line: str, command: str, brings: str) -> None:
        """A call with one id, whose command ends in it."""
        self.add(line, Makes((command + " result_completion_id={0}",), (brings,), answer="handle"), 1)

    def callee(self) -> tuple[str, str]:
        service, parameter = self.dice.choice(("A", "B")), self.word()
        given = f' parameter="{parameter}"' if parameter else ""
        return f'"{service}" "h" "{parameter}"', f'service_name="{service}" handler_name="h"{given}'

    def call(self) -> None:
        line, fields = self.callee()
        command = f"Call {fields} invocation_id_notification_idx={{0}} result_completion_id={{1}}"
        self.add(f"call {line}", Makes((command,), ("id", "value"), "call", "handles"), 2)

    def call_with_deadline(self) -> None:
        line, fields = self.callee()
        call = f"Call {fields} invocation_id_notification_idx={{0}} result_completion_id={{1}}"
        sleep = "Sleep wake_up_time=70 result_completion_id={2}"
        self.add(f"call_with_deadline {line} 70", Makes((call, sleep), ("id", "value", "void"), "call", "deadline"), 3)

    def send(self) -> None:
        line, fields = self.callee()
        at = self.dice.choice((0, 5))
        later = f" invoke_time={at}" if at else ""
        command = f"OneWayCall {fields} invocation_id_notification_idx={{0}}{later}"
        self.add(f"send {line}" + (f" at={at}" if at else ""), Makes((command,), ("id",), "send", "handle"), 1)

    def change(self) -> None:
        key, value = self.dice.choice(KEYS), self.word()
        match self.dice.randrange(4):
            case 0 | 1:
                given = f' value="{value}"' if value else ""
                self.add(f'set "{key}" "{value}"', Makes((f'SetState key="{key}"{given}',), sets=(key, value)))
            case 2:
                self.add(f'clear "{key}"', Makes((f'ClearState key="{key}"',), sets=(key, None)))
            case _:
                self.add("clear_all", Makes(("ClearAllState",), clears_all=True))

    def read(self) -> None:
        if self.dice.random() < 0.3:
            self.add("keys", Reads(None), 1)
        else:
            key = self.dice.choice(KEYS)
            self.add(f'get "{key}"', Reads(key), 1)

    def message(self) -> None:
        """A call that sends something to another invocation and waits for nothing."""
        value = self.word()
        match self.dice.randrange(3):
            case 0:
                self.add(f'complete_awakeable "w" success "{value}"', Makes((f'CompleteAwakeable awakeable_id="w" result=value("{value}")',)))
            case 1:
                self.add(f'complete_signal "t" "n" success "{value}"', Makes((f'SendSignal target_invocation_id="t" signal=name("n") result=value("{value}")',)))
            case _:
                self.add('cancel "t"', Makes(('SendSignal target_invocation_id="t" signal=index(1) result=void',)))

    def ask(self) -> None:
        """A call with one id."""
        match self.dice.randrange(6):
            case 0 | 1:
                self.asks_for('sleep "" 70', "Sleep wake_up_time=70", "void")
            case 2:
                self.asks_for('get_promise "p"', 'GetPromise key="p"', "value")
            case 3:
                self.asks_for('peek_promise "p"', 'PeekPromise key="p"', "maybe")
            case 4:
                self.asks_for('complete_promise "p" success "v"', 'CompletePromise key="p" completion=value("v")', "void")
            case _:
                name = self.dice.choice(("attach", "get_output"))
                command = {"attach": "AttachInvocation", "get_output": "GetInvocationOutput"}[name]
                self.asks_for(f'{name} id "i"', f'{command} target=InvocationId("i")', "maybe")

    def wait(self) -> None:
        if self.dice.random() < 0.5:
            self.add("awakeable", Waits(None), 1)
        else:
            name = self.dice.choice(("s", "t"))
            self.add(f"signal {quoted(name)}", Waits(name), 1)

    def use(self) -> None:
        """An await, a take, or a look."""
        match self.dice.randrange(5):
            case 0 | 1 | 2:
                tree = self.tree(self.dice.randrange(4))
                self.add(f"await {tree}", Awaits(tree))
            case 3:
                handle = self.handle()
                self.add(f"take {handle}", Takes(handle))
            case _:
                handle = self.handle()
                self.add(f"completed {handle}", Looks(handle))

    def step(self) -> None:
        match self.dice.randrange(14):
            case 0 | 1:
                self.call()
            case 2:
                self.call_with_deadline()
            case 3:
                self.send()
            case 4:
                self.change()
            case 5:
                self.read()
            case 6:
                self.message()
            case 7 | 8:
                self.asks_for('run "r"', 'Run name="r"', "run")
            case 9:
                self.ask()
            case 10:
                self.wait()
            case _:
                self.use()


def random_plan(dice: Random) -> list[Step]:
    """A handler of up to 16 steps, which writes an output and ends."""
    planner = Planner(dice)
    for _ in range(dice.randrange(2, 15)):
        planner.step()
    value = planner.word()
    planner.add(f'write_output success "{value}"', Makes((f'Output result=value("{value}")',)))
    planner.add("end", Ends())
    return planner.steps
