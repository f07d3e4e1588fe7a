"""What an attempt of a plan has to answer and to write, from its journal and all notifications alone: by the rules, not by the VM."""
from dataclasses import dataclass, field

from .plan import Awaits, Ends, Looks, Makes, Reads, Step, Takes, Tree, Waits
from .texts import awakeable_id, taken

CANCEL = 1  # the handle of the signal that cancels, and its id
CANCEL_ID = "signal(1)"


@dataclass(frozen=True)
class Setting:
    """What all attempts of an invocation are made with."""

    version: int
    state: dict[str, str]
    cancels: str  # which children are cancelled with the handler: calls, none, sends, both; or off
    input: str


@dataclass
class Given:
    """What one attempt is handed: the commands that are recorded, the keys of the state if it is partial, and all notifications."""

    recorded: list[str]
    keys: list[str] | None
    notes: list[tuple[str, str]]


@dataclass
class Tracked:
    id: str
    known: str | None = None


@dataclass
class Outcome:
    answers: list[str] = field(default_factory=list)
    commands: list[str] = field(default_factory=list)
    ended: bool = False
    differs: str | None = None  # why a recorded command isn't the plan's
    runs: dict[int, str] = field(default_factory=dict)  # the runs' handles, with their ids
    brings: dict[str, str] = field(default_factory=dict)  # what completes each id


class Attempt:
    def __init__(self, plan: list[Step], setting: Setting, given: Given) -> None:
        self.plan, self.setting, self.given = plan, setting, given
        self.told = Outcome()
        self.next_id, self.next_signal, self.next_handle = 1, 17, 17
        self.ids: dict[int, str] = {CANCEL: CANCEL_ID}
        self.seen = 0
        self.takes: dict[str, int] = {}
        self.read: dict[str, str] = {}
        self.tracked: list[Tracked] = []
        self.state = dict(setting.state)
        self.known = self.handed()

    def handed(self) -> set[str] | None:
        """The keys whose values are known; none if all are."""
        if self.given.keys is None:
            return None
        stored = dict(self.setting.state)
        for command in self.given.recorded:
            change(stored, command)
        return {key for key in self.given.keys if key in stored}

    # ---- results

    def results(self, id: str, seen: int) -> list[str]:
        return [result for note, result in self.given.notes[:seen] if note == id]

    def present(self, id: str, seen: int) -> str | None:
        came = self.results(id, seen)
        takes = self.takes.get(id, 0)
        if id.startswith("completion"):
            if takes:
                return None
            return came[-1] if came else self.read.get(id)
        return came[takes] if takes < len(came) else None

    def leaf(self, handle: int, seen: int) -> str | None:
        id = self.ids.get(handle)
        return None if id is None else self.present(id, seen)

    def outcome(self, tree: Tree, seen: int) -> str | None:
        """Whether the tree has succeeded or failed."""
        if tree.kind == "leaf":
            result = self.leaf(tree.handle, seen)
            return None if result is None else "failed" if result.startswith("failure") else "succeeded"
        of = [self.outcome(it, seen) for it in tree.children]
        if tree.kind == "ac" and all(of):
            return "succeeded"
        if tree.kind == "asff" and all(it == "succeeded" for it in of):
            return "succeeded"
        if tree.kind == "fsaf" and all(it == "failed" for it in of):
            return "failed"
        return None

    def fires(self, tree: Tree, seen: int) -> bool:
        """Whether some node of the tree has a child for which it needn't wait any longer."""
        if tree.kind == "leaf":
            return False
        of = [self.outcome(it, seen) for it in tree.children]
        by = {"fc": any(of), "un": any(of), "fsaf": "succeeded" in of, "asff": "failed" in of, "ac": False}
        return by[tree.kind] or any(self.fires(it, seen) for it in tree.children)

    def is_awake(self, tree: Tree, seen: int) -> bool:
        if self.outcome(tree, seen) is not None or self.fires(tree, seen):
            return True
        return self.setting.cancels != "off" and self.present(CANCEL_ID, seen) is not None

    # ---- commands

    def command(self, text: str) -> bool:
        """The command is the next recorded one, or is written."""
        at = len(self.told.commands)
        if at < len(self.given.recorded) and self.given.recorded[at] != text:
            self.told.differs = f"recorded {self.given.recorded[at]!r}, and the plan has {text!r}"
            return False
        self.told.commands.append(text)
        return True

    def take_ids(self, count: int) -> list[int]:
        ids = list(range(self.next_id, self.next_id + count))
        self.next_id += count
        return ids

    def map_handle(self, id: str) -> int:
        handle = self.next_handle
        self.next_handle += 1
        self.ids[handle] = id
        return handle

    def make(self, action: Makes) -> bool:
        numbers = self.take_ids(len(action.brings))
        handles = [self.map_handle(f"completion({it})") for it in numbers]
        for number, brings in zip(numbers, action.brings):
            self.told.brings[f"completion({number})"] = brings
        tracks = {"call": ("calls", "both"), "send": ("sends", "both"), "": ()}[action.tracked]
        if self.setting.cancels in tracks:
            self.tracked.append(Tracked(f"completion({numbers[0]})"))
        if action.brings == ("run",):
            self.told.runs[handles[0]] = f"completion({numbers[0]})"
        self.change(action)
        for text in action.commands:
            if not self.command(text.format(*numbers)):
                return False
        self.told.answers.append(" ".join([action.answer, *map(str, handles)]))
        return True

    def change(self, action: Makes) -> None:
        if action.clears_all:
            self.state.clear()
            self.known = None
        elif action.sets is not None:
            key, value = action.sets
            self.state.pop(key, None)
            if value is not None:
                self.state[key] = value
            if self.known is not None:
                self.known.add(key)

    def read_text(self, key: str | None, number: int) -> tuple[str, str | None]:
        """The command of a read, and its result if it is known."""
        at = len(self.told.commands)
        is_known = self.known is None or (key is not None and key in self.known)
        if at < len(self.given.recorded):
            is_known = self.given.recorded[at].startswith("GetEager")
        if key is None:
            keys = "[" + ", ".join(f'"{it}"' for it in sorted(self.state)) + "]"
            if is_known:
                return f"GetEagerStateKeys value={keys}", f"state_keys({keys})"
            return f"GetLazyStateKeys result_completion_id={number}", None
        if not is_known:
            return f'GetLazyState key="{key}" result_completion_id={number}', None
        result = f'value("{self.state[key]}")' if key in self.state else "void"
        return f'GetEagerState key="{key}" result={result}', result

    def read_state(self, action: Reads) -> bool:
        number = self.take_ids(1)[0]
        text, result = self.read_text(action.key, number)
        id = f"completion({number})"
        handle = self.map_handle(id)
        if result is None:
            self.told.brings[id] = "keys" if action.key is None else "maybe"
        else:
            self.read[id] = result
        if not self.command(text):
            return False
        self.told.answers.append(f"handle {handle}")
        return True

    # ---- waiting

    def cancel(self, seen: int) -> bool:
        """The await is cancelled, once the id of each child is there; none of the other steps is made before."""
        for at in range(seen, len(self.given.notes) + 1):
            ids = [it.known or self.present(it.id, at) for it in self.tracked]
            if all(ids):
                break
        else:
            return False
        for it in ids:
            invocation = str(it).removeprefix("invocation_id(").removesuffix(")")
            target = "" if invocation == '""' else f" target_invocation_id={invocation}"
            if not self.command(f"SendSignal{target} signal=index(1) result=void"):
                return False
        self.seen = at
        self.tracked = []
        self.takes[CANCEL_ID] = self.takes.get(CANCEL_ID, 0) + 1
        self.told.answers.append("cancelled")
        return True

    def wait(self, tree: Tree) -> bool:
        for seen in range(self.seen, len(self.given.notes) + 1):
            if self.is_awake(tree, seen):
                break
        else:
            return False
        if self.setting.cancels != "off" and self.present(CANCEL_ID, seen) is not None:
            return self.cancel(seen)
        self.seen = seen
        self.told.answers.append("awake")
        return True

    def take(self, handle: int) -> bool:
        result = self.leaf(handle, self.seen)
        if result is not None:
            id = self.ids[handle]
            self.takes[id] = self.takes.get(id, 0) + 1
            if handle != CANCEL:
                del self.ids[handle]
            for it in self.tracked:
                if it.id == id:
                    it.known = result
        self.told.answers.append(f"taken {taken(result)}")
        return True

    def signal(self, action: Waits) -> bool:
        if action.name is not None:
            handle = self.map_handle(f'name("{action.name}")')
            self.told.answers.append(f"handle {handle}")
            return True
        signal = self.next_signal
        self.next_signal += 1
        handle = self.map_handle(f"signal({signal})")
        self.told.answers.append(f'awakeable {handle} "{awakeable_id("abc", signal)}"')
        return True

    def look(self, handle: int) -> bool:
        is_there = self.leaf(handle, self.seen) is not None
        self.told.answers.append(f"completed {'true' if is_there else 'false'}")
        return True

    def do(self, step: Step) -> bool:
        match step.action:
            case Makes() as action:
                return self.make(action)
            case Reads() as action:
                return self.read_state(action)
            case Waits() as action:
                return self.signal(action)
            case Awaits(tree):
                return self.wait(tree)
            case Takes(handle):
                return self.take(handle)
            case Looks(handle):
                return self.look(handle)
            case Ends():
                self.told.ended = True
                return False

    def run(self) -> Outcome:
        value = f' value="{self.setting.input}"' if self.setting.input else ""
        if not self.command("Input" + value):
            return self.told
        self.told.answers.append(
            f'input id="abc" seed=0 key="" headers=[] value="{self.setting.input}" scope=- limit=- idem=-'
        )
        for step in self.plan:
            if not self.do(step):
                break
        return self.told


def change(state: dict[str, str], command: str) -> None:
    """What a recorded command changes of the state."""
    word, *fields = command.split(" ")
    named = dict(it.split("=", 1) for it in fields if "=" in it)
    if word == "SetState":
        state[named["key"].strip('"')] = named.get("value", '""').strip('"')
    elif word == "ClearState":
        state.pop(named["key"].strip('"'), None)
    elif word == "ClearAllState":
        state.clear()


def attempt(plan: list[Step], setting: Setting, given: Given) -> Outcome:
    return Attempt(plan, setting, given).run()
