"""Holds docs/DIFFERENCES.md against the original's public items, which stand in tools/checks/original.items with the form of its lines.

Sources are those of the crate that has the VM, and of the crates below it. The module `vm` of the crate `palqytun` passes on each item that is
the same, some under another name. A type that is the same may have further public functions: the page names each of them in backquotes."""

from __future__ import annotations

import re
from collections.abc import Iterator
from dataclasses import dataclass, field
from functools import cached_property
from pathlib import Path

TOP_CRATE = "invocation_vm"
FACADE = Path("crates/palqytun/src/vm.rt")
ITEMS = Path("tools/checks/original.items")
PAGE = Path("docs/DIFFERENCES.md")
LINE = re.compile(r"(?:same (?P<kind>struct|enum|trait|const|type|impl) (?P<name>\w+)(?:: (?P<members>.+))?|other (?P<item>.+) = (?P<text>.+))")
DECLARED = re.compile(r"^pub (?P<kind>struct|enum|trait|const|type) (?P<name>\w+)", re.MULTILINE)
IMPL = re.compile(r"^(?:unsafe )?impl(?:<[^>]*>)? (?:(?:\w+::)*(?P<trait>\w+(?:<[^>]*>)?) for )?(?P<name>\w+)", re.MULTILINE)
DERIVES = re.compile(r"((?:^#\[[^\n]*\]\n|^///[^\n]*\n)*)\Z", re.MULTILINE)
CRATE = re.compile(r"^(\w+)[^:\n]*:(.*)$", re.MULTILINE)
# Another name under which a crate passes a type on.
ALIAS = re.compile(r"\b(\w+) as (\w+)\b")


@dataclass
class Found:
    """What the sources have of a name: its kinds, the bodies of its declaration and of its own `impl`s, its traits."""

    kinds: set[str] = field(default_factory=set)
    bodies: list[str] = field(default_factory=list)
    traits: set[str] = field(default_factory=set)

    def has_member(self, member: str) -> bool:
        return any(re.search(rf"^\s*(?:pub )?(?:fn |type )?{member}\b", body, re.MULTILINE) for body in self.bodies)

    def functions(self) -> set[str]:
        """Returns the public functions, which in a trait are all."""
        form = r"^\s*(?:pub )?fn (\w+)" if "trait" in self.kinds else r"^\s*pub fn (\w+)"
        return {name for body in self.bodies for name in re.findall(form, body, re.MULTILINE)}


def body_at(text: str, at: int) -> str:
    """Returns what stands between the braces that open next, on lines of their own; nothing if a `;` or a blank line ends the item first."""
    end = re.compile(r"^\}|;$|\n\n", re.MULTILINE).search(text, at)
    if end is None or end[0] != "}" and "{" not in text[at : end.start()]:
        return ""
    last = text.find("\n}", at)
    return text[text.index("{", at) + 1 : last if last >= 0 else len(text)].replace("{ ", "{\n")


def crates_below(crates: str, top: str) -> list[str]:
    """Returns a crate and those below it, by the lines of crates.txt."""
    lines = {it[1]: it[2].split() for it in CRATE.finditer(crates)}
    below, waiting = set(), [top]
    while waiting:
        name = waiting.pop()
        if name in lines and name not in below:
            below.add(name)
            waiting.extend(lines[name])
    return sorted(below)


def aliases_in(text: str) -> dict[str, str]:
    """Returns the other names under which a file passes types on, each with the type's own name."""
    return {other: name for item in re.findall(r"^pub use [^;]*;", text, re.MULTILINE) for name, other in ALIAS.findall(item)}


@dataclass
class Sources:
    """The public items of the VM's crate and of those below it, by name."""

    root: Path

    @cached_property
    def found(self) -> dict[str, Found]:
        found: dict[str, Found] = {}
        aliases: dict[str, str] = {}
        crates = crates_below((self.root / "crates.txt").read_text(encoding="utf-8"), TOP_CRATE)
        for path in (path for crate in crates for path in sorted(self.root.glob(f"crates/{crate}/src/**/*.rt"))):
            text = path.read_text(encoding="utf-8")
            for it in DECLARED.finditer(text):
                item = found.setdefault(it["name"], Found())
                item.kinds.add(it["kind"])
                item.bodies.append(body_at(text, it.end()))
                above = DERIVES.search(text[: it.start()])
                item.traits.update(re.findall(r"\w+", " ".join(re.findall(r"#\[derive\((.*?)\)\]", above[1] if above else ""))))
            for it in IMPL.finditer(text):
                item = found.setdefault(it["name"], Found())
                item.traits.update([it["trait"]] * (it["trait"] is not None))
                item.bodies.extend([body_at(text, it.end())] * (it["trait"] is None))
            aliases.update(aliases_in(text))
        aliases.update(aliases_in((self.root / FACADE).read_text(encoding="utf-8")))
        return found | {other: found[name] for other, name in aliases.items() if name in found and other not in found}

    @cached_property
    def passed_on(self) -> set[str]:
        """Returns the names that the front door passes on."""
        text = (self.root / FACADE).read_text(encoding="utf-8")
        return set(re.findall(r"\w+", " ".join(re.findall(r"^pub use [^;]*;", text, re.MULTILINE))))

    def lack(self, kind: str, name: str, members: list[str]) -> str | None:
        """Returns what isn't in the sources of an item, if anything isn't."""
        item = self.found.get(name, Found())
        if kind == "impl":
            missing = [it for it in members if it not in item.traits]
        elif kind not in item.kinds:
            return f"no crate has a public {kind} {name}"
        elif name not in self.passed_on:
            return f"{FACADE} doesn't pass {name} on"
        else:
            missing = [it for it in members if not item.has_member(it)]
        return f"{name} has no {' and no '.join(missing)}" if missing else None


def first_cells(page: str) -> list[str]:
    """Returns the first column of a page's tables, without backquotes."""
    return [line.split(" | ")[0].replace("`", "") for line in page.splitlines() if line.startswith("| ")]


def check_lines(root: Path, sources: Sources, page: str) -> Iterator[tuple[str, str | None]]:
    """Yields each line of the list with what is wrong with it, if anything is: its place, and the message."""
    cells = first_cells(page)
    for at, line in enumerate((root / ITEMS).read_text(encoding="utf-8").splitlines(), 1):
        if not line or line.startswith("#"):
            continue
        found = LINE.fullmatch(line)
        if found is None:
            yield f"{ITEMS}:{at}", "it is no line 'same KIND NAME: MEMBER ..' and none 'other WHAT = TEXT'"
        elif found["kind"]:
            lack = sources.lack(found["kind"], found["name"], (found["members"] or "").split())
            yield f"{ITEMS}:{at}", lack and f"{lack}; if it is renamed or left out, write 'other' and a row in {PAGE}"
        else:
            wrong = f"{found['item']}: no row of {PAGE} has {found['text']!r} in its first column"
            yield f"{ITEMS}:{at}", None if any(found["text"] in cell for cell in cells) else wrong


def check_more(root: Path, sources: Sources, page: str) -> Iterator[tuple[str, str | None]]:
    """Yields each type that is the same with the public functions that it has beyond the original's and the page doesn't name."""
    lines = [LINE.fullmatch(line) for line in (root / ITEMS).read_text(encoding="utf-8").splitlines()]
    same = [it for it in lines if it is not None and it["kind"] and it["kind"] != "impl"]
    named = {word for quoted in re.findall(r"`([^`]+)`", page) for word in re.findall(r"\w+", quoted)}
    for name in sorted({it["name"] for it in same}):
        members = {member for it in same if it["name"] == name for member in (it["members"] or "").split()}
        more = sorted(sources.found.get(name, Found()).functions() - members - named)
        wrong = f"it doesn't name what {name} has beyond the original: {', '.join(more)}"
        yield str(PAGE), wrong if more else None


def check(root: Path) -> Iterator[tuple[str, str | None]]:
    """Yields what was looked at, by its place, with what is wrong with it, if anything is."""
    sources, page = Sources(root), (root / PAGE).read_text(encoding="utf-8")
    yield from check_lines(root, sources, page)
    yield from check_more(root, sources, page)
