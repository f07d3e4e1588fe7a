"""The pages that `tools/guarantees` writes: one a guarantee, their index, and the table in docs/THEOREMS.md."""

from __future__ import annotations

import os
from collections.abc import Iterable, Iterator
from pathlib import Path

from tools.checks.theorems import Theorem
from tools.survey.tree import Fault

from .closure import Closure, count
from .definitions import Definition, Place
from .guarantees import Guarantee, Shelf, each_clause
from .statements import Stated, Unknown

FOLDER = Path("docs", "guarantees")
INDEX = FOLDER / "README.md"
THEOREMS = Path("docs", "THEOREMS.md")
MARK = "<!-- `tools/guarantees --write` writes this page from README.md and the sources. -->"
MARKS = (
    "<!-- From here to the end of the sizes `tools/guarantees --write` writes. -->",
    "<!-- The end of the sizes. -->",
)
HOW = """The definitions stand in reading order: each after those that mention it. So a reader may stop wherever a definition's words are plain
enough, and skip what only it mentions. A definition is listed under the first clause that needs it. Lines are counted without comments and
blank lines. `tools/guarantees {name} --text` prints each definition with its text, in this order."""
LAYER = """The definitions of the layer of messages aren't listed above. They say which fields of a message replay compares, and how messages are laid
out in bytes. Of the layout, the laws under [Messages and bytes](../THEOREMS.md#messages-and-bytes) say what matters: an encoding is read
back, and none begins another. To check the layer itself, read these files:"""
TYPES = "The definitions above mention these types of the code, whose fields belong to the reading:"


def link(name: str, path: Path, folder: Path) -> str:
    """Returns a link from a page of a folder to a file, both below the top."""
    return f"[{name}]({os.path.relpath(path, folder)})"


def cell(text: str) -> str:
    return text.replace("|", "\\|")


def size(of: Closure) -> str:
    """Returns the cells of a table that say how large a closure is."""
    both = [*of.above, *of.messages]
    return f"{len(of.above):,} | {of.lines:,} | {of.files} | {len(of.types)} | {len(both):,} | {count(both):,}"


HEAD = ["Definitions", "Lines", "Files", "Types", "With messages: definitions", "With messages: lines"]


def table(first: list[str], rows: Iterable[str]) -> list[str]:
    """Returns a table whose last columns are sizes."""
    return [f"| {' | '.join([*first, *HEAD])} |", f"|{'---|' * len(first)}{'--:|' * len(HEAD)}", *rows]


def clause_lines(source: str, stated: Stated) -> list[str]:
    """Returns the lines of a source where a clause stands, without the indent that all of them have."""
    lines = source.splitlines()
    first = source.count("\n", 0, stated.at)
    found = lines[first : first + stated.text.count("\n") + 1]
    indent = min(len(it) - len(it.lstrip()) for it in found)
    return [it[indent:] for it in found]


def quoted(shelf: Shelf, theorem: Theorem) -> Iterator[str]:
    """Yields a block of a page that quotes the clauses of a theorem."""
    yield f"```rust {theorem.path.relative_to(shelf.top)}"
    for it in shelf.stated(theorem):
        yield from clause_lines(theorem.path.read_text(encoding="utf-8"), it)
    yield from ("```", "")


def definitions(found: Iterable[Definition], folder: Path) -> Iterator[str]:
    """Yields a table of definitions, in order."""
    yield from ("| Definition | Says | File | Lines |", "|---|---|---|--:|")
    for it in found:
        file = "/".join([it.place.crate, *it.place.path.with_suffix("").parts[3:]])
        yield f"| `{cell(it.place.name)}` | {cell(it.words)} | {link(file, it.place.path, folder)} | {len(it.lines)} |"
    yield ""


def by_file(found: Iterable[Definition], folder: Path) -> Iterator[str]:
    """Yields a table of the files of definitions, with how many they have of these."""
    files: dict[Path, list[Definition]] = {}
    for it in found:
        files.setdefault(it.place.path, []).append(it)
    yield from ("| File | Definitions | Lines |", "|---|--:|--:|")
    for path, those in sorted(files.items()):
        yield f"| {link('/'.join([path.parts[1], *path.with_suffix('').parts[3:]]), path, folder)} | {len(those)} | {count(those)} |"
    yield ""


def types(found: Iterable[Place], folder: Path) -> str:
    """Returns a list of the types of the code that definitions mention."""
    files: dict[Path, list[str]] = {}
    for it in found:
        files.setdefault(it.path, []).append(f"`{it.name}`")
    return "\n".join(f"- {link(str(path.relative_to('crates')), path, folder)}: {', '.join(sorted(names))}" for path, names in sorted(files.items()))


def heading(theorem: Theorem) -> str:
    return f"`{theorem.name}`" + "".join(f": `{clause}`" for clause in theorem.clauses)


def sections(shelf: Shelf, theorems: list[Theorem], elsewhere: dict[Theorem, Guarantee]) -> Iterator[str]:
    """Yields a section for each clause: its text, and its definitions that no section before it has."""
    done = set[Place]()
    for theorem in theorems:
        path = theorem.path.relative_to(shelf.top)
        yield from (f"## {heading(theorem)}", "", f"In {link(str(path.relative_to('crates')), path, FOLDER)}:", "", *quoted(shelf, theorem))
        closure = shelf.closure([theorem])
        many = f"It stands for {len(closure.above):,} definitions, {closure.lines:,} lines in {closure.files} files."
        if other := elsewhere.get(theorem):
            yield from (f"{many} They are on the page of {link(f'guarantee {other.number}', other.page, FOLDER)}.", "")
            continue
        found = [it for it in closure.above if it.place not in done]
        added = "" if not done else f" These {len(found):,} aren't listed above:" if found else " All of them are listed above."
        yield from (many + added, "", *(definitions(found, FOLDER) if found else []))
        done |= {it.place for it in found}


def page_of(shelf: Shelf, guarantee: Guarantee, elsewhere: dict[Theorem, Guarantee]) -> str:
    """Returns the page of a guarantee, where these clauses are listed on the pages of other ones."""
    theorems = list(each_clause(list(guarantee.theorems)))
    closure = shelf.closure([it for it in theorems if it not in elsewhere])
    lines = [f"# {guarantee.number}. {guarantee.title}", "", MARK, "", guarantee.says, ""]
    lines += ["[THEOREMS](../THEOREMS.md) has its premises, and [TRUST](../TRUST.md) what else has to be believed.", ""]
    lines += [HOW.format(name=guarantee.number), "", *sections(shelf, theorems, elsewhere)]
    lines += ["## Types", "", TYPES, "", types(closure.types, FOLDER), ""]
    lines += ["## Messages and bytes", "", LAYER, "", *by_file(closure.messages, FOLDER)]
    return "\n".join(lines)


def pages(shelf: Shelf) -> dict[Path, str]:
    """Returns the pages of all guarantees. A clause that states more than one is listed on the first one's page."""
    found: dict[Path, str] = {}
    listed: dict[Theorem, Guarantee] = {}
    for it in shelf.guarantees:
        found[it.page] = page_of(shelf, it, dict(listed))
        listed = {**dict.fromkeys(each_clause(list(it.theorems)), it), **listed}
    return found


def guarantee_rows(shelf: Shelf, folder: Path) -> Iterator[str]:
    """Yields the rows of the guarantees: a row a clause that states one."""
    for it in shelf.guarantees:
        title = link(f"{it.number}. {it.title}", it.page, folder)
        for theorem in each_clause(list(it.theorems)):
            yield f"| {title} | {heading(theorem)} | {size(shelf.closure([theorem]))} |"


def index(shelf: Shelf) -> str:
    """Returns the index of the pages, with the sizes of all guarantees and laws."""
    laws = [f"| {link(f'`{it.name}`', it.path.relative_to(shelf.top), FOLDER)} | {size(shelf.closure([it]))} |" for it in shelf.laws]
    lines = ["# What has to be read", "", MARK, ""]
    lines += ["To believe a statement you have to read its clause, and each definition that it mentions, through definitions. This page says how"]
    lines += ["many these are. Each guarantee has a page with its definitions in reading order. `tools/guarantees NAME` prints those of a law."]
    lines += ["", "The first figures leave out the layer of messages, which says how bytes are laid out. The last two have it."]
    lines += ["", "## Guarantees", "", *table(["Guarantee", "Stated at"], guarantee_rows(shelf, FOLDER))]
    lines += ["", "## Laws", "", *table(["Law"], laws), ""]
    return "\n".join(lines)


def sizes(shelf: Shelf) -> str:
    """Returns the table of sizes for docs/THEOREMS.md."""
    return "\n".join(["", *table(["Guarantee", "Stated at"], guarantee_rows(shelf, THEOREMS.parent)), "", ""])


def placed(page: str, text: str) -> str:
    """Returns docs/THEOREMS.md with this text between its marks."""
    before, first, rest = page.partition(MARKS[0] + "\n")
    _, last, after = rest.partition(MARKS[1])
    if not first or not last:
        raise Fault(f"{THEOREMS}: two marks aren't there; put these lines around what tools/guarantees writes: {MARKS[0]} and {MARKS[1]}")
    return before + first + text + last + after


def made(shelf: Shelf) -> dict[Path, str]:
    """Returns the text of each file that this command writes, by its path below the top."""
    return {**pages(shelf), INDEX: index(shelf), THEOREMS: placed((shelf.top / THEOREMS).read_text(encoding="utf-8"), sizes(shelf))}


def check(top: Path) -> Iterator[tuple[str, str | None]]:
    """Yields the path of each file that this command writes, or has written, and what is wrong with it."""
    try:
        files = made(Shelf(top))
    except (Fault, Unknown) as why:
        yield "docs/guarantees", str(why)
        return
    for path, text in files.items():
        is_so = (top / path).is_file() and (top / path).read_text(encoding="utf-8") == text
        yield str(path), None if is_so else "it isn't what README.md and the sources say; write it by tools/guarantees --write"
    for old in sorted((top / FOLDER).glob("*.md")):
        if old.relative_to(top) not in files:
            yield str(old.relative_to(top)), "no guarantee has this page any more; remove it"


def write(top: Path) -> None:
    (top / FOLDER).mkdir(exist_ok=True)
    for path, text in made(Shelf(top)).items():
        (top / path).write_text(text, encoding="utf-8")
