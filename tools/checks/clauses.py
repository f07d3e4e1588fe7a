"""Reads clauses, specs and proofs by text: what the prover reads of a Rust source, words, imports, definitions and what they bind."""

from __future__ import annotations

import re
from collections.abc import Iterator
from functools import cache
from typing import NamedTuple

SKIPPED = r"//[^\n]*|\"(?:\\.|[^\"\\])*\"|'(?:\\[^']+|[^'\\])'"
# Where a part of a Rust source begins that the prover reads: an attribute, a ghost item, a clause.
GHOST = re.compile(rf"{SKIPPED}|(?P<open>#!?(?=\[)|\bghost use\b|\bghost \w+\s*[=:]\s*(?=\{{)|\b(?:requires|ensures)\b[ \w]*(?=\{{))")
BRACKETS = re.compile(SKIPPED + r"|--[^\n]*|[\[({})\];]")

IMPORT = re.compile(
    r"^[ \t]*(?P<ghost>ghost )?(?:unfoldable )?(?P<passes>pub )?use (?P<module>[A-Za-z_][\w.-]*?)"
    r"(?:\.\{(?P<names>[^}]*)\}| as (?P<alias>[\w'-]+))?[ \t]*;?[ \t]*$",
    re.MULTILINE,
)
TOKEN = re.compile(r"\"(?:\\.|[^\"\\])*\"|(?P<member>\.[^\s(){}\[\];,.\"]+)|(?P<mark>[(){}\[\];,.])|(?P<name>[^\s(){}\[\];,.\"]+)")
# A definition: its indent, whether it is public, whether it is a type with constructors or fields, its name.
DEFINED = re.compile(
    r"^(?P<indent> *)(?:(?:abbrev|unfoldable|opaque) )*(?P<public>pub )?(?:(?P<kind>data|record) (?P<type>\S+)|(?P<name>\S+) :(?= |$))",
    re.MULTILINE,
)
# Words of the language and its tactics: nobody imports them.
WORDS = set(
    "use pub mod as data record where let in elim mutual abbrev unfoldable opaque unfolding open infix infixl infixr module Type tt Unit"
    " absurd rw simp search assumption cc omega grind hlevel first_of ruleset ? _ ⊥ ¬ → × λ = : | ↦ ← ∀ do".split()
)
CLOSING = {"(": ")", "{": "}", "[": "]"}


class Token(NamedTuple):
    kind: str
    text: str
    at: int


class Import(NamedTuple):
    """One name in a file: the module and the name there, none for a whole module."""

    module: str
    name: str | None
    passes: bool
    at: int


def ghost_parts(text: str) -> list[tuple[int, int]]:
    """Returns the parts of a Rust source that the prover reads: from which index to which."""
    parts: list[tuple[int, int]] = []
    for match in GHOST.finditer(text):
        if match["open"] is None or (parts and match.start() < parts[-1][1]):
            continue
        depth, end = 0, len(text)
        last = {"#": "]", "g": ";" if match["open"] == "ghost use" else "}"}.get(match["open"][0], "}")
        for sign in BRACKETS.finditer(text, match.end()):
            depth += {"[": 1, "(": 1, "{": 1, "]": -1, ")": -1, "}": -1}.get(sign[0], 0)
            if depth == 0 and sign[0] == last:
                end = sign.end()
                break
        parts.append((match.end(), end))  # without a clause's own name
    return parts


def parameters(text: str, at: int) -> set[str]:
    """Returns the parameters of the function whose clause is at an index of a Rust source."""
    first = text.rfind("fn ", 0, at)
    head = text[first:at] if first >= 0 else ""
    for start, end in reversed(ghost_parts(head)):
        head = head[:start] + head[end:]
    is_over = re.search(r"[{};]", re.sub(r"\[[^\]]*\]", "", head)) is not None
    return set() if is_over else set(re.findall(r"(\w+)\s*:(?!:)", head))


def bare(text: str, mark: str) -> str:
    """Returns a text with spaces for its comments."""
    return re.sub(rf"(?<!\S){mark}[^\n]*", lambda it: " " * len(it[0]), text)


def tokens(text: str, start: int = 0) -> list[Token]:
    return [Token(it.lastgroup or "string", it[0], start + it.start()) for it in TOKEN.finditer(text)]


def imports(text: str, is_ghost: bool) -> Iterator[tuple[str, Import]]:
    """Yields what a text imports, each with the name that it has there."""
    for match in IMPORT.finditer(text):
        if is_ghost and not match["ghost"]:
            continue
        passes = match["passes"] is not None
        if match["names"] is None:
            yield match["alias"] or match["module"].rpartition(".")[2], Import(match["module"], None, passes, match.start())
        for name in (match["names"] or "").split(","):
            first, _, alias = name.strip().partition(" as ")
            if first:
                yield alias or first, Import(match["module"], first, passes, match.start())


class Clause(NamedTuple):
    """A definition, or a clause of one: its index, its text, the names bound around it, and whether it stands in a `where`."""

    at: int
    text: str
    around: frozenset[str]
    is_local: bool


def clauses(text: str, at: int = 0, around: frozenset[str] = frozenset(), is_local: bool = False) -> Iterator[Clause]:
    """Yields the definitions and clauses of a text without imports: each begins at the least indent of its block, and what is deeper
    belongs to it. `mutual`, `module` and `where` begin blocks of their own."""
    lines = [it for it in re.finditer(r"[^\n]*\n?", text) if it[0].strip()]
    if not lines:
        return
    indent = min(indent_of(it[0]) for it in lines)
    heads = [it.start() for it in lines if indent_of(it[0]) == indent and it[0].strip()[0] not in ")]}"]
    for start, end in zip(heads, [*heads[1:], len(text)]):
        if head := re.match(r" *(?:(?:abbrev )?mutual|module\b.*? where) *\n", text[start:end], re.DOTALL):
            yield from clauses(text[start + head.end() : end], at + start + head.end(), around | bound(tokens(head[0])), is_local)
        elif local := re.search(r"\n *where *\n", text[start:end]):
            clause = text[start : start + local.start()]
            rest = text[start + local.end() : end]
            names = around | bound(tokens(clause)) | left_names(tokens(clause)) | set(defined(rest))
            yield Clause(at + start, clause, names, is_local)
            yield from clauses(rest, at + start + local.end(), names, True)
        else:
            yield Clause(at + start, text[start:end], around, is_local)


def indent_of(line: str) -> int:
    return len(line) - len(line.lstrip(" "))


@cache
def defined(text: str) -> dict[str, bool]:
    """Returns what a text without comments defines or passes on, each with whether it is public. A type of data is also a module, and its
    constructors are members of it."""
    found = {name: True for name, it in imports(text, False) if it.passes}
    for clause in clauses(without_imports(text)):
        match = DEFINED.match(clause.text)
        if match and not clause.is_local:
            is_public = match["public"] is not None
            found[match["type"] or match["name"]] = is_public
            if match["kind"] == "data":
                made = re.findall(r"^ +(\S+) :(?= |$)", clause.text, re.MULTILINE)
                found |= {name: is_public for name in made} | {f"{match['type']}.{name}": is_public for name in made}
    return found


def without_imports(text: str) -> str:
    return IMPORT.sub(lambda it: re.sub(r"\S", " ", it[0]), text)


def bound_in_groups(found: list[Token]) -> Iterator[str]:
    """Yields the names of telescopes, as `(x y : A)` and `{ field : A; .. }`."""
    for at, token in enumerate(found):
        if token.text in {"(", "{", ";"} and token.kind == "mark":
            end = at + 1
            while end < len(found) and found[end].kind == "name" and found[end].text not in WORDS - {"_"}:
                end += 1
            if end < len(found) and found[end].text == ":":
                yield from (it.text for it in found[at + 1 : end])


def names_until(found: list[Token], at: int, last: set[str]) -> Iterator[str]:
    """Yields the names from an index up to one of these words in the same brackets, but for types after a colon."""
    depth, typed = 0, -1
    for token, after in zip(found[at:], [*found[at + 1 :], None]):
        if token.kind == "mark" and token.text in CLOSING:
            depth += 1
        elif token.kind == "mark" and token.text in CLOSING.values():
            depth -= 1
            typed = -1 if depth < typed else typed
        if depth < 0 or depth == 0 and token.text in last and token.kind != "member":
            return
        if token.text == ":" and typed < 0:
            typed = depth
        if token.kind == "name" and typed < 0 and not (after and after.kind == "member"):
            yield token.text


def bound(found: list[Token]) -> set[str]:
    """Returns the names that a text binds: by λ, let, patterns and telescopes."""
    names = set(bound_in_groups(found))
    for at, token in enumerate(found):
        if token.kind == "name" and token.text in {"λ", "∀"}:
            names.update(names_until(found, at + 1, {"."}))
        elif token.kind == "name" and token.text in {"let", "do"}:
            names.update(names_until(found, at + 1, {"=", "←"}))
        elif token.text == "[" and token.kind == "mark" or token.text == "|" and token.kind == "name":
            names.update(case_names(found, at + 1))
    return names


def case_names(found: list[Token], at: int) -> list[str]:
    """Returns the names of the pattern of a case, `p ↦ e`; none if there is no case."""
    depth, names = 0, list[str]()
    for token, after in zip(found[at:], [*found[at + 1 :], None]):
        if token.text == "↦":
            return names
        depth += (token.kind == "mark" and token.text in CLOSING) - (token.kind == "mark" and token.text in CLOSING.values())
        if depth < 0 or token.text in {"=", "|", "λ"}:
            return []
        if token.kind == "name" and not (after and after.kind == "member"):
            names.append(token.text)
    return []


NO_WORD = re.compile(r"-?[\d_]+|«.*»")
NOTHING = Token("mark", "", 0)  # before the first token, and after the last


def cited(found: list[Token]) -> Iterator[tuple[Token, str | None]]:
    """Yields the words that are cited, each with the member after it; but for fields and arguments by name, as in `{ x = e }`."""
    for before, token, after in zip([NOTHING, *found], found, [*found[1:], NOTHING]):
        is_set = before.kind == "mark" and before.text in {"{", ";"} and after.text == "=" and after.kind == "name"
        if token.kind == "name" and not is_set and not NO_WORD.fullmatch(token.text):
            yield token, after.text[1:] if after.kind == "member" else None


def parts_of(names: set[str]) -> set[str]:
    """Returns the words of operators, as `if`, `then` and `else` of `if◌then◌else◌`."""
    return {part for name in names if "◌" in name for part in name.split("◌") if part}


def left_names(found: list[Token]) -> set[str]:
    """Returns the names on the left of a clause, or of a type its parameters."""
    if {"data", "record"} & {it.text for it in found[:3]}:
        names = zip(found, found[1:], found[2:])
        return {it.text for before, it, after in names if after.text == ":" and before.text not in {"data", "record"}}
    if [it.text for it in found[1:2]] == [":"] or found[0].text in {"pub", "abbrev", "unfoldable", "opaque", "unfolding"}:
        return set()
    return set(names_until(found, 0, {"="}))


def constructors(found: list[Token], operators: set[str]) -> set[str]:
    """Returns the constructors in the patterns of a clause: what is applied in brackets."""
    names = set()
    for first, token, after in zip(found, found[1:], found[2:]):
        if token.text == "=":
            break
        is_applied = after.kind == "name" and after.text not in operators | WORDS or after.text in {"(", "{"}
        if first.text == "(" and token.kind == "name" and is_applied:
            names.add(token.text)
    return names


def blocks_of(code: str) -> Iterator[tuple[int, int]]:
    """Yields the blocks of a Rust source: the indexes of their braces."""
    opened = []
    for match in re.finditer(r"[{}]", code):
        if match[0] == "{":
            opened.append(match.start())
        elif opened:
            yield opened.pop(), match.start()


def blocks_around(at: int, blocks: list[tuple[int, int]]) -> list[tuple[int, int]]:
    """Returns the blocks around an index, in their order. What is imported there is seen where all of them are around."""
    return [it for it in blocks if it[0] < at < it[1]]
