"""What has to hold between the header, the sources, the C code between them, and what is written of both."""

from __future__ import annotations

import difflib
import os
import subprocess
import tempfile
from collections.abc import Iterator
from pathlib import Path

from tools.kit.errors import Refused

from . import between, flat, glue, go, java, loading, naming, node, python, ruby, rust, sources, text, words
from .header import HEADER, Header, read_header

OWN_STATUSES = {"PALQYTUN_BUSY", "PALQYTUN_BAD_HANDLE", "PALQYTUN_BAD_POINTER"}
"""What `bindings/handles.c` and `bindings/lending.c` answer themselves."""
OWN_STRUCTS = {"palqytun_compared"}
"""What `bindings/differing.c` returns, over the proved calls."""


def written(top: Path, header: Header) -> dict[str, str]:
    """The files that the command writes, with their texts. What stands in the flat header follows from the other, and so does its text."""
    exports = sources.exports(top)
    return {
        "bindings/proved.h": between.proved_header(exports),
        "bindings/calls.c": between.calls(exports),
        flat.HEADER: flat.declared(header),
        flat.CODE: flat.code(header),
        naming.CODE: naming.code_of(header),
        text.TEXT: text.text_of(header),
        python.MODULE: python.module_of(header),
        python.STRUCTS: python.structs_of(header),
        rust.MODULE: rust.module_of(header),
        go.MODULE: go.module_of(header),
        node.MODULE: node.module_of(header),
        node.TYPES: node.types_of(header),
        ruby.MODULE: ruby.module_of(header),
        **java.modules_of(header),
        **{f"{folder}/calls.c": glue.calls_of(header, it) for folder, it in glue.FOLDERS.items()},
        **{f"{folder}/palqytun_abi.h": loading.header_of(header) for folder in loading.FOLDERS},
        **{f"{folder}/palqytun_abi.c": loading.code_of(header) for folder in loading.FOLDERS},
    }


def write(top: Path) -> list[str]:
    """Writes the files, and returns those that changed. An interface that breaks the one before it needs another number."""
    header = read_header(top / HEADER)
    changed = []
    for name, wanted in written(top, header).items():
        path = top / name
        before = path.read_text(encoding="utf-8") if path.exists() else ""
        if name == text.TEXT and (lost := text.broken(before, wanted)):
            raise Refused("\n".join(["the interface changed, but PALQYTUN_ABI didn't: raise it, since callers of the old one would be misled by", *lost]))
        if before != wanted:
            path.write_text(wanted, encoding="utf-8")
            changed.append(name)
    return changed


def unsaid(top: Path) -> Iterator[str]:
    """Yields what the text of the interface had under its number in a commit, and has no more. Where there is no history nothing is compared."""
    ran = subprocess.run(["git", "log", "--format=%H", "--", text.TEXT], cwd=top, capture_output=True, text=True)
    now = (top / text.TEXT).read_text(encoding="utf-8")
    for commit in ran.stdout.split():
        before = subprocess.run(["git", "show", f"{commit}:./{text.TEXT}"], cwd=top, capture_output=True, text=True).stdout
        if lost := text.broken(before, now):
            yield "\n".join([f"{text.TEXT} isn't what it was in commit {commit[:12]}, but PALQYTUN_ABI is the same:", *lost])


def stale(top: Path, header: Header) -> Iterator[str]:
    """Yields what differs in the files that the command writes."""
    for name, wanted in written(top, header).items():
        path = top / name
        before = path.read_text(encoding="utf-8") if path.exists() else ""
        if before != wanted:
            rows = list(difflib.unified_diff(before.splitlines(), wanted.splitlines(), name, "what tools/header writes", n=0, lineterm=""))
            yield "\n".join([f"{name} isn't what tools/header --write writes:", *rows[:20]])


def misnumbered(top: Path, header: Header) -> Iterator[str]:
    """Yields the enumerators of the header that differ from the sources, and those of the sources that it lacks."""
    found = header.enumerators
    for name, number in sources.enumerators(top).items():
        if found.get(name) != number:
            yield f"palqytun.h has {name} = {found.get(name, 'nothing')}, and the sources have {number}"
    named = {number for name, number in found.items() if name.startswith("PALQYTUN_CODE_")}
    if named != sources.codes(top):
        yield f"palqytun.h names the codes {sorted(named)}, and the sources have {sorted(sources.codes(top))}"
    if dict(words.codes(header)) != sources.code_names(top):
        yield f"palqytun.h has the names of codes {dict(words.codes(header))}, and crates/{sources.NAMES} has {sources.code_names(top)}"
    versions = tuple(found.get(f"PALQYTUN_{name}_VERSION") for name in ("MINIMUM", "MAXIMUM"))
    if versions != sources.versions(top):
        yield f"palqytun.h has the versions {versions}, and the sources have {sources.versions(top)}"
    statuses = {number for name, number in sources.enumerators(top).items() if name == "PALQYTUN_NOT_FRAMES"}
    for name in OWN_STATUSES:
        if found.get(name, 0) <= max(statuses):
            yield f"palqytun.h gives {name} a number that a proved call answers too"


def _check_file(top: Path, header: Header) -> tuple[str, int]:
    """A C file that compares the address and type of each proved call and the layout of each struct, and how many structs there are."""
    lines, seen = [], set[str]()
    structs = {**header.structs, "palqytun_held": [("void *", "at")]}
    for at, (name, types) in enumerate(sources.structs(top)):  # two crates may have a struct of the same name
        fields = [field for _, field in structs[name]]
        seen.add(name)
        if len(fields) != len(types):
            raise Refused(f"{name} has {len(fields)} fields in the header, and {len(types)} in the library")
        lines += [f"struct check_{at} {{", *(f"    __typeof__({ty}) f{i};" for i, ty in enumerate(types)), "};"]
        lines.append(f"_Static_assert(sizeof({name}) == sizeof(struct check_{at}), \"the size of {name}\");")
        for i, (field, ty) in enumerate(zip(fields, types, strict=True)):
            same = f"__builtin_types_compatible_p(__typeof__((({name} *)0)->{field}), {ty})"
            place = f"offsetof({name}, {field}) == offsetof(struct check_{at}, f{i})"
            lines.append(f"_Static_assert({same} && {place}, \"{name}.{field}\");")
    if left := structs.keys() - seen - OWN_STRUCTS:
        raise Refused(f"no struct of the library is {', '.join(sorted(left))}")
    lines += ["int main(void)", "{", "    int found = 0;", *(f"    found += &{name} != 0;" for name in header.functions)]
    lines.append(f"    return found == {len(header.functions)} ? 0 : 1;\n}}")
    return '#include "handles.h"\n\n' + "\n".join(lines) + "\n", len(seen)


def compile_check(top: Path, header: Header, library: Path) -> int:
    """Compiles and runs that file over a library. Returns how many structs are equal."""
    code, structs = _check_file(top, header)
    with tempfile.TemporaryDirectory() as room:
        made = Path(room, "check.c")
        made.write_text(code, encoding="utf-8")
        flags = ["-std=gnu11", "-Wall", "-Wextra", "-Wno-address", f"-I{top / 'bindings'}"]
        commands: tuple[list[str | Path], ...] = (["cc", *flags, made, library, "-o", f"{room}/check"], [f"{room}/check"])
        for words in commands:
            env = {**os.environ, "LD_LIBRARY_PATH": str(library.parent)}
            ran = subprocess.run(words, env=env, capture_output=True, text=True)
            if ran.returncode != 0:
                raise Refused(f"the header isn't as the library: {ran.stderr}")
    return structs
