"""What the header `bindings/palqytun.h` declares: functions, structs with their fields, and enumerators."""

from __future__ import annotations

import re
from dataclasses import dataclass
from pathlib import Path

from tools.kit.errors import Refused
from tools.kit.exports import Prototype, read_prototypes

HEADER = "bindings/palqytun.h"
_STRUCT = re.compile(r"typedef struct \{(.*?)\} (\w+);", re.S)
_FIELD = re.compile(r"(\w[\w ]*?[ *]+)(\w+);")
_ENUM = re.compile(r"\benum \{(.*?)\};", re.S)
_ENUMERATOR = re.compile(r"(PALQYTUN_\w+) = (\d+)")
_NUMBER = re.compile(r"^#define (PALQYTUN_\w+) (\d+)$", re.M)


@dataclass(frozen=True)
class Header:
    """What a header declares. A struct's fields are pairs of a type and a name."""

    functions: dict[str, Prototype]
    structs: dict[str, list[tuple[str, str]]]
    enums: list[dict[str, int]]
    numbers: dict[str, int]

    @property
    def enumerators(self) -> dict[str, int]:
        return {name: number for enum in self.enums for name, number in enum.items()}


def read_header(path: Path) -> Header:
    """Reads a header. Each enumerator has to say its number."""
    plain = re.sub(r"/\*.*?\*/", "", path.read_text(encoding="utf-8"), flags=re.S)
    enums = []
    for body in _ENUM.findall(plain):
        rows = [it.strip() for it in body.split(",") if it.strip()]
        found = [_ENUMERATOR.fullmatch(it) for it in rows]
        if None in found:
            raise Refused(f"{path.name}: an enumerator can't be read in {' '.join(body.split())!r}: `PALQYTUN_NAME = NUMBER` was expected for each")
        enums.append({it[1]: int(it[2]) for it in found if it})
    names = [name for enum in enums for name in enum]
    if twice := {it for it in names if names.count(it) > 1}:
        raise Refused(f"{path.name}: {', '.join(sorted(twice))} stands twice")
    structs = {name: [(ty.strip(), field) for ty, field in _FIELD.findall(body)] for body, name in _STRUCT.findall(plain)}
    return Header(read_prototypes(path), structs, enums, {name: int(number) for name, number in _NUMBER.findall(plain)})
