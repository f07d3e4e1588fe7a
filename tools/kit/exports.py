"""The functions that the crate `ffi` exports, read from its sources, and their prototypes, read from `bindings/proved.h`.

For each there is a wrapper in Rattle, whose parameters are numbers, references and slices alone: what C takes or returns by value, the wrapper
takes and returns by reference. These three are passed to a lowered function as C passes numbers and pointers. A caller in C, with the
header's prototype, goes between. So nothing depends on how the kit passes structs."""

from __future__ import annotations

import re
from dataclasses import dataclass
from pathlib import Path

from .errors import Refused

PREFIX = "lowered_"
NAMES = {"palqytun_code_name", "palqytun_status_name", "palqytun_status_text"}
"""What numbers say: `bindings/names.c` has these functions."""
ABOUT = {"palqytun_abi", "palqytun_build", "palqytun_is_proved", "palqytun_version", *NAMES}
"""What a library says of itself and of its numbers: `bindings/about.c` has the functions of the former."""
NUMBERS = {"u8": "i8", "u16": "i16", "u32": "i32", "u64": "i64", "usize": "i64", "bool": "i1"}
"""The numbers, with the types that LLVM gives them."""

_HEAD = re.compile(r'pub extern "C" fn (\w+)\s*\(')
_RESULT = re.compile(r"\s*(?:->\s*(.*?))?\s*(?=\brequires\b|\bensures\b|\{)", re.S)
_REFERENCE = re.compile(r"&\s*(?:'\w+\s+)?(mut\s+)?(.+)", re.S)
_NAMED = re.compile(r"\w+(?:<'\w+>)?")
_PROTOTYPE = re.compile(r"([A-Za-z_][\w\s]*?[\s*])((?:palqytun|proved)_\w+)\(([^()]*)\);")


@dataclass(frozen=True)
class Parameter:
    """A parameter of an exported function. `kind` is allocator, number, slice, reference or struct, the last for one that is passed by value."""

    name: str
    type: str
    kind: str

    @property
    def wrapped(self) -> str:
        """Its type in the wrapper."""
        return f"&{self.type}" if self.kind == "struct" else self.type

    @property
    def handed_on(self) -> str:
        """What the wrapper hands on."""
        return f"*{self.name}" if self.kind == "struct" else self.name

    @property
    def anything(self) -> str:
        """An argument for a call that is never made."""
        any_number = "false" if self.type == "bool" else "0"
        return {"allocator": "alloc", "number": any_number, "slice": "any_slice()"}.get(self.kind, "any()")

    @property
    def lowered(self) -> list[str]:
        """The types of LLVM that the wrapper's parameter has."""
        found: dict[str, list[str]] = {"allocator": [], "number": [NUMBERS.get(self.type, "")], "slice": ["ptr", "i64"]}
        return found.get(self.kind, ["ptr"])


@dataclass(frozen=True)
class Export:
    """An exported function, with the module of the crate that it stands in (empty for the root) and the type of its result, or none."""

    name: str
    module: str
    parameters: tuple[Parameter, ...]
    result: str | None

    @property
    def lowered(self) -> list[str]:
        """The types of the wrapper's parameters in LLVM."""
        return ["ptr"] * (self.result is not None) + [ty for it in self.parameters for ty in it.lowered]

    def wrapper(self) -> str:
        """The wrapper, in Rattle."""
        result = [f"made: *mut {self.result}"] if self.result else []
        taken = ", ".join(result + [f"{it.name}: {it.wrapped}" for it in self.parameters])
        call = f"{self.name}({', '.join(it.handed_on for it in self.parameters)})"
        body = f"unsafe {{ std::ptr::write(made, {call}) }}" if self.result else call
        return f"\npub fn {PREFIX}{self.name}({taken}) {{\n    {body};\n}}\n"

    def call(self) -> str:
        """A call of the wrapper that is never made."""
        given = ["std::ptr::null_mut()"] * (self.result is not None) + [it.anything for it in self.parameters]
        return f"    {self.module}{'::' if self.module else ''}{PREFIX}{self.name}({', '.join(given)});"


def _split(text: str) -> list[str]:
    """The parts between the commas of a text that stand in no bracket."""
    parts, depth = [""], 0
    for sign in text:
        depth += (sign in "([<{") - (sign in ")]>}")
        if sign == "," and depth == 0:
            parts.append("")
        else:
            parts[-1] += sign
    return [it.strip() for it in parts if it.strip()]


def _parameter(text: str, where: str) -> Parameter:
    name, colon, ty = (it.strip() for it in text.partition(":"))
    if not colon or not name.isidentifier():
        raise Refused(f"{where}: the parameter `{text}` can't be read: `NAME: TYPE` was expected")
    if ty == "Global":
        return Parameter(name, ty, "allocator")
    if ty in NUMBERS:
        return Parameter(name, ty, "number")
    reference = _REFERENCE.fullmatch(ty)
    target = reference[2].strip() if reference else ty
    if reference and re.fullmatch(r"\[(?:\w+(?:<'\w+>)?)\]", target):
        return Parameter(name, ty, "slice")
    if _NAMED.fullmatch(target):
        return Parameter(name, ty, "reference" if reference else "struct")
    raise Refused(f"{where}: the type `{ty}` of the parameter {name} can't be passed from C: a number, a struct, a reference or a slice was expected")


def _export(text: str, head: re.Match[str], module: str, file: Path) -> Export:
    where = f"{file.name}: {head[1]}"
    end, depth = head.end(), 1
    while depth and end < len(text):
        depth += (text[end] == "(") - (text[end] == ")")
        end += 1
    result = _RESULT.match(text, end)
    if depth or result is None:
        raise Refused(f"{where}: its signature can't be read: `(PARAMETERS) -> RESULT` and then clauses or a body were expected")
    parameters = tuple(_parameter(it, where) for it in _split(text[head.end() : end - 1]))
    given = result[1].strip() if result[1] else None
    if given and not _NAMED.fullmatch(given):
        raise Refused(f"{where}: the result `{given}` can't be returned to C: a number or a struct was expected")
    return Export(head[1], module, parameters, given)


def read_exports(files: list[Path]) -> list[Export]:
    """The functions that these files of a crate export. Each that is marked as such has to be read."""
    found = []
    for file in files:
        text = re.sub(r"//[^\n]*", "", file.read_text(encoding="utf-8"))
        module = "" if file.name == "lib.rt" else file.stem
        read = [_export(text, head, module, file) for head in _HEAD.finditer(text)]
        marked = len(re.findall(r"\bno_mangle\b", text))
        if marked != len(read):
            raise Refused(f'{file.name}: {marked} functions are marked no_mangle, and {len(read)} were read, as `pub extern "C" fn NAME(..)`')
        found += read
    return found


@dataclass(frozen=True)
class Prototype:
    """A function as the header declares it: its result, and each parameter's type and name."""

    name: str
    result: str
    parameters: tuple[tuple[str, str], ...]

    def between(self) -> str:
        """The function of C that goes between a caller in C and the wrapper."""
        has_result = self.result != "void"
        by_value = {name for ty, name in self.parameters if ty.startswith("palqytun_") and not ty.endswith("*")}
        taken = [f"{self.result} *"] * has_result + [f"{ty} *" if name in by_value else ty for ty, name in self.parameters]
        given = ["&made"] * has_result + [f"&{name}" if name in by_value else name for _, name in self.parameters]
        declared = ", ".join(f"{ty} {name}" for ty, name in self.parameters) or "void"
        call = f"{PREFIX}{self.name}({', '.join(given)});"
        body = f"    {self.result} made;\n    {call}\n    return made;" if has_result else f"    {call}"
        return f"void {PREFIX}{self.name}({', '.join(taken)});\n{self.result} {self.name}({declared})\n{{\n{body}\n}}\n"


def read_prototypes(header: Path) -> dict[str, Prototype]:
    """The functions that the header declares."""
    text = re.sub(r"/\*.*?\*/|^#[^\n]*", "", header.read_text(encoding="utf-8"), flags=re.S | re.M)
    found = {}
    for result, name, parameters in _PROTOTYPE.findall(text):
        given = [] if parameters.strip() == "void" else _split(" ".join(parameters.split()))
        pairs = [re.fullmatch(r"(.*[\s*])(\w+)", it) for it in given]
        if None in pairs:
            raise Refused(f"{header.name}: the parameters of {name} can't be read: `TYPE NAME` was expected for each")
        found[name] = Prototype(name, " ".join(result.split()), tuple((it[1].strip(), it[2]) for it in pairs if it))
    declared = set(re.findall(r"\b((?:palqytun|proved)_\w+)\(", text))
    if declared != found.keys():
        raise Refused(f"{header.name}: these functions can't be read: {', '.join(sorted(declared - found.keys()))}")
    return found


# What C takes by value is a number (n) or a struct (s), the rest a pointer (p).
_SHAPES = {"allocator": "", "number": "n", "slice": "pn", "reference": "p", "struct": "s"}


def _shape(ty: str) -> str:
    return "p" if ty.endswith("*") else "s" if ty.startswith("palqytun_") else "n"


def compare(exports: list[Export], prototypes: dict[str, Prototype]) -> None:
    """Refuses functions that the sources and `bindings/proved.h` don't both have, or whose parameters differ in kind."""
    by_name = {it.name: it for it in exports}
    if different := by_name.keys() ^ prototypes.keys():
        raise Refused(f"crates/ffi and proved.h don't both have {', '.join(sorted(different))}")
    for name, it in by_name.items():
        prototype = prototypes[name]
        wanted = "".join(_SHAPES[one.kind] for one in it.parameters)
        if "".join(_shape(ty) for ty, _ in prototype.parameters) != wanted or (prototype.result == "void") != (it.result is None):
            raise Refused(f"{name} isn't the same function in crates/ffi and in proved.h: its numbers, pointers and structs differ")
