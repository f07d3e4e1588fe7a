"""What the sources in Rattle say of the interface for C: the functions of `crates/ffi`, the structs that cross, and the numbers of cases."""

from __future__ import annotations

import re
from collections.abc import Iterator
from dataclasses import dataclass
from pathlib import Path

from tools.kit.errors import Refused
from tools.kit.exports import Export, read_exports

STRUCTS = {
    "Vm": "palqytun_held",
    "Journal": "palqytun_held",
    "Told": "palqytun_told",
    "Replied": "palqytun_replied",
    "Retry": "palqytun_retry",
    "Lent": "palqytun_bytes",
    "Outgoing": "palqytun_bytes",
    "MayLend": "palqytun_optional",
    "Pair": "palqytun_pair",
    "GivenValue": "palqytun_value",
    "GivenTarget": "palqytun_target",
    "Node": "palqytun_node",
    "GivenOptions": "palqytun_options",
    "GivenError": "palqytun_error",
    "GivenCommand": "palqytun_command",
    "GivenInvocation": "palqytun_invocation",
    "GivenPolicy": "palqytun_policy",
    "Row": "palqytun_row",
    "Stored": "palqytun_stored",
    "EffectRow": "palqytun_effect",
    "Judged": "palqytun_judged",
    "FrameRow": "palqytun_frame_row",
}
"""The structs that cross, with their names in C."""
NUMBERS = {"u8": "uint8_t", "u16": "uint16_t", "u32": "uint32_t", "u64": "uint64_t", "usize": "size_t", "bool": "bool"}
CRATES = ("c_values", "c_sessions", "c_calls", "c_journals")

_STRUCT = re.compile(r"#\[repr\(C\)\](?:\s*#\[[^\n]*\]\n)*\s*pub struct (\w+)(?:<'a>)? \{(.*?)\n\}", re.S)
_FIELD = re.compile(r"^\s*pub(?:\(crate\))? (?!ghost )\w+: (.*),$", re.M)


def c_types(ty: str) -> list[str]:
    """Returns the C types that a type of an export or of a field is: a slice is a pointer and a length, an allocator is nothing."""
    ty = re.sub(r"'\w+\s*", "", ty.strip()).replace("<>", "")
    if ty == "Global":
        return []
    if found := re.fullmatch(r"&(mut )?\[(.*)\]", ty):
        (item,) = c_types(found[2])
        return [f"{'' if found[1] else 'const '}{item} *", "size_t"]
    if found := re.fullmatch(r"&(mut )?(.*)", ty):
        (item,) = c_types(found[2])
        return [f"{'' if found[1] else 'const '}{item} *"]
    if ty == "*mut u8":
        return ["void *"]
    if ty == "*const u8":
        return ["const uint8_t *"]
    named = NUMBERS.get(ty) or STRUCTS.get(ty)
    if named is None:
        raise Refused(f"`{ty}` is no type that crosses to C; name it in tools/abi/sources.py")
    return [named]


def exports(top: Path) -> list[Export]:
    """The functions that the crate `ffi` exports, in the order of the sources."""
    return read_exports(sorted((top / "crates/ffi/src").glob("*.rt")))


def structs(top: Path) -> Iterator[tuple[str, list[str]]]:
    """Yields the C name of each struct that crosses, and the C types of its fields."""
    for crate in CRATES:
        for path in sorted((top / "crates" / crate / "src").glob("*.rt")):
            for name, body in _STRUCT.findall(path.read_text(encoding="utf-8")):
                yield STRUCTS[name], [ty for field in _FIELD.findall(body) for ty in c_types(field)]


def screaming(name: str) -> str:
    """A name in capitals: `NoMemory` is NO_MEMORY.

    >>> screaming("WaitingPreFlight"), screaming("NotAFrame")
    ('WAITING_PRE_FLIGHT', 'NOT_A_FRAME')
    """
    return re.sub(r"(?<=[a-z0-9])(?=[A-Z])|(?<=[A-Z])(?=[A-Z][a-z])", "_", name).upper()


@dataclass(frozen=True)
class Table:
    """Where the sources give numbers to cases: in this file, each by this pattern of a number and a name, or of a name and a number.
    Of each name the enumerator is the prefix and the name in capitals."""

    path: str
    pattern: str
    prefix: str = ""


def _of_match(kind: str) -> str:
    return rf"(?P<number>\d+) => (?:Some|Ok)\((?:Some\()?{kind}::(?P<name>\w+)"


def _of_code(kind: str) -> str:
    return rf"\b{kind}::(?P<name>\w+)(?:\([^)]*\))? => (?P<number>\d+)\b"


TABLES = (
    Table("c_values/src/status.rt", _of_code("Status")),
    Table("c_sessions/src/kind.rt", _of_code("Kind")),
    Table("c_sessions/src/replied.rt", _of_code("State"), "STATE_"),
    Table("c_sessions/src/peer.rt", _of_match("Spoken"), "LAYER_"),
    Table("c_calls/src/nodes.rt", _of_match("FutureKind")),
    Table("c_calls/src/reports.rt", _of_match("CommandType"), "COMMAND_"),
    Table("c_calls/src/reports.rt", _of_match("ErrorBehavior"), "BEHAVIOR_"),
    Table("c_calls/src/making.rt", _of_match("NonDeterministicChecksOption"), "CHECKS_"),
    Table("c_calls/src/making.rt", _of_match("AwaitingOnPolicy"), "AWAITING_"),
    Table("c_calls/src/making.rt", _of_match("JournalMismatchRetryBehavior"), "MISMATCH_"),
    Table("c_calls/src/making.rt", _of_match("JournalReplay"), "REPLAY_"),
    Table("c_calls/src/making.rt", _of_match("SignalDelivery"), "DELIVERY_"),
    Table("c_calls/src/policies.rt", _of_match("RetryPolicy"), "POLICY_"),
    Table("c_calls/src/invocations.rt", rf"(?P<number>\d+) => match \w+\(.*\n\s*Ok\(\w+\) => Ok\(InvocationTarget::(?P<name>\w+)", "TARGET_"),
    Table("c_values/src/numbers.rt", _of_code("InvocationTarget"), "TARGET_"),
    Table("c_journals/src/effect.rt", _of_code("EffectKind"), "EFFECT_"),
    Table("c_values/src/numbers.rt", _of_code("ErrorBehavior"), "BEHAVIOR_"),
    Table("journal_errors/src/types.rt", _of_code("MessageType"), "MESSAGE_"),
)
CODES = "journal_errors/src/faults.rt"
VERSIONS = "journal_errors/src/version.rt"
NAMES = "call_details/src/codes.rt"


def enumerators(top: Path) -> dict[str, int]:
    """The numbers that the sources give, by the enumerators that the header has for them."""
    found: dict[str, int] = {}
    for table in TABLES:
        rows = list(re.finditer(table.pattern, (top / "crates" / table.path).read_text(encoding="utf-8")))
        if not rows:
            raise Refused(f"crates/{table.path} has no number by the pattern {table.pattern!r}; tools/abi/sources.py says where they stand")
        for row in rows:
            name, number = f"PALQYTUN_{table.prefix}{screaming(row['name'])}", int(row["number"])
            if found.setdefault(name, number) != number:
                raise Refused(f"crates/{table.path} gives {name} the number {number}, and another file {found[name]}")
    return found


def codes(top: Path) -> set[int]:
    """The codes of the VM's own errors."""
    text = (top / "crates" / CODES).read_text(encoding="utf-8")
    body = text[text.index("pub fn code(") :]
    return {int(it) for it in re.findall(r"=>\s*(\d{3})\b", body[: body.index("\n    }\n")])}


def code_names(top: Path) -> dict[str, int]:
    """The names that programs give to codes, with `--details`."""
    text = (top / "crates" / NAMES).read_text(encoding="utf-8")
    return {name: int(number) for number, name in re.findall(r'(\d+) => Some\("(\w+)"\)', text)}


def versions(top: Path) -> tuple[int, ...]:
    """The least and the greatest version that is supported."""
    text = (top / "crates" / VERSIONS).read_text(encoding="utf-8")
    return tuple(int(it) for it in re.findall(r"pub fn (?:minimum|maximum)_supported_version.*\n.*\n.*\n\s*Version::V(\d+)", text))
