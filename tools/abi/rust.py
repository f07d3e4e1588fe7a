"""Rust's tables of the interface: `bindings/rust/src/sys.rs` has the numbers, structs and functions of the header."""

from __future__ import annotations

from . import words
from .header import Header

MODULE = "bindings/rust/src/sys.rs"
PREFIX = "palqytun_"
SIMPLE = {
    "bool": "bool",
    "uint16_t": "u16",
    "uint32_t": "u32",
    "uint64_t": "u64",
    "size_t": "usize",
    "uint8_t *": "*mut u8",
    "const uint8_t *": "*const u8",
    "const char *": "*const c_char",
    "palqytun_vm *": "Handle",
    "palqytun_journal *": "Handle",
    "palqytun_vm **": "*mut Handle",
    "palqytun_journal **": "*mut Handle",
}
KEYWORDS = {"type", "await"}

HEAD = """//! The numbers, structs and functions of the library for C. `tools/header --write` writes this file, from `palqytun.h`.
#![allow(missing_docs)]

use std::os::raw::{c_char, c_void};

/// The handle of a VM or of a journal.
pub type Handle = *mut c_void;
"""

FUNCTIONS = """macro_rules! functions {
    ($($name:ident = $symbol:literal: ($($taken:ty),*) -> $result:ty;)*) => {
        /// The functions of a library, by their names without `palqytun_`.
        #[derive(Clone, Copy)]
        pub struct Functions {
            $(pub $name: unsafe extern "C" fn($($taken),*) -> $result,)*
        }

        impl Functions {
            /// The functions of which `address` gives the addresses. `Err` is the name of one that has none.
            ///
            /// # Safety
            ///
            /// An address that isn't null is that of the function of this name in a library with this interface.
            pub unsafe fn find(address: impl Fn(&'static str) -> *mut c_void) -> Result<Functions, &'static str> {
                Ok(Functions {
                    $($name: {
                        let found = address($symbol);
                        if found.is_null() {
                            return Err($symbol);
                        }
                        std::mem::transmute::<*mut c_void, unsafe extern "C" fn($($taken),*) -> $result>(found)
                    },)*
                })
            }
        }
    };
}
"""


def _type(ty: str) -> str:
    if ty in SIMPLE:
        return SIMPLE[ty]
    plain = words.joined(ty.removeprefix("const ").removesuffix("*").strip().removeprefix(PREFIX).upper())
    return f"*const {plain}" if ty.endswith("*") and ty.startswith("const ") else f"*mut {plain}" if ty.endswith("*") else plain


def _name(name: str) -> str:
    return f"r#{name}" if name in KEYWORDS else name


def _group(it: words.Group) -> str:
    name = it.name
    rows = [f"/// {it.about}", "#[derive(Clone, Copy, Debug, PartialEq, Eq, Hash)]", "#[repr(u32)]", f"pub enum {name} {{"]
    rows += [f"    {case} = {number}," for case, number in it.cases]
    rows += ["}", "", f"impl {name} {{", "    /// The case of this number, if there is one.", "    pub fn of_number(number: u32) -> Option<Self> {"]
    rows += ["        match number {", *(f"            {number} => Some(Self::{case})," for case, number in it.cases), "            _ => None,"]
    return "\n".join([*rows, "        }", "    }", "}", ""])


def _status(header: Header) -> str:
    found = [(words.joined(name), number, text) for name, number, text in words.statuses(header)]
    rows = ["/// How a call ended.", "#[derive(Clone, Copy, Debug, PartialEq, Eq, Hash)]", "#[repr(u32)]", "pub enum Status {"]
    rows += [f"    /// {text}\n    {name} = {number}," for name, number, text in found]
    rows += ["}", "", "impl Status {", "    /// The status of this number, if there is one.", "    pub fn of_number(number: u32) -> Option<Self> {"]
    rows += ["        match number {", *(f"            {number} => Some(Self::{name})," for name, number, _ in found), "            _ => None,"]
    rows += ["        }", "    }", "", "    /// What it says.", "    pub fn text(self) -> &'static str {", "        match self {"]
    rows += [f'            Self::{name} => "{text}",' for name, _, text in found]
    return "\n".join([*rows, "        }", "    }", "}", ""])


def module_of(header: Header) -> str:
    """The text of the module."""
    parts = [HEAD]
    loading = (("LIBRARY", words.soname(header)), ("HOW_TO_MAKE_IT", words.HOW_TO_MAKE_IT), ("ANOTHER", words.ANOTHER))
    parts.append("\n".join(f'pub const {name}: &str = "{text}";' for name, text in loading) + "\n")
    numbers = {**header.numbers, **header.enumerators}
    parts.append("\n".join(f"pub const {words.plain(name)}: u32 = {number};" for name, number in numbers.items()) + "\n")
    parts += [_status(header), *map(_group, words.groups(header))]
    for name, fields in header.structs.items():
        rows = [f"    pub {_name(field)}: {_type(ty)}," for ty, field in fields]
        parts.append("\n".join(["#[derive(Clone, Copy, Debug)]", "#[repr(C)]", f"pub struct {_type(name)} {{", *rows, "}", ""]))
    rows = []
    for name, it in header.functions.items():
        taken = ", ".join(_type(ty) for ty, _ in it.parameters)
        rows.append(f'    {_name(name.removeprefix(PREFIX))} = "{name}\\0": ({taken}) -> {_type(it.result)};')
    parts += [FUNCTIONS, "functions! {\n" + "\n".join(rows) + "\n}\n"]
    return "\n".join(parts)
