"""The archive and the shared object for C, which are linked of objects, and programs."""

from __future__ import annotations

import re
import shutil
import tempfile
from collections.abc import Iterable
from pathlib import Path

from . import about
from .commands import Word, run
from .errors import Refused
from .exports import PREFIX, read_prototypes
from .lowering import TARGET
from .toolchain import Kit

# As `rattle build` has its clang compile, except for the level, which is -O3 there.
CLANG = (
    f"--target={TARGET} -march=x86-64 -mllvm -no-trap-after-noreturn -ffunction-sections -fdata-sections -mllvm -trap-unreachable"
    " -mllvm -no-x86-call-frame-opt -mllvm -disable-machine-licm -mllvm -disable-postra-machine-licm -mllvm -sink-common-insts=false"
    " --no-default-config -no-canonical-prefixes -fintegrated-cc1 -fno-crash-diagnostics -c -x ir -fno-vectorize -fno-slp-vectorize"
).split()
CC = ["cc", "-std=c11", "-O1", "-fPIC", "-fvisibility=default"]
SHARED = ["-shared", "-Wl,--no-undefined", "-Wl,-z,noexecstack", "-Wl,-z,relro", "-Wl,-z,now", "-Wl,--gc-sections"]
HEADERS = ("palqytun.h", "palqytun_flat.h")
"""What is declared to callers, in `bindings`."""
BETWEEN = ("handles.c", "lending.c", "calls.c", "flat.c", "names.c", "differing.c")
"""The C code between the header's functions and the proved calls, and what numbers say, in `bindings`."""


def need(*tools: str) -> None:
    """Refuses if one of these isn't on the path."""
    if lacking := [it for it in tools if shutil.which(it) is None]:
        raise Refused(f"{' and '.join(lacking)} not found on the path: Debian's packages gcc, binutils and libc6-dev have them")


def compile_module(kit: Kit, module: str, made: Path, *flags: str, level: int = 2) -> None:
    """Compiles a module to an object, which LLVM optimises by this level."""
    with tempfile.TemporaryDirectory(prefix="unproved-") as room:
        text = Path(room, "module.ll")
        text.write_text(module, encoding="utf-8")
        clang: list[Word] = [f"{kit.part('toolchain/bin/clang')}", f"--sysroot={kit.part('toolchain')}", *CLANG, f"-O{level}", *flags]
        run([*clang, text, "-o", made], f"compiling {made.name}")


def compile_c(source: Path, made: Path, *flags: Word) -> None:
    run([*CC, *flags, "-c", source, "-o", made], f"compiling {source.name}")


def link_program(kit: Kit, made: Path, *compiled: Path) -> None:
    words: list[Word] = [kit.part("bin/rattle-link"), "--target", TARGET, "--toolchain", kit.part("toolchain"), "-o", made]
    run([*words, *compiled, kit.part("c/libos_c.a"), kit.part("c/liblibc_c.a")], f"linking {made.name}")


def soname(top: Path) -> str:
    """The name by which programs ask for the shared object. Its number is that of the interface."""
    found = re.search(r"^#define PALQYTUN_ABI (\d+)$", (top / "bindings/palqytun.h").read_text(encoding="utf-8"), re.M)
    if found is None:
        raise Refused("bindings/palqytun.h has no PALQYTUN_ABI")
    return f"libpalqytun.so.{found[1]}"


def names_of(file: Path, *flags: str) -> set[str]:
    """The names that a library gives to others."""
    rows = run(["nm", "--defined-only", "--extern-only", *flags, file], f"reading {file.name}").splitlines()
    return {found[1] for row in rows if (found := re.fullmatch(r"[0-9a-f]+ [A-Z] (\S+)", row.strip()))}


def check_names(top: Path, library: Path, *flags: str) -> None:
    """Refuses a library that hasn't just the functions of the headers."""
    wanted = {name for it in HEADERS for name in read_prototypes(top / "bindings" / it)}
    found = names_of(library, *flags)
    if lacking := wanted - found:
        raise Refused(f"{library.name} lacks {', '.join(sorted(lacking))} of palqytun.h")
    if more := found - wanted:
        raise Refused(f"{library.name} shows {', '.join(sorted(more))}, which palqytun.h doesn't declare")


def has_about(archive: Path) -> bool:
    """Whether an archive says itself what it is. The kit's own doesn't, and neither does what `tools/unproved` compiles."""
    return "palqytun_is_proved" in names_of(archive)


def is_of_kit(archive: Path) -> bool:
    """Whether an archive that doesn't say what it is, is one of `rattle build`, which builds only what is proved."""
    return not any(it.startswith(PREFIX) for it in names_of(archive))


def link_archive(top: Path, kit: Kit, objects: Iterable[Path], made: Path, is_proved: bool) -> None:
    """Makes an archive of objects, or of the objects of an archive: with the C code between, what it says of itself and the kit's C in it, it
    shows just the functions of the header."""
    need("cc", "ar", "nm", "objcopy")
    with tempfile.TemporaryDirectory(prefix="palqytun-") as made_in:
        room = Path(made_in)
        compile_c(top / "bindings/about.c", room / "about.o", f"-I{top / 'bindings'}", *about.flags(top, kit, is_proved))
        for name in BETWEEN:
            compile_c(top / "bindings" / name, room / Path(name).with_suffix(".o"), "-O2", "-Wall", "-Wextra", "-Werror", f"-I{top / 'bindings'}")
        words: list[Word] = ["cc", "-r", "-nostdlib", "-o", room / "palqytun.o", room / "about.o"]
        words += [room / Path(name).with_suffix(".o") for name in BETWEEN]
        words += ["-Wl,--whole-archive", *objects, "-Wl,--no-whole-archive", kit.part("c/libos_c.a"), kit.part("c/liblibc_c.a")]
        run(words, f"linking {made.name}")
        run(["objcopy", "--wildcard", "--keep-global-symbol=palqytun_*", room / "palqytun.o"], f"hiding the inner names of {made.name}")
        made.unlink(missing_ok=True)
        run(["ar", "rcs", made, room / "palqytun.o"], f"making {made.name}")
    check_names(top, made)


def link_shared(top: Path, archive: Path, made: Path, *more: Word) -> None:
    """Makes the shared object of an archive that `link_archive` made. Programs ask for it by a name with the number of its interface. It is a
    second name of the same file, since `rt ci` refuses a repository in which there is a symbolic link."""
    need("cc", "nm")
    hidden = ["-fvisibility=hidden", f"-Wl,--version-script={top / 'bindings/palqytun.map'}"]
    words: list[Word] = ["cc", "-O1", "-fPIC", *hidden, *SHARED, f"-Wl,-soname,{soname(top)}", "-o", made, *more]
    made.unlink(missing_ok=True)
    run([*words, "-Wl,--whole-archive", archive, "-Wl,--no-whole-archive"], f"linking {made.name}")
    link = made.with_name(f"{made.name}.{soname(top).rpartition('.')[2]}")
    link.unlink(missing_ok=True)
    link.hardlink_to(made)
    check_names(top, made, "--dynamic")
