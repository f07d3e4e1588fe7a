"""The library for C, and programs, without a proof. What was made before and is of the same sources stays."""

from __future__ import annotations

import tempfile
from collections.abc import Iterator
from pathlib import Path

from . import edited
from .commands import run
from .crates import Crate, Crates
from .entry import CRATE, named, write_entry
from .errors import Refused
from .exports import compare, read_exports, read_prototypes
from .linking import compile_c, compile_module, link_archive, link_program, link_shared, need
from .lowering import module_of
from .merging import CRATE as ALL
from .merging import main_of, uses_of, with_starts, write_programs
from .progress import Progress
from .stamps import Stamp
from .toolchain import Kit, kit

TOP = Path(__file__).resolve().parents[2]
HEADERS = tuple(TOP / "bindings" / it for it in ("palqytun.h", "handles.h", "proved.h"))
"""The header for callers, and those of the C code between it and the proved calls. The last one declares these."""


def _parts(kit: Kit, crates: list[Crate], *more: Path) -> Iterator[str | Path]:
    """What a build depends on: the kit, this code, crates.txt, and the sources."""
    yield kit.identity()
    yield from sorted(Path(__file__).parent.glob("*.py"))
    yield from (TOP / "crates.txt", *more)
    for it in crates:
        yield from it.sources()


def _compile_library(kit: Kit, crates: Crates, made: Path, progress: Progress) -> None:
    """Makes the object with the functions for C, as an archive of two."""
    ffi = crates["ffi"]
    exports, prototypes = read_exports(ffi.sources()), read_prototypes(HEADERS[-1])
    compare(exports, prototypes)
    with tempfile.TemporaryDirectory(prefix="unproved-") as made_in:
        room = Path(made_in)
        write_entry(ffi.folder, exports, room / "entry")
        progress.step("the crates are lowered to LLVM: a minute or two")
        module = module_of(crates, kit, CRATE, room / "entry", ffi.uses)
        progress.step("LLVM compiles them: about a minute")
        compile_module(kit, named(module, exports), room / "lowered.o", "-fPIC")
        between = "".join(prototypes[it.name].between() for it in exports)
        (room / "between.c").write_text(f'#include "proved.h"\n{between}', encoding="utf-8")
        compile_c(room / "between.c", room / "between.o", f"-I{HEADERS[-1].parent}")
        made.unlink(missing_ok=True)
        run(["ar", "rcs", made, room / "lowered.o", room / "between.o"], f"making {made.name}")


def _with_edited(crates: Crates, folder: Path) -> tuple[Crates, list[Crate]]:
    """All crates with the copies of those that are edited, which are written into a folder; and all programs of both."""
    more = edited.write_edited(crates, edited.edits(), folder)
    programs = [crates[it] for it in crates.programs()]
    return crates.beside(more), [*programs, *(it for it in more if it.is_program)]


def build_library(made: Path, progress: Progress) -> bool:
    """Makes the shared object, and the archive beside it. Returns whether it was compiled."""
    need("cc", "ar", "nm", "objcopy")
    crates, its_kit = Crates(TOP), kit()
    ffi = crates["ffi"]
    made.parent.mkdir(parents=True, exist_ok=True)
    compiled = made.with_suffix(".lowered.a")
    stamp = Stamp(TOP, compiled, _parts(its_kit, [*crates.below(ffi.uses), ffi], *HEADERS))
    is_current = stamp.is_current()
    if not is_current:
        stamp.forget()
        _compile_library(its_kit, crates, compiled, progress)
        stamp.keep()
    archive = made.with_suffix(".a")
    progress.step("the library is linked")
    link_archive(TOP, its_kit, [compiled], archive, is_proved=False)
    link_shared(TOP, archive, made)
    return not is_current


def build_program(name: str, made: Path, progress: Progress, level: int = 2) -> bool:
    """Makes a program of the repository, which LLVM optimises by this level. Returns whether its sources were compiled."""
    crates, its_kit = Crates(TOP), kit()
    is_edited = name == edited.name_of(edited.PROGRAM)
    original = edited.PROGRAM if is_edited else name
    if original not in crates.programs():
        raise Refused(f"there is no program {name}: they are {', '.join(crates.programs())}")
    crate = crates[original]
    made.parent.mkdir(parents=True, exist_ok=True)
    more = edited.files() if is_edited else []
    stamp = Stamp(TOP, made, [*_parts(its_kit, [*crates.below(crate.uses), crate], *more), f"level {level}"])
    if stamp.is_current():
        return False
    stamp.forget()
    with tempfile.TemporaryDirectory(prefix="unproved-") as room:
        compiled = Path(room, f"{name}.o")
        if is_edited:
            crates, _ = _with_edited(crates, Path(room))
            crate = crates[name]
        progress.step(f"{name} is lowered to LLVM: a minute or two")
        module = module_of(crates, its_kit, name, crate.folder, crate.uses)
        progress.step(f"LLVM compiles {name}: about a minute")
        compile_module(its_kit, module, compiled, "-fPIE", level=level)
        link_program(its_kit, made, compiled)
    stamp.keep()
    return True


def build_programs(folder: Path, progress: Progress) -> bool:
    """Makes all programs of the repository in a folder, and that with edits, for tests: they are lowered once, and LLVM doesn't optimise them. Returns
    whether they were compiled."""
    crates, its_kit = Crates(TOP), kit()
    those = [crates[it] for it in crates.programs()]
    folder.mkdir(parents=True, exist_ok=True)
    compiled = folder / f"{ALL}.o"
    stamp = Stamp(TOP, compiled, _parts(its_kit, [*crates.below(uses_of(those)), *those], *edited.files()))
    is_current = stamp.is_current()
    with tempfile.TemporaryDirectory(prefix="unproved-") as made_in:
        room = Path(made_in)
        crates, programs = _with_edited(crates, room)
        if not is_current:
            stamp.forget()
            write_programs(programs, room / ALL)
            progress.step("the programs are lowered to LLVM: a minute or two")
            module = module_of(crates, its_kit, ALL, room / ALL, uses_of(programs))
            progress.step("LLVM compiles them: half a minute")
            compile_module(its_kit, with_starts(module, [it.name for it in programs]), compiled, "-fPIE", level=0)
            stamp.keep()
        for it in programs:
            start = room / f"{it.name}.o"
            compile_module(its_kit, main_of(it.name), start, "-fPIE", level=0)
            link_program(its_kit, folder / it.name, start, compiled)
    return not is_current
