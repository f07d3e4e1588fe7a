"""Has the prover refuse the edits in must-fail/ of one crate, over libraries that were proved before.

usage: python3 -m tools.gate.refusals CRATE, in a folder with crates.txt where crates/NAME/out/rlib has each library below the crate

`rt must-fail` proves the libraries below anew if they have no stamp, and those that rt ci leaves have none. So the kit's own function is
called, which tries the edits over the libraries that are there. A kit that has no such function gets the command. It prints what
`rt must-fail` prints, and its status is 1 if an edit isn't refused."""

from __future__ import annotations

import importlib.machinery
import importlib.util
import os
import shutil
import sys
from pathlib import Path
from typing import Any


def kit_module() -> Any:
    """The kit's command rt, as a module. Whatever it isn't, as in another kit, is an error of the import."""
    path = Path(shutil.which("rt") or "rt").resolve()
    loader = importlib.machinery.SourceFileLoader("rt", str(path))
    spec = importlib.util.spec_from_loader("rt", loader)
    assert spec is not None
    made = importlib.util.module_from_spec(spec)
    sys.modules["rt"] = made
    loader.exec_module(made)
    return made


def results(rt: Any, name: str) -> list[tuple[bool, str]]:
    """Whether each edit of the crate was refused, and what rt says of it."""
    rt.rtlib.Crate = rt.Crate
    rt.Crate.cuts_libraries = True  # as rt ci leaves libraries
    rt.rtlib.guarded()
    [crate] = [it for it in rt.rtlib.crates_below(os.getcwd()) if it.name == name]
    good, bad = rt.edits_of(crate)
    named = [(False, f"must-fail {name}/{os.path.basename(it)}: BAD EDIT: its name is no name of an edit") for it in bad]
    return [*rt.must_fail_all(crate, good, ["--jobs", "1"]), *named]


def main(words: list[str]) -> int:
    if len(words) != 1:
        print(__doc__, file=sys.stderr)
        return 2
    sys.dont_write_bytecode = True
    try:
        found = results(kit_module(), words[0])
    except (AttributeError, ImportError, OSError, SyntaxError, TypeError, ValueError) as other:
        print(f"the kit's rt has no such function ({type(other).__name__}: {other}), so rt must-fail is run", file=sys.stderr, flush=True)
        os.execvp("rt", ["rt", "must-fail", words[0]])
    for _, said in found:
        print(f"rt: {said}")
    return 0 if all(is_refused for is_refused, _ in found) else 1


if __name__ == "__main__":
    sys.exit(main(sys.argv[1:]))
