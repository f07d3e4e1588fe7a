"""The SDK in TypeScript: it is built, its tests run over a database, and its handlers and Python's call each other while workers are killed."""

from __future__ import annotations

import os
import shutil
import sys
from pathlib import Path

from tools.gate import packages
from tools.pages import protocol
from tools.programs.commands import ended

from .common import SECONDS, Bindings, copied, example_of
from .node_tests import command

TOP = Path(__file__).resolve().parents[2]
POSTGRES, CHAOS = "python/tests/postgres.py", "python/tests/crash/chaos.py"
A_KILL = 60  # seconds that a kill, and what goes on after it, may take on a busy machine


def typescript(it: Bindings) -> None:
    """Builds the SDK with strict types, runs its tests, README's example and the guide, and kills workers of both languages."""
    it.checks.tell(protocol.MODULE, protocol.check(TOP))
    if not it.checks.has("the SDK in TypeScript", "node", "node-api", "typescript", "node-pg"):
        return
    env = {name: value for name, value in it.env().items() if not name.startswith("NODE_")} | {"NODE_PATH": packages.node_path(), "PALQYTUN_PYTHON": sys.executable}
    folder = built(it, env)
    if folder is None or not it.checks.has("the SDK in TypeScript on a database", "postgresql", "psycopg", "cryptography"):
        return
    tests = sorted(str(one) for one in Path(folder, "out/test").glob("*.test.js"))
    it.counted("tests of typescript", beside_a_database(*command(tests)), env)
    example(it, env, folder)
    guided(it, env)
    killed(it, env, folder)


def guided(it: Bindings, env: dict[str, str]) -> None:
    """Does what docs/TYPESCRIPT.md says, line by line, beside a database."""
    run = f"DATABASE=\"$PALQYTUN_TEST_POSTGRES\" exec {sys.executable} tools/tutorial --library {it.library} docs/TYPESCRIPT.md"
    ran = ended(beside_a_database("sh", "-c", run), env, None, SECONDS)
    found = ran.output.rstrip().rpartition("\n")[2]
    it.checks.tell("what docs/TYPESCRIPT.md shows", None if ran.status == 0 and ", 0 failed, 0 skipped" in found else ran.shown(), f": {found}")


def killed(it: Bindings, env: dict[str, str], folder: str) -> None:
    """Handlers in Python and TypeScript call each other while workers of both are killed."""
    ran = ended([sys.executable, CHAOS, "--db", "postgres", "--kills", str(it.kills), "--sdk", folder], env, None, SECONDS + it.kills * A_KILL)
    found = ran.output.rstrip().rpartition("\n")[2]
    it.checks.tell(f"handlers in Python and TypeScript under {it.kills} kills", None if ran.status == 0 and found else ran.shown(), f": {found}")


def beside_a_database(*words: str) -> list[str]:
    """A command beside a temporary cluster that has the tables, with partitions if PALQYTUN_TEST_PARTITIONS is how many."""
    parts = os.environ.get("PALQYTUN_TEST_PARTITIONS") or "0"
    parted = "" if parts == "0" else f"--partitions {parts} "
    migrate = f"{sys.executable} -m palqytun migrate {parted}--db \"$PALQYTUN_TEST_POSTGRES\" >/dev/null && exec \"$@\""
    return [sys.executable, POSTGRES, "sh", "-c", migrate, "sh", *words]


def built(it: Bindings, env: dict[str, str]) -> str | None:
    """The folder of a copy in which the SDK, its tests and README's example are built, beside a binding of its own; none if that fails."""
    folder = f"{it.room}/typescript"
    shutil.copytree("typescript", folder, ignore=shutil.ignore_patterns("out", "node_modules"))
    binding = copied(it, "node", f"{folder}/node_modules/palqytun")
    declared = "declare const process: { env: { DATABASE?: string } };\ndeclare const console: { log(text: string): void };\n"
    Path(folder, "test/readme.ts").write_text(declared + example_of("../typescript", "ts")[0], encoding="utf-8")
    steps = {"its addon is compiled": (["node", "build.js"], binding), "types of typescript": (["tsc", "-p", "."], folder)}
    steps["types of its tests, and of the example of typescript/README.md"] = (["tsc", "-p", "test"], folder)
    return folder if all(it.checks.build(f"typescript: {name}", words, env, cwd) for name, (words, cwd) in steps.items()) else None


def example(it: Bindings, env: dict[str, str], folder: str) -> None:
    """README's example, by `require` and by `import`."""
    run = f"DATABASE=\"$PALQYTUN_TEST_POSTGRES\" exec node {folder}/out/test/readme.js"
    it.checks.prints("the example of typescript/README.md", beside_a_database("sh", "-c", run), example_of("../typescript", "ts")[1], env)
    for module in ("@palqytun/sdk", "@palqytun/sdk/testing"):
        names = f"import('{module}').then((it) => console.log(Object.keys(it).filter((name) => name !== 'default').length === Object.keys(require('{module}')).length))"
        it.checks.prints(f"import and require give the same names of {module}", ["node", "-e", names], "true\n", env, folder)
