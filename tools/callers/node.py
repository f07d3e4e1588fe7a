"""The package for Node."""

from __future__ import annotations

from pathlib import Path

from .common import Bindings, copied, example_of, loads, plays
from .node_tests import command

TESTS = ("test/effects.test.js", "test/misuse.test.js", "test/differing.test.js", "test/memory.test.js")


def node(it: Bindings) -> None:
    """Compiles the addon, plays the suite, runs the tests and README's example, and checks the types."""
    if not it.checks.has("the package for Node", "node", "node-api"):
        return
    folder = copied(it, "node")
    env = {name: value for name, value in it.env().items() if not name.startswith("NODE_")}
    if not it.checks.build("the addon for Node is compiled", ["node", "build.js"], env, folder):
        return
    plays(it, "Node", ["node", f"{folder}/examples/conform.js"])
    loads(it, "Node", ["node", f"{folder}/examples/about.js"])
    code, printed = example_of("node", "js")
    example = Path(folder, "example.mjs")
    example.write_text(code, encoding="utf-8")
    it.checks.prints("the example of bindings/node/README.md", ["node", str(example)], printed, env, folder)
    it.checks.build("the bench for Node", ["node", f"{folder}/examples/bench.js", "1"], env)
    it.counted("tests of bindings/node", command(f"{folder}/{test}" for test in TESTS), env)
    if it.checks.has("types of bindings/node", "typescript"):
        it.checks.build("types of bindings/node", ["tsc", "-p", "."], env, folder)
