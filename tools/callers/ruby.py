"""The gem for Ruby."""

from __future__ import annotations

import re
import shutil
from pathlib import Path

from tools.gate import counts as counting
from tools.programs.commands import ended

from .common import SECONDS, Bindings, copied, example_of, loads, plays

LINE = re.compile(r"^(\d+) runs, \d+ assertions, (\d+) failures, (\d+) errors, (\d+) skips$", re.M)
TESTS = ("test/test_misuse.rb", "test/test_differing.rb", "test/test_memory.rb")


def ruby(it: Bindings) -> None:
    """Compiles the extension, plays the suite, and runs the tests and README's example."""
    if not it.checks.has("the gem for Ruby", "ruby", "ruby-dev", "make"):
        return
    folder = copied(it, "ruby")
    ext = f"{folder}/ext/palqytun"
    env = {name: value for name, value in it.env().items() if not name.startswith(("RUBY", "GEM_", "BUNDLE"))}
    for words in (["ruby", "extconf.rb"], ["make"]):
        if not it.checks.build(f"the extension for Ruby: {words[0]}", words, env, ext):
            return
    shutil.copyfile(f"{ext}/palqytun_ext.so", f"{folder}/lib/palqytun/palqytun_ext.so")
    command = ["ruby", "-w", "-I", f"{folder}/lib"]
    plays(it, "Ruby", [*command, f"{folder}/examples/conform.rb"])
    loads(it, "Ruby", [*command, f"{folder}/examples/about.rb"])
    code, printed = example_of("ruby", "ruby")
    example = Path(folder, "example.rb")
    example.write_text(code, encoding="utf-8")
    it.checks.prints("the example of bindings/ruby/README.md", [*command, str(example)], printed, env, folder)
    it.checks.build("the bench for Ruby", [*command, f"{folder}/examples/bench.rb", "1"], env)
    found = counting.Counts()
    for test in TESTS:
        ran = ended([*command, test], env, folder, SECONDS)
        ends = LINE.search(ran.output)
        made, *wrong = map(int, ends.groups()) if ends else (0, 1)
        one = counting.with_status(counting.Counts(made - sum(wrong), sum(wrong)), 1 if ran.status is None else ran.status)
        print(f"{ran.output + ran.said if one.failed else ''}bindings {test} of bindings/ruby: {one}", flush=True)
        found += one
    it.checks.counts += found
