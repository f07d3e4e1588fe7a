"""The package in Go."""

from __future__ import annotations

import re
from pathlib import Path

from tools.gate import counts as counting
from tools.programs.commands import ended

from .common import SECONDS, Bindings, copied, example_of, installation_of, loads, plays

TEST = re.compile(r"^--- (PASS|FAIL|SKIP): ", re.M)


def go(it: Bindings) -> None:
    """Builds the package, plays the suite, runs its tests and README's example, and has `go vet` look at it."""
    if not it.checks.has("the package in Go", "go"):
        return
    folder, made = copied(it, "go"), f"{it.room}/go-made/"
    env = {**it.env(), "GOFLAGS": "-mod=mod", "GOPROXY": "off", "GOTOOLCHAIN": "local", "CGO_ENABLED": "1"}
    if "HOME" not in env and "GOCACHE" not in env:
        env["GOCACHE"] = f"{it.room}/go-cache"
    if not it.checks.build("the package in Go is built", ["go", "build", "-o", made, "./cmd/..."], env, folder):
        return
    plays(it, "Go", [f"{made}conform"])
    loads(it, "Go", [f"{made}about"])
    example(it, env, f"{made}example")
    it.checks.build("the bench in Go", [f"{made}bench", "1"], env)
    it.checks.build("go vet of bindings/go", ["go", "vet", "./..."], env, folder)
    ran = ended(["go", "test", "-v", "-vet=off", f"-timeout={SECONDS}s", "."], env, folder, SECONDS)
    ends = TEST.findall(ran.output)
    found = counting.with_status(counting.Counts(ends.count("PASS"), len(ends) - ends.count("PASS")), 1 if ran.status is None else ran.status)
    it.checks.counts += found
    print(f"{ran.output + ran.said if found.failed else ''}bindings tests of bindings/go: {found}", flush=True)


def example(it: Bindings, env: dict[str, str], made: str) -> None:
    """README's example, as a module of its own that gets the package as README says."""
    code, printed = example_of("go", "go")
    folder = Path(it.room, "go-user")
    folder.mkdir()
    (folder / "main.go").write_text(code, encoding="utf-8")
    words = f"go mod init example\n{installation_of('go')}\ngo build -o {made} ."
    if it.checks.build("a module of one's own gets the package in Go", ["sh", "-ec", words], env, str(folder)):
        it.checks.prints("the example of bindings/go/README.md", [made], printed, it.env())
