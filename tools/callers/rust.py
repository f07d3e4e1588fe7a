"""The crate in Rust."""

from __future__ import annotations

from pathlib import Path

from tools.gate import counts as counting
from tools.programs.commands import ended

from .common import SECONDS, Bindings, copied, installation_of, loads, plays


def rust(it: Bindings) -> None:
    """Builds the crate, plays the suite, runs its tests, and the examples of its documents with README's."""
    if not it.checks.has("the crate in Rust", "rust"):
        return
    folder, target = copied(it, "rust"), f"{it.room}/rust-target"
    quick = {"CARGO_INCREMENTAL": "0", "CARGO_PROFILE_DEV_DEBUG": "0", "CARGO_PROFILE_TEST_DEBUG": "0"}
    env = {**it.env(), **quick, "CARGO_TARGET_DIR": target, "CARGO_NET_OFFLINE": "true"}
    if not it.checks.build("the crate in Rust is built", ["cargo", "build", "--examples"], env, folder):
        return
    plays(it, "Rust", [f"{target}/debug/examples/conform"])
    loads(it, "Rust", [f"{target}/debug/examples/about"])
    words = f"cargo init --quiet --vcs none --name example .\n{installation_of('rust')}\ncargo build"
    user = Path(it.room, "rust-user")
    user.mkdir()
    it.checks.build("a crate of one's own gets the crate in Rust", ["sh", "-ec", words], env, str(user))
    it.checks.build("the bench in Rust", [f"{target}/debug/examples/bench", "1"], env)
    ran = ended(["cargo", "test"], env, folder, SECONDS)
    found = counting.Counts()
    for it_ran in counting.TESTS.findall(ran.output):
        passed, failed, ignored = map(int, it_ran)
        found += counting.Counts(passed, failed + ignored)
    found = counting.with_status(found, 1 if ran.status is None else ran.status)
    it.checks.counts += found
    print(f"{ran.output + ran.said if found.failed else ''}bindings tests of bindings/rust: {found}", flush=True)
