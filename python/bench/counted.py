"""A worker that counts what it asks of PostgreSQL: counted.py run APP .., as `palqytun run`. At its end it writes its counts to the folder that
PALQYTUN_BENCH_COUNTS names: round trips, statements, transactions (`commits`) and claims."""

from __future__ import annotations

import collections
import contextlib
import json
import os
import pathlib
import sys
from typing import Any

from palqytun.runtime import claiming
from palqytun.runtime.command import main

counts: collections.Counter[str] = collections.Counter()


def count_statements() -> None:
    """Counts what goes to the server. Without its driver nothing does."""
    from palqytun.runtime.database import pipeline

    made = pipeline.Pipeline.all_made

    async def all_made(own: Any, statements: Any) -> Any:
        last = statements[-1].sql
        counts["trips"] += 1
        counts["statements"] += len(statements)
        counts["commits"] += last == b"COMMIT" or last.startswith(b"WITH asked")  # the latter is a store that is a transaction by itself
        return await made(own, statements)

    pipeline.Pipeline.all_made = all_made  # type: ignore[method-assign]


def count_claims() -> None:
    claim = claiming.Claimer.claim

    async def counted(own: Any, *words: Any) -> Any:
        counts["claims"] += 1
        return await claim(own, *words)

    claiming.Claimer.claim = counted  # type: ignore[method-assign]


if __name__ == "__main__":
    with contextlib.suppress(ImportError):
        count_statements()
    count_claims()
    try:
        status = main()
    finally:
        pathlib.Path(os.environ["PALQYTUN_BENCH_COUNTS"], str(os.getpid())).write_text(json.dumps(counts))
    sys.exit(status)
