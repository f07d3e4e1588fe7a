"""Plays the suite through `palqytun.VM`: it reads rows on standard input, and prints 'ok ROW' or 'not ok ROW' for each."""

from __future__ import annotations

import sys
from pathlib import Path

sys.path.insert(0, str(Path(__file__).resolve().parents[2] / "python" / "src"))
from .python_vm import play  # noqa: E402


def main() -> int:
    status = 0
    for line in sys.stdin:
        row, wrong = play(line)
        print(*wrong, f"{'not ok' if wrong else 'ok'} {row}", sep="\n")
        status = 1 if wrong else status
    return status


if __name__ == "__main__":
    sys.exit(main())
