"""The command `palqytun`, given in the process of the test."""

import contextlib
import io
import sys
from unittest import mock

import support  # noqa: F401
from palqytun.runtime import command


def palqytun(*words):
    """The status of a command, and what it prints."""
    out, error = io.StringIO(), io.StringIO()
    with mock.patch.object(sys, "argv", ["palqytun", *words]), contextlib.redirect_stdout(out), contextlib.redirect_stderr(error):
        try:
            status = command.main()
        except SystemExit as ended:
            status = ended.code
    return status, out.getvalue(), error.getvalue()
