"""What the tests of the durable runtime need beside Python's library, and how a Debian host gets it. What isn't there skips tests, which say so.

The table of packages is tools/packages. Tests start programs by the Python that runs them (`sys.executable`), which tools/gate/packages.py chooses.
"""

from __future__ import annotations

import importlib.util
import shutil
import sys
from pathlib import Path

import postgres

sys.path.insert(0, str(Path(__file__).resolve().parents[2]))
from tools.gate import packages  # noqa: E402

SERVER = ("starlette", "uvicorn", "jinja2", "prometheus_client", "croniter")  # of the extra `server`
_BROWSERS = ("chromium", "chromium-browser", "google-chrome")


def lacks_module(name: str) -> str:
    """Why a test is skipped that needs a module; empty if it is there."""
    if importlib.util.find_spec(name) is not None:
        return ""
    install = " ".join(package for it in packages.read().values() if name in it.names for package in it.packages)
    return f"{sys.executable} has no {name}: apt-get install {install}, for Debian's own python3"


def lacks_command(name: str) -> str:
    """Why a test is skipped that needs a command; empty if it is there."""
    if shutil.which(name) is not None:
        return ""
    install = " ".join(package for it in packages.read().values() if name in it.names for package in it.packages)
    return f"there is no {name}: apt-get install {install}"


def lacks_server() -> str:
    """Why a test is skipped that needs the ingress; empty if there are its libraries."""
    return next(filter(None, map(lacks_module, SERVER)), "")


def lacks_postgres() -> str:
    """Why a test is skipped that needs PostgreSQL; empty if there are its driver and a server."""
    if lacks := lacks_module("psycopg"):
        return lacks
    try:
        postgres.url()
    except postgres.NoServer as error:
        return str(error)
    return ""


def browser() -> str | None:
    """A browser that draws a page without a display."""
    return next((it for name in _BROWSERS if (it := shutil.which(name))), None)


def driver() -> str | None:
    """The program by which selenium drives the browser."""
    return shutil.which("chromedriver")


def lacks_browser() -> str:
    """Why a test is skipped that needs a browser; empty if one is there that selenium can drive."""
    if not browser() or not driver():
        return "no browser, or no driver of it: apt-get install chromium chromium-driver"
    return lacks_module("selenium")
