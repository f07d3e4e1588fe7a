"""The command `palqytun`."""

from __future__ import annotations

import argparse
import asyncio
import dataclasses
import functools
import importlib
import importlib.machinery
import importlib.util
import json
import logging
import os
import pathlib
import re
import sys
import time
from collections.abc import Awaitable, Callable
from types import ModuleType
from typing import Any, TypeVar

from palqytun._library import Library, library

from . import acting, logs, operate, process, sealing, shown
from .database import Conflict, Database, Lost, Unsuitable, checked_url, connect, partitions
from .database.plain import Plain
from .database.postgres import NoDriver
from .database.schema import MIGRATIONS, NewerSchema, NotMigrated, OlderSchema
from .database.sqlite import InUse
from .engine import Engine
from .extras import MissingExtra, needed
from .filters import ASKED, STATUSES, Filter
from .limits import PAYLOAD
from .replay import replay_all, report
from .services import App, TerminalError
from .tls import Certificate


T = TypeVar("T")
N = TypeVar("N", int, float)
log = logging.getLogger("palqytun")
_MIGRATING = 60.0  # seconds for which a migration is tried that other transactions are in the way of
_STUCK = 60.0  # seconds after which a worker ends whose loop doesn't reply


class Refused(Exception):
    """The command can't be done, and why."""


def _module(path: str) -> ModuleType:
    """The module of a file."""
    file = pathlib.Path(path).resolve()
    spec = importlib.util.spec_from_file_location(file.stem, file) if file.is_file() else None
    if spec is None or not isinstance(spec.loader, importlib.machinery.SourceFileLoader):
        raise Refused(f"{path} is no Python file: an app is FILE.py, FILE.py:NAME or MODULE:NAME")
    sys.path.insert(0, str(file.parent))
    module = importlib.util.module_from_spec(spec)
    sys.modules[file.stem] = module
    # Python's cache goes by a file's size and the second of its last change, so it may be that of the text before.
    exec(spec.loader.source_to_code(file.read_bytes(), str(file)), vars(module))
    return module


def _imported(name: str) -> ModuleType:
    """A module by its name, also of the folder in which the command is given."""
    sys.path.insert(0, os.getcwd())
    try:
        return importlib.import_module(name)
    except ModuleNotFoundError as error:
        if error.name is None or not (name == error.name or name.startswith(f"{error.name}.")):
            raise
        raise Refused(f"there is no module {error.name}: an app is FILE.py, FILE.py:NAME or MODULE:NAME") from error


def load(path: str) -> App:
    """The `App` that FILE.py, FILE.py:NAME or MODULE:NAME names. Without a name, a module has to have one."""
    place, colon, name = path.rpartition(":") if ":" in path else (path, "", "")
    module = _module(place) if place.endswith(".py") or not colon else _imported(place)
    if colon:
        app = vars(module).get(name)
        if not isinstance(app, App):
            raise Refused(f"{place} has no palqytun.runtime.App with the name {name or '(none is given)'}")
        return app
    found = {id(it): it for it in vars(module).values() if isinstance(it, App)}
    if len(found) != 1:
        raise Refused(f"{path} has {len(found)} objects of palqytun.runtime.App; it has to have one, or {path}:NAME names it")
    return next(iter(found.values()))


def _without_password(url: str) -> str:
    """A database's address as it may be shown.

    >>> _without_password("postgresql://ann:secret@db:5432/shop"), _without_password("postgresql://db/shop?user=ann&password=secret")
    ('postgresql://ann:..@db:5432/shop', 'postgresql://db/shop?user=ann&password=..')
    """
    return re.sub(r"(?<=password=)[^&]*", "..", re.sub(r"^(\w+://[^/@]*?):[^@]*@", r"\1:..@", url))


def loaded() -> Library:
    """The library."""
    try:
        return library()
    except ImportError as error:
        raise Refused(error) from error


class _Opening:
    """Connects a worker, and keeps why it couldn't."""

    def __init__(self) -> None:
        self.why: Exception | None = None

    async def __call__(self, url: str) -> Database:
        try:
            return await connect(url, worker=True)
        except (Lost, Conflict) as error:
            self.why = error
            raise


async def _opened(engine: Engine, opening: _Opening, seconds: float) -> asyncio.Task[None]:
    """The running engine, once it has its database. What can't be opened is refused."""
    running = asyncio.create_task(engine.run())
    is_open = asyncio.create_task(engine.is_open())
    await asyncio.wait([running, is_open], timeout=seconds, return_when=asyncio.FIRST_COMPLETED)
    if not is_open.done() and not running.done():
        engine.stop()
        await running
        raise Refused(f"the database {_without_password(engine.url)} can't be opened: {opening.why or 'it does not reply'}")
    is_open.cancel()
    return running


async def _serve(options: argparse.Namespace) -> None:
    loaded()
    process.warn_of_unproved()
    names = ("name", "limit", "idle", "lease", "keep", "effects", "threads", "grace", "version")
    app, opening = load(options.app), _Opening()
    process.collect_less()
    engine = Engine(app, options.db, stuck=_STUCK, connect=opening, **{name: getattr(options, name) for name in names})
    if options.port < 0:
        process.Signals(asyncio.get_running_loop(), engine.stop, options.grace)
        await (await _opened(engine, opening, options.wait_for_database))
        return
    http = _http(engine, options)

    def stop() -> None:
        http.stop()
        engine.stop()

    process.Signals(asyncio.get_running_loop(), stop, options.grace)
    try:
        running = await _opened(engine, opening, options.wait_for_database)
        if not running.done():
            address = await http.start()
            print(f"{address}\n{address}/-/page is the operator's page", flush=True)
            await asyncio.wait([running, asyncio.create_task(http.ended())], return_when=asyncio.FIRST_COMPLETED)
            engine.stop()
        await running
    finally:
        await http.close()


def _http(engine: Engine, options: argparse.Namespace) -> Any:
    """The ingress of a worker, as the options say."""
    serving = needed("palqytun.runtime.serving", "server", "the ingress (--port -1: none)")
    try:
        settings = serving.Settings(
            os.environ.get("PALQYTUN_TOKEN") or None, tuple(options.origin), options.payload, options.wait, tokens=os.environ.get("PALQYTUN_TOKENS") or None
        )
        more = {"connections": options.connections, "grace": options.grace, "certificate": _certificate(options)}
        return serving.Http(engine, settings, options.host, options.port, **more)
    except (ValueError, OSError) as error:  # an origin that is none, no token, a port that is taken, no certificate
        raise Refused(error) from error


def _certificate(options: argparse.Namespace) -> Certificate | None:
    """The ingress's certificate, if the options name one."""
    chain, key = options.tls_certificate, options.tls_key
    if (chain is None) != (key is None):
        raise Refused("--tls-certificate and --tls-key belong together: a certificate in the form PEM, and its private key")
    return None if chain is None else Certificate(chain, key)


def run(options: argparse.Namespace) -> int:
    process.run(_serve(options))
    process.leave(0)
    return 0


def _done(url: str, operation: Callable[[Database], Awaitable[T]]) -> T:
    """What an operation returns, in a transaction of its own."""
    with _stored(url) as db:
        return db.done(operation)


def _stored(url: str, migrates: bool = False, parts: int = 0) -> Plain:
    """A connection to a database that is there. With `migrates` it is moved to the newest schema, and with `parts` it gets so many partitions."""
    if "://" not in checked_url(url) and not pathlib.Path(url.removeprefix("sqlite:").partition("?")[0]).exists():
        raise Refused(f"there is no database {url}")
    return Plain(url, functools.partial(connect, migrates=migrates, parts=parts))


def _filter(options: argparse.Namespace) -> Filter:
    """The invocations that options name."""
    return Filter(**{it.name: getattr(options, it.name, None) for it in dataclasses.fields(Filter)})


def list_invocations(options: argparse.Namespace) -> int:
    asked = _filter(options)
    found = _done(options.db, lambda db: operate.invocations(db, asked, options.most))
    if not found:
        print("there are no such invocations", file=sys.stderr)
    for it in found:
        now = time.time()
        age = (it["ended"] or now) - it["created"]
        target = "/".join(filter(None, (it["service"], it["key"], it["handler"])))
        next = f"next in {it['due'] - now:.1f} s" if it["status"] == "ready" and it["due"] > now else ""
        said = "  ".join(filter(None, (next, operate.error_of(it))))
        print(f"{it['id']}  {it['status']:<9}  {target:<30}  {age:9.1f} s  {it['entries']:>5} entries  {said}".rstrip())
    return 0


async def _inspected(db: Database, id: str) -> list[str]:
    """The row of an invocation, and its journal, a line each."""
    found = await operate.invocation(db, id)
    if found is None:
        raise Refused(f"there is no invocation {id}")
    progress, now = found.pop("progress"), db.now()
    said = {**found, "attributes": shown.attributes(found["attributes"]) or None}
    beats = [f"# progress of {it['name']}: {it['value']}, {shown.lasted(now - it['at'])} ago" for it in progress]
    return [*(f"# {name}: {value}" for name, value in said.items() if value is not None), *beats, *await operate.journal_of(db, id)]


def inspect(options: argparse.Namespace) -> int:
    lines, app = _done(options.db, lambda db: _inspected(db, options.id)), load(options.app) if options.app else None
    print("\n".join(lines if app is None else [sealing.clear(app.codec, it) for it in lines]))
    return 0


def _act(name: str) -> Callable[[argparse.Namespace], int]:
    def act(options: argparse.Namespace) -> int:
        app = load(options.app) if getattr(options, "app", None) else None
        return acting.act(name, options, _filter(options), _done, app)

    return act


def purge(options: argparse.Namespace) -> int:
    found = operate.Purged()
    with _stored(options.db) as db:
        while (more := db.done(lambda to: operate.purge_by(to, options.older, options.by, found))) != found:
            found = more
            time.sleep(0.01)  # a worker of the file gets its turn
    print(f"{found.count} invocations are purged")
    return 0


def schedules(options: argparse.Namespace) -> int:
    """Lists schedules, or does an act to one."""
    if options.act is not None:
        return acting.act_on_schedule(options, _done)
    found = _done(options.db, operate.schedules)
    if not found:
        print("there are no schedules", file=sys.stderr)
    for it in found:
        due = time.strftime("next %Y-%m-%d %H:%M:%S UTC", time.gmtime(it["due"]))
        print(f"{it['name']:<20}  {it['service']}/{it['handler']:<20}  {it['rule']:<20}  {it['overlap']:<6}  {'paused' if it['paused'] else due}")
    return 0


def queues(options: argparse.Namespace) -> int:
    """Lists queues."""
    found = _done(options.db, operate.queues)
    if not found:
        print("there are no queues", file=sys.stderr)
    for it in found:
        if options.json:
            print(json.dumps(it))
            continue
        waits = f"{it['length']} due, the first for {shown.lasted(it['oldest'])}" if it["length"] else "none due"
        print(f"{it['name']:<20}  {waits}; {it['later']} later; {it['running']} running  {shown.limits(it['limits'])}".rstrip())
    return 0


def versions(options: argparse.Namespace) -> int:
    """Lists versions of code."""
    found = _done(options.db, operate.versions)
    if not found:
        print("there are no workers, and no open invocations", file=sys.stderr)
    for it in found:
        since = f", the oldest for {shown.lasted(it['oldest'])}" if it["open"] else ""
        print(json.dumps(it) if options.json else f"{it['version']:<20}  {it['workers']} workers  {it['open']} open{since}")
    return 0


def replay(options: argparse.Namespace) -> int:
    app = load(options.app)
    with _stored(options.db) as db:
        found = db.read(lambda to: replay_all(app, to, options.status, options.all))
    print("\n".join(report(found)))
    return int(any(it.difference is not None for it in found))


def migrate(options: argparse.Namespace) -> int:
    until = time.monotonic() + _MIGRATING
    while True:
        try:
            with _stored(options.db, migrates=True, parts=options.partitions) as db:
                [(count,)] = db.rows("SELECT COUNT(*) FROM invocations WHERE status<>'done'")
                was, now, divided = db.db.before, len(MIGRATIONS), _divided(db.db, options.partitions)
        except Conflict:  # each try waits a second for its locks, and others wait for these meanwhile
            if time.monotonic() > until:
                raise
            time.sleep(1.0)
            continue
        print(f"the database has schema version {now}{f', and had {was}' if was < now else ' already'}{divided}; {count} invocations haven't ended")
        return 0


def _divided(db: Database, parts: int) -> str:
    """What was asked for of partitions, and is there."""
    copied = getattr(db, "copied", None)
    how = " already" if copied is None else f", into which {copied} rows were copied" if copied else ""
    return f"; it has {parts} partitions{how}" if parts else ""


class _Version(argparse.Action):
    """Prints which library this is. The library is loaded only then."""

    def __call__(self, parser: argparse.ArgumentParser, *_: object) -> None:
        try:
            print(f"palqytun {loaded().build}")
        except Refused as error:
            parser.exit(2, f"palqytun: {error}\n")
        parser.exit()


def _number(kind: type[N], least: float, most: float, what: str) -> Callable[[str], N]:
    """Reads an option that is a number of this kind, within these bounds. `what` says which they are."""

    def read(text: str) -> N:
        try:
            number = kind(text)
            if least <= number <= most:
                return number
        except ValueError:
            pass
        raise argparse.ArgumentTypeError(f"{text!r} is no {what}")

    return read


_seconds = _number(float, 0, 1e12, "number of seconds from 0 on")
_lease = _number(float, 0.1, 1e9, "number of seconds from 0.1 on")  # a worker keeps it each third of it
_count = _number(int, 1, sys.maxsize, "whole number from 1 on")
_parts = _number(int, 1, partitions.MOST, f"whole number from 1 to {partitions.MOST}")
_port = _number(int, -1, 0xFFFF, "port: it is from 1 to 65535, 0 is a free one, and -1 is no ingress")
_APP = "FILE.py, FILE.py:NAME or MODULE:NAME; without a name it has to have one App"


class _Help(argparse.ArgumentDefaultsHelpFormatter):
    """Says what an option is without it, unless that is nothing."""

    def _get_help_string(self, action: argparse.Action) -> str | None:
        return action.help if action.default is False or action.default in (None, "", [], argparse.SUPPRESS) else super()._get_help_string(action)


def _run_options(one: argparse.ArgumentParser) -> None:
    one.add_argument("app", help=_APP)
    of = one.add_argument_group("the worker")
    of.add_argument("--name", default="worker", help="the worker's name in logs and on the page; each session adds letters of its own")
    of.add_argument("--version", default="", help="the version of the app's code; without it, a hash of the files that define its handlers")
    of.add_argument("--limit", type=_count, default=500, help="attempts at once")
    of.add_argument("--idle", type=_seconds, default=1.0, help="seconds until an attempt that waits is suspended")
    of.add_argument("--lease", type=_lease, default=10.0, help="seconds until a worker that isn't heard of is thought dead")
    of.add_argument("--keep", type=_seconds, help="seconds until an invocation that has ended is purged; without it, none is")
    of.add_argument("--effects", type=_count, default=1000, help="runs of async functions that are executed at once")
    of.add_argument("--threads", type=_count, default=64, help="runs of plain functions that are executed at once, each in a thread")
    of.add_argument("--grace", type=_seconds, default=10.0, help="seconds within which runs may end when the worker is told to stop")
    of.add_argument("--wait-for-database", type=_seconds, default=30.0, help="seconds for which a database that can't be reached is tried at first")
    of.add_argument("--log-format", choices=logs.FORMATS, default="text", help="lines, or an object a line, which needs the extra json")
    of.add_argument("--log-level", choices=logs.LEVELS, default="info", help="what is logged: this and worse")
    of.add_argument("--redact", action="append", default=[], metavar="REGEX", help="what this finds in the log is shown as [redacted]; may be repeated")
    of = one.add_argument_group("the ingress")
    of.add_argument("--host", default="127.0.0.1", help="where it listens; another than 127.0.0.1, ::1 and localhost needs a token")
    of.add_argument("--port", type=_port, default=8080, help="0 is a free one, and -1 is no ingress")
    of.add_argument("--tls-certificate", metavar="FILE", help="speak TLS alone, with this certificate and those above it, in the form PEM")
    of.add_argument("--tls-key", metavar="FILE", help="its private key; both files are read again when they change")
    of.add_argument("--origin", action="append", default=[], help="an address by which browsers know it, as https://ops.example; may be repeated")
    of.add_argument("--wait", type=_seconds, default=60.0, help="seconds that a call waits for its result, if it doesn't say; then it gets 202")
    of.add_argument("--payload", type=_count, default=PAYLOAD, help="bytes of a body, at most")
    of.add_argument("--connections", type=_count, default=1000, help="connections at once; fewer if the process may open fewer files")


_ACTS = {
    "cancel": "what they await raises Cancelled, so that their handlers undo what they did",
    "kill": "end them now with code 409; nothing of their handlers runs any more",
    "pause": "don't try them until they are resumed",
    "resume": "try paused ones again",
    "restart": "make those that have ended again, as new ones",
}


def _filter_options(one: argparse.ArgumentParser) -> None:
    one.add_argument("--status", choices=ASKED, help="only those with this status; open: that haven't ended")
    one.add_argument("--service", help="only those of this service")
    one.add_argument("--handler", help="only those of this handler")
    one.add_argument("--key", help="only those of this key")
    one.add_argument("--queue", help="only those of this queue")
    one.add_argument("--version", help="only those that stay with this version of the code")
    one.add_argument("--older", type=_seconds, help="only those that were made more than this many seconds ago")
    one.add_argument("--newer", type=_seconds, help="only those that were made less than this many seconds ago")
    one.add_argument("--since", metavar="TIME", help="only those that were made at this time or later, as 2026-11-27T03:00; UTC, if it names no zone")
    one.add_argument("--until", metavar="TIME", help="only those that were made before this time")
    one.add_argument("--attribute", metavar="NAME=VALUE", help="only those whose handler has set this; with & between several")
    one.add_argument("--error", help="only those whose error has this text, in small or capital letters")


def _parser() -> argparse.ArgumentParser:
    about = "Durable execution: run an app, ask for its invocations, and check a new version of it."
    parser = argparse.ArgumentParser("palqytun", description=about, formatter_class=_Help)
    parser.add_argument("--version", action=_Version, nargs=0, help="the version, the commit, the kit's logic, and whether the library was proved")
    commands = parser.add_subparsers(required=True)
    database = argparse.ArgumentParser(add_help=False)
    url = os.environ.get("PALQYTUN_DB", "palqytun.db")
    database.add_argument("--db", default=url, help="a SQLite file, or postgresql://..; the environment variable PALQYTUN_DB is another default")

    def add(of: Any, name: str, does: Callable[[argparse.Namespace], int], said: str, **more: Any) -> argparse.ArgumentParser:
        made: argparse.ArgumentParser = of.add_parser(name, parents=[database], help=said, description=said, formatter_class=_Help, **more)
        made.set_defaults(does=does)
        return made

    token = "The environment variable PALQYTUN_TOKEN is the ingress's bearer token, if it is set, and PALQYTUN_TOKENS a file of tokens with roles."
    _run_options(add(commands, "run", run, "run an app: its handlers, and the ingress", epilog=token))
    said = "list, inspect, cancel, kill, pause, resume, restart or purge invocations"
    asked = commands.add_parser("invocations", help=said, description=said).add_subparsers(required=True)
    one = add(asked, "list", list_invocations, "the newest first")
    _filter_options(one)
    one.add_argument("--most", type=_count, default=100, help="how many at most (%(default)s)")
    one = add(asked, "inspect", inspect, "one, with its journal")
    one.add_argument("id", help="the invocation's id")
    one.add_argument("--app", help="the app, by whose keys what is encrypted is shown in clear")
    for name, said in _ACTS.items():
        one = add(asked, name, _act(name), said)
        acting.act_options(name, one)
        _filter_options(one)
    one = add(asked, "purge", purge, "delete those that have ended")
    one.add_argument("--older", type=_seconds, default=86400.0, help="ended more than this many seconds ago")
    one.add_argument("--by", default=acting.who(), help="who does it, for the audit")
    said = "how many invocations wait in each queue, for how long, how many run, and what it lets through"
    add(commands, "queues", queues, said).add_argument("--json", action="store_true", help="an object a line")
    said = "versions of code, each with how many workers have it, and how many open invocations stay with it"
    add(commands, "versions", versions, said).add_argument("--json", action="store_true", help="an object a line")
    said = "the calls that are made by the clock, each with its next time; or pause, resume, trigger or backfill one"
    acting.schedule_options(add(commands, "schedules", schedules, said))
    acting.state_options(add(commands, "state", lambda options: acting.state(options, _done), "list, read, set and clear the states of keys"))
    acting.audit_options(add(commands, "audit", lambda options: acting.audited(options, _done), "who did what, the newest first"))
    said = "move the database to this package's schema, with all that it holds; workers of the version before go on"
    wanted = "PostgreSQL: divide each table of an invocation into so many, with all that it holds. No worker may be alive, and their number doesn't change later"
    add(commands, "migrate", migrate, said).add_argument("--partitions", type=_parts, default=0, help=wanted)
    one = add(commands, "replay", replay, "does this code still make the stored journals? nothing is executed or stored")
    one.add_argument("app", help=_APP)
    one.add_argument("--status", choices=[it for it in STATUSES if it != "failed"], help="only of invocations with this status")
    one.add_argument("--all", action="store_true", help="also of invocations that have ended")
    return parser


def _log_as(options: argparse.Namespace) -> None:
    try:
        logs.set_up(getattr(options, "log_format", "text"), getattr(options, "log_level", "info"), getattr(options, "redact", ()))
    except ValueError as error:
        raise Refused(error) from error


def main() -> int:
    options = _parser().parse_args()
    try:
        _log_as(options)
        return int(options.does(options))
    except (Refused, TerminalError, Conflict, Lost, Unsuitable, InUse, NewerSchema, NotMigrated, OlderSchema, MissingExtra, NoDriver) as error:
        print(f"palqytun: {' '.join(str(error).split())}", file=sys.stderr)
        return 2
