"""The commands of operators that change something: acts on invocations, one or many, on schedules, the state of keys, and who did what."""

from __future__ import annotations

import argparse
import getpass
import json
import socket
import sys
import time
from collections.abc import Awaitable, Callable
from dataclasses import replace
from typing import Any, TypeVar

from . import acts, audit, keyed, restarting, scheduling
from .codec import JsonCodec
from .database import Database
from .filters import Filter
from .outcome import Outcome
from .services import App, TerminalError

T = TypeVar("T")
Done = Callable[[str, Callable[[Database], Awaitable[Any]]], Any]


def who() -> str:
    """Who gives the command, for the audit."""
    try:
        return f"{getpass.getuser()}@{socket.gethostname()}"
    except (KeyError, OSError):
        return f"somebody@{socket.gethostname()}"


# ---- acts on invocations


def act(name: str, options: argparse.Namespace, asked: Filter, done: Done, app: App | None) -> int:
    """Does an act to the invocations with these ids, or to all that are asked for. A line says what was done to each; status 1 if something couldn't."""
    if options.id and asked.given:
        raise TerminalError("name invocations by their ids, or by a filter", 400)
    if not options.id:
        return _act_on_all(name, options, asked, done, app)
    has_failed = False
    for id in options.id:
        try:
            print(f"{id}  {done(options.db, lambda db: _one(db, app, name, id, options))}")
        except TerminalError as error:
            has_failed = True
            print(f"palqytun: {error.message}", file=sys.stderr)
    return 2 if has_failed else 0


async def _one(db: Database, app: App | None, name: str, id: str, options: argparse.Namespace) -> str:
    step = getattr(options, "step", 0)
    if name == "restart" and step:
        return f"is made again as {await restarting.restart(db, app, Outcome(), id, options.by, step)}"
    return await acts.one(db, app, Outcome(), name, id, options.by)


def _act_on_all(name: str, options: argparse.Namespace, asked: Filter, done: Done, app: App | None) -> int:
    if not (asked.given or options.all):
        raise TerminalError("name invocations by their ids or by a filter, as --status paused --service Shop; --all is all of them", 400)
    if getattr(options, "step", 0):
        raise TerminalError("a step is of one invocation: name it by its id", 400)
    count = done(options.db, lambda db: acts.count(db, name, asked))
    if options.dry_run:
        for _, id in done(options.db, lambda db: acts.found(db, name, asked)):
            print(id)
        print(f"{name} would be done to {count} invocations", file=sys.stderr)
        return 0
    met = 0
    while True:
        said, before = done(options.db, lambda db: acts.some(db, app, Outcome(), name, asked, options.by))
        for id, text in said.items():
            print(f"{id}  {text}")
        met += len(said)
        if before is None:
            break
        asked = replace(asked, before=before)
    print(f"{name} was done to {met} invocations", file=sys.stderr)
    return 0


def act_options(name: str, one: argparse.ArgumentParser) -> None:
    """The options of an act, beside those of a filter."""
    one.add_argument("id", nargs="*", help="the ids; or else all that the filter finds")
    one.add_argument("--all", action="store_true", help="all of them, if there is no filter")
    one.add_argument("--dry-run", action="store_true", help="only say which it would be done to")
    one.add_argument("--by", default=who(), help="who does it, for the audit")
    if name == "restart":
        one.add_argument("--step", type=int, default=0, help="the number of the command from which on it is made again; 0 is from its start")
        one.add_argument("--app", help="the app, whose handler has to make the commands before the step")


# ---- schedules


def act_on_schedule(options: argparse.Namespace, done: Done) -> int:
    """Does an act to a schedule. A line says what was done."""
    if options.name is None:
        raise TerminalError(f"name the schedule, as palqytun schedules {options.act} NAME", 400)
    if options.act != "backfill" and (options.since or options.until):
        raise TerminalError("--since and --until are of a backfill", 400)
    said = done(
        options.db,
        lambda db: scheduling.act(db, None, Outcome(), options.act, options.name, options.by, options.since, options.until),
    )
    print(f"{options.name}  {said}")
    return 0


def schedule_options(one: argparse.ArgumentParser) -> None:
    one.add_argument("act", nargs="?", choices=[*scheduling.ACTS, "backfill"], help="what is done; without it, the schedules are listed")
    one.add_argument("name", nargs="?", help="the schedule's name")
    one.add_argument("--since", default="", metavar="TIME", help="the first time of a backfill, as 2026-11-27T03:00; UTC, if it names no zone")
    one.add_argument("--until", default="", metavar="TIME", help="the time before which a backfill ends; now without it")
    one.add_argument("--by", default=who(), help="who does it, for the audit")


# ---- the state of keys


def state(options: argparse.Namespace, done: Done) -> int:
    """Lists services, or keys of a service; prints the state of a key, or one of its names; sets or clears one."""
    if options.set is not None or options.clear:
        return _change(options, done)
    if options.service is None:
        lines, whose = done(options.db, keyed.services), "any service"
    elif options.key is None:
        those = done(options.db, lambda db: keyed.keys(db, options.service, options.text or "", options.most))
        lines, whose = [f"{key:<40}  {many:>5} names  {size:>8} bytes" for key, many, size in those], f"{options.service}" + (f" with {options.text!r} in its key" if options.text else "")
    else:
        lines, whose = _state_of_key(options, done), f"{options.service}/{options.key}"
    for it in lines:
        print(it)
    if not lines:
        print(f"there is no state of {whose}", file=sys.stderr)
    return 0


def _state_of_key(options: argparse.Namespace, done: Done) -> list[str]:
    found = done(options.db, lambda db: keyed.state_of(db, options.service, options.key))
    if options.name is None:
        return [f"{name} = {keyed.shown(value)}" for name, value in found.items()]
    if options.name not in found:
        raise TerminalError(f"the state of {options.service}/{options.key} has no {options.name}", 404)
    return [keyed.shown(found[options.name])]


def _change(options: argparse.Namespace, done: Done) -> int:
    if options.service is None or options.key is None or (options.set is not None and options.name is None):
        raise TerminalError("a state is set by SERVICE KEY NAME --set VALUE, and cleared by SERVICE KEY [NAME] --clear", 400)
    value = None if options.set is None else keyed.checked(JsonCodec(), options.set.encode())
    many = done(options.db, lambda db: keyed.change(db, options.service, options.key, options.name, value, options.by))
    print(f"{many} names of the state of {options.service}/{options.key} are {'cleared' if value is None else 'set'}")
    return 0


def state_options(one: argparse.ArgumentParser) -> None:
    one.add_argument("service", nargs="?", help="a service; without it, those that have states are listed")
    one.add_argument("key", nargs="?", help="a key; without it, those that have a state are listed")
    one.add_argument("name", nargs="?", help="a name in the key's state")
    one.add_argument("--text", help="only keys with this text in them")
    one.add_argument("--most", type=int, default=100, help="how many keys at most (%(default)s)")
    one.add_argument("--set", metavar="JSON", help="set the name to this value")
    one.add_argument("--clear", action="store_true", help="clear the name, or all names of the key")
    one.add_argument("--by", default=who(), help="who does it, for the audit")


# ---- the audit


def audited(options: argparse.Namespace, done: Done) -> int:
    """Who did what, the newest first."""
    found = done(options.db, lambda db: audit.records(db, options.id, options.most))
    if not found:
        print("nobody has done anything" + (f" to {options.id}" if options.id else ""), file=sys.stderr)
    for it in found:
        if options.json:
            print(json.dumps(it))
            continue
        at = time.strftime("%Y-%m-%d %H:%M:%S", time.gmtime(it["at"]))
        target = it["invocation"] or "/".join(filter(None, (it["service"], it["key"], it["name"])))
        print(f"{at}  {it['who']:<20}  {it['what']:<12}  {target}  {it['detail'] or ''}".rstrip())
    return 0


def audit_options(one: argparse.ArgumentParser) -> None:
    one.add_argument("id", nargs="?", help="only of this invocation")
    one.add_argument("--most", type=int, default=100, help="how many at most (%(default)s)")
    one.add_argument("--json", action="store_true", help="an object a line")
