"""What the workers that are alive serve, and the versions of their code."""

from __future__ import annotations

import json
from dataclasses import dataclass
from typing import Any

from .database import Asked, Database
from .services import App, TerminalError


@dataclass(frozen=True)
class Target:
    """A handler as far as its callers know it. A workflow's `main` is exclusive. The limits of time are those of `Handler`."""

    path: str
    keyed: bool
    workflow: bool
    exclusive: bool
    timeout: float | None = None
    queue_timeout: float | None = None
    queue: str | None = None

    @property
    def is_main(self) -> bool:
        """Whether it is a workflow's `main`, which runs once a key."""
        return self.workflow and self.exclusive

    def until(self, begins: float) -> tuple[float | None, float | None]:
        """Until when an invocation that is due then has to have ended, and to have begun."""
        return None if self.timeout is None else begins + self.timeout, None if self.queue_timeout is None else begins + self.queue_timeout


_ALIVE = "serving JOIN workers ON workers.id=serving.worker"
OF_SERVICE = "service || ''=?"
"""The condition of an invocation that it is one of a service. As it stands, no database takes the index of a service for it, by which SQLite would read all
that has ended."""


def served(app: App) -> tuple[str, tuple[str, ...]]:
    """The condition of an invocation that this app has its handler, and what it is given."""
    services = [it for it in app.services.values() if it.handlers]
    conditions = [f"{OF_SERVICE} AND handler IN ({','.join('?' * len(it.handlers))})" for it in services]
    return f"({' OR '.join(conditions) or '1=0'})", tuple(name for it in services for name in (it.name, *it.handlers))


def _said(app: App) -> str:
    """What an app serves, as JSON: of each service whether it has keys and is a workflow, its handlers with whether they are exclusive, and the
    limits of time and the queues of those that have some."""
    found: dict[str, Any] = {}
    for it in app.services.values():
        times = {name: (one.timeout, one.queue_timeout) for name, one in it.handlers.items() if one.timeout or one.queue_timeout}
        handlers = {name: one.exclusive for name, one in it.handlers.items()}
        queues = {name: one.queue.name for name, one in it.handlers.items() if one.queue is not None}
        more = {name: some for name, some in (("times", times), ("queues", queues)) if some}
        found[it.name] = {"keyed": it.keyed, "workflow": it.workflow, "handlers": handlers, **more}
    return json.dumps(found)


async def enter(db: Database, app: App, worker: str, version: str) -> None:
    """A worker begins. What is known of those that have ended is removed."""
    await db.change("DELETE FROM serving WHERE worker NOT IN (SELECT id FROM workers)")
    await db.change("INSERT INTO serving(worker, version, serves) VALUES (?,?,?)", (worker, version, _said(app)))


async def leave(db: Database, worker: str) -> None:
    await db.change("DELETE FROM serving WHERE worker=?", (worker,))


def peers(db: Database, app: App, version: str) -> Asked:
    """Reads the workers that are alive and serve the same app of the same version, in order."""
    return f"SELECT worker FROM {_ALIVE} WHERE lease>={db.clock} AND version=? AND serves=? ORDER BY worker", (version, _said(app))


async def versions(db: Database) -> dict[str, int]:
    """The versions of the workers that are alive, each with how many have it."""
    rows = await db.rows(f"SELECT version, COUNT(*) FROM {_ALIVE} WHERE lease>={db.clock} GROUP BY version")
    return {version: int(count) for version, count in rows}


def own(app: App, service: str, handler: str) -> Target | None:
    """A handler of this app; none if it hasn't such a one."""
    it = app.known(service, handler)
    if it is None:
        return None
    queue = None if it.queue is None else it.queue.name
    return Target(it.path, it.service.keyed, it.service.workflow, it.exclusive, it.timeout, it.queue_timeout, queue)


async def find(db: Database, app: App, service: str, handler: str) -> Target:
    """A handler of this app, or one that another worker serves which is alive. `TerminalError` with code 404 if nobody serves it."""
    found = own(app, service, handler)
    if found is not None:
        return found
    for said in await _services(db):
        if handler in said.get(service, {}).get("handlers", ()):
            it = said[service]
            timeout, queue_timeout = it.get("times", {}).get(handler, (None, None))
            named = {"timeout": timeout, "queue_timeout": queue_timeout, "queue": it.get("queues", {}).get(handler)}
            return Target(f"{service}/{handler}", it["keyed"], it["workflow"], it["handlers"][handler], **named)
    raise TerminalError(f"there is no handler {service}/{handler}, of this app or of a worker that is alive", 404)


async def until(db: Database, app: App | None, service: str, handler: str, begins: float) -> tuple[float | None, float | None]:
    """`Target.until` of a handler; no times if nobody serves it now."""
    try:
        return (await find(db, App() if app is None else app, service, handler)).until(begins)
    except TerminalError:
        return None, None


async def is_keyed(db: Database, service: str) -> bool:
    """Whether a service of another app has keys. `TerminalError` with code 404 if no worker that is alive serves it."""
    for said in await _services(db):
        if service in said:
            return bool(said[service]["keyed"])
    raise TerminalError(f"there is no service {service}, of this app or of a worker that is alive", 404)


async def _services(db: Database) -> list[dict[str, Any]]:
    """The services of the workers that are alive."""
    return [json.loads(row[0]) for row in await db.rows(f"SELECT DISTINCT serves FROM {_ALIVE} WHERE lease>={db.clock}")]
