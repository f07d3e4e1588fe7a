"""The ingress: handlers by HTTP, and what an operator asks. It is an ASGI application, of Starlette.

    POST /{service}/{handler}            or /{service}/{key}/{handler}: calls it with the body, and returns its result
    POST /{service}/../{handler}/send    only makes the invocation (202); `?delay=SECONDS`, and `?priority=NUMBER&queue-key=KEY` for its queue
    GET  /-/health                       200: the process lives; what it has done
    GET  /-/ready                        200: it takes calls; 503: it doesn't, and why
    GET  /-/metrics                      for Prometheus
    GET  /-/queues                       each with how many wait in it, for how long, how many run, and its limits
    GET  /-/versions                     of code, each with its workers and its open invocations
    GET  /-/schedules                    each with its next time
    POST /-/schedules/{name}/pause       or /resume, /trigger, or /backfill?since=2026-11-27T03:00&until=2026-11-28
    GET  /-/invocations                  by the names of `Filter`, as `?status=failed&service=Shop`; `?most=`
    GET  /-/invocations/{id}             its row; /journal: its entries; /timeline: these with their times; /result: its result, once it has ended
    POST /-/invocations/{id}/cancel      or /kill, /pause, /resume, /restart (`?step=NUMBER`), or /signals/{name} with a value
    POST /-/acts/{cancel}                does it to all that a filter finds, as `?status=paused&service=Shop`; `?dry_run=1` only says which
    GET  /-/audit                        who did what; `?invocation=`, `?most=`, `?before=`
    GET  /-/state/{service}/{key}/{name} the state; PUT sets and DELETE clears it; /-/state/{service}: the keys, /-/state: the services
    POST /-/awakeables/{id}/resolve      or /reject, with a value or a message
    GET  /-/page                         the operator's page: the list, and /{id}: one invocation as a picture

A header `idempotency-key` names a call that is made once. A call and `/result` wait for the result, for `?wait=SECONDS` or a minute; then,
and once the worker stops, they get 202 and the invocation's id. With a token, each request has `authorization: Bearer TOKEN`, except /-/health and
/-/ready; the page asks for it. A refusal is `{"code": .., "message": ..}`, and nothing of its request is stored.
"""

from __future__ import annotations

import asyncio
import contextlib
import json
import time
import urllib.parse
from collections.abc import AsyncIterator, Iterable
from dataclasses import dataclass, replace
from typing import Any

from starlette.applications import Starlette
from starlette.exceptions import HTTPException
from starlette.middleware import Middleware
from starlette.requests import ClientDisconnect, Request
from starlette.responses import JSONResponse, Response
from starlette.routing import Route
from starlette.types import ASGIApp, Receive, Scope, Send

from . import acts, announced, audit, awakeables, invocations, journal, keyed, metrics, operate, queues, readiness
from . import restarting, scheduling, sealing, timeline, traces
from .codec import BadValue, Unreadable, decoded
from .door import Door
from .desk import Told, Unavailable
from .engine import Engine
from .filters import Filter
from .invocations import New
from .journal import Result
from .limits import PAYLOAD, check_payload
from .names import check_name
from .pages import Answer, Pages
from .services import TerminalError
from .tokens import Tokens, needed

_METHODS = ["GET", "HEAD", "POST", "PUT", "PATCH", "DELETE", "OPTIONS"]
_LONGEST_WAIT = 3600.0


@dataclass(frozen=True)
class Settings:
    """`token`, `tokens` (the path of a file) and `origins`: who may ask (`Tokens`, `Door`). `payload`: the most bytes of a body. `wait`: the
    seconds that a call waits for its result, if it doesn't say. `patience`: the seconds that a client may take to send a request."""

    token: str | None = None
    origins: tuple[str, ...] = ()
    payload: int = PAYLOAD
    wait: float = 60.0
    patience: float = 60.0
    tokens: str | None = None


def _fault(code: int, message: str, **more: Any) -> Response:
    status = code if 400 <= code < 600 else 500
    headers = {"retry-after": "1"} if status == 503 else None
    return JSONResponse({"code": code, "message": message, **more}, status, headers)


async def _of_handler(request: Request, error: Exception) -> Response:
    assert isinstance(error, TerminalError)
    return _fault(error.code, error.message, **({"metadata": dict(error.metadata)} if error.metadata else {}))


async def _of_routes(request: Request, error: Exception) -> Response:
    assert isinstance(error, HTTPException)
    path = f"{request.method} {request.url.path[:200]}"
    return _fault(error.status_code, f"there is no {path}" if error.status_code in (404, 405) else str(error.detail))


async def _of_bugs(request: Request, error: Exception) -> Response:
    return _fault(500, "the server failed; see its log")


async def _of_gone(request: Request, error: Exception) -> Response:
    return Response(status_code=400)  # nobody reads it


def path_of(scope: Scope) -> tuple[str, ...]:
    """The parts of a request's path below where the application is mounted, decoded. A key may have a `/`, so the path is split before.
    Raises `TerminalError` with code 400 for a path that isn't UTF-8."""
    raw = scope.get("raw_path") or urllib.parse.quote(scope["path"]).encode()
    path = raw.decode("latin-1").partition("?")[0]
    root = urllib.parse.quote(scope.get("root_path", ""))
    path = path.removeprefix(root) if root else path
    try:
        return tuple(urllib.parse.unquote(it, errors="strict") for it in path.removeprefix("/").split("/"))
    except UnicodeDecodeError:
        raise TerminalError("the path is no UTF-8", 400) from None


_OF_A_CALL = ("wait", "delay", "priority", "queue-key")


def _only(request: Request, *names: str) -> None:
    """Refuses a query with another name than these: a slip in a name would ask for something else, as for an act on more invocations."""
    for it in request.query_params:
        if it not in names:
            raise TerminalError(f"the query has {it[:40]!r}, and may have {', '.join(names) or 'nothing'}", 400)


def _number(request: Request, name: str, most: float) -> float | None:
    """A number of seconds that the query gives; none if it gives none."""
    text = request.query_params.get(name)
    if text is None:
        return None
    try:
        number = float(text)
    except ValueError:
        raise TerminalError(f"{name}={text[:40]} is no number of seconds", 400) from None
    if not 0 <= number <= most:
        raise TerminalError(f"{name}={text[:40]} is out of bounds: it is from 0 to {most:.0f} seconds", 400)
    return number


def _whole(request: Request, name: str, otherwise: int) -> int:
    """A whole number that the query gives."""
    text = request.query_params.get(name)
    if text is None:
        return otherwise
    if not (text.isascii() and text.isdigit() and len(text) < 16):
        raise TerminalError(f"{name}={text[:40]} is no whole number from 0 on", 400)
    return int(text)


def _readable(value: bytes) -> Any:
    """A value of the state as JSON; what is none is its text."""
    try:
        return json.loads(value)
    except ValueError:
        return keyed.shown(value)


class Guarded:
    """Lets in what the door does: the application behind it sees nothing else."""

    def __init__(self, app: ASGIApp, door: Door):
        self._app, self._door = app, door

    async def __call__(self, scope: Scope, receive: Receive, send: Send) -> None:
        refusal = self._refusal(Request(scope)) if scope["type"] == "http" else None
        if refusal is None:
            await self._app(scope, receive, send)
        else:
            await refusal(scope, receive, send)

    def _refusal(self, request: Request) -> Response | None:
        try:
            parts = path_of(request.scope)
        except TerminalError as error:
            return _fault(error.code, error.message)
        if any("\0" in it for it in (*parts, *request.query_params.values())):
            return _fault(400, "the path or the query has the character NUL, which isn't allowed")
        if (why := self._door.foreign(request.headers)) is not None:
            return _fault(403, why)
        if parts[:2] in (("-", "page"), ("-", "health"), ("-", "ready")):
            return None
        refused = self._door.refusal(needed(request.method, parts), request.headers)
        return None if refused is None else _fault(*refused)


class Ingress:
    """The application `app` over a worker. `close` ends the waits of requests: the worker is to stop."""

    def __init__(self, engine: Engine, settings: Settings = Settings(), *, door: Door | None = None):
        self.engine, self.settings = engine, settings
        self._waiting: set[asyncio.Timeout] = set()
        self._is_closing = False
        door = self._door = Door.of(Tokens(settings.token, settings.tokens), settings.origins) if door is None else door
        self._measured = engine.meter = metrics.Measured()
        routes = [*self._routes(), *Pages(engine, door).routes(), Route("/{path:path}", self._call, methods=_METHODS)]
        faults: dict[Any, Any] = {TerminalError: _of_handler, HTTPException: _of_routes, ClientDisconnect: _of_gone, Exception: _of_bugs}
        self.app = Starlette(routes=routes, middleware=[Middleware(Guarded, door=door)], exception_handlers=faults)

    def _routes(self) -> Iterable[Route]:
        one = "/-/invocations/{id}"
        yield Route("/-/health", self._health)
        yield Route("/-/ready", self._ready)
        yield Route("/-/metrics", self._metrics)
        yield Route("/-/queues", self._queues)
        yield Route("/-/versions", self._versions)
        yield Route("/-/schedules", self._schedules)
        yield Route("/-/schedules/{rest:path}", self._act_on_schedule, methods=["POST"])
        yield Route("/-/invocations", self._list)
        yield Route(one, self._inspect)
        yield Route(f"{one}/journal", self._journal)
        yield Route(f"{one}/timeline", self._timeline)
        yield Route(f"{one}/result", self._result)
        for name in acts.ACTS:
            yield Route(f"{one}/{name}", self._act(name), methods=["POST"])
        yield Route("/-/acts/{name}", self._act_on_all, methods=["POST"])
        yield Route("/-/audit", self._audit)
        yield Route("/-/state", self._states)
        yield Route("/-/state/{service}", self._keys)
        yield Route("/-/state/{rest:path}", self._state, methods=["GET", "PUT", "DELETE"])
        yield Route(f"{one}/signals/{{name:path}}", self._signal, methods=["POST"])
        yield Route("/-/awakeables/{id}/resolve", self._resolve, methods=["POST"])
        yield Route("/-/awakeables/{id}/reject", self._reject, methods=["POST"])

    def close(self) -> None:
        """Requests that wait get 202 now, and those that come are refused with 503."""
        self._is_closing = True
        for it in list(self._waiting):
            self._end(it)

    # ---- handlers

    async def _call(self, request: Request) -> Response:
        parts = path_of(request.scope)
        if parts[0] == "-":
            raise HTTPException(404)
        if request.method != "POST":
            page = f"; {request.scope.get('root_path', '')}/-/page is the operator's page" if parts == ("",) else ""
            return _fault(405, f"a handler is called by POST, and not by {request.method}{page}")
        new, is_sent = await self._called(request, *parts)
        wait = _number(request, "wait", _LONGEST_WAIT)
        argument = await self._body(request)
        self._check(argument, new)
        if self._is_closing:
            raise Unavailable("the worker stops, and takes no new calls")
        own = invocations.new_id()
        with self.engine.told_of(own) as told:  # before it is made, so it isn't looked for
            id = await self.engine.submit(replace(new, argument=sealing.renewed(self.engine.app.codec, argument), id=own))
            if is_sent:
                return JSONResponse({"invocation": id}, 202)
            try:
                return await self._answered(request, id, wait, told if id == own else None)
            except Unavailable:
                return self._pending(id)  # it is stored all the same

    async def _called(self, request: Request, service: str, *rest: str) -> tuple[New, bool]:
        """What a request calls, without its argument, and whether it doesn't wait. What can't be called is refused before its body is read."""
        check_name("the service's name", service)
        keyed = await self.engine.is_keyed(service)
        is_sent = len(rest) == 2 + keyed and rest[-1] == "send"
        names = rest[:-1] if is_sent else rest
        if len(names) != 1 + keyed:
            path = f"/{service}/{'KEY/' if keyed else ''}HANDLER"
            raise TerminalError(f"the path is {path}, or {path}/send, which doesn't wait", 404)
        check_name("the handler's name", names[-1])
        _only(request, *_OF_A_CALL)
        delay = _number(request, "delay", invocations.LONGEST_DELAY)
        key, once = names[0] if keyed else "", request.headers.get("idempotency-key")
        trace = traces.checked(request.headers.get(traces.HEADER))
        told = ((queues.PRIORITY, request.query_params.get("priority")), (queues.KEY, request.query_params.get("queue-key")))
        headers = tuple((name, it) for name, it in told if it is not None)
        queues.asked(headers, key)
        headers += self._passed(request)
        new = New(service, names[-1], key, b"", headers, once, time.time() + delay if delay else 0, trace=trace)
        invocations.check(new, await self.engine.target(service, new.handler))
        return new, is_sent

    def _passed(self, request: Request) -> tuple[tuple[str, str], ...]:
        """The headers of a request that the handler gets."""
        found = tuple((name, it) for name in self.engine.app.headers if (it := request.headers.get(name)) is not None)
        for name, it in found:
            check_name(f"the header {name}", it)
        return found

    def _check(self, body: bytes, new: New) -> None:
        """The body has to be of the type that the handler takes, if it is one of this app."""
        if announced.own(self.engine.app, new.service, new.handler) is None:
            return
        handler = self.engine.app.find(new.service, new.handler)
        try:
            decoded(self.engine.app.codec, body, handler.takes)
        except BadValue as error:
            raise TerminalError(f"the argument of {handler.path}: {error}", 400) from error

    async def _body(self, request: Request) -> bytes:
        """The body, as far as it may be one."""
        most = self.settings.payload
        claimed = request.headers.get("content-length", "")
        check_payload("the body", int(claimed[:20]) if claimed.isascii() and claimed.isdigit() else 0, most)
        try:
            async with asyncio.timeout(self.settings.patience):
                return await self._received(request, most)
        except TimeoutError:
            raise TerminalError(f"the body hasn't come within {self.settings.patience:.0f} seconds", 408) from None

    @staticmethod
    async def _received(request: Request, most: int) -> bytes:
        parts, size = [], 0
        async for part in request.stream():
            size += len(part)
            if size > most:
                raise TerminalError(f"the body has more than {most} bytes, and may have {most}", 413)
            parts.append(part)
        return b"".join(parts)

    # ---- results

    async def _answered(self, request: Request, invocation: str, wait: float | None, told: Told | None = None) -> Response:
        """The result of an invocation as a response, or 202 if it isn't there in time."""
        try:
            async with self._waits(request):
                result = await self.engine.result(invocation, self.settings.wait if wait is None else wait, told)
        except TimeoutError:
            return self._pending(invocation)
        return _fault(404, "there is no such invocation") if result is None else self._shown(result)

    @staticmethod
    def _pending(invocation: str) -> Response:
        return JSONResponse({"invocation": invocation, "status": "pending"}, 202)

    @contextlib.asynccontextmanager
    async def _waits(self, request: Request) -> AsyncIterator[None]:
        """What is awaited within is over, with `TimeoutError`, once the worker stops or the client has gone."""
        async with asyncio.timeout(0 if self._is_closing else None) as wait:
            self._waiting.add(wait)
            gone = asyncio.create_task(_gone(request))
            gone.add_done_callback(lambda _: self._end(wait))
            try:
                yield
            finally:
                self._waiting.discard(wait)
                gone.cancel()

    def _end(self, wait: asyncio.Timeout) -> None:
        if wait in self._waiting:
            self._waiting.discard(wait)
            wait.reschedule(0)

    def _shown(self, result: Result) -> Response:
        kind, it = journal.answer(result)
        if kind == "failure":
            code, message, metadata = it
            return _fault(code, sealing.clear(self.engine.app.codec, message), **({"metadata": dict(metadata)} if metadata else {}))
        try:
            value = sealing.opened(self.engine.app.codec, it) if kind == "value" else b""
        except (ValueError, Unreadable) as error:
            return _fault(500, f"the result can't be read: {error}")
        return self._valued(value)

    def _valued(self, data: bytes) -> Response:
        """A value as the body of a response. None has no bytes, and JSON has no empty text: there it is `null`."""
        kind = self.engine.app.codec.content_type
        return Response(b"null" if not data and kind == "application/json" else data, 200, {"content-type": kind})

    async def _result(self, request: Request) -> Response:
        return await self._answered(request, request.path_params["id"], _number(request, "wait", _LONGEST_WAIT))

    # ---- operators

    async def _health(self, request: Request) -> Response:
        return JSONResponse({"live": len(self.engine.live), **self.engine.counts})

    async def _ready(self, request: Request) -> Response:
        why = await readiness.unready(self.engine)
        return JSONResponse({"ready": True}) if why is None else _fault(503, why)

    async def _metrics(self, request: Request) -> Response:
        it = self.engine
        asked = (it.transact(operate.by_status), it.transact(operate.waiting), it.transact(operate.queues))
        statuses, waiting, queued = await asyncio.gather(*asked)
        now = metrics.Now(statuses, waiting, queued, len(it.live), it.connections, it.lease_age, it.counts)
        return Response(metrics.text(self._measured, now), 200, {"content-type": metrics.CONTENT_TYPE})

    async def _queues(self, request: Request) -> Response:
        return JSONResponse(await self.engine.transact(operate.queues))

    async def _versions(self, request: Request) -> Response:
        return JSONResponse(await self.engine.transact(operate.versions))

    async def _schedules(self, request: Request) -> Response:
        return JSONResponse(await self.engine.transact(operate.schedules))

    async def _act_on_schedule(self, request: Request) -> Response:
        parts, query = path_of(request.scope)[2:], request.query_params
        if len(parts) != 2:
            raise TerminalError("the path of an act on a schedule is /-/schedules/NAME/ACT", 404)
        _only(request, "since", "until")
        (name, what), app, who = parts, self.engine.app, self._who(request)
        since, until = query.get("since", ""), query.get("until", "")
        said = await self.engine.done(lambda db, out: scheduling.act(db, app, out, what, name, who, since, until))
        return JSONResponse({"done": True, "said": said})

    async def _list(self, request: Request) -> Response:
        _only(request, *Filter.names(), "most")
        asked, most = Filter.of(request.query_params), request.query_params.get("most", "100")
        if not most.isascii() or not most.isdigit() or not 1 <= int(most[:9]) <= 10_000:
            raise TerminalError(f"most={most[:40]} is out of bounds: it is from 1 to 10000", 400)
        return JSONResponse(await self.engine.transact(lambda db: operate.invocations(db, asked, int(most))))

    async def _inspect(self, request: Request) -> Response:
        return self._found(await self.engine.transact(lambda db: operate.invocation(db, request.path_params["id"])))

    async def _journal(self, request: Request) -> Response:
        return self._found(await self.engine.transact(lambda db: operate.journal_of(db, request.path_params["id"])))

    async def _timeline(self, request: Request) -> Response:
        found = await self.engine.transact(lambda db: timeline.timeline(db, request.path_params["id"]))
        return self._found(None if found is None else timeline.as_json(found))

    def _found(self, it: Any) -> Response:
        return JSONResponse(it) if it else _fault(404, "there is no such invocation")

    def _done(self, is_done: bool) -> Response:
        return JSONResponse({"done": True}) if is_done else _fault(404, "there is no invocation that this could be done to")

    def _act(self, name: str) -> Answer:
        async def act(request: Request) -> Response:
            _only(request, *(("step",) if name == "restart" else ()))
            id, step = request.path_params["id"], _whole(request, "step", 0)
            if name == "restart" and step:
                made = self.engine.done(lambda db, out: restarting.restart(db, self.engine.app, out, id, self._who(request), step))
                return JSONResponse({"done": True, "said": f"is made again as {await made}"})
            return JSONResponse({"done": True, "said": await self.engine.act(name, id, self._who(request))})

        return act

    async def _act_on_all(self, request: Request) -> Response:
        name, query = request.path_params["name"], request.query_params
        acts.known(name)
        _only(request, *Filter.names(), "all", "dry_run")
        asked = Filter.of(query)
        if not (asked.given or query.get("all")):
            raise TerminalError("say which invocations, by ?status=, ?service= and the like; ?all=1 is all of them", 400)
        if query.get("dry_run"):
            found = await self.engine.transact(lambda db: acts.found(db, name, asked))
            count = await self.engine.transact(lambda db: acts.count(db, name, asked))
            return JSONResponse({"count": count, "invocations": [id for _, id in found]})
        done: dict[str, str] = {}
        async for some in self.engine.act_on_all(name, asked, self._who(request)):
            done |= some
        return JSONResponse({"count": len(done), "done": done})

    def _who(self, request: Request) -> str:
        return self._door.who(request.headers)

    async def _audit(self, request: Request) -> Response:
        _only(request, "invocation", "most", "before")
        id, most, before = request.query_params.get("invocation"), _whole(request, "most", 100), _whole(request, "before", 0)
        return JSONResponse(await self.engine.transact(lambda db: audit.records(db, id, min(most, 10_000), before or None)))

    async def _states(self, request: Request) -> Response:
        return JSONResponse(await self.engine.transact(keyed.services))

    async def _keys(self, request: Request) -> Response:
        service, query = request.path_params["service"], request.query_params
        text, after, most = query.get("text", ""), query.get("after", ""), min(_whole(request, "most", 100), 10_000)
        found = await self.engine.transact(lambda db: keyed.keys(db, service, text, most, after))
        return JSONResponse([{"key": key, "names": many, "bytes": size} for key, many, size in found])

    async def _state(self, request: Request) -> Response:
        _, _, service, key, *rest = path_of(request.scope)
        name = rest[0] if rest else None
        if len(rest) > 1 or (request.method == "PUT" and name is None):
            raise TerminalError("the path of a state is /-/state/SERVICE/KEY/NAME", 404)
        if request.method == "GET":
            state = await self.engine.transact(lambda db: keyed.state_of(db, service, key))
            if name is not None and name not in state:
                raise TerminalError(f"the state of {service}/{key} has no {name}", 404)
            if name is not None:
                return self._valued(state[name])
            return JSONResponse({it: _readable(value) for it, value in state.items()})
        value = keyed.checked(self.engine.app.codec, await self._body(request)) if request.method == "PUT" else None
        value = None if value is None else sealing.renewed(self.engine.app.codec, value)
        many = await self.engine.transact(lambda db: keyed.change(db, service, key, name, value, self._who(request)))
        return JSONResponse({"done": True, "names": many})

    async def _signal(self, request: Request) -> Response:
        name = str(request.path_params["name"])
        if not name:
            raise TerminalError("the signal has no name", 400)
        check_name("the signal's name", name)
        frame = journal.named_signal(name, journal.value(await self._value(request)))
        return self._done(await self.engine.notify(request.path_params["id"], frame))

    async def _resolve(self, request: Request) -> Response:
        return await self._completed(request, journal.value(await self._value(request)))

    async def _reject(self, request: Request) -> Response:
        message = (await self._body(request)).decode("utf-8", "replace").replace("\0", "\\0")
        return await self._completed(request, journal.failure(500, sealing.text(self.engine.app.codec, message)))

    async def _completed(self, request: Request, result: Result) -> Response:
        await awakeables.complete(self.engine, request.path_params["id"], result)
        return self._done(True)

    async def _value(self, request: Request) -> bytes:
        """The body, which the codec has to understand."""
        body = await self._body(request)
        try:
            decoded(self.engine.app.codec, body, Any)
        except BadValue as error:
            raise TerminalError(f"the body is no value: {error}", 400) from error
        return sealing.renewed(self.engine.app.codec, body)


async def _gone(request: Request) -> None:
    """Until the client has gone. The body was read before, so there is nothing else to come."""
    while (await request.receive())["type"] != "http.disconnect":
        pass
