"""The requests for the pages of operators: who may see them, and what their buttons do.

A browser sends no bearer token by itself. So the page asks for the token once, and keeps a cookie that is made of it. A button's request
has to come from the page's own address: else any site could press it. What is done to several invocations is asked for once more.
"""

from __future__ import annotations

import time
import urllib.parse
from collections.abc import Awaitable, Callable, Iterable

from starlette.requests import Request
from starlette.responses import HTMLResponse, PlainTextResponse, RedirectResponse, Response
from starlette.routing import Route

from . import acts, audit, keyed, operate, page, restarting, scheduling, sealing, timeline
from .door import Door
from .engine import Engine
from .filters import Filter
from .services import TerminalError
from .tokens import COOKIE, OPERATE, READ

_SAFE = {
    "content-security-policy": "default-src 'none'; style-src 'unsafe-inline'; form-action 'self'; frame-ancestors 'none'; base-uri 'none'",
    "x-content-type-options": "nosniff",
    "referrer-policy": "same-origin",
    "cache-control": "no-store",
}
_MOST = 1 << 20  # bytes of a form
Answer = Callable[[Request], Awaitable[Response]]


def _html(text: str, status: int = 200) -> Response:
    return HTMLResponse(text, status, _SAFE)


def _root(request: Request) -> str:
    """The path of the pages."""
    return f"{request.scope.get('root_path', '')}{page.ROOT}"


def _part(text: str) -> str:
    return urllib.parse.quote(text, safe="")


async def _form(request: Request, most: int) -> dict[str, str]:
    """The fields of a form. Raises a `TerminalError` if it is too large."""
    body = b""
    async for part in request.stream():
        body += part
        if len(body) > most:
            raise TerminalError(f"a form has at most {most} bytes", 413)
    return dict(urllib.parse.parse_qsl(body.decode("latin-1"), keep_blank_values=True))


class Pages:
    def __init__(self, engine: Engine, door: Door):
        self._engine, self._door = engine, door

    def routes(self) -> Iterable[Route]:
        yield Route("/-/page/token", self._entered, methods=["POST"])
        yield Route("/-/page", self._seen(self._list))
        yield Route("/-/page/acts", self._seen(self._confirm))
        yield Route("/-/page/acts", self._seen(self._act), methods=["POST"])
        yield Route("/-/page/schedules", self._seen(self._schedules))
        yield Route("/-/page/schedules", self._seen(self._act_on_schedule), methods=["POST"])
        yield Route("/-/page/queues", self._seen(self._queues))
        yield Route("/-/page/versions", self._seen(self._versions))
        yield Route("/-/page/audit", self._seen(self._audit))
        yield Route("/-/page/states", self._seen(self._states))
        yield Route("/-/page/states/{service}", self._seen(self._keys))
        yield Route("/-/page/state", self._seen(self._state))
        yield Route("/-/page/state", self._seen(self._change), methods=["POST"])
        yield Route("/-/page/{id:path}", self._seen(self._one))
        yield Route("/-/page/{id:path}", self._seen(self._pressed), methods=["POST"])

    def _seen(self, answer: Answer) -> Answer:
        """Asks for the token first. A refusal is a page, too."""

        async def seen(request: Request) -> Response:
            if request.method == "POST" and "origin" not in request.headers:
                return PlainTextResponse("a button is pressed on the page itself", 403)
            refused = self._door.refusal(OPERATE if request.method == "POST" else READ, request.headers, request.cookies)
            if refused is not None and refused[0] == 401:
                return _html(page.asked_for_token(False, _root(request)), 401)
            if refused is not None:
                return _html(page.refused(*refused, _root(request)), refused[0])
            try:
                return await answer(request)
            except TerminalError as error:
                return _html(page.refused(error.code, error.message, _root(request)), error.code if 400 <= error.code < 600 else 500)

        return seen

    async def _entered(self, request: Request) -> Response:
        """The token was given."""
        if "origin" not in request.headers:
            return PlainTextResponse("the token is given on the page itself", 403)
        given = (await _form(request, 4096)).get("token", "")
        token = self._door.tokens.given(given)
        if token is None:
            return _html(page.asked_for_token(True, _root(request)), 401)
        is_secure = request.headers["origin"].startswith("https:")
        response = RedirectResponse(_root(request), 303)
        response.set_cookie(COOKIE, token.cookie, path=_root(request), secure=is_secure, httponly=True, samesite="strict")
        return response

    def _who(self, request: Request) -> str:
        return self._door.who(request.headers, request.cookies)

    # ---- invocations

    async def _list(self, request: Request) -> Response:
        asked = Filter.of(request.query_params)
        rows = await self._engine.transact(lambda db: operate.invocations(db, asked, page.MOST + 1))
        return _html(page.listed(rows, asked, time.time(), services=self._engine.app.services, root=_root(request)))

    async def _one(self, request: Request) -> Response:
        found = await self._engine.transact(lambda db: timeline.timeline(db, request.path_params["id"]))
        if found is None:
            raise TerminalError("there is no such invocation", 404)
        return _html(page.drawn(found, time.time(), _root(request)))

    async def _pressed(self, request: Request) -> Response:
        id, name, step = request.path_params["id"], request.query_params.get("do", ""), request.query_params.get("step", "0")
        who, at = self._who(request), f"{_root(request)}/{_part(id)}"
        if name == "restart" and step.isdigit():
            app = self._engine.app
            at = f"{_root(request)}/{await self._engine.done(lambda db, out: restarting.restart(db, app, out, id, who, int(step[:9])))}"
        else:
            await self._engine.act(name, id, who)
        return RedirectResponse(at, 303)

    async def _confirm(self, request: Request) -> Response:
        """Asks whether an act is to be done to those that are chosen, or to all that the filter finds."""
        query = request.query_params
        name, asked, ids = query.get("do", ""), Filter.of(query), query.getlist("id")
        acts.known(name)
        if ids:
            return _html(page.confirmed(name, Filter(), ids, len(ids), _root(request)))
        count = await self._engine.transact(lambda db: acts.count(db, name, asked))
        found = await self._engine.transact(lambda db: acts.found(db, name, asked))
        return _html(page.confirmed(name, asked, [id for _, id in found], count, _root(request)))

    async def _act(self, request: Request) -> Response:
        query = request.query_params
        name, ids, said = query.get("do", ""), query.getlist("id"), dict[str, str]()
        acts.known(name)
        if not ids:
            async for some in self._engine.act_on_all(name, Filter.of(query), self._who(request)):
                said |= some
        for id in ids:
            try:
                said[id] = await self._engine.act(name, id, self._who(request))
            except TerminalError as error:
                said[id] = error.message
        return _html(page.done(name, said, _root(request)))

    # ---- the rest

    async def _schedules(self, request: Request) -> Response:
        return _html(page.schedules(await self._engine.transact(operate.schedules), time.time(), _root(request)))

    async def _queues(self, request: Request) -> Response:
        return _html(page.queues(await self._engine.transact(operate.queues), _root(request)))

    async def _versions(self, request: Request) -> Response:
        return _html(page.versions(await self._engine.transact(operate.versions), _root(request)))

    async def _act_on_schedule(self, request: Request) -> Response:
        """Presses a button of a schedule."""
        query, form, app, who = request.query_params, await _form(request, 4096), self._engine.app, self._who(request)
        what, name, since, until = query.get("do", ""), query.get("name", ""), form.get("since", ""), form.get("until", "")
        await self._engine.done(lambda db, out: scheduling.act(db, app, out, what, name, who, since, until))
        return RedirectResponse(f"{_root(request)}/schedules", 303)

    async def _audit(self, request: Request) -> Response:
        id, before = request.query_params.get("invocation") or None, request.query_params.get("before", "")
        number = int(before) if before.isdigit() and len(before) < 19 else None
        return _html(page.audit(await self._engine.transact(lambda db: audit.records(db, id, page.MOST + 1, number)), id, _root(request)))

    async def _states(self, request: Request) -> Response:
        return _html(page.services_with_state(await self._engine.transact(keyed.services), _root(request)))

    async def _keys(self, request: Request) -> Response:
        service, text, after = request.path_params["service"], request.query_params.get("text", ""), request.query_params.get("after", "")
        rows = await self._engine.transact(lambda db: keyed.keys(db, service, text, page.MOST + 1, after))
        return _html(page.keys(service, rows, text, _root(request)))

    async def _state(self, request: Request) -> Response:
        return await self._shown_state(request, "")

    async def _shown_state(self, request: Request, said: str) -> Response:
        service, key = request.query_params.get("service", ""), request.query_params.get("key", "")
        found = await self._engine.transact(lambda db: keyed.state_of(db, service, key))
        holder = await self._engine.transact(lambda db: keyed.holder(db, service, key))
        return _html(page.state(service, key, found, holder, said, _root(request)))

    async def _change(self, request: Request) -> Response:
        """Sets or clears a name of a key's state."""
        service, key, form = request.query_params.get("service", ""), request.query_params.get("key", ""), await _form(request, _MOST)
        name, what = form.get("name", ""), form.get("do", "")
        if not name:
            raise TerminalError("the state has no name", 400)
        value = keyed.checked(self._engine.app.codec, form.get("value", "").encode()) if what == "set" else None
        value = None if value is None else sealing.renewed(self._engine.app.codec, value)
        await self._engine.transact(lambda db: keyed.change(db, service, key, name, value, self._who(request)))
        return await self._shown_state(request, f"{name} is {'set' if value is not None else 'cleared'}")
