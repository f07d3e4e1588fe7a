"""A FastAPI application with the engine in its lifespan: its own endpoints call durable handlers, and the ingress of the runtime is mounted beside them.

    pip install fastapi uvicorn 'palqytun[server]'
    uvicorn --app-dir python/examples web:site
    curl -X POST localhost:8000/parcels -H 'content-type: application/json' -d '{"to": "ann", "hours": 0.001}'
    curl localhost:8000/parcels/ID
"""

from __future__ import annotations

import contextlib
import dataclasses
import os
from collections.abc import AsyncIterator

from fastapi import FastAPI, HTTPException, Request
from fastapi.responses import JSONResponse
from palqytun.runtime import App, Client, Engine, Service, ServiceContext, TerminalError, Transaction

DATABASE = os.environ.get("PALQYTUN_DB", "web.db")
parcels = Service("Parcels")


@dataclasses.dataclass
class Parcel:
    to: str
    hours: float = 1


async def sent(to: Transaction, name: str) -> int:
    """A row of the application's own table, once a parcel."""
    await to.execute("INSERT INTO parcels(name) VALUES (?)", name)
    [(count,)] = await to.rows("SELECT COUNT(*) FROM parcels WHERE name=?", name)
    return int(count)


@parcels.handler()
async def send(ctx: ServiceContext, parcel: Parcel) -> str:
    if not parcel.to:
        raise TerminalError("a parcel needs a name", 400)
    number = await ctx.transaction("sent", sent, parcel.to)
    await ctx.sleep(parcel.hours * 3600)
    return f"parcel {number} is with {parcel.to}"


app = App(parcels)


@contextlib.asynccontextmanager
async def lifespan(site: FastAPI) -> AsyncIterator[None]:
    """The worker runs as long as the application."""
    async with Engine(app, DATABASE) as engine:
        await engine.transact(lambda db: db.change("CREATE TABLE IF NOT EXISTS parcels(name TEXT NOT NULL)"))
        site.state.durable = engine.client
        yield


site = FastAPI()
site.router.lifespan_context = lifespan  # from FastAPI 0.93 on, FastAPI(lifespan=lifespan) is the same


def durable(request: Request) -> Client:
    found: Client = request.app.state.durable
    return found


@site.exception_handler(TerminalError)
async def failed(request: Request, error: TerminalError) -> JSONResponse:
    return JSONResponse({"detail": error.message}, error.code if 400 <= error.code < 600 else 500)


@site.post("/parcels", status_code=202)
async def post(parcel: Parcel, request: Request) -> dict[str, str]:
    return {"id": (await durable(request).send(send, parcel)).id}


@site.get("/parcels/{id}")
async def get(id: str, request: Request, wait: float = 0) -> dict[str, str]:
    try:
        return {"result": await durable(request).invocation(id, str).result(wait)}
    except TimeoutError:
        raise HTTPException(404, "it is on its way") from None


@site.delete("/parcels/{id}")
async def delete(id: str, request: Request) -> dict[str, bool]:
    return {"cancelled": await durable(request).invocation(id).cancel()}
