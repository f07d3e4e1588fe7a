"""The orders' ingress as a part of another application of Starlette, whose lifespan runs the worker.

    python3 -m uvicorn --app-dir python/examples mounted:site --port 8080
    curl localhost:8080/durable/Shop/order -d '"pen"'
"""

from orders import app
from starlette.applications import Starlette
from starlette.requests import Request
from starlette.responses import PlainTextResponse
from starlette.routing import Mount, Route


async def hello(request: Request) -> PlainTextResponse:
    return PlainTextResponse("hello\n")


durable = app.asgi("orders.db")
site = Starlette(routes=[Route("/", hello), Mount("/durable", durable)], lifespan=durable.lifespan)
