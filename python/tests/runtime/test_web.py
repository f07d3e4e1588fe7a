"""examples/web.py: the engine in the lifespan of a FastAPI application."""

import asyncio
import sys
import unittest
from unittest import mock

import support  # isort: skip
import needs

if lacks := needs.lacks_module("fastapi") or needs.lacks_module("httpx"):
    raise unittest.SkipTest(lacks)
import httpx

sys.path.append(str(support.PYTHON / "examples"))
import web  # noqa: E402


@support.on_each_database
class Web(support.OnADatabase):
    def test_parcels(self):
        async def go():
            with mock.patch.object(web, "DATABASE", self.url):
                async with web.site.router.lifespan_context(web.site), httpx.AsyncClient(app=web.site, base_url="http://localhost") as client:
                    made = await client.post("/parcels", json={"to": self.id(), "hours": 0})
                    self.assertEqual(made.status_code, 202)
                    got = await client.get(f"/parcels/{made.json()['id']}", params={"wait": support.LONG})
                    self.assertEqual(got.json(), {"result": f"parcel 1 is with {self.id()}"})
                    slow = (await client.post("/parcels", json={"to": self.id()})).json()["id"]
                    self.assertEqual((await client.get(f"/parcels/{slow}")).status_code, 404)
                    self.assertEqual((await client.delete(f"/parcels/{slow}")).json(), {"cancelled": True})
                    cancelled = await client.get(f"/parcels/{slow}", params={"wait": support.LONG})
                    self.assertEqual((cancelled.status_code, cancelled.json()), (409, {"detail": "cancelled"}))
                    wrong = (await client.post("/parcels", json={"to": ""})).json()["id"]
                    refused = await client.get(f"/parcels/{wrong}", params={"wait": support.LONG})
                    self.assertEqual((refused.status_code, refused.json()), (400, {"detail": "a parcel needs a name"}))
                    self.assertEqual((await client.get("/parcels/inv_none")).status_code, 404)

        asyncio.run(asyncio.wait_for(go(), support.LONG))


if __name__ == "__main__":
    unittest.main()
