"""Tokens by role: what each may ask, whose name the audit has, and how they are rotated."""

import asyncio
import unittest

import support  # isort: skip
import needs

if lacks := needs.lacks_server():
    raise unittest.SkipTest(lacks)
import runtime_app
from palqytun.runtime.serving import Http, Settings
from palqytun.runtime.tokens import BadTokens, Tokens, parsed
from served import Served

ANN, BOB, EVE = (f"{name}-0123456789abcdef" for name in ("ann", "bob", "eve"))
FILE = f"# who may ask\nann operate {ANN}\nbob read {BOB}\neve call {EVE}\n"
ASKED = [  # what is asked, and who may
    ("POST", "/S/echo", "call"),
    ("GET", "/-/invocations/ID/result?wait=0", "call"),
    ("POST", "/-/invocations/ID/signals/go", "call"),
    ("GET", "/-/invocations", "read"),
    ("GET", "/-/invocations/ID/journal", "read"),
    ("GET", "/-/metrics", "read"),
    ("GET", "/-/audit", "read"),
    ("GET", "/-/state/O/k", "read"),
    ("PUT", "/-/state/O/k/n", "operate"),
    ("POST", "/-/invocations/ID/pause", "operate"),
    ("POST", "/-/acts/kill?all=1", "operate"),
]
MAY = {ANN: ("read", "operate"), BOB: ("read",), EVE: ("call",)}


class Asking(support.OnADatabase, unittest.TestCase):
    def setUp(self):
        super().setUp()
        self.file = self.folder / "tokens"
        self.file.write_text(FILE)

    def serve(self, test, **settings):
        async def go():
            async with Served(runtime_app.app, self.url, Settings(tokens=str(self.file), **settings)) as served:
                await test(served)

        asyncio.run(go())

    async def status(self, served, method, path, token, **headers):
        given = {"authorization": f"Bearer {token}"} if token else {}
        status, said, _ = await served.ask(path, 1 if method in ("POST", "PUT") else None, method, **given, **headers)
        return status, said

    def test_what_each_role_may(self):
        async def test(served):
            _, made = await self.status(served, "POST", "/S/waits/send", EVE)
            for token, roles in MAY.items():
                for method, path, role in ASKED:
                    with self.subTest(token=token[:3], path=path):
                        status, said = await self.status(served, method, path.replace("ID", made["invocation"]), token)
                        if role in roles:
                            self.assertNotIn(status, (401, 403))
                        else:
                            self.assertEqual((status, said["code"]), (403, 403))
                            self.assertIn(f"hasn't the role {role}: it has ", said["message"])
            for token in ("", "none", ANN[:-1]):
                self.assertEqual((await self.status(served, "GET", "/-/invocations", token))[0], 401)
            self.assertEqual((await self.status(served, "GET", "/-/health", ""))[0], 200)
            _, audit = await self.status(served, "GET", "/-/audit", ANN)
            self.assertEqual({it["who"] for it in audit}, {"ann"})

        self.serve(test)

    def test_rotation(self):
        """A changed file counts at once; one that can't be used changes nothing; and the other token stays."""

        async def test(served):
            new = "ann-fedcba9876543210"

            async def may(token):
                return (await self.status(served, "GET", "/-/invocations", token))[0] == 200

            self.assertEqual([await may(it) for it in (ANN, new, "own")], [True, False, True])
            self.file.write_text(f"{FILE}ann operate {new}\n")
            self.assertEqual([await may(it) for it in (ANN, new)], [True, True])
            self.file.write_text(f"ann operate {new}\n")
            self.assertEqual([await may(it) for it in (ANN, new)], [False, True])
            with self.assertLogs("palqytun", "ERROR") as logged:
                self.file.write_text("ann\n")
                self.assertEqual([await may(it) for it in (ANN, new)], [False, True])
            self.assertIn("tokens:1: a line is NAME ROLE,.. TOKEN", logged.output[0])

        self.serve(test, token="own")

    def test_the_page(self):
        async def test(served):
            _, made = await self.status(served, "POST", "/S/waits/send", EVE)
            one, own = f"/-/page/{made['invocation']}", {"origin": served.address}
            self.assertEqual((await self.status(served, "GET", "/-/page", ""))[0], 401)
            cookies = {}
            for token in (ANN, BOB):
                status, _, headers = await served.ask("/-/page/token", f"token={token}".encode(), **own)
                self.assertEqual(status, 303)
                cookies[token] = headers["set-cookie"].partition(";")[0]
                self.assertNotIn(token, cookies[token])
                self.assertEqual((await served.ask("/-/page", None, "GET", cookie=cookies[token]))[0], 200)
            status, said, _ = await served.ask(f"{one}?do=kill", b"", cookie=cookies[BOB], **own)
            self.assertEqual(status, 403)
            self.assertIn("the role operate", said)
            self.assertEqual((await served.ask(f"{one}?do=kill", b"", cookie=cookies[ANN], **own))[0], 303)
            self.assertEqual((await self.status(served, "GET", "/-/audit", BOB))[1][0]["who"], "ann")
            self.assertEqual((await self.status(served, "GET", "/-/page", EVE))[0], 403)

        self.serve(test)


class Files(support.InAFolder, unittest.TestCase):
    def test_what_is_refused(self):
        for text, why in [
            ("ann operate", "tokens:1: a line is NAME ROLE,.. TOKEN"),
            (f"\n# x\nann own {ANN}", "tokens:3: 'own' are no roles, which are call, read, operate"),
            ("ann call short", "tokens:1: the token of ann has 5 characters, and at least 16 are needed"),
            ("# nobody\n", "tokens has no token, and nobody could ask anything"),
        ]:
            with self.subTest(text), self.assertRaises(BadTokens) as refused:
                parsed(text, "tokens")
            self.assertEqual(str(refused.exception), why)
        with self.assertRaisesRegex(BadTokens, "can't be read"):
            Tokens(None, str(self.folder / "none"))
        with self.assertRaisesRegex(ValueError, "can't be read"):
            Http(None, Settings(tokens=str(self.folder / "none")), "127.0.0.1", 0)
        self.assertFalse(Tokens().are_asked)


if __name__ == "__main__":
    unittest.main()
