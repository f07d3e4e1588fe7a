"""The timeline of an invocation, and the operator's page: what it shows, who may see it, and what its buttons do."""

import asyncio
import html.parser
import unittest

import support  # isort: skip
import needs

if lacks := needs.lacks_server():
    raise unittest.SkipTest(lacks)
import runtime_app
from palqytun.runtime import inbox, invocations, journal, storing, timeline
from palqytun.runtime.database.plain import Plain
from palqytun.runtime.filters import Filter
from palqytun.runtime.invocations import CLAIMED, New
from palqytun.runtime.lease import Growth
from palqytun.runtime.outcome import Outcome
from palqytun.runtime.page import confirmed, drawn, listed, state
from palqytun.runtime.serving import Settings
from served import Served

OWN = object()  # the headers of the page's own requests


def number(it, size=4):
    return it.to_bytes(size, "big")


def frame(kind, body):
    return number(kind, 2) + number(len(body), 8) + body


def sleep(id):
    return frame(18, number(1000, 8) + number(id) + number(0, 8))


SUSPENDED = frame(2, b"\0" + number(1, 8) + number(1) + bytes(24))  # waits for completion 1


class Elements(html.parser.HTMLParser):
    """The elements of a page, each with its attributes, and its text."""

    def __init__(self, page):
        super().__init__()
        self.found, self.text = [], ""
        self.feed(page)

    def handle_starttag(self, name, attributes):
        self.found.append((name, dict(attributes)))

    def handle_data(self, data):
        self.text += data

    def of(self, name):
        return [attributes for element, attributes in self.found if element == name]


async def claimed(db, id, worker):
    [row] = await db.rows(f"SELECT {CLAIMED} FROM invocations WHERE id=?", (id,))
    [claim] = await invocations.claim(db, worker, [invocations.Claimable(*row)])
    return claim


async def three_attempts(db):
    """An invocation that slept, was suspended, went on and was lost with its worker, and runs again."""
    out = Outcome()
    id, _ = await invocations.create(db, runtime_app.app, out, New("S", "echo", argument=b'"<b>&"'))
    first = await claimed(db, id, "one")
    await storing.store(db, runtime_app.app, first, sleep(1) + SUSPENDED, 0)
    first.lease.journal.keep()
    inbox.complete(db, out, id, 1, journal.void())
    await claimed(db, id, "two")
    third = await claimed(db, id, "three")
    growth = Growth(third.lease)
    growth.store(sleep(2), 0)
    await growth.write(db)
    return id


@support.on_each_database
class Timelines(support.OnADatabase):
    def setUp(self):
        super().setUp()
        self.db = Plain(self.url)
        self.addCleanup(self.db.close)
        self.id = self.db.done(three_attempts)

    def found(self):
        return self.db.done(lambda db: timeline.timeline(db, self.id))

    def test_attempts_and_steps(self):
        it = self.found()
        self.assertEqual([(one.epoch, one.worker, one.how) for one in it.attempts], [(1, "one", "suspended"), (2, "two", "lost"), (3, "three", None)])
        self.assertTrue(all(one.begun <= one.stopped for one in it.attempts[:2]) and it.attempts[2].stopped is None)
        self.assertEqual([(step.at, step.entry.name, step.is_open) for step in it.steps], [(0, "Input", False), (1, "Sleep", False), (3, "Sleep", True)])
        self.assertEqual([len(step.completions) for step in it.steps], [0, 1, 0])
        self.assertTrue(it.steps[1].begun <= it.steps[1].ended and it.steps[2].ended is None)
        self.assertEqual(timeline.as_json(it)["steps"][1]["entry"], "Sleep id=1 due=1000")

    def test_nobody(self):
        self.assertIsNone(self.db.done(lambda db: timeline.timeline(db, "inv_none")))

    def test_the_picture(self):
        it = self.found()
        page = Elements(drawn(it, it.steps[-1].begun + 10))
        bars = [attributes for attributes in page.of("rect") if "bar" in attributes.get("class", "")]
        self.assertEqual([it["class"].removeprefix("bar ") for it in bars], ["suspended", "lost", "runs", "done", "done", "waits"])
        left, right = (float(bars[-1][name]) for name in ("x", "width"))
        self.assertAlmostEqual(left + right, 1000, delta=1)  # what is open reaches to the present
        self.assertEqual([it["action"] for it in page.of("form")], ["?do=cancel", "?do=kill", "?do=pause"])
        for word in ("runs", "done 0 ms", "waits"):
            self.assertIn(word, page.text)
        self.assertNotIn("script", [name for name, _ in page.found])

    def test_what_others_wrote_is_text(self):
        it = self.found()
        it.invocation.update(error="<script>alert(1)</script>\n", service="<i>", key='"><b>', status="paused")
        row = {**it.invocation, "id": "a/<b>?"}
        for page in (drawn(it, 0), listed([row], Filter(service="<u>", text="<u>"), 0), confirmed("kill", Filter(error="<u>"), ["<u>"], 1), state("<u>", "<i>", {"<u>": b"<script>"}, None)):
            self.assertFalse({"script", "i", "u"} & {name for name, _ in Elements(page).found})
        self.assertIn("/-/page/a%2F%3Cb%3E%3F", [link["href"] for link in Elements(listed([row], Filter(), 0)).of("a")])


class Requests(support.OnADatabase, unittest.TestCase):
    """The page by requests, on a worker whose handlers never run."""

    def answers(self, *asked, token=None):
        async def go():
            async with Served(runtime_app.app, self.url, Settings(token=token), limit=0) as served:
                headers = {"authorization": f"Bearer {token}"} if token else {}
                self.id = (await served.ask("/S/echo/send", 1, **headers))[1]["invocation"]
                answers = []
                for method, path, headers, body in asked:
                    own = {"origin": served.address} if headers is OWN else headers
                    cookie = {"cookie": answers[0][2]["set-cookie"].partition(";")[0]} if headers is None else own
                    answers.append(await served.ask(f"/-/page{path}".replace("ID", self.id), body, method, **cookie))
                self.ended = await served.rows("SELECT id FROM invocations WHERE failed=409")
            return answers

        return asyncio.run(go())

    def test_pages(self):
        answers = self.answers(("GET", "", {}, b""), ("GET", "/ID", {}, b""), ("GET", "/none", {}, b""), ("PUT", "", {}, b""))
        self.assertEqual([it[0] for it in answers], [200, 200, 404, 404])
        self.assertIn(self.id, Elements(answers[0][1]).text)
        self.assertIn("Input", Elements(answers[1][1]).text)
        for _, _, headers in answers[:2]:
            self.assertIn("default-src 'none'", headers["content-security-policy"])

    def test_a_button(self):
        [answer] = self.answers(("POST", "/ID?do=cancel", OWN, b""))
        self.assertEqual((answer[0], answer[2]["location"]), (303, f"/-/page/{self.id}"))
        self.assertEqual([tuple(it) for it in self.ended], [(self.id,)])

    def test_a_button_of_another_site(self):
        for headers in ({"origin": "http://evil.example"}, {"origin": "null"}, {"origin": ""}, {}):
            [answer] = self.answers(("POST", "/ID?do=cancel", headers, b""))
            self.assertEqual((answer[0], self.ended), (403, []))

    def test_the_token(self):
        asked = [("POST", "/token", OWN, b"token=a%26b"), ("GET", "", None, b""), ("GET", "", {}, b""), ("GET", "", {"cookie": "palqytun=a&b"}, b"")]
        asked += [("POST", "/token", OWN, b"token=x"), ("GET", "/ID", {"authorization": "Bearer a&b"}, b""), ("POST", "/ID?do=cancel", OWN, b"")]
        asked += [("POST", "/token", {}, b"token=a%26b"), ("POST", "/token", OWN, b"token=" + b"x" * 5000)]
        answers = self.answers(*asked, token="a&b")
        self.assertEqual([it[0] for it in answers], [303, 200, 401, 401, 401, 200, 401, 403, 413])
        self.assertEqual(self.ended, [])
        cookie = answers[0][2]["set-cookie"]
        self.assertNotIn("a&b", cookie)
        self.assertTrue({"HttpOnly", "Path=/-/page", "SameSite=strict"} <= set(cookie.split("; ")), cookie)


if __name__ == "__main__":
    unittest.main()
