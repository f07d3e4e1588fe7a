"""The operator's pages in a browser: Chromium without a display, by selenium. What is seen and pressed, by mouse and by keyboard, in light and dark.

With PALQYTUN_PICTURES=docs/pictures the pictures of the documentation are made anew."""

import asyncio
import os
import pathlib
import re
import threading
import time
import unittest

import support  # isort: skip
import needs

if lacks := needs.lacks_server() or needs.lacks_browser():
    raise unittest.SkipTest(lacks)
from selenium import webdriver
from selenium.common.exceptions import StaleElementReferenceException, WebDriverException
from selenium.webdriver.chrome.service import Service as Driver
from selenium.webdriver.common.by import By
from selenium.webdriver.common.keys import Keys

from palqytun.runtime import App, Context, Queue, Retry, Schedule, Service, TerminalError, VirtualObject
from palqytun.runtime.serving import Settings
from served import Served

shop, stock = Service("Shop"), VirtualObject("Stock")
PICTURES = os.environ.get("PALQYTUN_PICTURES")
SIZE = (1280, 900)


@shop.handler(retry=Retry(initial=0.01, attempts=2, pause=True))
async def order(ctx: Context, it: str) -> str:
    await ctx.call(take, 1, key=it)
    if it == "ink":
        raise TerminalError("nobody lives there", 404)
    await ctx.run("pay", lambda: "paid")
    if it == "glue":
        raise ValueError("the bank is closed")
    await ctx.call(parcel, it)
    return it


@shop.handler(queue=Queue("parcels", concurrency=5, per_key=2, rate=(100, 60)))
async def parcel(ctx: Context, it: str) -> str:
    await ctx.sleep(3600 if it == "pen" else 0)
    return it


@stock.handler()
async def take(ctx: Context, n: int) -> int:
    left = (await ctx.get("left", int) or 100) - n
    ctx.set("left", left)
    return left


HOUR = 3 if PICTURES else (time.gmtime().tm_hour + 12) % 24  # far from now, so that it makes no call while a test counts them
app = App(shop, stock, schedules=[Schedule("nightly", order, "pen", cron=f"0 {HOUR} * * *", zone="Europe/Berlin")])


class Background:
    """A worker with its ingress in a thread, so that a browser can ask it."""

    def __init__(self, url, token=None, **worker):
        self.loop = asyncio.new_event_loop()
        self.served = Served(app, url, Settings(token=token), **worker)
        self.thread = threading.Thread(target=self.loop.run_forever, daemon=True)
        self.thread.start()
        self.do(self.served.__aenter__())

    def do(self, awaitable):
        return asyncio.run_coroutine_threadsafe(awaitable, self.loop).result(support.LONG)

    def ask(self, path, body=None, method="POST"):
        return self.do(self.served.ask(path, body, method))

    def close(self):
        self.do(self.served.__aexit__())
        self.loop.call_soon_threadsafe(self.loop.stop)
        self.thread.join(support.LONG)
        self.loop.close()


def browser():
    options = webdriver.ChromeOptions()
    options.binary_location = needs.browser()
    for it in ("--headless=new", "--no-sandbox", "--disable-gpu", "--disable-dev-shm-usage", "--force-device-scale-factor=1", f"--window-size={SIZE[0]},{SIZE[1]}"):
        options.add_argument(it)
    found = webdriver.Chrome(service=Driver(needs.driver()), options=options)
    found.set_page_load_timeout(support.LONG)
    return found


def contrast(one, other):
    """The ratio of two colours by WCAG 2, as `rgb(1, 2, 3)`."""

    def lightness(colour):
        parts = [int(it) / 255 for it in re.findall(r"\d+", colour)[:3]]
        red, green, blue = (it / 12.92 if it <= 0.04045 else ((it + 0.055) / 1.055) ** 2.4 for it in parts)
        return 0.2126 * red + 0.7152 * green + 0.0722 * blue

    high, low = sorted((lightness(one), lightness(other)), reverse=True)
    return (high + 0.05) / (low + 0.05)


def has_gone(element):
    """Whether the page of an element isn't there any more. While it goes, the driver has other words for that than later."""
    try:
        element.is_enabled()
    except StaleElementReferenceException:
        return True
    except WebDriverException as error:
        if "does not belong to the document" not in str(error):
            raise
        return True
    return False


class InABrowser(support.OnADatabase, unittest.TestCase):
    """One browser for all tests, and for each a worker on an empty database."""

    @classmethod
    def setUpClass(cls):
        cls.browser = browser()
        cls.addClassCleanup(cls.browser.quit)

    def setUp(self):
        super().setUp()
        self.worker = None

    def serve(self, **options):
        self.worker = Background(self.url, **options)
        self.addCleanup(self.worker.close)
        self.page = f"{self.worker.served.address}/-/page"

    def made(self, handler, it, status, key=""):
        """An invocation, once it has this status."""
        id = self.worker.ask(f"/{handler}/send", it)[1]["invocation"]
        self.until(lambda: self.worker.ask(f"/-/invocations/{id}", None, "GET")[1]["status"] == status)
        return id

    def until(self, holds):
        until = time.monotonic() + support.LONG
        while not holds():
            self.assertLess(time.monotonic(), until)
            time.sleep(0.01)

    def orders(self):
        self.serve()
        made = [self.made("Shop/order", it, status) for it, status in [("pen", "suspended"), ("ink", "failed"), ("glue", "paused"), ("cup", "done")]]
        self.until(lambda: self.worker.ask("/-/invocations?handler=parcel&status=suspended", None, "GET")[1])  # that of the first order
        return made

    def open(self, path=""):
        self.browser.get(f"{self.page}{path}")

    def all(self, selector):
        return self.browser.find_elements(By.CSS_SELECTOR, selector)

    def one(self, selector):
        return self.browser.find_element(By.CSS_SELECTOR, selector)

    def leave(self, does, *given):
        """Does what leads to another page, and waits until it is there."""
        before = self.one("html")
        does(*given)
        self.until(lambda: has_gone(before))

    def press(self, text):
        """Presses the button with this text."""
        self.leave(next(it for it in self.all("button") if it.text == text).click)

    def follow(self, text):
        """Follows the link with this text."""
        self.leave(self.browser.find_element(By.LINK_TEXT, text).click)

    def rows(self):
        return [it.text for it in self.all("tbody tr")]

    def handlers(self):
        return sorted(row.split()[1] for row in self.rows())

    def focused(self):
        return self.browser.switch_to.active_element

    def in_scheme(self, scheme):
        self.browser.execute_cdp_cmd("Emulation.setEmulatedMedia", {"features": [{"name": "prefers-color-scheme", "value": scheme}]})

    def picture(self, name):
        """A picture for the documentation, if it is asked for; else only whether one can be made."""
        data = self.one("body").screenshot_as_png
        self.assertGreater(len(data), 5000)
        if PICTURES:
            (pathlib.Path(PICTURES) / f"{name}.png").write_bytes(data)

    def test_search_filters_and_links(self):
        pen, ink, glue, cup = self.orders()
        self.open()
        self.assertEqual(self.browser.title, "Invocations")
        self.assertEqual(len(self.rows()), 10)
        self.picture("list")
        self.follow("failed")
        self.assertEqual(len(self.rows()), 1)
        self.assertIn("404 nobody lives there", self.rows()[0])
        self.leave(self.one("input[name=text]").send_keys, "no such error", Keys.ENTER)
        self.assertIn("There are none", self.one("main").text)
        self.assertIn("status=failed", self.browser.current_url)  # a search keeps the filter
        self.open("?service=Shop")
        self.one("input[name=text]").send_keys(glue[4:12].upper())
        self.press("Search")
        self.assertIn(glue, self.rows()[0])
        self.follow(glue)
        self.assertIn("the bank is closed", self.one(".error").text)
        self.open(f"/{pen}")
        self.follow("open")  # the call of the stock
        self.assertIn("Stock/pen/take", self.one("h1").text)
        self.follow(pen)  # the caller
        self.assertIn("Shop/order", self.one("h1").text)

    def test_paging(self):
        self.serve(limit=0)
        ids = [self.worker.ask("/Shop/order/send", "pen")[1]["invocation"] for _ in range(103)]
        self.open()
        self.assertEqual([len(self.rows()), self.rows()[0].split()[0]], [100, ids[-1]])
        self.leave(self.one("a[rel=next]").click)
        self.assertEqual([it.split()[0] for it in self.rows()], ids[2::-1])
        self.follow("The newest")
        self.assertEqual(self.rows()[0].split()[0], ids[-1])

    def test_acts_on_one(self):
        pen, ink, glue, cup = self.orders()
        self.open(f"/{pen}")
        self.press("pause")
        self.assertIn("paused by ingress", self.one(".error").text)
        self.press("resume")
        self.press("kill")
        self.assertIn("409 killed", self.one(".error").text)
        self.press("restart")  # the first such button: from the start
        self.assertEqual(self.one("h1").text, "Shop/order")
        self.follow(pen)  # made again from it
        self.follow("The audit: who did what")
        self.assertEqual([it.text.split()[3] for it in self.all("table tr")[1:]], ["restart", "kill", "resume", "pause"])
        self.open(f"/{cup}")
        self.leave(self.one("button[aria-label='restart from entry 1']").click)
        self.assertIn("Made again from", self.one("main").text)
        self.open("/inv_none")
        self.assertIn("there is no such invocation", self.one("main").text)

    def test_acts_on_many(self):
        pen, ink, glue, cup = self.orders()
        self.open("?status=paused")
        self.press("resume ..")
        self.assertEqual(self.one("h1").text, "Resume 1 invocations?")
        self.assertIn(glue, self.one("ul").text)
        self.picture("confirm")
        self.press("resume 1 invocations")
        self.assertIn("resumed", self.one("table").text)
        self.open()
        boxes = {it.get_attribute("value"): it for it in self.all("input[type=checkbox]")}
        boxes[ink].click()
        boxes[cup].click()
        self.press("restart ..")
        self.press("restart 2 invocations")
        self.assertEqual(self.one("table").text.count("is made again as"), 2)
        self.open("?status=done&service=None")
        self.press("kill ..")
        self.assertIn("There are none to which that can be done", self.one("main").text)

    def test_states_and_schedules(self):
        self.orders()
        self.open("/states")
        self.follow("Stock")
        self.assertEqual(len(self.all("table tr")), 5)
        self.picture("states")
        self.leave(self.one("input[name=text]").send_keys, "gl", Keys.ENTER)
        self.follow("glue")
        field = self.one("textarea")
        self.assertEqual(field.text, "99")
        field.clear()
        field.send_keys("40")
        self.press("set")
        self.assertEqual([self.one("[role=status]").text, self.one("textarea").text], ["left is set.", "40"])
        self.one("textarea").send_keys("{")
        self.press("set")
        self.assertIn("the state is no value", self.one("main").text)
        self.open("/state?service=Stock&key=glue")
        self.press("clear")
        self.assertEqual(len(self.all("h2")), 1)
        self.open("/audit")
        self.assertIn("40; was 99", self.one("table").text)
        self.picture("audit")
        self.open("/schedules")
        self.assertIn(f"cron 0 {HOUR} * * * Europe/Berlin", self.one("table").text)
        self.assertIn("Shop/order", self.one("table").text)
        self.press("pause")
        self.assertIn("paused", self.one("table").text)
        self.press("resume")
        self.press("trigger")
        self.picture("schedules")
        self.one("summary").click()
        self.browser.execute_script("document.querySelector('input[name=since]').value = '2026-11-25T00:00'")
        self.press("backfill")
        self.open("/audit")
        for it in ("pause schedule", "resume schedule", "trigger schedule", "backfill schedule"):
            self.assertIn(it, self.one("table").text)

    def test_queues(self):
        self.serve(limit=0)
        for key in ("ann", "ann", "ben"):
            self.worker.ask(f"/Shop/parcel/send?queue-key={key}", "pen")
        self.worker.ask("/Shop/parcel/send?delay=600", "pen")
        self.open()
        self.follow("Queues")
        [row] = self.rows()
        self.assertRegex(row, r"^parcels 3 [\d.]+ m?s 2 1 0 concurrency 5, per_key 2, rate 100 in 60 s$")
        self.picture("queues")
        self.follow("parcels")
        self.assertEqual(len(self.rows()), 4)
        self.assertEqual(self.one("input[name=queue]").get_attribute("value"), "parcels")

    def test_versions(self):
        pen, *_ = self.orders()
        self.open()
        self.follow("Versions")
        [row] = self.rows()
        self.assertRegex(row, r"^\w+ 1 3 [\d.]+ \w+$")  # the order and its parcel, and the one that is paused
        self.picture("versions")
        self.follow("3")
        self.assertEqual(self.handlers(), ["Shop/order", "Shop/order", "Shop/parcel"])
        self.follow(pen)
        version = row.split()[0]
        self.assertIn(f"Of version {version}.", self.one("main").text)
        self.follow(version)
        self.assertEqual(self.one("input[name=version]").get_attribute("value"), version)

    def test_the_picture(self):
        """Each bar has a place in it, and each kind a pattern of its own: no two are told apart by a colour alone."""
        pen, ink, glue, cup = self.orders()
        self.open(f"/{glue}")
        measured = "return [...document.querySelectorAll('rect.bar')].map(e=>{const a=e.getBoundingClientRect();const b=e.ownerSVGElement.getBoundingClientRect();return a.width>0&&a.left>=b.left&&a.right<=b.right+1&&a.bottom<=b.bottom})"
        places = self.browser.execute_script(measured)
        self.assertTrue(len(places) > 4 and all(places), places)
        fills = [it.value_of_css_property("fill") for it in self.all(".legend rect")]
        self.assertEqual(len({re.sub(r"rgb.*", "plain", it) for it in fills}), 5, fills)
        self.open(f"/{cup}")
        self.picture("timeline")

    def test_by_keyboard(self):
        pen, ink, glue, cup = self.orders()
        self.open()
        self.browser.find_element(By.TAG_NAME, "body").send_keys(Keys.TAB)
        self.assertEqual(self.focused().text, "To the content")
        self.assertGreaterEqual(self.focused().location["x"], 0)  # it is seen once it has the focus
        outlines, reached = set(), []
        for _ in range(60):
            self.focused().send_keys(Keys.TAB)
            it = self.focused()
            outlines.add(it.value_of_css_property("outline-style"))
            reached.append(it.text or it.get_attribute("name") or it.get_attribute("aria-label"))
            if it.text == cup:
                break
        self.assertEqual(outlines, {"solid"})
        for name in ("failed", "text", "Search", "cancel ..", "kill ..", cup):
            self.assertIn(name, reached)
        self.leave(self.focused().send_keys, Keys.ENTER)
        self.assertIn(cup, self.browser.current_url)
        self.open(f"/{pen}")
        self.leave(next(it for it in self.all("button") if it.text == "cancel").send_keys, Keys.ENTER)
        self.assertIn("Shop/order", self.one("h1").text)
        for it in self.all("input, select, textarea, button"):
            self.assertTrue(it.accessible_name, it.get_attribute("outerHTML"))

    def test_light_and_dark(self):
        pen, ink, glue, cup = self.orders()
        backs = []
        for scheme in ("light", "dark"):
            self.in_scheme(scheme)
            for path in ("", f"/{glue}", "/states", "/queues", "/schedules", "/audit"):
                self.open(path)
                back = self.one("body").value_of_css_property("background-color")
                for it in self.all("body, a, .bad, .soft, th"):
                    ratio = contrast(it.value_of_css_property("color"), back)
                    self.assertGreaterEqual(ratio, 4.5, (scheme, path, it.get_attribute("outerHTML")[:200]))
                if path == f"/{glue}" and scheme == "dark":
                    self.picture("dark")
            backs.append(back)
        self.in_scheme("light")
        self.assertGreater(contrast(*backs), 10)

    def test_the_token(self):
        self.serve(token="a&b", limit=0)
        self.open("/states")
        self.leave(self.one("input[type=password]").send_keys, "wrong", Keys.ENTER)
        self.assertIn("That is not the token", self.one("main").text)
        self.leave(self.one("input[type=password]").send_keys, "a&b", Keys.ENTER)
        self.assertEqual(self.one("h1").text, "Invocations")
        self.open("/states")
        self.assertEqual(self.one("h1").text, "States")


if __name__ == "__main__":
    unittest.main()
