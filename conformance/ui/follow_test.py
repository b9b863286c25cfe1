#!/usr/bin/env python3
"""How the page follows its server: how often it asks, and what it keeps while rows come and change."""
import time
import unittest

from case import DemoCase
from selenium.webdriver.common.keys import Keys
from servers import MODEL

HIDE = "Object.defineProperty(document, 'visibilityState', {get: () => arguments[0], configurable: true}); document.dispatchEvent(new Event('visibilitychange'))"
# A timer of a browser may come some milliseconds early.
SLACK = 0.02


class Follow(DemoCase, unittest.TestCase):
    words = MODEL

    def settled(self, route):
        """Waits until a view has read all that it shows, and follows it."""
        def is_calm():
            times = [it[0] for it in self.page.noted(began)][-4:]
            return len(times) == 4 and all(after - before > 0.7 for before, after in zip(times, times[1:]))
        self.sign_in("ada", route)
        began = time.monotonic()
        self.browser.wait(is_calm, "a calm page", 60)

    def test_one_request_a_second(self):
        for route in ("#/dags", "#/dags/payments.charge", "#/pools"):
            with self.subTest(route):
                self.settled(route)
                self.browser.js("performance.clearResourceTimings()")
                self.browser.wait(lambda: len(self.browser.requests()) >= 5, "five requests", 20)
                times = [it[0] for it in self.browser.requests()]
                self.assertGreater(min(after - before for before, after in zip(times, times[1:])), 1 - SLACK)

    def test_none_while_hidden(self):
        self.settled("#/dags")
        self.browser.js(HIDE, "hidden")
        began = time.monotonic() + 1.2
        self.browser.wait(lambda: time.monotonic() > began + 4, "four seconds")
        self.assertEqual(self.page.noted(began), [])
        shown = time.monotonic()
        self.browser.js(HIDE, "visible")
        self.browser.wait(lambda: self.page.noted(shown), "a request", 5)

    def test_what_nobody_has_changed_is_not_read_again(self):
        """The numbers of a response say that nothing has changed: then one request stands for all."""
        for dag in ("payments.charge", "payments.settle", "search.crawl", "search.backfill"):
            self.ask("ada", "PATCH", f"/api/v1/dags/{dag}", {"is_paused": True})
        try:
            self.settled("#/dags/payments.charge")
            def is_still():
                before = self.ask("ada", "GET", "/api/v1/eventLogs?limit=1")[1]["total_entries"]
                until = time.monotonic() + 1.5
                self.browser.wait(lambda: time.monotonic() > until, "a moment")
                return before == self.ask("ada", "GET", "/api/v1/eventLogs?limit=1")[1]["total_entries"]
            self.browser.wait(is_still, "a state that stays", 40)
            began = time.monotonic() + 2
            self.browser.wait(lambda: len(self.page.noted(began)) >= 4, "four requests", 20)
            self.assertEqual([it for it in self.page.noted(began) if "taskInstances" in it[2]], [])
            self.assertRegex(self.browser.texts(".age")[0], r"^Updated (now|[12] s ago)$")
        finally:
            for dag in ("payments.charge", "payments.settle", "search.crawl", "search.backfill"):
                self.ask("ada", "PATCH", f"/api/v1/dags/{dag}", {"is_paused": False})

    def test_it_keeps_its_place(self):
        """While rows come and change, focus, selected text, scroll places and what is being typed stay."""
        self.settled("#/runs")
        self.browser.size(1280, 500)
        first = self.browser.wait(lambda: self.browser.rows("Runs"), "the runs")[0][2]
        self.browser.js("""window.kept = document.querySelector('.rows tbody tr:nth-child(4) a'); kept.focus(); scrollTo(0, 150);
            const text = document.querySelector('h1').firstChild; getSelection().setBaseAndExtent(text, 0, text, 3)""")
        place = self.browser.js("return [window.kept.href, kept.getBoundingClientRect().top]")
        self.browser.wait(lambda: self.browser.rows("Runs")[0][2] != first, "a new run", 30)
        self.assertEqual(self.browser.js("return [document.activeElement === kept, kept.isConnected, kept.href, String(getSelection())]"),
            [True, True, place[0], "Run"])
        self.assertLess(abs(self.browser.js("return kept.getBoundingClientRect().top") - place[1]), 3)
        self.browser.go("#/variables")
        self.browser.press("Edit currency")
        self.browser.fill("dialog textarea", "half a wor")
        began = time.monotonic()
        self.browser.wait(lambda: len(self.page.noted(began)) > 3, "some requests")
        self.assertEqual(self.browser.js("return [document.querySelector('dialog textarea').value, document.activeElement.tagName]"),
            ["half a wor", "TEXTAREA"])
        self.browser.keys(Keys.ESCAPE)

    def test_the_network_is_gone_and_back(self):
        self.settled("#/dags")
        self.browser.cdp("Network.enable")
        self.browser.cdp("Network.emulateNetworkConditions", offline=True, latency=0, downloadThroughput=-1, uploadThroughput=-1)
        self.browser.see("The server does not answer", "no connection")
        self.browser.cdp("Network.emulateNetworkConditions", offline=False, latency=0, downloadThroughput=-1, uploadThroughput=-1)
        self.browser.press("Try now")
        self.browser.gone("The server does not answer")


if __name__ == "__main__":
    unittest.main()
