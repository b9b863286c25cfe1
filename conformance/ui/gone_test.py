#!/usr/bin/env python3
"""What the page says when the server is gone, and when it is back."""
import time
import unittest

from case import DemoCase
from servers import MODEL, serving


class Gone(DemoCase, unittest.TestCase):
    words = MODEL

    def test_the_server_is_gone_and_back(self):
        self.sign_in("ada", "#/dags")
        self.browser.see("payments.charge", "success")
        self.server.end()
        self.browser.see("The server does not answer", f"no server of afplane answers on 127.0.0.1:{self.port}", "What is shown is", "Next try in")
        self.assertIn("payments.charge", self.browser.text(), "what was read is still shown")
        self.assertIn("is-old", self.browser.one(".age").get_attribute("class"))
        began = time.monotonic()
        self.browser.wait(lambda: len(self.page.noted(began)) >= 3, "three more tries", 40)
        times = [it[0] for it in self.page.noted(began)]
        self.assertGreater(times[2] - times[1], times[1] - times[0], "each pause is longer than the one before")
        self.browser.press("Trigger payments.refund")
        self.browser.press("Trigger", "dialog")
        self.browser.see("Whether the change was made is not known: look before you try again.")
        self.browser.press("Cancel", "dialog")
        with serving(MODEL) as again:
            self.page.server.beyond = again.port
            self.browser.press("Try now")
            self.browser.see("The server answers again", "The server was started again.")
            self.browser.gone("The server does not answer")
            self.browser.wait(lambda: "ada" in self.browser.texts(".user"), "who is still signed in")


if __name__ == "__main__":
    unittest.main()
