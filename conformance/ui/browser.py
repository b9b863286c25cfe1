"""A headless Chromium that is driven by its driver, and the page of ui/ in it. Needs Debian's chromium, chromium-driver and python3-selenium."""
import json
import time

from selenium import webdriver
from selenium.common.exceptions import StaleElementReferenceException
from selenium.webdriver.chrome.service import Service
from selenium.webdriver.common.by import By
from selenium.webdriver.common.keys import Keys

# How long a condition is waited for, and how long a page may take on a machine that is busy.
SECONDS, LOAD_SECONDS = 30, 120
# What the console may hold: that a response was an error is logged by the browser itself.
EXPECTED = ("the server responded with a status of", "net::ERR_")


class Gone(AssertionError):
    """What did not come about in time."""


class Browser:
    """One window. `base` is where the page is served."""

    def __init__(self, chromium, driver, base=None, size=(1280, 860)):
        options = webdriver.ChromeOptions()
        options.binary_location = chromium
        for it in ("--headless=new", "--no-sandbox", "--disable-dev-shm-usage", "--disable-gpu", "--hide-scrollbars", "--no-first-run", "--disable-extensions",
                   "--disable-background-networking", "--force-device-scale-factor=1", f"--window-size={size[0]},{size[1]}"):
            options.add_argument(it)
        options.set_capability("goog:loggingPrefs", {"browser": "ALL"})
        self.driver = webdriver.Chrome(service=Service(driver), options=options)
        self.driver.set_script_timeout(LOAD_SECONDS)
        self.driver.set_page_load_timeout(LOAD_SECONDS)
        self.base = base

    def quit(self):
        self.driver.quit()

    # ---- The window ----

    def open(self, route="#/dags"):
        """The page anew, as after a reload: nobody is signed in."""
        self.driver.get("about:blank")
        self.driver.get(f"{self.base}/{route}")
        self.wait(lambda: self.all("#token"), "the sign-in", LOAD_SECONDS)

    def go(self, route):
        """Another view of the same page."""
        self.js("location.hash = arguments[0]", route)

    def size(self, width, height):
        self.cdp("Emulation.setDeviceMetricsOverride", width=width, height=height, deviceScaleFactor=1, mobile=False)

    def theme(self, name, motion="no-preference"):
        features = [{"name": "prefers-color-scheme", "value": name}, {"name": "prefers-reduced-motion", "value": motion}]
        self.cdp("Emulation.setEmulatedMedia", features=features)

    def cdp(self, name, **words):
        return self.driver.execute_cdp_cmd(name, words)

    def js(self, text, *words):
        return self.driver.execute_script(text, *words)

    def shot(self, path):
        self.driver.save_screenshot(str(path))

    def complaints(self):
        """What the console holds beyond what is expected: an exception, or what the policy of contents refused."""
        return [it["message"] for it in self.driver.get_log("browser") if it["level"] == "SEVERE" and not any(words in it["message"] for words in EXPECTED)]

    # ---- Waiting ----

    def wait(self, found, what, seconds=SECONDS):
        """The first true value of `found`; an assertion fails if none comes in time."""
        until = time.monotonic() + seconds
        while True:
            try:
                value = found()
            except StaleElementReferenceException:
                value = None
            if value:
                return value
            if time.monotonic() > until:
                raise Gone(f"{what} did not come within {seconds} s; the page has: {self.text()[:1500]!r}; console: {self.complaints()}")
            time.sleep(0.05)

    def see(self, *words, seconds=SECONDS):
        """Waits until the page has all of these words."""
        for it in words:
            self.wait(lambda: it in self.text(), f"the words {it!r}", seconds)

    def gone(self, words, seconds=SECONDS):
        self.wait(lambda: words not in self.text(), f"the end of the words {words!r}", seconds)

    # ---- What is there ----

    def text(self):
        return self.js("return document.body.innerText")

    def all(self, selector):
        return self.driver.find_elements(By.CSS_SELECTOR, selector)

    def one(self, selector):
        found = self.wait(lambda: self.all(selector), selector)
        return found[0]

    def texts(self, selector):
        return self.js("return [...document.querySelectorAll(arguments[0])].map((it) => (it.innerText ?? it.textContent).trim())", selector)

    def rows(self, caption):
        """The texts of the cells of a table."""
        return self.js("""return [...document.querySelectorAll('table')].filter((it) => it.caption && it.caption.innerText.trim() === arguments[0])
            .flatMap((it) => [...it.tBodies[0].rows]).map((it) => [...it.cells].map((cell) => cell.innerText.trim()))""", caption)

    def buttons(self):
        """The names of all that can be pressed."""
        return self.js("""return [...document.querySelectorAll('button')].filter((it) => it.offsetParent !== null).map((it) => it.getAttribute('aria-label') || it.innerText.trim())""")

    # ---- Doing ----

    def press(self, name, within="body"):
        """Clicks a button or a link by its name."""
        script = """return [...document.querySelectorAll(arguments[1] + ' button, ' + arguments[1] + ' a')].find((it) => it.getClientRects().length &&
            (it.getAttribute('aria-label') || (it.innerText ?? '').trim()) === arguments[0])"""
        self.wait(lambda: self.js(script, name, within), f"{name!r} to press").click()

    def fill(self, selector, text):
        field = self.one(selector)
        field.clear()
        field.send_keys(text)

    def keys(self, *keys):
        webdriver.ActionChains(self.driver).send_keys(*keys).perform()

    def sign_in(self, token, route=None):
        """Signs in with the keyboard alone, on the page that is there or, if there is none, a new one. Whoever was signed in is signed out first."""
        if route is not None and not self.driver.current_url.startswith(f"{self.base}/"):
            self.open(route)
        elif route is not None:
            self.wait(lambda: self.all("#token, .frame"), "the page", LOAD_SECONDS)
            if not self.all("#token"):
                self.js("document.querySelector('dialog')?.close()")
                self.sign_out()
            self.go(route)
        self.fill("#token", token)
        self.keys(Keys.ENTER)

    def sign_out(self):
        self.press("Sign out")
        self.wait(lambda: self.all("#token"), "the sign-in")

    def requests(self):
        """The requests of the page for the API so far: when each began, in seconds, and its path."""
        found = self.js("return performance.getEntriesByType('resource').map((it) => [it.startTime / 1000, it.name])")
        return [(at, name[len(self.base):]) for at, name in found if name.startswith((f"{self.base}/api/", f"{self.base}/own/"))]

    def storage(self):
        """All that the page could have left behind."""
        return json.loads(self.js("return JSON.stringify([Object.keys(localStorage), Object.keys(sessionStorage), document.cookie, location.href, history.state])"))
