"""A test of the page in a browser: one browser for all tests of a class, over a server of the class's own."""
import json
import shutil
import urllib.error
import urllib.request

from browser import Browser
from servers import DEMO, Page, serving

CHROMIUM = shutil.which("chromium") or shutil.which("chromium-browser")
DRIVER = shutil.which("chromedriver")
EVERY_VIEW = ["#/dags", "#/dags/{dag}", "#/dags/{dag}/graph", "#/dags/{dag}/gantt", "#/dags/{dag}/runs/{run}", "#/runs", "#/pools", "#/variables",
    "#/events?kind=all",
              "#/access?tab=roles", "#/access?tab=users", "#/access?tab=versions", "#/me"]


class Case:
    """`opens` enters the class's server and returns its port. After each test the console of the browser holds no complaint."""

    maxDiff = None

    @classmethod
    def opens(cls, keep):
        raise NotImplementedError

    @classmethod
    def setUpClass(cls):
        keep = cls.enter
        cls.left = []
        try:
            cls.page = keep(Page(cls.opens(keep)))
            cls.browser = Browser(CHROMIUM, DRIVER, cls.page.base)
            cls.left.append(cls.browser.quit)
        except BaseException:
            cls.tearDownClass()
            raise

    @classmethod
    def enter(cls, context):
        value = context.__enter__()
        cls.left.append(lambda: context.__exit__(None, None, None))
        return value

    @classmethod
    def tearDownClass(cls):
        while cls.left:
            cls.left.pop()()

    def setUp(self):
        self.browser.theme("light")
        self.browser.size(1280, 860)
        self.browser.complaints()

    def tearDown(self):
        self.assertEqual(self.browser.complaints(), [])

    def ask(self, who, method, path, body=None, port=None):
        """A request beside the page: status and body."""
        request = urllib.request.Request(f"http://127.0.0.1:{port or self.port}{path}", method=method, data=None if body is None else json.dumps(body).encode())
        request.add_header("Authorization", f"Bearer {who}-demo-token")
        try:
            with urllib.request.urlopen(request, timeout=20) as came:
                text = came.read()
                return came.status, json.loads(text) if text else None
        except urllib.error.HTTPError as why:
            with why:
                return why.code, json.loads(why.read())


class DemoCase(Case):
    """Over `serve` with examples/demo.json, by the reference model or the built program."""

    words = None

    @classmethod
    def opens(cls, keep):
        cls.server = keep(serving(cls.words, cls.config()))
        cls.port = cls.server.port
        return cls.port

    @classmethod
    def config(cls):
        return DEMO

    def sign_in(self, who, route="#/dags"):
        self.browser.sign_in(f"{who}-demo-token", route)
        self.browser.wait(lambda: self.browser.texts(".user") == [who], f"the page of {who}")
