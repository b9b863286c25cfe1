"""What the page is tried against: the page's own server in this process, a server of afplane, and a server of made-up rows."""
import json
import os
import sys
import threading
import time
from http.server import BaseHTTPRequestHandler, ThreadingHTTPServer
from urllib.parse import parse_qs, unquote

HERE = os.path.dirname(os.path.realpath(__file__))
TOP = os.path.dirname(os.path.dirname(HERE))
sys.path[:0] = [os.path.join(TOP, "conformance"), os.path.join(TOP, "tools")]
import ui_server  # noqa: E402
from serving import Serving  # noqa: E402

WORKERS = 4
START_SECONDS = 60


def read(*names):
    with open(os.path.join(TOP, *names), "rb") as file:
        return file.read()


DEMO = read("examples", "demo.json")


# What serves: the reference model, and the built program.
MODEL = [os.path.join(TOP, "afplane"), "model"]
PROGRAM = [os.environ.get("AFPLANE_PROGRAM", "")]


def serving(program, config=DEMO):
    return Serving(program, config, WORKERS, start=START_SECONDS)


class Noting(ui_server.Handler):
    """Notes each request that is passed on."""

    def pass_on(self):
        self.server.noted.append((time.monotonic(), self.command, self.path))
        return super().pass_on()


class Page:
    """The page's own server, on a free port; `beyond` is the port of the server that it asks."""

    def __init__(self, beyond):
        self.server = ui_server.Server(0, beyond, handler=Noting)
        self.server.noted = []

    def __enter__(self):
        threading.Thread(target=self.server.serve_forever, daemon=True).start()
        return self

    def __exit__(self, *_):
        self.server.shutdown()
        self.server.server_close()

    @property
    def base(self):
        return f"http://127.0.0.1:{self.server.server_port}"

    def noted(self, since=0.0):
        """When and what was asked after a moment."""
        return [it for it in list(self.server.noted) if it[0] >= since]


class MadeUp:
    """A server of rows that no configuration has. `answer(path, query)` returns the object of a GET, or None for 404. What is changed is noted."""

    def __init__(self, answer, policy=0):
        self.answer, self.policy, self.seq, self.asked = answer, policy, 1, []

        class Answering(BaseHTTPRequestHandler):
            protocol_version = "HTTP/1.1"

            def do_GET(handler):
                path, _, query = handler.path.partition("?")
                found = self.answer([unquote(it) for it in path.split("/")[2 if path.startswith("/own/") else 3:]],
                    {name: it[0] for name, it in parse_qs(query).items()})
                handler.tell(404 if found is None else 200, {"detail": f"no such path {path}", "status": 404} if found is None else found)

            def do_POST(handler):
                text = handler.rfile.read(int(handler.headers.get("Content-Length", 0)))
                self.asked.append((handler.command, handler.path, json.loads(text or b"{}")))
                handler.tell(409, {"detail": "made up: nothing changes here", "status": 409})

            do_PATCH = do_DELETE = do_POST

            def tell(handler, status, found):
                data = json.dumps(found).encode()
                handler.send_response(status)
                for name, value in (("Content-Type", "application/json"), ("Content-Length", len(data)), ("X-Policy-Version", self.policy),
                    ("X-Plane-Seq", self.seq)):
                    handler.send_header(name, str(value))
                handler.end_headers()
                handler.wfile.write(data)

            def log_message(handler, *_):
                pass

        self.server = ThreadingHTTPServer(("127.0.0.1", 0), Answering)
        self.server.daemon_threads = True

    def __enter__(self):
        threading.Thread(target=self.server.serve_forever, daemon=True).start()
        return self

    def __exit__(self, *_):
        self.server.shutdown()
        self.server.server_close()

    @property
    def port(self):
        return self.server.server_port


def page_of(rows, name, query, total=None):
    """A page of a list, as the API cuts it; `rows` may be a function of a place."""
    offset, limit = int(query.get("offset", 0)), min(100, int(query.get("limit", 100)))
    total = len(rows) if total is None else total
    places = range(offset, min(offset + limit, total))
    return {name: [rows(it) if callable(rows) else rows[it] for it in places], "total_entries": total}
