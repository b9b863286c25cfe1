#!/usr/bin/env python3
"""Serves the page of ui/ on 127.0.0.1, and passes /api and /own on to a server of afplane on another port of 127.0.0.1.

    tools/ui_server.py PORT SERVER-PORT

PORT is 0 to 65535, where 0 picks a free one. Once it takes connections, it prints `listening on 127.0.0.1:PORT`. Only the files of ui/ are served, and only
under the names 127.0.0.1 and localhost. A request is passed on by a connection of its own, which is closed after the response: an idle one would hold a worker
of the server. The exit status is 1 if it cannot listen on PORT, and 2 after a usage error.
"""
import hashlib
import http.client
import json
import os
import re
import signal
import socket
import sys
import threading
from http.server import BaseHTTPRequestHandler, ThreadingHTTPServer

FOLDER = os.path.join(os.path.dirname(os.path.dirname(os.path.realpath(__file__))), "ui")
HOST = "127.0.0.1"
NAMES = ("127.0.0.1", "localhost")
FILE = re.compile(r"/(?:|[a-z][a-z_]*\.(?:html|css|js|svg))")
TYPES = {"html": "text/html; charset=utf-8", "css": "text/css; charset=utf-8", "js": "text/javascript; charset=utf-8", "svg": "image/svg+xml"}
POLICY = (
    "default-src 'none'; script-src 'self'; style-src 'self'; img-src 'self'; connect-src 'self'; "
    "base-uri 'none'; form-action 'none'; frame-ancestors 'none'"
)
# Of each response. nginx.conf of examples/deploy has the same.
SECURITY = (
    ("Content-Security-Policy", POLICY),
    ("X-Content-Type-Options", "nosniff"),
    ("Referrer-Policy", "no-referrer"),
    ("Cross-Origin-Opener-Policy", "same-origin"),
    ("Cross-Origin-Resource-Policy", "same-origin"),
)
PASSED = ("content-type", "allow", "www-authenticate")
# At most so many requests are with the server at a time: it may have four workers, and others want one too.
MOST_AT_A_TIME, MOST_BODY = 2, 65536
CONNECT_SECONDS, ANSWER_SECONDS, IDLE_SECONDS = 5, 30, 30
REASONS = {400: "Bad Request", 411: "Length Required", 413: "Content Too Large", 421: "Misdirected Request", 502: "Bad Gateway", 504: "Gateway Timeout"}


class Handler(BaseHTTPRequestHandler):
    """A connection of a browser."""

    protocol_version = "HTTP/1.1"
    timeout = IDLE_SECONDS
    server_version, sys_version = "afplane-ui", ""

    def handle_one_request(self):
        try:
            super().handle_one_request()
        except (ConnectionError, socket.timeout):
            self.close_connection = True

    def __getattr__(self, name):
        if name.startswith("do_"):
            return self.answer
        raise AttributeError(name)

    def log_message(self, *_):
        """Says nothing: a line for each request would hide what matters."""

    # ---- Which of the two ----

    def answer(self):
        path = self.path.partition("?")[0]
        if not self.is_named():
            return self.refuse(421, "this server answers for the names 127.0.0.1 and localhost alone")
        if path.startswith(("/api/", "/own/")):
            return self.pass_on()
        if self.headers.get("Content-Length", "0") != "0" or "Transfer-Encoding" in self.headers:
            self.close_connection = True
        if not FILE.fullmatch(path):
            return self.refuse(404, "no such path")
        if self.command not in ("GET", "HEAD"):
            return self.refuse(405, "method not allowed", ("Allow", "GET, HEAD"))
        return self.file(path[1:] or "index.html")

    def is_named(self):
        """Whether the request names this machine: the page of another site whose name leads here does not."""
        hosts = self.headers.get_all("Host", [])
        return len(hosts) == 1 and re.sub(r":[0-9]+$", "", hosts[0].strip().lower()) in NAMES

    # ---- A file of the page ----

    def file(self, name):
        try:
            with open(os.path.join(self.server.folder, name), "rb") as file:
                data = file.read()
        except OSError:
            return self.refuse(404, "no such path")
        tag = f'"{hashlib.sha256(data).hexdigest()[:32]}"'
        fields = [("Cache-Control", "no-cache"), ("ETag", tag)]
        if self.headers.get("If-None-Match") == tag:
            return self.respond(304, "Not Modified", fields, None)
        return self.respond(200, "OK", [("Content-Type", TYPES[name.rpartition(".")[2]]), *fields], data)

    # ---- A request of the API ----

    def pass_on(self):
        body = self.body()
        if body is None:
            return None
        if not self.path.isascii():
            return self.refuse(400, "bad request head")
        try:
            with self.server.turns:
                status, reason, fields, data = self.asked(body)
        except socket.timeout:
            return self.refuse(504, f"the server on {HOST}:{self.server.beyond} gave no response within {ANSWER_SECONDS} seconds")
        except (OSError, http.client.HTTPException):
            return self.refuse(502, f"no server of afplane answers on {HOST}:{self.server.beyond}")
        return self.respond(status, reason, [*fields, ("Cache-Control", "no-store")], None if status == 204 else data)

    def body(self):
        """The body of the request, or None if it was refused."""
        length = self.headers.get_all("Content-Length", ["0"])
        if "Transfer-Encoding" in self.headers or len(length) > 1 or not re.fullmatch("[0-9]{1,18}", length[0]):
            self.close_connection = True
            self.refuse(411, "a body needs one Content-Length, and no Transfer-Encoding")
            return None
        if int(length[0]) > MOST_BODY:
            self.close_connection = True
            self.refuse(413, "body too large")
            return None
        return self.rfile.read(int(length[0]))

    def asked(self, body):
        """Status, reason, fields and body of the server's response."""
        connection = http.client.HTTPConnection(HOST, self.server.beyond, timeout=CONNECT_SECONDS)
        try:
            connection.connect()
            connection.sock.settimeout(ANSWER_SECONDS)
            connection.putrequest(self.command, self.path, skip_host=True, skip_accept_encoding=True)
            connection.putheader("Host", f"{HOST}:{self.server.beyond}")
            connection.putheader("Connection", "close")
            for name in ("Authorization", "Content-Type", "Accept"):
                for value in self.headers.get_all(name, []):
                    connection.putheader(name, value)
            if body or self.command not in ("GET", "HEAD"):
                connection.putheader("Content-Length", str(len(body)))
            connection.endheaders(body or None)
            came = connection.getresponse()
            fields = [(name, value) for name, value in came.getheaders() if name.lower() in PASSED or name.lower().startswith("x-")]
            data = came.read()
            if self.command == "HEAD":
                fields += [("Content-Length", value) for value in came.headers.get_all("Content-Length", [])]
            return came.status, came.reason, fields, data
        finally:
            connection.close()

    # ---- Responses ----

    def refuse(self, status, detail, *fields):
        title = REASONS.get(status) or self.responses[status][0]
        text = json.dumps({"detail": detail, "status": status, "title": title, "type": "about:blank"}, separators=(",", ":"))
        named = [("Content-Type", "application/problem+json"), ("Cache-Control", "no-store"), *fields]
        self.respond(status, title, named, text.encode())

    def send_error(self, code, message=None, explain=None):
        """What the library refuses by itself, such as a head that is no head."""
        # (without a version in its first line the library takes it for HTTP/0.9, and would write no head)
        self.close_connection, self.request_version = True, self.protocol_version
        self.refuse(code, message or "bad request head")

    def respond(self, status, reason, fields, data):
        """Writes a response; no data: one that has no body."""
        self.send_response(status, reason)
        for name, value in [*fields, *SECURITY]:
            self.send_header(name, value)
        if data is not None and "Content-Length" not in dict(fields):
            self.send_header("Content-Length", str(len(data)))
        if self.close_connection:
            self.send_header("Connection", "close")
        self.end_headers()
        if data and self.command != "HEAD":
            self.wfile.write(data)


class Server(ThreadingHTTPServer):
    """Listens on 127.0.0.1; `beyond` is the port of the server of afplane."""

    daemon_threads = True
    request_queue_size = 64

    def __init__(self, port, beyond, folder=FOLDER, handler=Handler):
        self.beyond, self.folder, self.turns = beyond, folder, threading.BoundedSemaphore(MOST_AT_A_TIME)
        super().__init__((HOST, port), handler)

    def server_bind(self):
        # (the library's own looks up the name of the machine, which may wait for a network)
        self.socket.setsockopt(socket.SOL_SOCKET, socket.SO_REUSEADDR, 1)
        self.socket.bind(self.server_address)
        self.server_address = self.socket.getsockname()
        self.server_name, self.server_port = self.server_address

    def handle_error(self, request, client_address):
        """A browser that goes away is none; anything else is said."""
        if not isinstance(sys.exc_info()[1], (ConnectionError, socket.timeout)):
            super().handle_error(request, client_address)


def say(text):
    print(f"afplane: {text}", file=sys.stderr, flush=True)


def answers_on(port):
    try:
        socket.create_connection((HOST, port), timeout=1).close()
    except OSError:
        return False
    return True


def is_port(word, least):
    return re.fullmatch("0*[0-9]{1,5}", word) is not None and least <= int(word) <= 65535


def main(words):
    if len(words) != 2 or not is_port(words[0], 0) or not is_port(words[1], 1) or int(words[0]) == int(words[1]):
        print(__doc__.strip(), file=sys.stderr)
        return 2
    for it in (signal.SIGINT, signal.SIGTERM):
        signal.signal(it, signal.SIG_DFL)
    port, beyond = map(int, words)
    try:
        server = Server(port, beyond)
    except OSError as why:
        say(f"port {port} cannot be listened on: {os.strerror(why.errno) if why.errno else why}")
        return 1
    if not answers_on(beyond):
        say(f"nothing answers on {HOST}:{beyond} yet; to start a server: ./afplane model serve examples/demo.json {beyond} 4")
    say(f"open http://{HOST}:{server.server_port}/ in a browser")
    print(f"listening on {HOST}:{server.server_port}", flush=True)
    server.serve_forever()
    return 0


if __name__ == "__main__":
    sys.exit(main(sys.argv[1:]))
