#!/usr/bin/env python3
"""Tests of tools/ui_server.py, without a browser: what it serves, what it passes on, and what it refuses. And the files of ui/: nothing in them reads markup, runs
text as code, or names another site.

  python3 conformance/ui_server_test.py
"""
import contextlib
import http.client
import json
import pathlib
import re
import select
import signal
import socket
import subprocess
import sys
import threading
import unittest
import unittest.mock
from http.server import BaseHTTPRequestHandler, HTTPServer

TOP = pathlib.Path(__file__).resolve().parents[1]
UI = TOP / "ui"
sys.path[:0] = [str(TOP / "tools")]
import ui_server  # noqa: E402

ORDER = {"Content-Security-Policy": ui_server.POLICY, "X-Content-Type-Options": "nosniff", "Referrer-Policy": "no-referrer",
    "Cross-Origin-Opener-Policy": "same-origin", "Cross-Origin-Resource-Policy": "same-origin"}


class Beyond(HTTPServer):
    """In the place of a server of afplane: it keeps each request, and answers as told."""

    def __init__(self):
        self.asked, self.answer = [], (200, [("Content-Type", "application/json"), ("X-Policy-Version", "7"), ("X-Plane-Seq", "41"), ("Set-Cookie", "a=b"),
            ("Server", "x")], b'{"a":1}')

        class Handler(BaseHTTPRequestHandler):
            protocol_version = "HTTP/1.1"

            def do_GET(handler):
                length = int(handler.headers.get("Content-Length", 0))
                self.asked.append((handler.command, handler.path, handler.headers.items(), handler.rfile.read(length)))
                status, fields, data = self.answer
                handler.send_response_only(status)
                for name, value in fields:
                    handler.send_header(name, value)
                if status != 204:
                    handler.send_header("Content-Length", str(len(data)))
                handler.end_headers()
                if handler.command != "HEAD":
                    handler.wfile.write(data)

            do_POST = do_PATCH = do_DELETE = do_PUT = do_HEAD = do_OPTIONS = do_GET

            def log_message(handler, *_):
                pass

        super().__init__(("127.0.0.1", 0), Handler)


class Case(unittest.TestCase):
    def setUp(self):
        self.beyond = Beyond()
        self.server = ui_server.Server(0, self.beyond.server_port)
        for it in (self.beyond, self.server):
            threading.Thread(target=it.serve_forever, daemon=True).start()
            self.addCleanup(it.server_close)
            self.addCleanup(it.shutdown)

    def ask(self, method, path, headers=(), body=None, host=None, connection=None):
        """Status, fields and body."""
        client = connection or http.client.HTTPConnection("127.0.0.1", self.server.server_port, timeout=20)
        with contextlib.nullcontext() if connection else contextlib.closing(client):
            client.putrequest(method, path, skip_host=True, skip_accept_encoding=True)
            for it in [f"127.0.0.1:{self.server.server_port}"] if host is None else host:
                client.putheader("Host", it)
            for name, value in headers:
                client.putheader(name, value)
            if body is not None:
                client.putheader("Content-Length", str(len(body)))
            client.endheaders(body)
            came = client.getresponse()
            return came.status, dict(came.getheaders()), came.read()


class Files(Case):
    def test_each_file_of_the_page(self):
        for path in sorted(UI.iterdir()):
            with self.subTest(path.name):
                status, fields, data = self.ask("GET", f"/{path.name}")
                self.assertEqual((status, data), (200, path.read_bytes()))
                self.assertEqual(fields["Content-Type"], ui_server.TYPES[path.suffix[1:]])
                self.assertEqual({it: fields[it] for it in ORDER}, ORDER)
                self.assertEqual(fields["Cache-Control"], "no-cache")
                self.assertEqual(self.ask("GET", f"/{path.name}", [("If-None-Match", fields["ETag"])])[::2], (304, b""))
        self.assertEqual(self.ask("GET", "/")[2], (UI / "index.html").read_bytes())
        self.assertEqual(self.ask("GET", "/?x#y")[0], 200)
        self.assertEqual(self.ask("HEAD", "/")[::2], (200, b""))

    def test_the_policy(self):
        """Each kind of content is refused but what is named: scripts, styles, images and requests of this origin."""
        rules = dict(it.split(" ", 1) for it in ui_server.POLICY.split("; "))
        self.assertEqual(rules, {"default-src": "'none'", "script-src": "'self'", "style-src": "'self'", "img-src": "'self'", "connect-src": "'self'",
            "base-uri": "'none'", "form-action": "'none'", "frame-ancestors": "'none'"})

    def test_nothing_else(self):
        for path in ("/../tools/ui_server.py", "/%2e%2e/afplane", "/..", "//etc/passwd", "/main.js/", "/ui/main.js", "/.gitignore", "/none.js", "/Main.js",
            "/main.js%00", "/api", "/own", "/apix", "/index.html.py"):
            with self.subTest(path):
                status, fields, data = self.ask("GET", path)
                self.assertEqual((status, json.loads(data)["detail"]), (404, "no such path"))
                self.assertEqual({it: fields[it] for it in ORDER}, ORDER)
        for method in ("POST", "PUT", "DELETE", "OPTIONS"):
            status, fields, _ = self.ask(method, "/main.js", body=b"x")
            self.assertEqual((status, fields["Allow"]), (405, "GET, HEAD"))
        self.assertEqual(self.beyond.asked, [])

    def test_other_names_of_this_machine(self):
        """A page of another site whose name leads here is refused, for the files and for the API."""
        port = self.server.server_port
        for hosts in (["evil.example"], [f"evil.example:{port}"], ["127.0.0.1.evil.example"], ["localhost.evil.example"], [], ["127.0.0.1", "evil.example"],
            ["[::1]"], [""], ["localhost:x"]):
            for path in ("/", "/api/v1/dags"):
                with self.subTest(hosts=hosts, path=path):
                    self.assertEqual(self.ask("GET", path, host=hosts)[0], 421)
        self.assertEqual(self.beyond.asked, [])
        for host in ("127.0.0.1", "localhost", f"LocalHost:{port}", "127.0.0.1:9"):
            self.assertEqual(self.ask("GET", "/", host=[host])[0], 200)


class PassedOn(Case):
    def test_request_and_response(self):
        for method, path, body in (("GET", "/api/v1/pools/a%2Fb%20c?limit=1&offset=%32", None), ("POST", "/api/v1/dags/b/dagRuns", b'{"a":1}'),
            ("PATCH", "/own/x", b""), ("DELETE", "/api/v1/pools/p", None)):
            with self.subTest(path):
                status, fields, data = self.ask(method, path,
                    [("Authorization", "Bearer caf\xc3\xa9 x"), ("Content-Type", "application/json"), ("Cookie", "c=d"), ("X-Forwarded-For", "1.2.3.4")], body)
                self.assertEqual((status, data), (200, b'{"a":1}'))
                self.assertEqual({it: fields.get(it) for it in ("Content-Type", "X-Policy-Version", "X-Plane-Seq", "Cache-Control", "Set-Cookie")},
                                 {"Content-Type": "application/json", "X-Policy-Version": "7", "X-Plane-Seq": "41", "Cache-Control": "no-store",
                                     "Set-Cookie": None})
                self.assertEqual({it: fields[it] for it in ORDER}, ORDER)
                asked = self.beyond.asked[-1]
                self.assertEqual((asked[0], asked[1], asked[3]), (method, path, body or b""))
                given = dict(asked[2])
                self.assertEqual(set(given), {"Host", "Connection", "Authorization", "Content-Type"} | ({"Content-Length"} if method != "GET" else set()))
                self.assertEqual((given["Authorization"], given["Connection"], given["Host"]),
                    ("Bearer caf\xc3\xa9 x", "close", f"127.0.0.1:{self.beyond.server_port}"))

    def test_refusals_come_as_they_are(self):
        for status, fields, data in ((401, [("WWW-Authenticate", "Bearer"), ("X-Policy-Version", "3")], b'{"status":401}'),
            (405, [("Allow", "GET, PATCH")], b"{}"), (204, [("X-Plane-Seq", "2")], b""), (503, [], b"{}")):
            self.beyond.answer = (status, fields, data)
            found, given, text = self.ask("POST", "/api/v1/pools", body=b"{}")
            self.assertEqual((found, text), (status, data))
            self.assertLessEqual(dict(fields).items(), given.items())
            self.assertEqual("Content-Length" in given, status != 204)

    def test_two_tokens_are_both_passed_on(self):
        self.ask("GET", "/api/v1/dags", [("Authorization", "Bearer a"), ("Authorization", "Bearer b")])
        self.assertEqual([value for name, value in self.beyond.asked[-1][2] if name == "Authorization"], ["Bearer a", "Bearer b"])

    def test_a_connection_for_many_requests(self):
        client = http.client.HTTPConnection("127.0.0.1", self.server.server_port, timeout=20)
        with contextlib.closing(client):
            for path in ("/", "/api/v1/dags", "/style.css", "/none", "/own/me"):
                self.ask("GET", path, connection=client)
                self.assertIsNotNone(client.sock)

    def test_bodies(self):
        self.assertEqual(self.ask("POST", "/api/v1/pools", body=b"x" * 65536)[0], 200)
        self.assertEqual(len(self.beyond.asked[-1][3]), 65536)
        count = len(self.beyond.asked)
        self.assertEqual(self.ask("POST", "/api/v1/pools", [("Content-Length", "65537")])[0], 413)
        for fields in ([("Transfer-Encoding", "chunked")], [("Content-Length", "1"), ("Content-Length", "2")], [("Content-Length", "-1")],
            [("Content-Length", "")], [("Content-Length", "1"), ("Transfer-Encoding", "x")]):
            self.assertEqual(self.ask("POST", "/api/v1/pools", fields)[0], 411)
        self.assertEqual(len(self.beyond.asked), count)

    def test_no_idle_connection_is_kept(self):
        """An idle connection would hold a worker: after a response the server beyond has none."""
        for _ in range(3):
            self.assertEqual(self.ask("GET", "/own/me")[0], 200)
        with open("/proc/net/tcp", encoding="ascii") as file:
            rows = [line.split() for line in file.readlines()[1:]]
        port = f":{self.beyond.server_port:04X}"
        self.assertEqual([it for it in rows if it[2].endswith(port) and it[3] == "01"], [])

    def test_no_server(self):
        with socket.create_server(("127.0.0.1", 0)) as free:
            self.server.beyond = free.getsockname()[1]
        status, fields, data = self.ask("GET", "/api/v1/dags")
        self.assertEqual((status, fields["Content-Type"]), (502, "application/problem+json"))
        self.assertEqual(json.loads(data), {"detail": f"no server of afplane answers on 127.0.0.1:{self.server.beyond}", "status": 502, "title": "Bad Gateway",
            "type": "about:blank"})
        self.assertFalse([it for it in fields if it in ("X-Policy-Version", "X-Plane-Seq")])

    def test_a_server_that_says_nothing(self):
        with socket.create_server(("127.0.0.1", 0)) as silent, unittest.mock.patch.object(ui_server, "ANSWER_SECONDS", 0.2):
            self.server.beyond = silent.getsockname()[1]
            self.assertEqual(self.ask("GET", "/own/me")[0], 504)

    def test_a_server_that_ends_in_the_middle(self):
        with socket.create_server(("127.0.0.1", 0)) as rude:
            def answer():
                with rude.accept()[0] as stream:
                    stream.recv(4096)
                    stream.sendall(b"HTTP/1.1 200 OK\r\nContent-Length: 10\r\n\r\nabc")
            threading.Thread(target=answer, daemon=True).start()
            self.server.beyond = rude.getsockname()[1]
            self.assertEqual(self.ask("GET", "/own/me")[0], 502)

    def test_what_is_no_request(self):
        for data in (b"nonsense\r\n\r\n", b"GET / HTTP/9.9\r\n\r\n", b"GET /\xc3\xa9 HTTP/1.1\r\nHost: localhost\r\n\r\n",
            b"GET /api/\xc3\xa9 HTTP/1.1\r\nHost: localhost\r\n\r\n", b"GET / HTTP/1.1\r\n" + b"a: b\r\n" * 200 + b"\r\n"):
            with socket.create_connection(("127.0.0.1", self.server.server_port), timeout=20) as stream:
                stream.sendall(data)
                stream.shutdown(socket.SHUT_WR)
                answer = b"".join(iter(lambda: stream.recv(4096), b""))
                self.assertRegex(answer[:12], rb"\AHTTP/1.1 [45]")


class Command(unittest.TestCase):
    """./afplane ui"""

    def begun(self, *words):
        process = subprocess.Popen([TOP / "afplane", "ui", *map(str, words)], stdin=subprocess.DEVNULL, stdout=subprocess.PIPE, stderr=subprocess.PIPE,
            universal_newlines=True)
        self.addCleanup(process.stdout.close)
        self.addCleanup(process.stderr.close)
        self.addCleanup(lambda: process.poll() is None and (process.kill(), process.wait()))
        return process

    def test_it_serves_until_it_is_ended(self):
        for number in (signal.SIGTERM, signal.SIGINT):
            with socket.create_server(("127.0.0.1", 0)) as beyond:
                process = self.begun(0, beyond.getsockname()[1])
                self.assertTrue(select.select([process.stdout], [], [], 30)[0])
                port = int(re.fullmatch(r"listening on 127\.0\.0\.1:(\d+)\n", process.stdout.readline())[1])
                with open("/proc/net/tcp", encoding="ascii") as file:
                    self.assertIn(f"0100007F:{port:04X}", [line.split()[1] for line in file.readlines()[1:] if line.split()[3] == "0A"])
                with contextlib.closing(http.client.HTTPConnection("127.0.0.1", port, timeout=20)) as client:
                    client.request("GET", "/")
                    self.assertEqual(client.getresponse().read(), (UI / "index.html").read_bytes())
                process.send_signal(number)
                self.assertEqual(process.wait(20), -number)
                self.assertEqual(process.stderr.read(), f"afplane: open http://127.0.0.1:{port}/ in a browser\n")

    def test_a_port_that_is_taken(self):
        with socket.create_server(("127.0.0.1", 0)) as taken:
            port = taken.getsockname()[1]
            process = self.begun(port, 1 if port != 1 else 2)
            out, err = process.communicate(timeout=20)
            self.assertEqual((process.returncode, out, err), (1, "", f"afplane: port {port} cannot be listened on: Address already in use\n"))

    def test_usage(self):
        for words, said in (((), "ui takes its own port and that of the server"), ((8081,), "ui takes"), ((8081, 8080, 1), "ui takes"),
            (("x", 8080), "PORT is a number from 0 to 65535, found 'x'"),
                            ((8081, 0), "SERVER-PORT is a number from 1 to 65535, found '0'"), ((8081, 65536), "SERVER-PORT is a number"), (("08081", 8081),
                                "PORT and SERVER-PORT are two ports")):
            with self.subTest(words):
                process = self.begun(*words)
                out, err = process.communicate(timeout=20)
                self.assertEqual((process.returncode, out), (2, ""))
                self.assertIn(f"afplane: {said}", err)

    def test_no_server_yet(self):
        with socket.create_server(("127.0.0.1", 0)) as free:
            port = free.getsockname()[1]
        process = self.begun(0, port)
        self.assertTrue(select.select([process.stderr], [], [], 30)[0])
        self.assertEqual(process.stderr.readline(),
            f"afplane: nothing answers on 127.0.0.1:{port} yet; to start a server: ./afplane model serve examples/demo.json {port} 4\n")


class Sources(unittest.TestCase):
    """What the modules of the page never do."""

    def test_they_do_not_read_markup_or_run_text(self):
        for path in UI.glob("*.js"):
            text = path.read_text(encoding="utf-8")
            for word in ("innerHTML", "outerHTML", "insertAdjacentHTML", "document.write", "DOMParser", "createContextualFragment", "eval(", "new Function",
                "localStorage", "sessionStorage", "indexedDB", "document.cookie", "postMessage", "import(", "console."):
                self.assertNotIn(word, text, path.name)
            self.assertEqual(re.findall(r"https?://(?!www\.w3\.org/2000/svg)", text), [], path.name)
            self.assertEqual([it for it in re.findall(r'from "([^"]+)"', text) if not re.fullmatch(r"\./[a-z_]+\.js", it) or not (UI / it).is_file()], [],
                path.name)
            self.assertLess(text.count("\n"), 300, path.name)

    def test_the_page_has_no_inline_code_or_style(self):
        text = (UI / "index.html").read_text(encoding="utf-8")
        self.assertEqual(re.findall(r"<script(?! type=\"module\" src=\"main.js\"></script>)|<style|\son\w+=|\sstyle=|https?://", text), [])
        self.assertEqual(re.findall(r"@import|url\((?!\"(?:icon|glyphs)\.svg\")|https?://", (UI / "style.css").read_text(encoding="utf-8")), [])

    def test_nginx_has_the_same_fields(self):
        text = (TOP / "examples/deploy/nginx.conf").read_text(encoding="utf-8")
        for name, value in ORDER.items():
            self.assertIn(f'add_header {name} "{value}" always;', text)


if __name__ == "__main__":
    sys.exit(unittest.main())
