#!/usr/bin/env python3
"""Tests of serving.py, and of the server that stands in for the program: its answers, limits of time and ends.

  python3 conformance/serving_test.py
"""
import os
import socket
import sys
import tempfile
import time
import unittest

import with_model  # noqa: F401
import oracle
from blind_cases import TOP
from serving import Broken, Client, Serving, answer_end
from stand_in import StandIn
from worked_rows import request

STAND_IN = [sys.executable, os.path.join(TOP, "conformance", "stand_in.py")]
with open(os.path.join(TOP, "examples", "base.json"), "rb") as file:
    BASE = file.read()
LIST, PATIENCE = request("vera", "GET /dags"), 0.4


def model(data):
    return oracle.answers(oracle.Plane(BASE), data)[0]


class Program(unittest.TestCase):
    """A program that is started, and its end."""

    def test_the_life_of_a_server(self):
        with Serving(STAND_IN, BASE, 2) as server:
            self.assertTrue(server.runs())
            with Client(server.port) as client:
                found = client.ask(LIST)
                self.assertEqual(found.answer, model(LIST))
                self.assertLess(found.sent, found.received)
                before = server.open_files()
                with Client(server.port) as other:
                    other.ask(LIST)
                    self.assertEqual(server.open_files(), before + 1)
                self.assertGreater(server.memory(), 1 << 20)
                client.finish()
        self.assertEqual((server.fault(), server.runs(), server.said), (None, False, b""))

    def script(self, text):
        kept = tempfile.NamedTemporaryFile("w", suffix=".py")
        self.addCleanup(kept.close)
        kept.write(text)
        kept.flush()
        return [sys.executable, kept.name]

    def test_servers_that_do_not_start(self):
        late = "import time\ntime.sleep(60)\n"
        for text, said, start in (("", "b''", 60), ("print('listening on 127.0.0.1:0')", ":0", 60), ("import sys\nsys.exit('no port')", "no port", 60), (late, "b''", 0.5)):
            with self.assertRaisesRegex(Broken, said), Serving(self.script(text), BASE, 1, start):
                pass

    def test_servers_that_listen_elsewhere(self):
        text = "import socket, time\nat = socket.create_server((%r, 0))\nprint('listening on 127.0.0.1:%%d' %% at.getsockname()[1], flush=True)\ntime.sleep(60)"
        for address, told in (("127.0.0.1", None), ("0.0.0.0", "listens at \\['00000000'\\]"), ("127.0.0.2", "listens at \\['0200007F'\\]")):
            with Serving(self.script(text % address), BASE, 1) as server:
                found = server.elsewhere()
            self.assertEqual(found, None) if told is None else self.assertRegex(found, told)
        with Serving(self.script("import time\nprint('listening on 127.0.0.1:1', flush=True)\ntime.sleep(60)"), BASE, 1) as server:
            self.assertRegex(server.elsewhere(), r"listens at \[\]")

    def test_servers_that_end_badly(self):
        with Serving(self.script("import time\nprint('listening on 127.0.0.1:1\\nmore', flush=True)\ntime.sleep(60)"), BASE, 1) as server:
            pass
        self.assertIn("it printed more than where it listens: b'more", server.fault())
        with Serving(self.script("import sys\nprint('listening on 127.0.0.1:1', flush=True)\nsys.exit(3)"), BASE, 1) as server:
            server.process.wait(60)
        self.assertIn("status 3", server.fault())


class Connections(unittest.TestCase):
    def test_many_requests_in_one_write(self):
        """The 1,000th closes; what stands behind it is not answered, and the answers before it arrive all the same."""
        with StandIn(BASE, patience=60).listens(2) as port, Client(port) as client, Client(port) as other:
            found = client.ask_all([LIST] * 1200)
            self.assertTrue(client.is_closed)
            self.assertEqual(b"".join(it.answer for it in found), model(LIST * 1000))
            head, refused = b"HEAD" + LIST[3:], b"GET / HTTP/1.1\r\n\r\n"
            found = other.ask_all([head, LIST, b"\r\n" + LIST, refused, LIST])
            self.assertEqual([it.answer[9:12] for it in found], [b"405", b"200", b"200", b"400"])

    def test_a_peer_that_is_slow_or_silent(self):
        """It is ended when its time is over, however its bytes trickle; so the only worker takes the next one."""
        for pieces in ([], [LIST[:30]], [LIST[:9], LIST[9:18], LIST[18:27]]):
            began = time.monotonic()
            with StandIn(BASE, patience=PATIENCE).listens(1) as port, socket.create_connection(("127.0.0.1", port)) as silent, Client(port) as client:
                for it in pieces:
                    silent.sendall(it)
                    time.sleep(PATIENCE / 4)
                self.assertEqual(client.ask(LIST).answer, model(LIST))
                self.assertEqual(silent.recv(1), b"")
            self.assertGreater(time.monotonic() - began, PATIENCE * 0.9)

    def test_what_is_cut_off(self):
        for data in (LIST + LIST[:20], LIST + b"\r", LIST[:-1], b""):
            with StandIn(BASE, patience=60).listens(1) as port, socket.create_connection(("127.0.0.1", port)) as stream:
                stream.sendall(data)
                stream.shutdown(socket.SHUT_WR)
                self.assertEqual(b"".join(iter(lambda: stream.recv(65536), b"")), model(data))

    def test_a_server_that_says_too_much_or_too_little(self):
        whole = model(LIST)
        for answer, said in ((whole[:-1], "before a whole answer"), (b"", "before a whole answer"), (whole + b"x", "after the last answer")):
            with socket.create_server(("127.0.0.1", 0)) as listener, Client(listener.getsockname()[1]) as client:
                stream, _ = listener.accept()
                with stream:
                    stream.sendall(answer)
                with self.assertRaisesRegex(Broken, said):
                    client.ask(LIST)
                    client.finish()

    def test_where_answers_end(self):
        whole = model(LIST)
        self.assertEqual([answer_end(whole[:it]) for it in (0, 30, len(whole) - 1)], [None] * 3)
        self.assertEqual(answer_end(whole + whole), len(whole))
        self.assertEqual(answer_end(whole, bare=True), whole.index(b"\r\n\r\n") + 4)
        self.assertEqual(answer_end(b"HTTP/1.1 204 No Content\r\n\r\nHTTP"), 27)


if __name__ == "__main__":
    unittest.main()
