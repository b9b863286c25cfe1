#!/usr/bin/env python3
"""Tests of how the built program listens: a port that is taken, and connections while the system is short of open files.

  python3 conformance/listening_test.py

The program is the one that AFPLANE_PROGRAM names, or crates/afplane/out/afplane. Where there is none, its tests are skipped.
"""
import os
import resource
import socket
import subprocess
import sys
import tempfile
import time
import unittest

import with_model  # noqa: F401
import oracle
from blind_cases import TOP
from serving import PROGRAM, Client, Serving
from worked_rows import request

BUILT = os.path.abspath(os.environ.get("AFPLANE_PROGRAM", PROGRAM))
STAND_IN = [sys.executable, os.path.join(TOP, "conformance", "stand_in.py")]
with open(os.path.join(TOP, "examples", "base.json"), "rb") as file:
    BASE = file.read()
LIST = request("vera", "GET /dags")
WORKERS, SECONDS = 4, 10


def needs_program(test):
    return unittest.skipUnless(os.access(BUILT, os.X_OK), "the program is not built")(test)


class TakenPort(unittest.TestCase):
    """A port on which another process listens already."""

    def check(self, program):
        with tempfile.NamedTemporaryFile(suffix=".json") as config, socket.create_server(("127.0.0.1", 0)) as other:
            config.write(BASE)
            config.flush()
            port = other.getsockname()[1]
            ran = subprocess.run([*program, "serve", config.name, str(port), "1"], stdin=subprocess.DEVNULL, capture_output=True, timeout=SECONDS)
        wanted = f"afplane: cannot listen on 127.0.0.1:{port}: the port is in use\n".encode()
        self.assertEqual((ran.returncode, ran.stdout, ran.stderr), (1, b"", wanted))

    @needs_program
    def test_the_program_says_so(self):
        self.check([BUILT])

    def test_the_stand_in_says_so(self):
        self.check(STAND_IN)


@needs_program
class FewOpenFiles(unittest.TestCase):
    """A process that may open no further file for a while."""

    def limit(self, server, most):
        hard = resource.prlimit(server.process.pid, resource.RLIMIT_NOFILE)[1]
        resource.prlimit(server.process.pid, resource.RLIMIT_NOFILE, (most, hard))

    def test_each_worker_goes_on(self):
        with Serving([BUILT], BASE, WORKERS) as server:
            soft = resource.prlimit(server.process.pid, resource.RLIMIT_NOFILE)[0]
            self.limit(server, server.open_files())
            # A worker that waits for a connection already has the number of the file that it will be: it takes one more.
            waiting, answered = [], 0
            while len(waiting) < WORKERS:
                stream = socket.create_connection(("127.0.0.1", server.port), timeout=SECONDS)
                stream.settimeout(0.5)
                stream.sendall(LIST)
                try:
                    self.assertEqual(stream.recv(12), b"HTTP/1.1 200")
                    stream.close()
                    answered += 1
                except TimeoutError:
                    waiting.append(stream)
                self.assertLessEqual(answered, WORKERS)
            self.assertTrue(server.runs())
            self.limit(server, soft)
            for stream in waiting:
                stream.settimeout(SECONDS)
                self.assertEqual(stream.recv(12), b"HTTP/1.1 200")
                stream.close()
            clients = [Client(server.port) for _ in range(WORKERS)]
            wanted = oracle.answers(oracle.Plane(BASE), LIST)[0]
            self.assertEqual([client.ask(LIST).answer for client in clients], [wanted] * WORKERS)
            for client in clients:
                client.finish()
            self.assertTrue(server.runs())


if __name__ == "__main__":
    unittest.main()
