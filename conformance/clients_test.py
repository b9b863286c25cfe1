#!/usr/bin/env python3
"""Tests of clients.py that need none of its clients, but the one of curl where it is there.

  python3 conformance/clients_test.py
"""
import os
import subprocess
import sys
import unittest
from unittest import mock

import with_model  # noqa: F401
import clients
import crowd_cases
import oracle
from blind_cases import TOP
from serving_test import BASE, STAND_IN, model
from stand_in import moment
from worked_rows import request


class Parts(unittest.TestCase):
    def test_requests_as_clients_spell_them(self):
        """What counts for the model is the same."""
        config = crowd_cases.config(moment())
        for guest in clients.plain(config, "1", 10):
            for data in guest.requests():
                it = clients.Wanted(data)
                plane, other = oracle.Plane(config), oracle.Plane(config)
                self.assertEqual(oracle.answers(other, clients.spelled(it, 80)), oracle.answers(plane, data))

    def test_answers_through_a_proxy(self):
        whole = model(request("vera", "GET /dags"))
        first, _, rest = whole.partition(b"\r\n")
        added = b"\r\n".join([first, b"Server: nginx", b"Date: Thu, 01 Jan 1970 00:00:00 GMT", b"Connection: keep-alive", rest])
        self.assertEqual(clients.unproxied(added), whole)
        self.assertEqual(clients.unproxied(whole), whole)
        for wrong in (whole[:-1] + b"x", whole.replace(b"X-Plane-Seq: 0", b"X-Plane-Seq: 1"), whole.replace(b" OK", b" Ok")):
            self.assertNotEqual(clients.unproxied(wrong), whole)

    def test_an_answer_put_together(self):
        fields = [(b"Content-Type", b"application/json"), (b"Content-Length", b"2")]
        self.assertEqual(clients.text_of(200, b"OK", fields, b"{}"), b"HTTP/1.1 200 OK\r\nContent-Type: application/json\r\nContent-Length: 2\r\n\r\n{}")

    def test_wrk_asks_for_what_does_not_change(self):
        plane = oracle.Plane(BASE)
        for name, asked in clients.FOR_WRK:
            self.assertEqual(oracle.answers(plane, request(name, asked))[0].count(b"HTTP/1.1 "), 1)
        self.assertEqual((plane.entries, plane.version()), ([], 0))


class Clients(unittest.TestCase):
    def test_curl(self):
        try:
            count, wrong = clients.tried("curl", STAND_IN)
        except clients.Absent as why:
            return self.assertEqual(str(why), "curl is not installed")
        self.assertEqual((count, wrong), (clients.COUNT, None))

    def test_none_of_them(self):
        with mock.patch.object(clients.shutil, "which", return_value=None):
            for name in ("curl", "nginx", "wrk"):
                self.assertRaisesRegex(clients.Absent, f"{name} is not installed", clients.tried, name, STAND_IN)
        words = [sys.executable, os.path.join(TOP, "conformance", "clients.py"), "--program", " ".join(STAND_IN), "--only", "none"]
        ran = subprocess.run(words, capture_output=True, text=True)
        self.assertEqual((ran.returncode, ran.stdout), (1, "0 passed, 0 failed\n"))


if __name__ == "__main__":
    unittest.main()
