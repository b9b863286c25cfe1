#!/usr/bin/env python3
"""Tests of history.py over what a wrong server can do: an update that is lost, a stale read, a version that falls, and the like.

  python3 conformance/history_wrong_test.py
"""
import unittest

import with_model  # noqa: F401
from exchanges import Exchange
from history_server import LIST, TRIGGER, Server, run
from worked_rows import request

PAUSE = '{"is_paused":true}'
SEQ, VERSION = b"X-Plane-Seq", b"X-Policy-Version"


def numbered(exchange, name, number):
    """An exchange whose answer names another number or version."""
    head, _, body = exchange.answer.partition(b"\r\n\r\n")
    lines = [b"%s: %d" % (name, number) if it.startswith(name) else it for it in head.split(b"\r\n")]
    return Exchange(exchange.request, b"\r\n".join(lines) + b"\r\n\r\n" + body, exchange.sent, exchange.received)


class Wrong(unittest.TestCase):
    """Each history is a right one in which one thing was made wrong."""

    def caught(self, server, *texts, rows=None):
        said = server.fault(rows)
        for it in texts:
            self.assertIn(it, said or "nothing is wrong")

    def two_runs(self):
        server = Server(2)
        server.ask(0, request("uma", TRIGGER, run(1)))
        return server

    def test_a_lost_update(self):
        """The second run is counted, and gone with the next change: who lists the runs does not see it."""
        server = self.two_runs()
        before = server.plane.state
        server.ask(1, request("adam", TRIGGER, run(2)))
        server.plane.state = before
        server.ask(0, request("uma", LIST))
        self.caught(server, "session 0, request 2, GET /api/v1/dags/b/dagRuns", '"dag_run_id":"r2"')

    def test_a_stale_reading(self):
        """A reading that names the number of a change which it does not show; and one that names the number before, after the change was answered."""
        server = self.two_runs()
        old = server.ask(1, request("vera", LIST)).exchange
        server.ask(0, request("uma", TRIGGER, run(2)))
        server.ask(1, request("vera", LIST))
        self.assertIsNone(server.fault())
        good = server.sessions[1][1]
        server.sessions[1][1] = numbered(old, SEQ, 2)
        self.caught(server, "session 1, request 2", "by the model")
        server.sessions[1][1] = Exchange(old.request, old.answer, good.sent, good.received)
        self.caught(server, "session 1, request 2", "names number 1, and was sent after number 2 had been received", "session 0, request 2")
        server.sessions[1][1] = Exchange(old.request, old.answer)
        self.assertIsNone(server.fault())

    def test_a_version_that_falls(self):
        server = Server(2)
        server.ask(0, request("vera", "GET /own/me"))
        server.ask(1, request("adam", "PATCH /users/vera", '{"roles":[]}'))
        server.ask(0, request("vera", "GET /own/me"))
        server.ask(0, request("vera", "GET /own/me"), version=0)
        self.caught(server, "session 0, request 3", "names version 0, after version 1")
        server.sessions[0].pop()
        self.assertIsNone(server.fault())

    def test_a_version_that_falls_between_sessions(self):
        """On the plane, which all sessions share, no later number has an earlier version, though each session may have seen that alone."""
        server = Server(3)
        server.ask(1, request("adam", "PATCH /users/vera", '{"roles":[]}'))
        server.ask(2, request("adam", "GET /dags"))
        server.ask(1, request("adam", "PATCH /dags/b", PAUSE))
        server.ask(0, request("bob", "GET /dags"), version=0)
        self.caught(server, "session 0, request 1", "names version 0 at number 1")

    def test_a_number_that_falls(self):
        server = self.two_runs()
        server.ask(0, request("uma", LIST))
        server.sessions[0][1] = numbered(server.sessions[0][1], SEQ, 0)
        self.caught(server, "session 0, request 2", "names number 0, after number 1")

    def test_a_wrong_body(self):
        server = self.two_runs()
        exchange = server.sessions[0][0]
        server.sessions[0][0] = Exchange(exchange.request, exchange.answer.replace(b'"queued"', b'"failed"'))
        self.caught(server, "session 0, request 1, POST /api/v1/dags/b/dagRuns", '"failed"', "by the model")

    def test_a_number_that_is_made_twice(self):
        server = self.two_runs()
        server.ask(1, request("uma", TRIGGER, run(2)))
        server.sessions[1][0] = numbered(server.sessions[1][0], SEQ, 1)
        for rows in (server.rows()[:1], None):
            self.caught(server, "session 1, request 1, POST", "changes the state, and names number 1, which is made by session 0, request 1", rows=rows)

    def test_an_entry_that_nobody_made(self):
        server = self.two_runs()
        server.ask(1, request("uma", TRIGGER, run(2)))
        server.sessions[1].pop()
        self.caught(server, "entry 2 was made by no request", "came: none")

    def test_a_version_that_is_made_twice(self):
        server = Server(2)
        for place, name in enumerate(("bob", "vera")):
            server.ask(place, request("adam", f"PATCH /users/{name}", '{"roles":[]}'))
        server.sessions[1][0] = numbered(server.sessions[1][0], VERSION, 1)
        self.caught(server, "version 1 was made twice", "session 0, request 1", "session 1, request 1")

    def test_a_version_that_nobody_made(self):
        server = Server(1)
        server.ask(0, request("adam", "PATCH /users/bob", '{"roles":[]}'))
        server.sessions[0][0] = numbered(server.sessions[0][0], VERSION, 2)
        self.caught(server, "nobody made version 1", "session 0, request 1")
        server = Server(1)
        server.ask(0, request("adam", "GET /roles?limit=0"))
        server.sessions[0][0] = numbered(server.sessions[0][0], VERSION, 1)
        self.caught(server, "session 0, request 1", "names version 1, which nobody made")

    def test_numbers_past_the_event_logs(self):
        self.caught(self.two_runs(), "names number 1, and the event logs end with 0", rows=[])

    def test_who_made_an_entry_is_open(self):
        """Two are told the number of one change, which either can have made; or that which comes later in the history alone."""
        server = Server(3)
        for place in (1, 0):
            server.ask(place, request("uma", "PATCH /dags/b", PAUSE))
        self.assertIsNone(server.fault())
        clear = "POST /dags/b/clearTaskInstances"
        for n in (1, 2):
            server.ask(2, request("uma", TRIGGER, run(n)))
            server.ask(2, request("uma", f"PATCH /dags/b/dagRuns/r{n}", '{"state":"failed"}'))
        for place, more in ((1, ""), (0, ',"end_date":"2024-01-01T00:00:00Z"'), (2, ',"start_date":"2024-01-02T00:00:00Z"')):
            server.ask(place, request("uma", clear, f'{{"dry_run":false,"only_failed":false{more}}}'))
        self.assertEqual(len(server.plane.entries), 6)
        self.assertIsNone(server.fault())

    def test_a_change_that_the_policy_passed(self):
        server = Server(2)
        for place, version in ((0, 0), (1, 0), (1, 1)):
            server.ask(place, request("adam", "PATCH /users/bob", '{"roles":[]}'), version)
        self.assertIn(b"policy moved to version 1", server.sessions[1][0].answer)
        self.assertIsNone(server.fault())
        moved = server.sessions[1][0].answer
        server.sessions[0].append(Exchange(request("adam", "PATCH /users/bob", '{"roles":[]}'), moved))
        self.caught(server, "session 0, request 2", "under no version from 1 to 0 is the change done")
        server.sessions[0][1] = Exchange(request("bob", "PATCH /users/bob", '{"roles":[]}'), moved.replace(b"version 1", b"version 2"))
        self.caught(server, "session 0, request 2", "by the model")

    def test_the_last_request_of_a_connection(self):
        """The 1,000th closes; the same request before it does not."""
        server = Server(1)
        for _ in range(1000):
            server.ask(0, request("bob", "GET /dags"))
        self.caught(server, "session 0, request 1000", "Connection: close")
        last = server.sessions[0][-1]
        server.sessions[0][-1] = Exchange(last.request, last.answer.replace(b"\r\n\r\n", b"\r\nConnection: close\r\n\r\n", 1))
        self.assertIsNone(server.fault())

    def test_messages_that_are_refused(self):
        """They name no version; 404, 405 and the version of the server neither."""
        server = Server(1)
        texts = [request("bob", "GET /nosuch"), b"\r\n\n" + request("bob", "PUT /dags"), request("", "GET /version")]
        texts += [b"GET / HTTP/1.1\r\n\r\n", b"GET /api/v1/dags HTTP/1.1\r\nHo"]
        for it in texts:
            server.ask(0, it)
        self.assertEqual([it.answer[9:12] for it in server.sessions[0]], [b"404", b"405", b"200", b"400", b"400"])
        self.assertIsNone(server.fault())
        server.sessions[0][0] = Exchange(texts[0], server.sessions[0][1].answer)
        self.caught(server, "session 0, request 1")


if __name__ == "__main__":
    unittest.main()
