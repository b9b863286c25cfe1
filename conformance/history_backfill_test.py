#!/usr/bin/env python3
"""Tests of history.py over backfills of two sessions that ask for the same range at once, and over what a wrong server can make of them.

  python3 conformance/history_backfill_test.py
"""
import json
import unittest

import with_model  # noqa: F401
from exchanges import Exchange
from history_server import Server
from worked_rows import listed, request

# The DAG `a` of the server runs every two seconds from 2024-01-01 on.
BACKFILL, RUNS, DAG = "POST /own/dags/a/backfills", "GET /dags/a/dagRuns", "GET /dags/a"
SECONDS = [f"2024-01-01T00:00:{n:02}+00:00" for n in range(0, 20, 2)]


def within(first, last):
    """The body of a backfill from one point to another, by their places."""
    return json.dumps({"start_date": SECONDS[first], "end_date": SECONDS[last]})


def run(place):
    """The row of the run of a point, which is written out."""
    date, end = SECONDS[place : place + 2]
    return (
        f'{{"dag_id":"a","dag_run_id":"backfill__{date}","data_interval_end":"{end}","data_interval_start":"{date}","end_date":null,'
        f'"logical_date":"{date}","run_type":"backfill","start_date":null,"state":"queued"}}'
    )


def answered(*places):
    return listed("dag_runs", len(places), *map(run, places)).encode()


def altered(exchange, body, seq=None):
    """An exchange with another body, and another number where one is given."""
    lines = exchange.answer.partition(b"\r\n\r\n")[0].split(b"\r\n")
    lines = [b"Content-Length: %d" % len(body) if it.startswith(b"Content-Length: ") else it for it in lines]
    lines = [b"X-Plane-Seq: %d" % seq if seq is not None and it.startswith(b"X-Plane-Seq: ") else it for it in lines]
    return Exchange(exchange.request, b"\r\n".join(lines) + b"\r\n\r\n" + body, exchange.sent, exchange.received)


class Backfills(unittest.TestCase):
    def setUp(self):
        self.server = Server(2)

    def ask(self, session, asked, body=""):
        self.server.ask(session, request("uma", asked, body))
        return self.server.sessions[session][-1]

    def both(self):
        """Two sessions ask for the same range: the first makes three runs, and the second finds them."""
        one, other = self.ask(0, BACKFILL, within(1, 3)), self.ask(1, BACKFILL, within(1, 3))
        self.assertTrue(one.answer.endswith(b"X-Plane-Seq: 1\r\n\r\n" + answered(1, 2, 3)), one.answer)
        self.assertTrue(other.answer.endswith(b"X-Plane-Seq: 1\r\n\r\n" + answered()), other.answer)
        return one, other

    def caught(self, *texts, rows=None):
        said = self.server.fault(rows)
        for it in texts:
            self.assertIn(it, said or "nothing is wrong")

    # ---- What is right ----

    def test_the_same_range_at_once(self):
        self.both()
        self.assertEqual([(it["event"], it["owner"], it["dag_id"], it["run_id"]) for it in self.server.plane.entries], [("backfill", "uma", "a", None)])
        self.assertIsNone(self.server.fault())

    def test_ranges_that_overlap(self):
        one, other = self.ask(0, BACKFILL, within(1, 3)), self.ask(1, BACKFILL, within(0, 5))
        self.assertTrue(one.answer.endswith(answered(1, 2, 3)) and other.answer.endswith(b"X-Plane-Seq: 2\r\n\r\n" + answered(0, 4, 5)), other.answer)
        self.assertIsNone(self.server.fault())

    def test_beside_the_scheduler(self):
        """What is backfilled before a tick comes to it is passed over by the tick, and the other way round."""
        self.both()
        self.server.plane.now += 9_000_000
        self.server.tick()
        self.assertEqual([it.run_type for it in self.server.plane.state.runs], ["backfill"] * 3 + ["scheduled"])
        self.assertTrue(self.ask(1, BACKFILL, within(0, 4)).answer.endswith(answered(4)))
        self.ask(0, RUNS)
        self.assertIsNone(self.server.fault())

    # ---- What is wrong ----

    def test_runs_that_are_made_twice(self):
        """Both are answered that they made the runs, under one number or under two."""
        one, other = self.both()
        self.server.sessions[1][0] = altered(other, answered(1, 2, 3))
        self.caught("session 1, request 1", "by the model")
        rows = self.server.rows()
        self.server.sessions[1][0] = altered(other, answered(1, 2, 3), 2)
        self.caught("session 1, request 1", "by the model", rows=[*rows, {**rows[0], "event_log_id": 2}])

    def test_an_entry_for_each_run(self):
        self.both()
        (row,) = self.server.rows()
        self.caught("entry 2 was made by no request", rows=[{**row, "event_log_id": n} for n in (1, 2, 3)])

    def test_an_entry_that_names_a_run(self):
        self.both()
        (row,) = self.server.rows()
        self.caught("its entry", rows=[{**row, "run_id": f"backfill__{SECONDS[1]}"}])

    def test_an_entry_for_no_run(self):
        one, other = self.both()
        (row,) = self.server.rows()
        self.server.sessions[1][0] = altered(other, answered(), 2)
        self.caught("session 1, request 1", rows=[row, {**row, "event_log_id": 2}])

    def test_other_points(self):
        """Without the end of the range, without its start, or counted from the start of the range."""
        one, _ = self.both()
        for body in (answered(1, 2), answered(2, 3), answered(1, 2, 3).replace(b"00:00:02+", b"00:00:03+")):
            self.server.sessions[0][0] = altered(one, body)
            self.caught("session 0, request 1", "by the model")

    def test_an_answer_that_is_a_page(self):
        one, _ = self.both()
        self.server.sessions[0][0] = altered(one, listed("dag_runs", 3, run(1)).encode())
        self.caught("session 0, request 1", "by the model")

    def test_runs_that_are_lost(self):
        """Of three runs that are answered the last is not there."""
        self.both()
        state = self.server.plane.state
        self.server.plane.state = type(state)(state.dags, state.runs[:2], state.pools, state.variables, state.next_run)
        self.ask(1, RUNS)
        self.caught("session 1, request 2, GET /api/v1/dags/a/dagRuns", '"total_entries":3')

    def test_a_cursor_that_moved(self):
        self.both()
        shown = self.ask(1, DAG)
        self.assertIn(b'"next_dagrun":"2024-01-01T00:00:00+00:00"', shown.answer)
        self.server.sessions[1][1] = altered(shown, shown.answer.partition(b"\r\n\r\n")[2].replace(b"00:00:00+", b"00:00:08+"))
        self.caught("session 1, request 2, GET /api/v1/dags/a", "by the model")


if __name__ == "__main__":
    unittest.main()
