#!/usr/bin/env python3
"""Tests of history.py over histories that the reference model answers, and over some in which an answer or an entry was altered.

  python3 conformance/history_test.py
"""
import random
import unittest

import with_model  # noqa: F401
from exchanges import Differs, Exchange, rows_of_pages
from history_server import LIST, TRIGGER, Server, random_history, run
from worked_rows import listed, request


class Random(unittest.TestCase):
    def test_right_histories(self):
        """They meet every kind of entry, denials, versions and changes that were passed."""
        events, statuses, versions = set(), set(), 0
        for seed in range(20):
            it = random_history(random.Random(seed), 250)
            self.assertIsNone(it.fault(), seed)
            events |= {entry["event"] for entry in it.plane.entries}
            statuses |= {(exchange.answer[9:12], b"policy moved" in exchange.answer) for session in it.sessions for exchange in session}
            versions += it.plane.version()
        self.assertGreater(versions, 100)
        self.assertEqual(len(events), 16)
        for status in (b"200", b"204", b"400", b"401", b"403", b"404", b"405", b"409"):
            self.assertIn((status, False), statuses)
        self.assertIn((b"409", True), statuses)

    def test_one_answer_that_is_altered(self):
        """A byte of the body, the status, or the body of another answer: each is caught, and the request is named."""
        for seed in range(40):
            rng = random.Random(f"altered {seed}")
            it = random_history(rng, 60)
            place = rng.randrange(len(it.sessions))
            turn = rng.randrange(len(it.sessions[place])) if it.sessions[place] else None
            if turn is None:
                continue
            exchange = it.sessions[place][turn]
            head, empty, body = exchange.answer.partition(b"\r\n\r\n")
            at = rng.randrange(max(1, len(body)))
            altered = rng.choice([
                head + empty + (body[:at] + bytes([body[at] ^ 1]) + body[at + 1 :] if body else b"x"),
                head.replace(head[9:12], b"%d" % (int(head[9:12]) + 1)) + empty + body,
                head + empty + body + b"\n",
            ])  # fmt: skip
            it.sessions[place][turn] = Exchange(exchange.request, altered)
            said = it.fault()
            self.assertIsNotNone(said, seed)
            self.assertIn("session", said)

    def test_entries_that_are_altered(self):
        other = dict.fromkeys(["owner", "dag_id", "run_id", "task_id"], "zz")
        other.update({"event": "patch_dag", "policy_version": 99, "event_log_id": 0, "when": "1999"})
        for name, value in other.items():
            it = random_history(random.Random(name), 60)
            rows = it.rows()
            row = rows[len(rows) // 2]
            if row[name] == value:
                continue
            row[name] = value
            self.assertIsNotNone(it.fault(rows), name)
        self.assertIsNotNone(it.fault(it.rows()[:-1]))
        self.assertIsNotNone(it.fault(it.rows() + it.rows()[-1:]))


class Executor(unittest.TestCase):
    """Ticks, claims and reports, of which the entries alone are known."""

    def begun(self):
        server = Server(1)
        server.ask(0, request("uma", TRIGGER, run(1)))
        server.ask(0, request("uma", TRIGGER, run(2)))
        server.tick()
        return server

    def test_what_is_right(self):
        server = self.begun()
        server.claim(), server.report(), server.tick(), server.claim(), server.report()
        server.ask(0, request("uma", f"{LIST}/r1/taskInstances"))
        self.assertEqual([it["event"] for it in server.plane.entries[2:]], ["tick", "claim", "report", "tick", "claim", "report"])
        self.assertIn(b'"skipped"', server.sessions[0][-1].answer)
        self.assertIsNone(server.fault())

    def test_a_report_that_is_refused(self):
        """A run that is cleared while its task runs: the claim is never reported, and the next one comes."""
        server = self.begun()
        server.claim()
        server.ask(0, request("uma", "POST /dags/b/dagRuns/r1/clear", '{"dry_run":false}'))
        server.report(), server.tick(), server.claim()
        self.assertEqual([it["event"] for it in server.plane.entries[3:]], ["claim", "clear_dag_run", "tick", "claim"])
        self.assertIsNone(server.fault())

    def test_a_claim_that_is_not_reported(self):
        server = self.begun()
        server.claim()
        server.claimed = None
        server.ask(0, request("adam", "PATCH /pools/p", '{"slots":2}'))
        server.tick()
        self.assertIn("entry 6, tick: the claim before it was not reported: ('b', 'r1', 't')", server.fault())

    def test_another_outcome_than_the_script(self):
        """It shows as soon as somebody looks."""
        server = self.begun()
        server.claim(), server.report("failed")
        self.assertIsNone(server.fault())
        server.ask(0, request("uma", f"{LIST}/r1/taskInstances"))
        self.assertIn("session 0, request 3", server.fault())

    def test_entries_of_nothing(self):
        """A tick that changes nothing, a claim out of turn, a report without a claim, and an entry under another version than the last one before it."""
        server = self.begun()
        rows = server.rows()
        entry = {**rows[-1], "event_log_id": 4}
        of_task = {**entry, "owner": "executor", "dag_id": "b", "run_id": "r1", "task_id": "t"}
        for row, text in (
            (entry, "by the model it changes nothing"),
            ({**of_task, "event": "claim", "run_id": "r2"}, "its entry"),
            ({**of_task, "event": "report"}, "there is no claim before it"),
            ({**of_task, "event": "claim", "policy_version": 1}, "its entry"),
            ({**of_task, "event": "claim", "owner": "scheduler"}, "its entry"),
        ):
            self.assertIn(text, server.fault([*rows, row]))
        self.assertIsNone(server.fault([*rows, {**of_task, "event": "claim"}]))

    def test_pages(self):
        one, two = listed("event_logs", 2, '{"a":1}'), listed("event_logs", 2, '{"a":2}')
        self.assertEqual(rows_of_pages([one, two]), [{"a": 1}, {"a": 2}])
        self.assertRaises(Differs, rows_of_pages, [one])


if __name__ == "__main__":
    unittest.main()
