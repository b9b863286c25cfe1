"""Replays of random connections that the oracle answers, and of some whose answers were altered.

  python3 model/replay_test.py
"""
import json
import random
import unittest

import test_tools  # noqa: F401
import mixed_cases
import oracle
import oracle_sched
import replay
import state_cases
from oracle_names import instant_of, isoformat
from oracle_table import having

NOW = instant_of("2024-01-01T00:00:00Z")
ENTRY = {"event_log_id": 1, "owner": "scheduler", "policy_version": 0, "dag_id": None, "run_id": None, "task_id": None, "when": isoformat(NOW)}


class Told:
    """An answer as the replay reads it; one of another body can be made of it."""

    def __init__(self, answer, **changes):
        for name in ("status", "version", "seq", "body"):
            setattr(self, name, changes.get(name, getattr(answer, name)))


def connection(rng):
    """A configuration, the exchanges of a random connection, and how many looks it ends in: some."""
    count = 0
    while not count:
        made, tokens = state_cases.config(rng, having("landed"))
        data, count = mixed_cases.Mixer(rng, made, tokens, NOW, having("landed")).with_looks()
    config = json.dumps(made).encode()
    out, _ = oracle.answers(oracle.Plane(config, NOW), data)
    return config, replay.exchanges(data, out), count


class Random(unittest.TestCase):
    def test_replays_give_what_stands(self):
        rng, entries, instances = random.Random(5), 0, 0
        for _ in range(30):
            config, found, count = connection(rng)
            self.assertIsNone(replay.fault(config, NOW, found, count))
            rows = replay.told_rows(found[len(found) - count :])
            entries += len(rows["/api/v1/eventLogs"])
            instances += sum(len(it) for path, it in rows.items() if path.endswith("taskInstances"))
        self.assertGreater(entries, 600)
        self.assertGreater(instances, 200)

    def altered(self, told, alter):
        """Each connection with the first answer of a target that begins so, and has rows, altered."""
        rng = random.Random(6)
        for _ in range(10):
            config, found, count = connection(rng)
            looks = range(len(found) - count, len(found))
            at = next((it for it in looks if found[it][0].target.startswith(told) and has_rows(found[it][1])), None)
            if at is None:
                continue
            body = json.loads(found[at][1].body)
            alter(next(it for it in body.values() if type(it) is list))
            found[at] = found[at][0], Told(found[at][1], body=json.dumps(body))
            yield replay.fault(config, NOW, found, count)

    def test_what_is_altered_differs(self):
        other = {"is_paused": lambda it: not it, "state": lambda it: "none", "occupied_slots": lambda it: it + 1, "value": lambda it: it + "x"}
        other.update({"when": lambda it: "2024-01-01T00:00:01+00:00", "owner": lambda it: "nobody", "event": lambda it: "patch_dag_run"})
        for told, name, part in (
            *[(b"/api/v1/dags?", "is_paused", "is_paused"), (b"/api/v1/dags/~/dagRuns", "state", "state"), (b"/api/v1/pools", "occupied_slots", "occupied_slots")],
            *[(b"/api/v1/variables", "value", "value"), (b"/api/v1/eventLogs", "owner", "owner")],
        ):

            def alter(rows):
                rows[-1][name] = other[name](rows[-1][name])

            seen = list(self.altered(told, alter))
            self.assertGreater(len(seen), 2, told)
            for it in seen:
                self.assertIn(part, it or "", told)

    def test_an_entry_that_is_gone_is_missed(self):
        for it in self.altered(b"/api/v1/eventLogs", lambda rows: rows.pop()):
            self.assertIn("the rows of all pages", it)

    def test_a_row_that_is_gone_is_missed(self):
        for it in self.altered(b"/api/v1/pools", lambda rows: rows.pop()):
            self.assertIn("/api/v1/pools: the rows of all pages", it)


def has_rows(answer):
    return any(type(it) is list and it for it in json.loads(answer.body).values())


class Unasked(unittest.TestCase):
    """Ticks and claims are done again at their moments, between the entries of requests."""

    def setUp(self):
        user = {"username": "u", "roles": [{"name": "Admin"}], "token_sha256": "0" * 64}
        dag = {"dag_id": "a", "schedule": "@daily", "start_date": "2023-12-31T00:00:00Z", "tasks": [{"task_id": "t"}]}
        self.config = json.dumps({"users": [user], "dags": [dag]}).encode()
        self.opening = oracle.Plane(self.config, NOW).state
        self.tick = {**ENTRY, "event": "tick"}
        self.claim = {**ENTRY, "event_log_id": 2, "event": "claim", "dag_id": "a", "run_id": "scheduled__2023-12-31T00:00:00+00:00", "task_id": "t"}

    def replayed(self, *entries):
        it = replay.Replay(self.config, NOW, list(entries))
        it.unasked(len(entries))
        return it.state

    def test_ticks_and_claims(self):
        ticked = oracle_sched.tick(self.opening, NOW)
        self.assertEqual(len(ticked.runs), 1)
        self.assertEqual(self.replayed(self.tick), ticked)
        self.assertEqual(self.replayed(self.tick, self.claim), oracle_sched.claim(ticked, NOW)[0])

    def test_what_differs(self):
        for entries in ([self.tick, {**self.tick, "event_log_id": 2}], [self.tick, {**self.claim, "task_id": "u"}], [self.claim], [{**self.tick, "event_log_id": 2}]):
            with self.assertRaises(replay.Differs):
                self.replayed(*entries)


if __name__ == "__main__":
    unittest.main()
