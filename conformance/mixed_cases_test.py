"""What the random connections of mixed_cases.py meet: each operation, and each fault of the policy, the state and the limits.

  python3 conformance/mixed_cases_test.py
"""
import collections
import json
import random
import unittest

import with_model  # noqa: F401
import mixed_cases
import oracle
import state_cases
from oracle_names import instant_of
from oracle_table import OPERATIONS, having, route
from oracle_verdict import decide, permitted

FAULTS = [
    *["bad body", "bad action", "pair not allowed", "unknown role", "bad parameter", "authentication required", "missing permission"],
    *[f"bad member: {it}" for it in ("name", "actions", "username", "roles", "token_sha256", "access_control", "is_paused", "state", "dag_run_id", "start_date", "end_date", "slots", "value")],
    *[f"no such {it}" for it in ("path", "dag", "run", "task", "pool", "variable", "role", "user")],
    *["exists", "run exists", "date taken", "no schedule", "too many", "default pool", "pool in use", "default role", "role in use", "last admin", "history full", "versions full"],
]


class Watched:
    """Counts what each decided request was answered."""

    def __init__(self):
        self.done, self.faults, self.shown, self.by_runs = collections.Counter(), collections.Counter(), collections.Counter(), collections.Counter()

    def decide(self, plane, method, target, token, body):
        operation, parts = route(target.partition(b"?")[0], method, plane.has)
        granted = permitted(plane, operation, parts, token)[1] if operation else None
        status, told, fields = decide(plane, method, target, token, body)
        if status[:1] == "2" and any(resource == "DAG Runs" and (action, resource) not in granted for action, resource in getattr(operation, "needs", ())):
            self.by_runs["all" if "{~}" in operation.path else operation.name] += 1
        if operation and status[:1] == "2":
            self.done[operation.name] += 1
            self.shown[operation.name] += len(told.get("event_logs", ())) if told else 0
        if status[:1] != "2":
            detail = told["detail"]
            self.faults[detail if detail.startswith("bad member: ") else detail.partition(":")[0]] += 1
            self.faults["missing permission"] += detail.startswith("missing permission ")
        return status, told, fields


class Mixed(unittest.TestCase):
    def test_what_is_met(self):
        rng, has, watched = random.Random(11), having("landed"), Watched()
        before, mixed_cases.decide = mixed_cases.decide, watched.decide
        try:
            for _ in range(60):
                made, tokens = state_cases.config(rng, has)
                mixer = mixed_cases.Mixer(rng, made, tokens, instant_of("2024-01-01T00:00:00Z"), has)
                for _ in range(120):
                    mixer.request()
        finally:
            mixed_cases.decide = before
        for it in OPERATIONS:
            self.assertGreater(watched.done[it.name], 0, it.name)
        for it in FAULTS:
            self.assertGreater(watched.faults[it], 0, it)
        self.assertGreater(watched.shown["list_entries"], 100)
        for it in ("all", "list_runs", "trigger_run", "show_run", "mark_run", "delete_run", "clear_run"):
            self.assertGreater(watched.by_runs[it], 0, f"{it}, by the runs of one DAG")

    def test_the_plane_beside(self):
        """The plane by which a connection is made ends as one that is asked the connection's bytes."""
        rng, has, now = random.Random(12), having("landed"), instant_of("2024-01-01T00:00:00Z")
        for _ in range(10):
            made, tokens = state_cases.config(rng, has)
            mixer = mixed_cases.Mixer(rng, made, tokens, now, has)
            data = b"".join(mixer.request() for _ in range(100))
            plane = oracle.Plane(json.dumps(made).encode(), now, has)
            _, closed = oracle.answers(plane, data)
            self.assertTrue(closed)
            self.assertEqual((plane.versions, plane.entries, plane.state), (mixer.plane.versions, mixer.plane.entries, mixer.plane.state))


if __name__ == "__main__":
    unittest.main()
