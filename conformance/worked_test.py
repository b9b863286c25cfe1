#!/usr/bin/env python3
"""What the connections that were worked out by hand meet: a 400 of each member of each body of an operation on the state, and of each operation on a DAG a
denial at that DAG; and the form of a fault, written out. And that the model ends as each of them is to end; that it does so under fewer operations too is
oracle_test.py's to say.

  python3 conformance/worked_test.py
"""
import json
import tempfile
import unittest

import with_model  # noqa: F401
import oracle
import worked_calls
import worked_cases
import worked_messages
import worked_policies
from all_cases import played
from oracle_table import OPERATIONS, having, route
from worked_rows import answer, exchanges

# Each body of an operation on the state: its members, and those of which a text is parsed.
MEMBERS = {
    "patch_dag": ["is_paused"],
    "trigger_run": ["dag_run_id", "logical_date", "execution_date", "conf"],
    "backfill": ["start_date", "end_date"],
    "mark_run": ["state"],
    "clear_run": ["dry_run"],
    "clear_instances": ["dry_run", "only_failed", "task_ids", "dag_run_id", "start_date", "end_date"],
    "add_pool": ["name", "slots"],
    "set_pool": ["slots"],
    "add_variable": ["key", "value"],
    "set_variable": ["value"],
}
PARSED = {"dag_run_id", "logical_date", "execution_date", "state", "start_date", "end_date", "name", "key"}
READS, EDITS = "can_read", "can_edit"
ON_A_DAG = {
    **dict.fromkeys(["show_dag", "list_tasks", "list_runs", "show_run", "list_instances", "show_instance"], READS),
    **dict.fromkeys(["patch_dag", "trigger_run", "backfill", "mark_run", "delete_run", "clear_run", "clear_instances"], EDITS),
}


def steps():
    """For each step of the connections its operation, the parts of its path, its body and the bytes of its answer."""
    for _, _, _, _, steps_of in worked_cases.CONNECTIONS + worked_policies.CONNECTIONS:
        for (_, asked, body, *_), (_, wanted) in zip(steps_of, exchanges(steps_of)):
            method, path = asked.split(" ")
            path = (path if path.startswith("/own/") else "/api/v1" + path).partition("?")[0]
            operation, parts = route(path.encode(), method.encode(), having("all"))
            if operation:
                yield operation.name, parts, body, wanted


def detail_of(wanted):
    return json.loads(wanted.partition(b"\r\n\r\n")[2])["detail"]


class Played(unittest.TestCase):
    def test_by_the_model(self):
        """Connections, messages, configurations and words: the exit status, and each byte of both outputs."""
        with tempfile.TemporaryDirectory(prefix="afplane-worked-") as folder:
            for title, _, words, asked, wanted in played(folder):
                with self.subTest(title=title):
                    self.assertEqual(oracle.run(words, asked), wanted)

    def test_titles(self):
        """No two have the same one, and no two ask the same."""
        with tempfile.TemporaryDirectory(prefix="afplane-worked-") as folder:
            titles = [title for title, *_ in played(folder)]
        self.assertEqual(len(set(titles)), len(titles))
        self.assertEqual(len({asked for _, asked, *_ in worked_messages.CASES}), len(worked_messages.CASES))
        self.assertEqual(len({config for _, config, *_ in worked_calls.CONFIGURATIONS}), len(worked_calls.CONFIGURATIONS))

    def test_each_reason(self):
        """Each reason for which a configuration or a trace is refused, but that there is no memory for it."""
        lines = {it for *_, (_, _, it) in worked_calls.CONFIGURATIONS} | {it for _, (_, _, it) in worked_calls.WORDS}
        reasons = "unreadable syntax shape name duplicate role action pair admin pool graph schedule limit trace".split()
        self.assertEqual(sorted(lines - {b"", worked_calls.USAGE}), sorted(f"afplane: configuration refused: {it}\n".encode() for it in reasons))


class Worked(unittest.TestCase):
    def test_each_member_of_each_body(self):
        """By a value of a wrong kind, and by a text where one is parsed; the operations are all those on the state that read a body."""
        self.assertEqual(sorted(MEMBERS), sorted(it.name for it in OPERATIONS if it.body and not it.on_policy))
        kinds, texts = set(), set()
        for name, _, body, wanted in steps():
            if wanted.startswith(b"HTTP/1.1 400 ") and (detail := detail_of(wanted)).startswith("bad member: "):
                member = detail[len("bad member: ") :]
                value = json.loads(body).get(member)
                if value is not None:
                    (texts if type(value) is str else kinds).add((name, member))
        for operation, members in MEMBERS.items():
            for it in members:
                self.assertIn((operation, it), kinds)
                if it in PARSED:
                    self.assertIn((operation, it), texts)

    def test_each_body_that_is_no_object(self):
        seen = {name for name, _, _, wanted in steps() if wanted.startswith(b"HTTP/1.1 400 ") and detail_of(wanted) == "bad body"}
        self.assertEqual(sorted(it.name for it in OPERATIONS if it.body and it.name not in seen), [])

    def test_each_denial_at_a_dag(self):
        """At a DAG that is there and at one that is not; of each further requirement too."""
        denied = {(name, parts[0] if parts else None, detail_of(wanted)) for name, parts, _, wanted in steps() if wanted.startswith(b"HTTP/1.1 403 ")}
        for name, action in ON_A_DAG.items():
            for dag in ("a", "b", "gone"):
                self.assertIn((name, dag, f"missing permission DAG:{dag}.{action}"), denied)
        for operation in (it for it in OPERATIONS if it.name in ON_A_DAG and "{~}" not in it.path):
            for action, resource in operation.needs[1:]:
                self.assertIn((operation.name, "b", f"missing permission {resource}.{action}"), denied)

    def test_the_bytes_of_a_fault(self):
        wanted = (
            b"HTTP/1.1 400 Bad Request\r\nContent-Type: application/problem+json\r\nContent-Length: 93\r\nX-Policy-Version: 0\r\nX-Plane-Seq: 7\r\n\r\n"
            b'{"detail":"bad member: logical_date","status":400,"title":"Bad Request","type":"about:blank"}'
        )
        self.assertEqual(answer("POST /dags/b/dagRuns", 400, "bad member: logical_date", 0, 7), wanted)
        wanted = (
            b"HTTP/1.1 403 Forbidden\r\nContent-Type: application/problem+json\r\nContent-Length: 100\r\nX-Policy-Version: 2\r\nX-Plane-Seq: 0\r\n\r\n"
            b'{"detail":"missing permission DAG:b.can_edit","status":403,"title":"Forbidden","type":"about:blank"}'
        )
        self.assertEqual(answer("PATCH /dags/b", 403, "missing permission DAG:b.can_edit", 2, 0), wanted)


if __name__ == "__main__":
    unittest.main()
