"""Configurations that are refused, and with which word; what `access_control` comes to; limits and full lists.

  python3 model/oracle_config_test.py
"""
import hashlib
import json
import unittest

from test_tools import NOW, one_answer, opened
import oracle
from oracle_table import having
from worked_rows import ADMIN, VIEWER, request, role_row

ONE = {"tasks": [{"task_id": "t"}]}


class Refused(unittest.TestCase):
    def refused(self, *cases):
        """A DAG with these members, and a configuration with these besides, are refused with this word."""
        user = {"username": "u", "roles": [{"name": "Admin"}], "token_sha256": "0" * 64}
        for reason, dag, more in cases:
            with self.subTest(reason=reason, dag=dag, more=more), self.assertRaises(oracle.Refused) as why:
                oracle.Plane(json.dumps({"users": [user], "dags": [{"dag_id": "a", **dag}], **more}).encode(), has=having("all"))
            self.assertEqual(why.exception.args[0], reason)

    def test_members(self):
        cycle = {"tasks": [{"task_id": "x", "upstream": ["y"]}, {"task_id": "y", "upstream": ["x"]}]}
        self.refused(
            ("graph", cycle, {}),
            ("graph", {}, {}),
            ("pool", {"tasks": [{"task_id": "t", "pool": "p"}]}, {}),
            ("schedule", {**ONE, "schedule": "@daily"}, {}),
            ("schedule", {**ONE, "schedule": "@yearly", "start_date": NOW}, {}),
            ("limit", {**ONE, "schedule": 0, "start_date": NOW}, {}),
            ("shape", {**ONE, "schedule": 1.5, "start_date": NOW}, {}),
            ("duplicate", ONE, {"variables": [{"key": "k", "value": ""}] * 2}),
            ("name", ONE, {"variables": [{"key": "", "value": 1}]}),
            ("shape", ONE, {"variables": [{"key": "k", "value": 1}]}),
            ("shape", ONE, {"variables": {}}),
            ("shape", ONE, {"variables": ["k"]}),
            ("shape", ONE, {"variables": [{"key": "k"}]}),
            ("name", ONE, {"variables": [{"key": "k" * 251, "value": ""}]}),
            ("name", {}, {"variables": [{"key": "\u00e9", "value": ""}]}),
            ("duplicate", ONE, {"pools": [{"name": "p", "slots": 1}] * 2, "variables": 1}),
            ("limit", ONE, {"history_limit": 0}),
            ("limit", ONE, {"history_limit": 2**32 - 1}),
            ("limit", ONE, {"version_limit": 2**32}),
            ("limit", ONE, {"version_limit": 0}),
            ("shape", ONE, {"history_limit": 1.0}),
            ("shape", ONE, {"history_limit": True, "version_limit": 0}),
            ("limit", ONE, {"history_limit": -1, "version_limit": "1"}),
            ("graph", {}, {"history_limit": 0}),
            ("admin", ONE, {"users": []}),
        )

    def test_access(self):
        """Of one DAG kinds come first, then names, then actions, then roles; and all of it behind the DAGs and before the limits."""

        def access(value):
            return {**ONE, "access_control": value}

        again = {"dags": [{"dag_id": "a", **access([])}, {"dag_id": "a", **ONE}]}
        second = {"dags": [{"dag_id": "b", **access({"Nobody": ["can_read"]})}, {"dag_id": "a", **access({"": []})}]}
        self.refused(
            ("role", access({"Nobody": ["can_read"]}), {}),
            ("role", access({"Nobody": []}), {}),
            ("action", access({"Nobody": ["can_create"]}), {}),
            ("action", access({"Viewer": ["can_read", "can_fly"]}), {}),
            ("action", access({"Viewer": [""]}), {}),
            ("name", access({"": ["can_create"]}), {}),
            ("name", access({"\u00e9": []}), {}),
            ("name", access({"n" * 65: []}), {}),
            ("shape", access({"": ["can_create", 1]}), {}),
            ("shape", access({"Viewer": None}), {}),
            ("shape", access({"Viewer": "can_read"}), {}),
            ("shape", access({"Viewer": {"Pools": ["can_read"]}}), {}),
            ("shape", access({"Viewer": {"DAG Runs": "can_read"}}), {}),
            ("shape", access({"Viewer": ["can_read", None]}), {}),
            ("shape", access([]), {}),
            ("shape", access("Viewer"), {}),
            ("shape", access(False), {}),
            ("graph", {"access_control": 1}, {}),
            ("duplicate", {}, again),
            ("role", {}, second),
            ("role", access({"Nobody": ["can_read"]}), {"history_limit": 0}),
            ("admin", access({"Nobody": ["can_read"]}), {"users": []}),
        )


class Access(unittest.TestCase):
    def test_roles(self):
        """What single DAGs say in turn, of roles of the file's own and of default ones; and what roles said of them before."""
        dags = [
            {"dag_id": "b", **ONE, "access_control": {"OnlyB": ["can_edit", "can_edit"], "Admin": ["can_read"], "Viewer": ["can_delete", "can_read"]}},
            {"dag_id": "a", **ONE, "access_control": {"Viewer": []}},
            {"dag_id": "c", **ONE, "access_control": {}},
            {"dag_id": "d", **ONE, "access_control": None},
        ]
        plane = opened("all", members={"dags": dags}.items())
        for name, wanted in (
            ("OnlyB", "DAG:b.can_edit"),
            ("EditB", ""),
            ("RunsB", "DAG Runs.can_read"),
            ("Viewer", f"{VIEWER},DAG:b.can_read,DAG:b.can_delete"),
            ("Admin", f"{ADMIN},DAG:b.can_read"),
        ):
            self.assertEqual(one_answer(plane, request("adam", f"GET /roles/{name}")), (200, role_row(name, wanted), 0, None))

    def test_not_read(self):
        """A program that has no changes of the policy does not look at it, whatever it holds."""
        for value in ([], {"": 1}, {"OnlyB": []}):
            plane = opened("baseline", members={"dags": [{"dag_id": "b", **ONE, "access_control": value}]}.items())
            self.assertEqual(one_answer(plane, request("bob", "GET /dags/b"))[0], 200)


class Limits(unittest.TestCase):
    def test_limits(self):
        for limits, wanted in (
            ({}, (1_000_000, 2**32 - 1)),
            ({"history_limit": None, "version_limit": None}, (1_000_000, 2**32 - 1)),
            ({"history_limit": 1, "version_limit": 1}, (1, 1)),
            ({"history_limit": 2**32 - 2, "version_limit": 2**32 - 1}, (2**32 - 2, 2**32 - 1)),
        ):
            plane = opened("all", members=limits.items())
            self.assertEqual((plane.most_entries, plane.last_version), wanted)
            plane = opened("dags,limits", members=limits.items())
            self.assertEqual((plane.most_entries, plane.last_version), (1_000_000, 2**32 - 1))

    def fills(self, plane, path, body, total):
        """One row more fills the list; of a row that is there and the list full, that it is there is told. What is too many is not added."""
        for name, wanted in (("x", (200,)), ("x", (409, "exists: x")), ("y", (409, "too many"))):
            got = one_answer(plane, request("adam", f"POST /{path}", body(name)))
            self.assertEqual(got[: len(wanted)], wanted)
        self.assertEqual(one_answer(plane, request("adam", f"GET /{path}/y"))[:2], (404, f"no such {path[:-1]}: y"))
        _, told, *_ = one_answer(plane, request("adam", f"GET /{path}"))
        self.assertEqual((len(json.loads(told)[path]), json.loads(told)["total_entries"]), (100, total))

    def test_full_state(self):
        rows = {"pools": [{"name": f"p{n}", "slots": 1} for n in range(65534)], "variables": [{"key": f"k{n}", "value": ""} for n in range(65535)]}
        plane = opened("all", members=rows.items())
        self.fills(plane, "pools", lambda name: f'{{"name":"{name}","slots":1}}', 65536)
        self.fills(plane, "variables", lambda name: f'{{"key":"{name}","value":""}}', 65536)

    def test_full_policy(self):
        roles = [{"name": f"r{n}", "actions": []} for n in range(4090)]
        users = [{"username": f"u{n}", "roles": [], "token_sha256": f"{n:064x}"} for n in range(65534)]
        adam = {"username": "adam", "roles": [{"name": "Admin"}], "token_sha256": hashlib.sha256(b"admin").hexdigest()}
        plane = opened("all", members={"roles": roles, "users": [*users, adam]}.items())
        self.fills(plane, "roles", lambda name: f'{{"name":"{name}","actions":[]}}', 4096)
        self.fills(plane, "users", lambda name: f'{{"username":"{name}","roles":[],"token_sha256":"{name.encode().hex():f>64}"}}', 65536)
        taken = request("adam", "POST /users", f'{{"username":"y","roles":[],"token_sha256":"{0:064x}"}}')
        self.assertEqual(one_answer(plane, taken), (409, "exists: y", 2, None))
        gone = one_answer(plane, request("adam", "DELETE /roles/x"))
        self.assertEqual(gone, (204, "", 3, None))
        self.assertEqual(one_answer(plane, request("adam", "POST /roles", '{"name":"y","actions":[]}'))[0], 200)


if __name__ == "__main__":
    unittest.main()
