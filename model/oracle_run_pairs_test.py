#!/usr/bin/env python3
"""Permissions on the runs of one DAG: what they meet, how they are shown, and what a sync makes of them. The connections of
conformance/worked_run_pairs.py have the answers; here are tables of what the rules say alone, and two connections whose every byte is written out.

  python3 model/oracle_run_pairs_test.py
"""
import itertools
import json
import unittest

from test_tools import BASE, NOW, opened
import oracle
from oracle_bodies import BadInput, sync_body
from oracle_policy import ACTIONS, DEFAULT_ROLES, Fault, Policy, is_allowed, meets, pair_order, permission_text, sync_dag
from oracle_table import having
from worked_rows import TOKENS

RUNS = "DAG Runs"


def granted(text):
    """The pairs of permissions that are written `RESOURCE.ACTION`, with commas between them."""
    return {(action, resource) for resource, _, action in (it.rpartition(".") for it in text.split(",") if it)}


class Met(unittest.TestCase):
    def test_at_one_dag(self):
        """By the action on all runs, or on those of that DAG: by no other action, no other DAG's runs, and nothing on the DAG itself."""
        for wanted, action in itertools.product(ACTIONS, ACTIONS):
            for resource, is_met in ((RUNS, True), ("DAG Run:b", True), ("DAG Run:a", False), ("DAG Run:b.x", False), ("DAG:b", False), ("DAGs", False)):
                self.assertEqual(meets({(action, resource)}, wanted, RUNS, "b", ["a", "b"]), is_met and wanted == action, (wanted, action, resource))

    def test_at_a_dag_that_is_not_there(self):
        self.assertTrue(meets(granted("DAG Run:gone.can_create"), "can_create", RUNS, "gone", ["a", "b"]))

    def test_on_all(self):
        """By the action on the runs of some DAG that is there and that the user reads. To edit a DAG is not to read it."""
        for text, is_met in (
            ("DAG Runs.can_read", True),
            ("DAG:b.can_read,DAG Run:b.can_read", True),
            ("DAGs.can_read,DAG Run:b.can_read", True),
            ("DAG:a.can_read,DAG:b.can_read,DAG Run:b.can_read", True),
            ("DAG Run:b.can_read", False),
            ("DAG:a.can_read,DAG Run:b.can_read", False),
            ("DAG:b.can_edit,DAG:b.can_delete,DAG Run:b.can_read", False),
            ("DAGs.can_edit,DAG Run:b.can_read", False),
            ("DAG:gone.can_read,DAG Run:gone.can_read", False),
            ("DAGs.can_read,DAG Run:gone.can_read", False),
            ("DAGs.can_read,DAG Run:b.can_create,DAG Run:b.can_edit,DAG Run:b.can_delete", False),
        ):
            self.assertEqual(meets(granted(text), "can_read", RUNS, None, ["a", "b"]), is_met, text)
        self.assertFalse(meets(granted("DAGs.can_read,DAG Run:b.can_read"), "can_read", RUNS, None, []))

    def test_nothing_else(self):
        """They meet no requirement but one on runs."""
        every = {(action, "DAG Run:b") for action in ACTIONS}
        for action, resource in itertools.product(ACTIONS, ["DAGs", "Task Instances", "Pools", "Variables", "Audit Logs", "Roles", "Users"]):
            for dag_id in ("b", None):
                self.assertFalse(meets(every, action, resource, dag_id, ["b"]))

    def test_a_denial_names_all_runs(self):
        self.assertEqual(permission_text("can_edit", RUNS, "b"), "DAG Runs.can_edit")
        self.assertEqual(permission_text("can_edit", "DAGs", "b"), "DAG:b.can_edit")


class Pairs(unittest.TestCase):
    def test_which_there_are(self):
        for action in ACTIONS:
            self.assertTrue(is_allowed(action, "DAG Run:b") and is_allowed(action, "DAG Run:not.there") and is_allowed(action, "DAG Run:" + "d" * 250))
            for rest in ("", "a b", "~", " b", "b ", "d" * 251, "\u00e9", "b:c", "Run:b"):
                self.assertFalse(is_allowed(action, "DAG Run:" + rest), rest)
            for resource in ("DAG Run", "DAG run:b", "dag run:b", "DAG Runs:b", "DAGRun:b", " DAG Run:b", "DAG Run :b", "Task Instance:b"):
                self.assertFalse(is_allowed(action, resource), resource)

    def test_order(self):
        """Kinds, then single DAGs by id, then the runs of single DAGs by id; ids in byte order, and of one resource in the order of actions."""
        resources = ["DAGs", "DAG Runs", "Users", "DAG:B", "DAG:a", "DAG:a.b", "DAG:z", "DAG Run:B", "DAG Run:a", "DAG Run:a.b", "DAG Run:z"]
        wanted = [(action, it) for it in resources for action in ACTIONS]
        self.assertEqual(sorted(wanted[::-1], key=pair_order), wanted)


OF_B = granted("DAG:b.can_read,DAG:b.can_edit,DAG Run:b.can_create,DAG Run:b.can_read")
OF_OTHERS = granted("DAG:b.x.can_read,DAG Run:b.x.can_read,DAG Run:a.can_delete,DAG Runs.can_create,DAGs.can_delete")
OPENING = Policy({**{name: frozenset(it) for name, it in DEFAULT_ROLES.items()}, "Admin": frozenset(DEFAULT_ROLES["Admin"] | OF_B), "R": frozenset(OF_B | OF_OTHERS)}, {})


class Sync(unittest.TestCase):
    def made(self, access):
        policy = sync_dag(OPENING, "b", access)
        self.assertEqual({it: policy.roles[it] for it in ("Public", "User")}, {it: OPENING.roles[it] for it in ("Public", "User")})
        return policy

    def test_what_a_role_gets(self):
        """By either form the pairs of both kinds go first; what is of other DAGs, and of all of them, stays."""
        for value, text in (
            ([], ""),
            (["can_delete"], "DAG:b.can_delete"),
            ({}, ""),
            ({"DAGs": None, "DAG Runs": None}, ""),
            ({"DAGs": []}, ""),
            ({"DAGs": ["can_delete", "can_delete"]}, "DAG:b.can_delete"),
            ({"DAG Runs": ["can_delete"]}, "DAG Run:b.can_delete"),
            ({"DAGs": None, "DAG Runs": ["can_create"]}, "DAG Run:b.can_create"),
            ({"DAGs": ["can_read"], "DAG Runs": ACTIONS}, "DAG:b.can_read," + ",".join(f"DAG Run:b.{it}" for it in ACTIONS)),
        ):
            self.assertEqual(self.made({"R": value}).roles["R"], OF_OTHERS | granted(text), value)

    def test_what_is_not_listed(self):
        """Nothing at all leaves all as it is; an object without the role takes away."""
        self.assertEqual(self.made(None), OPENING)
        for access in ({}, {"Viewer": {"DAG Runs": ["can_edit"]}}, {"Viewer": []}):
            self.assertEqual(self.made(access).roles["R"], OF_OTHERS)

    def test_admin(self):
        """Admin loses nothing by either form, and gets what is listed."""
        for value in ([], {}, ["can_read"], {"DAG Runs": ["can_read"]}):
            self.assertEqual(self.made({"Admin": value}).roles["Admin"], OPENING.roles["Admin"])
        self.assertEqual(self.made({"Admin": {"DAG Runs": ["can_edit"]}}).roles["Admin"], OPENING.roles["Admin"] | granted("DAG Run:b.can_edit"))

    def test_faults(self):
        """Every action comes before any role: roles by name, then kinds by name, `DAG Runs` before `DAGs`, then the list."""
        for access, fault in (
            ({"R": {"DAGs": ["can_create"]}}, ("bad action", "can_create")),
            ({"R": {"DAGs": ["can_fly"], "DAG Runs": ["can_walk"]}}, ("bad action", "can_walk")),
            ({"R": {"DAGs": ["can_fly"], "DAG Runs": ["can_create", "can_read"]}}, ("bad action", "can_fly")),
            ({"Zed": {"DAG Runs": ["x"]}, "Abe": ["y"]}, ("bad action", "y")),
            ({"Zed": ["x"], "Abe": {"DAG Runs": ["can_edit", "y", "z"]}}, ("bad action", "y")),
            ({"Nobody": {}, "R": {"DAG Runs": ["can_run"]}}, ("bad action", "can_run")),
            ({"Zed": {"DAG Runs": ["can_create"]}, "Abe": {}}, ("unknown role", "Abe")),
        ):
            with self.assertRaises(Fault) as why:
                sync_dag(OPENING, "b", access)
            self.assertEqual(why.exception.args, fault)

    def test_forms(self):
        """A list of texts, or an object of two members, each such a list or null: no other member, whatever it holds."""
        for value in ([], {}, {"DAGs": None}, {"DAG Runs": ["x"], "DAGs": [""]}):
            self.assertEqual(sync_body({"access_control": {"R": value}}), {"R": value})
        for value in (None, "x", 1, True, [1], [None], {"DAGs": "can_read"}, {"DAGs": {}}, {"DAG Runs": [None]}, {"DAG Runs": True}, {"Pools": []}, {"Pools": None}, {"dags": []}, {"DAG Run": []}, {"": []}):
            with self.assertRaises(BadInput, msg=value) as why:
                sync_body({"access_control": {"R": value}})
            self.assertEqual(why.exception.args[0], "bad member: access_control")


# ---- Whole bytes -----------------------------------------------------------------------------------------------


def asked(name, first, body=""):
    length = f"Content-Length: {len(body)}\r\n" if body else ""
    return f"{first} HTTP/1.1\r\nHost: h\r\nAuthorization: Bearer {TOKENS[name]}\r\n{length}\r\n{body}".encode()


def told(first, version, seq, body):
    kind = "application/json" if first == "200 OK" else "application/problem+json"
    numbers = f"X-Policy-Version: {version}\r\n" + (f"X-Plane-Seq: {seq}\r\n" if seq is not None else "")
    return f"HTTP/1.1 {first}\r\nContent-Type: {kind}\r\nContent-Length: {len(body)}\r\n{numbers}\r\n{body}".encode()


def pair(resource, action):
    return f'{{"action":{{"name":"{action}"}},"resource":{{"name":"{resource}"}}}}'


GIVEN = ",".join([pair("DAG:b", "can_edit"), pair("DAG:b", "can_read"), pair("DAG Run:b", "can_create"), pair("DAG Run:b", "can_read")])
SHOWN = ",".join([pair("DAG:b", "can_read"), pair("DAG:b", "can_edit"), pair("DAG Run:b", "can_create"), pair("DAG Run:b", "can_read")])
RUN_X = (
    '{"dag_id":"b","dag_run_id":"x","data_interval_end":"2024-01-01T00:00:00+00:00","data_interval_start":"2024-01-01T00:00:00+00:00","end_date":null,'
    '"logical_date":"2024-01-01T00:00:00+00:00","run_type":"manual","start_date":null,"state":"queued"}'
)
NO_EDIT = '{"detail":"missing permission DAG:a.can_edit","status":403,"title":"Forbidden","type":"about:blank"}'
NO_EDIT_OF_RUNS = '{"detail":"missing permission DAG Runs.can_edit","status":403,"title":"Forbidden","type":"about:blank"}'
NO_READ_OF_RUNS = '{"detail":"missing permission DAG Runs.can_read","status":403,"title":"Forbidden","type":"about:blank"}'
BAD_MEMBER = '{"detail":"bad member: access_control","status":400,"title":"Bad Request","type":"about:blank"}'
BAD_ACTION = '{"detail":"bad action: can_create","status":400,"title":"Bad Request","type":"about:blank"}'
SYNC = "POST /own/dags/b/sync"

# A role that may create and read the runs of one DAG, and a user who gets it.
BY_A_ROLE = [
    (asked("adam", "POST /api/v1/roles", f'{{"name":"RunB","actions":[{GIVEN}]}}'), told("200 OK", 1, None, f'{{"actions":[{SHOWN}],"name":"RunB"}}')),
    (asked("adam", "PATCH /api/v1/users/bob", '{"roles":[{"name":"RunB"}]}'), told("200 OK", 2, None, '{"roles":[{"name":"RunB"}],"username":"bob"}')),
    (asked("bob", "POST /api/v1/dags/b/dagRuns", '{"dag_run_id":"x"}'), told("200 OK", 2, 1, RUN_X)),
    (asked("bob", "GET /api/v1/dags/~/dagRuns"), told("200 OK", 2, 1, f'{{"dag_runs":[{RUN_X}],"total_entries":1}}')),
    (asked("bob", "POST /api/v1/dags/a/dagRuns", "{}"), told("403 Forbidden", 2, 1, NO_EDIT)),
    (asked("bob", "PATCH /api/v1/dags/b/dagRuns/x", '{"state":"failed"}'), told("403 Forbidden", 2, 1, NO_EDIT_OF_RUNS)),
]
# The same by the access control of the DAG, in both forms.
BY_A_SYNC = [
    (asked("adam", SYNC, '{"access_control":{"OnlyB":{"DAG Runs":["can_read"],"DAGs":["can_read"]}}}'), told("200 OK", 1, None, '{"dag_id":"b","policy_version":1}')),
    (asked("bob", "GET /own/me"), told("200 OK", 1, None, '{"permissions":["DAG:b.can_read","DAG Run:b.can_read"],"policy_version":1,"roles":["OnlyB"],"username":"bob"}')),
    (asked("bob", "GET /api/v1/dags/b/dagRuns"), told("200 OK", 1, 0, '{"dag_runs":[],"total_entries":0}')),
    (asked("adam", SYNC, '{"access_control":{"OnlyB":["can_read"]}}'), told("200 OK", 2, None, '{"dag_id":"b","policy_version":2}')),
    (asked("bob", "GET /api/v1/dags/b/dagRuns"), told("403 Forbidden", 2, 0, NO_READ_OF_RUNS)),
    (asked("adam", SYNC, '{"access_control":{"OnlyB":{"Pools":["can_read"]}}}'), told("400 Bad Request", 2, None, BAD_MEMBER)),
    (asked("adam", SYNC, '{"access_control":{"OnlyB":{"DAGs":["can_create"]}}}'), told("400 Bad Request", 2, None, BAD_ACTION)),
]


class Bytes(unittest.TestCase):
    def test_each_byte(self):
        for steps in (BY_A_ROLE, BY_A_SYNC):
            requests, answers = (b"".join(it) for it in zip(*steps))
            self.assertEqual(oracle.run(["once", BASE, NOW], requests), (0, answers, b""))

    def test_one_after_another(self):
        for steps in (BY_A_ROLE, BY_A_SYNC):
            plane = opened("all")
            for request, answer in steps:
                self.assertEqual(oracle.answers(plane, request), (answer, True))


class Configuration(unittest.TestCase):
    def opening(self, has, **members):
        with open(BASE, "rb") as file:
            config = {**json.load(file), **members}
        return oracle.Plane(json.dumps(config).encode(), has=having(has)).versions[0]

    def test_roles_and_access(self):
        role = {"name": "OnlyB", "actions": json.loads(f"[{GIVEN}]")}
        policy = self.opening("all", roles=[role], users=[ADAM])
        self.assertEqual(policy.roles["OnlyB"], OF_B)
        dags = [{"dag_id": "b", "tasks": [{"task_id": "t"}], "access_control": {"OnlyB": {"DAG Runs": ["can_delete"]}, "Public": {}, "Admin": {"DAG Runs": ["can_edit"]}}}]
        policy = self.opening("all", roles=[role], users=[ADAM], dags=dags)
        self.assertEqual(policy.roles["OnlyB"], granted("DAG Run:b.can_delete"))
        self.assertEqual(policy.roles["Admin"], DEFAULT_ROLES["Admin"] | granted("DAG Run:b.can_edit"))

    def test_a_program_without_them(self):
        """It refuses a role that has one, as any other resource that it does not know."""
        with self.assertRaises(oracle.Refused) as why:
            self.opening("baseline", roles=[{"name": "R", "actions": json.loads(f"[{GIVEN}]")}])
        self.assertEqual(why.exception.args[0], "pair")


ADAM = {"username": "adam", "roles": [{"name": "Admin"}], "token_sha256": "0" * 64}

if __name__ == "__main__":
    unittest.main()
