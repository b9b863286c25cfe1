"""Pairs of connections that differ in what their reader may not see alone: two configurations, with and without two DAGs, for readers of several kinds; and one
configuration, with and without runs of DAGs that the reader reads, without reading their runs.

On one side an admin makes changes that the other side has not: of DAGs that the reader does not read, or of the runs of DAGs whose runs the reader does not
read. All others are the same on both, in the same order. The answers to the reader are to be the same, but for X-Policy-Version and X-Plane-Seq.
blind_pairs.py has random pairs, blindness.py the comparison.
"""
import json
import os
from dataclasses import dataclass

from worked_rows import dag_row, digest, listed

TOP = os.path.dirname(os.path.dirname(os.path.realpath(__file__)))
with open(os.path.join(TOP, "examples", "base.json"), encoding="utf-8") as file:
    BASE = json.load(file)
NOW = "2024-01-01T00:00:00Z"
ADMIN = "adam"


@dataclass
class Side:
    """A configuration, and what the admin changes first: how it is asked for, and with which body."""

    config: dict
    changes: list


@dataclass
class Pair:
    title: str
    reader: str
    sides: tuple  # two of them
    asked: list  # what the reader asks for on both sides


def role(name, permissions):
    pairs = [it.rpartition(".") for it in permissions]
    return {"name": name, "actions": [{"action": {"name": action}, "resource": {"name": resource}} for resource, _, action in pairs]}


def user(name, *roles):
    return {"username": name, "roles": [{"name": it} for it in roles], "token_sha256": digest(name)}


# ---- With and without the DAGs a and c -------------------------------------------------------------------------

HIDDEN = ("a", "c")


def without_hidden(config):
    return {**config, "dags": [it for it in config["dags"] if it["dag_id"] not in HIDDEN]}


# bob reads the DAG b alone, and no runs: what he asks for, the status, and the body or the detail of the fault, on either side.
OF_BOB = [
    ("GET /dags", 200, listed("dags", 1, dag_row("b"))),
    ("GET /dags/a", 403, "missing permission DAG:a.can_read"),
    ("GET /dags/b", 200, dag_row("b")),
    ("GET /dags/a/dagRuns", 403, "missing permission DAG:a.can_read"),
    ("GET /dags/a/tasks", 403, "missing permission DAG:a.can_read"),
]

RUNS_AND_INSTANCES = ("DAG Runs.can_read", "Task Instances.can_read")
KINDS = {
    "who reads one DAG": ("DAG:b.can_read", *RUNS_AND_INSTANCES),
    "who reads some DAGs": ("DAG:b.can_read", "DAG:d.can_read", "DAG:a.can_edit", "DAG:c.can_delete", *RUNS_AND_INSTANCES),
    "who reads no DAG": ("DAG:a.can_edit", *RUNS_AND_INSTANCES),
    "who reads DAGs, and neither runs nor instances": ("DAG:b.can_read", "DAG:d.can_read"),
    "who reads DAGs and their instances, and no runs": ("DAG:b.can_read", "DAG:d.can_read", "Task Instances.can_read"),
    "who reads DAGs and their runs, and no instances": ("DAG:b.can_read", "DAG:d.can_read", "DAG Runs.can_read"),
    "who reads two DAGs, the runs of one of them, and the runs of hidden DAGs": (
        "DAG:b.can_read", "DAG:d.can_read", "DAG Run:d.can_read", "DAG Run:a.can_read", "DAG Run:c.can_read", "Task Instances.can_read"),
    "who reads two DAGs, and the runs of hidden DAGs alone": (
        "DAG:b.can_read", "DAG:d.can_read", "DAG Run:a.can_read", "DAG Run:c.can_read", "DAG Run:gone.can_read", "Task Instances.can_read"),
}
# Readers of some DAGs, or of all of them, who read the runs of d alone, or none. Who may edit runs, or create or delete them, does not read them.
RUN_KINDS = {
    "who reads two DAGs, and the runs of one": ("DAG:b.can_read", "DAG:d.can_read", "DAG Run:d.can_read", "Task Instances.can_read"),
    "who reads all DAGs, and the runs of one": ("DAGs.can_read", "DAG Run:d.can_read", "DAG Run:b.can_create", "DAG Run:a.can_edit", "Task Instances.can_read"),
    "who reads all DAGs, the runs of one, and no instances": ("DAGs.can_read", "DAG Run:d.can_read", "DAG Run:gone.can_read"),
    "who reads all DAGs, and no runs": ("DAGs.can_read", "DAG Run:gone.can_read", "DAG Run:b.can_edit", "DAG Run:c.can_delete", "Task Instances.can_read"),
    "who reads two DAGs, and edits one of them, whose runs are not read": (
        "DAG:b.can_read", "DAG:b.can_edit", "DAG:d.can_read", "DAG Run:d.can_read", "DAG Run:b.can_edit", "DAG Run:b.can_delete", "Task Instances.can_read"),
}
DAGS = [
    {"dag_id": "a", "is_paused": True, "tasks": [{"task_id": "t"}]},
    {"dag_id": "b", "tasks": [{"task_id": "t"}, {"task_id": "u", "upstream": ["t"], "retries": 2}]},
    {"dag_id": "c", "schedule": "@daily", "start_date": "2024-01-01T00:00:00Z", "tasks": [{"task_id": "t"}, {"task_id": "v"}]},
    {"dag_id": "d", "schedule": 60, "start_date": "2023-01-01T00:00:00Z", "max_active_runs": 2, "tasks": [{"task_id": "u"}]},
]
TIMES = ["2024-01-01T00:00:00Z", "2024-01-02T00:00:00Z", "2024-01-03T00:00:00Z"]


def triggered(dag, n):
    return f"POST /dags/{dag}/dagRuns", json.dumps({"dag_run_id": f"r{n}", "logical_date": TIMES[n - 1]})


def backfilled(dag, end):
    return f"POST /own/dags/{dag}/backfills", json.dumps({"start_date": NOW, "end_date": end})


# The changes, each with its DAG; the ids and the dates of the runs that are triggered are the same in all DAGs.
CHANGES = [
    *[("a", *triggered("a", 1)), ("b", *triggered("b", 1)), ("c", *triggered("c", 1)), ("a", *triggered("a", 2)), ("d", *triggered("d", 1))],
    *[("c", "PATCH /dags/c/dagRuns/r1", '{"state":"success"}'), ("b", *triggered("b", 2)), ("c", *triggered("c", 3)), ("a", "DELETE /dags/a/dagRuns/r2", "")],
    *[("b", "PATCH /dags/b/dagRuns/r1", '{"state":"failed"}'), ("c", "PATCH /dags/c", '{"is_paused":true}'), ("d", *triggered("d", 3))],
    *[("a", "PATCH /dags/a", '{"is_paused":false}'), ("c", "POST /dags/c/dagRuns/r1/clear", '{"dry_run":false}'), ("b", *triggered("b", 3))],
    *[("c", *backfilled("c", "2024-01-02T00:00:00Z")), ("d", *backfilled("d", "2024-01-01T00:01:00Z"))],
]
QUERIES = ["", "?limit=0", "?limit=1", "?limit=2&offset=1", "?offset=2", "?offset=9", "?limit=1000", "?limit=x", "?offset="]


RUNS, TASKS = ["r1", "r2", "r3", "backfill__2024-01-01T00:01:00+00:00", "gone"], ["t", "u", "v", "gone"]


def everything(dags, runs, tasks):
    """What the seven operations are asked for: each listing by each query, and each id. And a backfill of each DAG, which none of the readers may ask for."""
    asked = [f"GET {path}{it}" for path in ("/dags", "/dags/~/dagRuns") for it in QUERIES]
    for dag in dags:
        asked += [f"GET /dags/{dag}", f"GET /dags/{dag}/tasks", *(f"GET /dags/{dag}/dagRuns{it}" for it in QUERIES), f"POST /own/dags/{dag}/backfills"]
        for run in runs:
            path = f"GET /dags/{dag}/dagRuns/{run}"
            asked += [path, f"{path}/taskInstances", f"{path}/taskInstances?limit=1&offset=1", *(f"{path}/taskInstances/{it}" for it in tasks)]
    return asked


def with_and_without():
    """A pair for each kind of reader."""
    asked = everything([*"abcd", "gone"], RUNS, TASKS)
    for title, permissions in KINDS.items():
        members = {"roles": [role("Reader", permissions)], "users": [user(ADMIN, "Admin"), user("bob", "Reader")], "dags": DAGS}
        whole, visible = [it[1:] for it in CHANGES], [it[1:] for it in CHANGES if it[0] not in HIDDEN]
        yield Pair(title, "bob", (Side(members, whole), Side(without_hidden(members), visible)), asked)


def with_and_without_runs():
    """A pair for each kind of reader of runs: each DAG is there on both sides, and paused or not as on the other."""
    asked = everything([*"abcd", "gone"], RUNS, TASKS)
    for title, permissions in RUN_KINDS.items():
        members = {"roles": [role("Reader", permissions)], "users": [user(ADMIN, "Admin"), user("bob", "Reader")], "dags": DAGS}
        read = [dag for dag in "abcd" if f"DAG Run:{dag}.can_read" in permissions]
        visible = [it[1:] for it in CHANGES if it[0] in read or it[1] == f"PATCH /dags/{it[0]}"]
        yield Pair(title, "bob", (Side(members, [it[1:] for it in CHANGES]), Side(members, visible)), asked)


def of_base():
    """What OF_BOB has, over examples/base.json as it stands, and without the DAGs a and c."""
    return Pair("bob over the example", "bob", (Side(BASE, []), Side(without_hidden(BASE), [])), [it[0] for it in OF_BOB])
