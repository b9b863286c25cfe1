"""Connections over examples/base.json whose answers were worked out by hand: permissions on the runs of one DAG. Their form is that of worked_cases.py.

bob has the role OnlyB alone, and adam gives it other pairs from step to step; the pairs are written in the order in which a role shows them. Requests that are
denied leave everything as it is, and so do those that are permitted and then refused.
"""
from worked_rows import ADMIN, ENDED, MIDNIGHT, NOW, VIEWER
from worked_rows import dag_row, entry_row, instance_row, listed, me_row, new_role, pairs_text, role_row, roles_alone, run_row, synced, user_row

SYNC, CLEAR = "POST /own/dags/b/sync", "POST /dags/b/clearTaskInstances"
ALL_RUNS = "GET /dags/~/dagRuns"
BAD_ACCESS = "bad member: access_control"
NO_READ, NO_CREATE = "missing permission DAG Runs.can_read", "missing permission DAG Runs.can_create"
RUN_B = "DAG:b.can_edit,DAG:b.can_read,DAG Run:b.can_create,DAG Run:b.can_read"
RUN_B_SHOWN = "DAG:b.can_read,DAG:b.can_edit,DAG Run:b.can_create,DAG Run:b.can_read"
ALL_FOUR = "DAG Run:b.can_create,DAG Run:b.can_read,DAG Run:b.can_edit,DAG Run:b.can_delete"
TASK = '{"downstream_task_ids":[],"pool":"default_pool","pool_slots":1,"priority_weight":1,"retries":0,"task_id":"t","trigger_rule":"all_success"}'


def on_day(dag, n, state="queued", end="null"):
    return run_row(dag, f"r{n}", f"2024-01-0{n}T00:00:00+00:00", state, end)


# A run of each DAG: r1 of a, r2 of b, r3 of c.
RUNS = [
    ("uma", f"POST /dags/{dag}/dagRuns", f'{{"dag_run_id":"r{n}","logical_date":"2024-01-0{n}T00:00:00Z"}}', 200, on_day(dag, n), n)
    for n, dag in enumerate("abc", 1)
]
R1, R2, R3 = (on_day(dag, n) for n, dag in enumerate("abc", 1))
CHOSEN = '{"task_instances":[{"dag_id":"b","dag_run_id":"r2","logical_date":"2024-01-02T00:00:00+00:00","task_id":"t"}]}'


def given(version, permissions, role="OnlyB"):
    """A role gets just these permissions."""
    return ("adam", f"PATCH /roles/{role}", f'{{"actions":{pairs_text(permissions)}}}', 200, role_row(role, permissions), None, version)


def denied(user, asked, permission, body="", seq=3):
    return (user, asked, body, 403, f"missing permission {permission}", seq)


def with_access(user_of, value):
    """The body of a sync that lists this for one role."""
    return f'{{"access_control":{{"{user_of}":{value}}}}}'


# ---- The runs of all DAGs --------------------------------------------------------------------------------------

# What a user may do, and what the list of the runs of all DAGs is for that user: the rows, or what is missing.
OF_ALL = [
    ("DAG:b.can_read,DAG Run:b.can_read", [R2]),
    ("DAG:a.can_read,DAG:b.can_read,DAG Run:b.can_read", [R2]),
    ("DAGs.can_read,DAG Run:b.can_read", [R2]),
    ("DAGs.can_read,DAG Run:b.can_read,DAG Run:c.can_read", [R2, R3]),
    ("DAG:a.can_read,DAG:b.can_read,DAG Run:b.can_read,DAG Run:c.can_read", [R2]),
    ("DAG Runs.can_read,DAG:b.can_read,DAG Run:a.can_read", [R2]),
    ("DAG Runs.can_read,DAG:a.can_read,DAG:b.can_read", [R1, R2]),
    ("DAG:b.can_read,DAG Run:a.can_read", "DAG Runs"),
    ("DAG:b.can_read,DAG Run:gone.can_read", "DAG Runs"),
    ("DAG:b.can_read,DAG:gone.can_read,DAG Run:gone.can_read", "DAG Runs"),
    ("DAGs.can_read,DAG Run:gone.can_read", "DAG Runs"),
    ("DAG:b.can_read,DAG Run:b.can_create,DAG Run:b.can_edit,DAG Run:b.can_delete", "DAG Runs"),
    ("DAG:a.can_read,DAG:b.can_edit,DAG:b.can_delete,DAG Run:b.can_read", "DAG Runs"),
    ("DAG:b.can_edit,DAG Run:b.can_read", "DAGs"),
    ("DAG:gone.can_read,DAG Run:b.can_read", "DAGs"),
    (ALL_FOUR, "DAGs"),
]


def lists_of_all():
    for version, (permissions, found) in enumerate(OF_ALL, 1):
        yield given(version, permissions)
        if type(found) is str:
            yield denied("bob", f"{ALL_RUNS}?limit=x", f"{found}.can_read")
            continue
        total = len(found)
        yield ("bob", ALL_RUNS, "", 200, listed("dag_runs", total, *found), 3)
        yield ("bob", f"{ALL_RUNS}?limit=1", "", 200, listed("dag_runs", total, found[0]), 3)
        yield ("bob", f"{ALL_RUNS}?offset=1", "", 200, listed("dag_runs", total, *found[1:]), 3)
        yield ("bob", f"{ALL_RUNS}?limit=0", "", 200, listed("dag_runs", total), 3)


# ---- One action after another ----------------------------------------------------------------------------------

ACTIONS = ["can_create", "can_read", "can_edit", "can_delete"]
BEHIND = "Task Instances.can_read,Task Instances.can_edit,DAG:a.can_read,DAG:a.can_edit,DAG:b.can_read,DAG:b.can_edit"
# The operations on the runs of one DAG: which action on runs each requires, a body that changes nothing, and what is answered of b where that is met.
OPERATIONS = [
    ("GET /dags/%s/dagRuns", "", "can_read", 200, listed("dag_runs", 1, R2)),
    ("GET /dags/%s/dagRuns/r2", "", "can_read", 200, R2),
    ("GET /dags/%s/dagRuns/r2/taskInstances", "", "can_read", 200, listed("task_instances", 1, instance_row())),
    ("GET /dags/%s/dagRuns/r2/taskInstances/t", "", "can_read", 200, instance_row()),
    ("POST /dags/%s/clearTaskInstances", '{"only_failed":false}', "can_read", 200, CHOSEN),
    ("POST /dags/%s/dagRuns", "{", "can_create", 400, "bad body"),
    ("POST /own/dags/%s/backfills", '{"start_date":"2024-01-01T00:00:00Z","end_date":"2024-01-01T00:00:00Z"}', "can_create", 409, "no schedule"),
    ("PATCH /dags/%s/dagRuns/r2", '{"state":"queued"}', "can_edit", 200, R2),
    ("POST /dags/%s/dagRuns/r2/clear", "{}", "can_edit", 200, CHOSEN),
    ("DELETE /dags/%s/dagRuns/gone", "", "can_delete", 404, "no such run: gone"),
]


def one_by_one():
    """With one action on the runs of b, what requires it is permitted at b, and nothing else there; at a, nothing."""
    for version, action in enumerate(ACTIONS, 1):
        yield given(version, f"{BEHIND},DAG Run:b.{action}")
        for form, body, wanted, status, told in OPERATIONS:
            yield ("bob", form % "b", body, status, told, 3) if wanted == action else denied("bob", form % "b", f"DAG Runs.{wanted}", body)
            yield denied("bob", form % "a", f"DAG Runs.{wanted}", body)


# ---- Pairs, and what a sync makes of them ----------------------------------------------------------------------

NO_PAIRS = ["DAG Run:", "DAG Run:a b", "DAG Run: b", "DAG Run:~", "DAG Run:" + "d" * 251, "DAG Run:a:b", "DAG run:b", "DAG Runs:b", "DAG Run", "DAGRun:b", "Task Instance:b"]


def refused_pairs():
    for resource in NO_PAIRS:
        for action in ACTIONS[:2]:
            yield ("adam", "POST /roles", new_role("Viewer", f"DAG Run:b.can_delete,{resource}.{action},x.can_read"), 400, f"pair not allowed: {resource}.{action}", None)


# What a sync of b lists for OnlyB, which has RUN_B and three pairs on other DAGs, and what the role has then besides these three.
OTHERS = "DAG:b.x.can_read,DAG Run:a.can_delete,DAG Run:b.x.can_read"
SYNCS = [
    ("[]", "", ""),
    ('["can_edit"]', "DAG:b.can_edit", ""),
    ("{}", "", ""),
    ('{"DAGs":null,"DAG Runs":null}', "", ""),
    ('{"DAGs":["can_read"]}', "DAG:b.can_read", ""),
    ('{"DAG Runs":["can_read"]}', "", "DAG Run:b.can_read"),
    ('{"DAG Runs":["can_edit","can_create","can_edit"],"DAGs":null}', "", "DAG Run:b.can_create,DAG Run:b.can_edit"),
    ('{"DAG Runs":["can_delete","can_edit","can_read","can_create"],"DAGs":["can_delete","can_edit"]}', "DAG:b.can_edit,DAG:b.can_delete", ALL_FOUR),
    ('{"DAGs":["can_create"],"DAG Runs":["x"],"DAGs":["can_delete"],"DAG Runs":["can_read"]}', "DAG:b.can_delete", "DAG Run:b.can_read"),
]
BAD_VALUES = [
    *["null", '"can_read"', "1", '{"Pools":["can_read"]}', '{"Pools":null}', '{"DAGs":["can_read"],"dag runs":[]}', '{"DAG Run":[]}', '{"":[]}', '{"DAGs":"can_read"}'],
    *['{"DAGs":{}}', '{"DAG Runs":{"DAGs":[]}}', '{"DAG Runs":true}', '{"DAG Runs":[null]}', '{"DAG Runs":["can_fly"],"DAGs":[1]}', '{"DAG Runs":[["can_read"]]}'],
]
BAD_ACTIONS = [
    ('{"OnlyB":{"DAGs":["can_create"]}}', "bad action: can_create"),
    ('{"OnlyB":{"DAG Runs":["can_create","can_fly"]}}', "bad action: can_fly"),
    ('{"OnlyB":{"DAGs":["x"],"DAG Runs":["y"]}}', "bad action: y"),
    ('{"OnlyB":{"DAGs":["x"],"DAG Runs":["can_create"]}}', "bad action: x"),
    ('{"Zed":{"DAG Runs":["x"]},"Abe":["y"]}', "bad action: y"),
    ('{"Zed":["x"],"Abe":{"DAGs":["can_read"],"DAG Runs":["y"]}}', "bad action: y"),
    ('{"Abe":{},"OnlyB":{"DAG Runs":["menu_access"]}}', "bad action: menu_access"),
    ('{"Zed":{"DAG Runs":["can_create"]},"Abe":{}}', "unknown role: Abe"),
    ('{"Abe":{"DAGs":["x"]},"Zed":{"DAGs":7}}', BAD_ACCESS),
    ('{"OnlyB":{"DAG Runs":["can_read"]},"":{}}', BAD_ACCESS),
]


def synced_forms():
    version = 0
    for value, on_dag, on_runs in SYNCS:
        found = ["DAG:b.x.can_read", "DAG Run:a.can_delete", *([on_runs] if on_runs else []), "DAG Run:b.x.can_read"]
        shown = ",".join([on_dag, *found] if on_dag else found)
        before = f"{RUN_B_SHOWN.partition(',DAG Run')[0]},DAG:b.x.can_read,DAG Run:a.can_delete,DAG Run:b.can_create,DAG Run:b.can_read,DAG Run:b.x.can_read"
        yield given(version + 1, before)
        yield ("adam", SYNC, with_access("OnlyB", value), 200, synced(version + 2), None, version + 2)
        yield ("bob", "GET /own/me", "", 200, me_row("bob", version + 2, shown, "OnlyB"), None)
        version += 2


ON_ONE_DAG = [
    {"dag_id": "a", "tasks": [{"task_id": "t"}], "access_control": {"OnlyB": {"DAGs": ["can_read"], "DAG Runs": ["can_edit", "can_read"]}}},
    {"dag_id": "b", "tasks": [{"task_id": "t"}], "access_control": {"RunsB": {"DAG Runs": ["can_create"], "DAGs": None}, "Admin": {"DAG Runs": ["can_read"]}}},
    {"dag_id": "c", "tasks": [{"task_id": "t"}], "access_control": {"OnlyB": {}, "Viewer": {"DAGs": ["can_edit"]}, "EditB": ["can_read"]}},
    {"dag_id": "d", "tasks": [{"task_id": "t"}]},
]
ROLES = [
    {"name": name, "actions": [{"action": {"name": action}, "resource": {"name": resource}} for resource, action in pairs]}
    for name, pairs in (
        ("OnlyB", [("DAG Run:d", "can_create"), ("DAG Run:c", "can_read"), ("DAG:d", "can_read"), ("DAG:d", "can_edit"), ("DAG Run:a", "can_delete")]),
        ("EditB", [("DAG Run:b", "can_edit"), ("DAG:b", "can_edit")]),
        ("RunsB", [("DAG Run:b", "can_read"), ("DAG:b", "can_read")]),
    )
]

RUN_PAIRS = [
    ("a role that may create and read the runs of one DAG", "landed", NOW, {}, [
        ("adam", "POST /roles", new_role("RunB", RUN_B), 200, role_row("RunB", RUN_B_SHOWN), None, 1),
        ("adam", "PATCH /users/bob", roles_alone("RunB"), 200, user_row("bob", "RunB"), None, 2),
        ("bob", "POST /dags/b/dagRuns", '{"dag_run_id":"x"}', 200, run_row("b", "x", MIDNIGHT), 1),
        ("bob", ALL_RUNS, "", 200, listed("dag_runs", 1, run_row("b", "x", MIDNIGHT)), 1),
        ("bob", "POST /dags/a/dagRuns", "{}", 403, "missing permission DAG:a.can_edit", 1),
        ("bob", "PATCH /dags/b/dagRuns/x", '{"state":"failed"}', 403, "missing permission DAG Runs.can_edit", 1),
    ]),
    ("the runs of one DAG by its access control, in both forms", "landed", NOW, {}, [
        ("adam", SYNC, '{"access_control":{"OnlyB":{"DAG Runs":["can_read"],"DAGs":["can_read"]}}}', 200, synced(1), None, 1),
        ("bob", "GET /own/me", "", 200, '{"permissions":["DAG:b.can_read","DAG Run:b.can_read"],"policy_version":1,"roles":["OnlyB"],"username":"bob"}', None),
        ("bob", "GET /dags/b/dagRuns", "", 200, '{"dag_runs":[],"total_entries":0}', 0),
        ("adam", SYNC, '{"access_control":{"OnlyB":["can_read"]}}', 200, synced(2), None, 2),
        ("bob", "GET /dags/b/dagRuns", "", 403, NO_READ, 0),
        ("bob", "GET /own/me", "", 200, me_row("bob", 2, "DAG:b.can_read", "OnlyB"), None),
        ("adam", SYNC, '{"access_control":{"OnlyB":{"Pools":["can_read"]}}}', 400, BAD_ACCESS, None),
        ("adam", SYNC, '{"access_control":{"OnlyB":{"DAGs":["can_create"]}}}', 400, "bad action: can_create", None),
    ]),
    ("the runs of all DAGs: who may ask, and what is shown and counted", "landed", NOW, {}, [*RUNS, *lists_of_all()]),
    ("one action on the runs of one DAG, and then another", "landed", NOW, {}, [*RUNS, *one_by_one()]),
    ("who may trigger, mark and clear the runs of one DAG, and nothing else", "landed", NOW, {}, [
        *RUNS,
        given(1, "DAG:b.can_read,DAG:b.can_edit,DAG Run:b.can_create,DAG Run:b.can_read,DAG Run:b.can_edit"),
        ("bob", "POST /dags/b/dagRuns", '{"dag_run_id":"x"}', 200, run_row("b", "x", MIDNIGHT), 4),
        ("bob", ALL_RUNS, "", 200, listed("dag_runs", 2, R2, run_row("b", "x", MIDNIGHT)), 4),
        ("bob", "PATCH /dags/b/dagRuns/r2", '{"state":"failed"}', 200, on_day("b", 2, "failed", ENDED), 5),
        ("bob", "POST /dags/b/dagRuns/r2/clear", '{"dry_run":false}', 200, CHOSEN, 6),
        ("bob", "GET /dags/b/dagRuns/r2", "", 200, R2, 6),
        denied("bob", "DELETE /dags/b/dagRuns/r2", "DAG Runs.can_delete", seq=6),
        denied("bob", "GET /dags/b/dagRuns/r2/taskInstances", "Task Instances.can_read", seq=6),
        denied("bob", CLEAR, "Task Instances.can_edit", "{}", seq=6),
        denied("bob", "GET /dags/b/tasks", "Task Instances.can_read", seq=6),
        denied("bob", "GET /dags/a/dagRuns", "DAG:a.can_read", seq=6),
        denied("bob", "POST /dags/a/dagRuns", "DAG:a.can_edit", "{}", seq=6),
        ("bob", "GET /dags", "", 200, listed("dags", 1, dag_row("b")), 6),
        given(2, "DAG:b.can_read,DAG Run:b.can_create,DAG Run:b.can_read,DAG Run:b.can_edit"),
        denied("bob", "POST /dags/b/dagRuns", "DAG:b.can_edit", "{}", seq=6),
        denied("bob", "POST /dags/b/dagRuns/r2/clear", "DAG:b.can_edit", "{}", seq=6),
        given(3, "DAG:b.can_edit,DAG Run:b.can_delete"),
        ("bob", "DELETE /dags/b/dagRuns/r2", "", 204, "", 7),
        denied("bob", "GET /dags/b/dagRuns/x", "DAG:b.can_read", seq=7),
    ]),
    ("instances are shown where the run is", "landed", NOW, {}, [
        *RUNS,
        given(1, "Task Instances.can_read,DAG:a.can_read,DAG:b.can_read,DAG Run:b.can_read"),
        ("bob", "GET /dags/b/dagRuns/r2/taskInstances", "", 200, listed("task_instances", 1, instance_row()), 3),
        ("bob", "GET /dags/b/dagRuns/r2/taskInstances/t", "", 200, instance_row(), 3),
        denied("bob", "GET /dags/a/dagRuns/r1/taskInstances", "DAG Runs.can_read"),
        denied("bob", "GET /dags/a/dagRuns/r1/taskInstances/t", "DAG Runs.can_read"),
        denied("bob", "GET /dags/a/dagRuns/gone/taskInstances", "DAG Runs.can_read"),
        denied("bob", "GET /dags/a/dagRuns/gone", "DAG Runs.can_read"),
        ("bob", "GET /dags/a", "", 200, dag_row("a", "true"), 3),
        ("bob", "GET /dags/a/tasks", "", 200, listed("tasks", 1, TASK), 3),
        ("bob", "GET /dags", "", 200, listed("dags", 2, dag_row("a", "true"), dag_row("b")), 3),
        given(2, "Task Instances.can_read,DAG:b.can_read,DAG Run:a.can_read"),
        denied("bob", "GET /dags/a/dagRuns/r1/taskInstances", "DAG:a.can_read"),
        denied("bob", "GET /dags/b/dagRuns/r2/taskInstances", "DAG Runs.can_read"),
    ]),
    ("event logs of a DAG whose runs are not read", "landed", NOW, {}, [
        *RUNS,
        given(1, "Audit Logs.can_read,DAG:a.can_read,DAG Run:b.can_read"),
        ("bob", "GET /eventLogs", "", 200, listed("event_logs", 1, entry_row(1, "trigger_dag_run", "uma", "a", "r1")), 3),
        denied("bob", "GET /dags/a/dagRuns", "DAG Runs.can_read"),
    ]),
    ("the runs of a DAG that is not there", "landed", NOW, {}, [
        given(1, "DAG:gone.can_read,DAG:gone.can_edit,DAG Run:gone.can_create,DAG Run:gone.can_read,DAG Run:gone.can_delete"),
        ("bob", "GET /dags/gone/dagRuns", "", 404, "no such dag: gone", 0),
        ("bob", "POST /dags/gone/dagRuns", "{}", 404, "no such dag: gone", 0),
        ("bob", "DELETE /dags/gone/dagRuns/x", "", 404, "no such dag: gone", 0),
        denied("bob", "PATCH /dags/gone/dagRuns/x", "DAG Runs.can_edit", "{", seq=0),
        denied("bob", "GET /dags/b/dagRuns", "DAG:b.can_read", seq=0),
        denied("bob", ALL_RUNS, "DAGs.can_read", seq=0),
        ("adam", "POST /own/dags/not.there/sync", with_access("OnlyB", '{"DAG Runs":["can_read"]}'), 200, synced(2, "not.there"), None, 2),
        ("bob", "GET /own/me", "", 200, me_row("bob", 2, "DAG:gone.can_read,DAG:gone.can_edit,DAG Run:gone.can_create,DAG Run:gone.can_read,DAG Run:gone.can_delete,DAG Run:not.there.can_read", "OnlyB"), None),
    ]),
    ("the order of pairs, of a role and of a user", "landed", NOW, {}, [
        ("adam", "POST /roles", new_role("new", "DAG Run:a.can_edit,DAG:z.can_read,DAG Run:B.can_read,Users.can_read,DAG Run:a.can_create,DAG:a.can_edit,DAG Runs.can_read,DAG Run:a.can_edit"), 200,
         role_row("new", "DAG Runs.can_read,Users.can_read,DAG:a.can_edit,DAG:z.can_read,DAG Run:B.can_read,DAG Run:a.can_create,DAG Run:a.can_edit"), None, 1),
        ("adam", "PATCH /users/bob", roles_alone("new", "OnlyB", "Viewer"), 200, user_row("bob", "OnlyB", "Viewer", "new"), None, 2),
        ("bob", "GET /own/me", "", 200, me_row(
            "bob", 2, f"{VIEWER},Users.can_read,DAG:a.can_edit,DAG:b.can_read,DAG:z.can_read,DAG Run:B.can_read,DAG Run:a.can_create,DAG Run:a.can_edit",
            "OnlyB", "Viewer", "new"), None),
        ("adam", "GET /roles/new", "", 200, role_row("new", "DAG Runs.can_read,Users.can_read,DAG:a.can_edit,DAG:z.can_read,DAG Run:B.can_read,DAG Run:a.can_create,DAG Run:a.can_edit"), None),
    ]),
    ("resources that are no runs of a DAG", "landed", NOW, {}, [
        *refused_pairs(),
        ("adam", "POST /roles", new_role("Viewer", "DAG Run:a b.can_read,DAG Run:b.can_fly"), 400, "bad action: can_fly", None),
        ("adam", "POST /roles", new_role("Viewer", f"DAG Run:{'d' * 250}.can_create"), 409, "exists: Viewer", None),
    ]),
    ("sync of one role in both forms, over pairs of both kinds", "landed", NOW, {}, [*synced_forms()]),
    ("a sync that is refused", "landed", NOW, {}, [
        *(("adam", SYNC, with_access("OnlyB", it), 400, BAD_ACCESS, None) for it in BAD_VALUES),
        *(("adam", SYNC, f'{{"access_control":{access}}}', 400, told, None) for access, told in BAD_ACTIONS),
        ("uma", SYNC, with_access("OnlyB", '{"Pools":7}'), 403, "missing permission Roles.can_edit", None),
        ("bob", "GET /own/me", "", 200, me_row("bob", 0, "DAG:b.can_read", "OnlyB"), None),
    ]),
    ("a sync takes nothing from Admin, and from each other role both kinds", "landed", NOW, {}, [
        ("adam", SYNC, '{"access_control":{"Admin":{"DAG Runs":["can_edit"],"DAGs":["can_read"]},"Viewer":{"DAG Runs":["can_create"]},"EditB":["can_edit"]}}', 200, synced(1), None, 1),
        ("adam", "GET /roles/Admin", "", 200, role_row("Admin", f"{ADMIN},DAG:b.can_read,DAG Run:b.can_edit"), None),
        ("adam", "GET /roles/Viewer", "", 200, role_row("Viewer", f"{VIEWER},DAG Run:b.can_create"), None),
        ("adam", SYNC, '{"access_control":{"Admin":{"DAG Runs":["can_read"]},"Public":{}}}', 200, synced(2), None, 2),
        ("adam", "GET /roles/Admin", "", 200, role_row("Admin", f"{ADMIN},DAG:b.can_read,DAG Run:b.can_read,DAG Run:b.can_edit"), None),
        ("adam", "GET /roles/Viewer", "", 200, role_row("Viewer", VIEWER), None),
        ("adam", "GET /roles/EditB", "", 200, role_row("EditB", ""), None),
        ("adam", SYNC, '{"access_control":{"Admin":{}}}', 200, synced(3), None, 3),
        ("adam", SYNC, '{"access_control":{"Admin":[]}}', 200, synced(4), None, 4),
        ("adam", SYNC, '{"access_control":{}}', 200, synced(5), None, 5),
        ("adam", "GET /roles/Admin", "", 200, role_row("Admin", f"{ADMIN},DAG:b.can_read,DAG Run:b.can_read,DAG Run:b.can_edit"), None),
        ("adam", SYNC, '{"access_control":{"OnlyB":{"DAG Runs":["can_read"]}}}', 200, synced(6), None, 6),
        ("adam", SYNC, "{}", 200, synced(7), None, 7),
        ("adam", SYNC, '{"access_control":null}', 200, synced(8), None, 8),
        ("bob", "GET /own/me", "", 200, me_row("bob", 8, "DAG Run:b.can_read", "OnlyB"), None),
    ]),
    ("what a configuration says of the runs of single DAGs", "landed", NOW, {"roles": ROLES, "dags": ON_ONE_DAG}, [
        ("bob", "GET /own/me", "", 200, me_row("bob", 0, "DAG:a.can_read,DAG:d.can_read,DAG:d.can_edit,DAG Run:a.can_read,DAG Run:a.can_edit,DAG Run:d.can_create", "OnlyB"), None),
        ("ron", "GET /own/me", "", 200, me_row("ron", 0, "DAG Run:b.can_create", "RunsB"), None),
        ("adam", "GET /roles/EditB", "", 200, role_row("EditB", "DAG:c.can_read"), None),
        ("adam", "GET /roles/Viewer", "", 200, role_row("Viewer", f"{VIEWER},DAG:c.can_edit"), None),
        ("adam", "GET /roles/Admin", "", 200, role_row("Admin", f"{ADMIN},DAG Run:b.can_read"), None),
        ("bob", "POST /dags/d/dagRuns", '{"dag_run_id":"x"}', 200, run_row("d", "x", MIDNIGHT), 1),
        denied("bob", "GET /dags/d/dagRuns", "DAG Runs.can_read", seq=1),
        ("bob", ALL_RUNS, "", 200, listed("dag_runs", 0), 1),
        ("uma", "POST /dags/a/dagRuns", '{"dag_run_id":"y"}', 200, run_row("a", "y", MIDNIGHT), 2),
        ("bob", ALL_RUNS, "", 200, listed("dag_runs", 1, run_row("a", "y", MIDNIGHT)), 2),
        ("vera", ALL_RUNS, "", 200, listed("dag_runs", 2, run_row("d", "x", MIDNIGHT), run_row("a", "y", MIDNIGHT)), 2),
        denied("bob", "PATCH /dags/a/dagRuns/y", "DAG:a.can_edit", '{"state":"failed"}', seq=2),
        denied("ron", ALL_RUNS, "DAGs.can_read", seq=2),
    ]),
]  # fmt: skip
