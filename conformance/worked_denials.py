"""Connections over examples/base.json whose answers were worked out by hand: each requirement of each operation on a DAG, by a user to whom just that
permission is missing. Their form is that of worked_cases.py.

A requirement on DAGs is at the DAG of the path, so a denial names that DAG, whether it is there or not, and whatever the body or the rest of the path is.
bob and ron read the DAG b alone, edna edits b alone, vera reads all and edits none, pat may do nothing; uma may do all of it.
"""
from worked_rows import NOW, dag_row, instance_row, listed, pairs_text, role_row, roles_alone, run_row, user_row

SECOND = "2024-01-02T00:00:00+00:00"
ROW = run_row("b", "r2", SECOND)
AT_R2 = ("uma", "POST /dags/b/dagRuns", f'{{"dag_run_id":"r2","logical_date":"{SECOND}"}}', 200, ROW, 1)
TASK = '{"downstream_task_ids":[],"pool":"default_pool","pool_slots":1,"priority_weight":1,"retries":0,"task_id":"t","trigger_rule":"all_success"}'
CHOSEN = '{"task_instances":[{"dag_id":"b","dag_run_id":"r2","logical_date":"2024-01-02T00:00:00+00:00","task_id":"t"}]}'

# The operations that read: what follows the DAG's path, the requirements behind that at the DAG, and what uma is answered of b.
READINGS = [
    ("", "", dag_row("b")),
    ("/tasks", "Task Instances", listed("tasks", 1, TASK)),
    ("/dagRuns", "DAG Runs", listed("dag_runs", 1, ROW)),
    ("/dagRuns/r2", "DAG Runs", ROW),
    ("/dagRuns/r2/taskInstances", "DAG Runs,Task Instances", listed("task_instances", 1, instance_row())),
    ("/dagRuns/r2/taskInstances/t", "DAG Runs,Task Instances", instance_row()),
]
# Those that change: how they are asked for at a DAG, a good body, and the permission behind that at the DAG which edna is missing.
CHANGES = [
    ("PATCH /dags/%s", '{"is_paused":true}', None),
    ("POST /dags/%s/dagRuns", "{}", "DAG Runs.can_create"),
    ("POST /own/dags/%s/backfills", f'{{"start_date":"{SECOND}","end_date":"{SECOND}"}}', "DAG Runs.can_create"),
    ("PATCH /dags/%s/dagRuns/r2", '{"state":"failed"}', "DAG Runs.can_edit"),
    ("DELETE /dags/%s/dagRuns/r2", "", "DAG Runs.can_delete"),
    ("POST /dags/%s/dagRuns/r2/clear", '{"dry_run":false}', "DAG Runs.can_edit"),
    ("POST /dags/%s/clearTaskInstances", '{"dry_run":false,"only_failed":false}', "Task Instances.can_edit"),
]


READS_RUNS = "DAG Runs.can_read,DAG:b.can_edit"
CLEARS = "DAG Runs.can_read,Task Instances.can_edit,DAG:b.can_edit"


def denied(user, asked, permission, body="", seq=1):
    return (user, asked, body, 403, f"missing permission {permission}", seq)


def denied_readings():
    """Who reads no DAG, or another one, is denied at the DAG; who reads it and is missing the next permission is denied that."""
    for rest, behind, answer in READINGS:
        yield denied("pat", f"GET /dags/b{rest}", "DAG:b.can_read")
        yield denied("bob", f"GET /dags/a{rest}", "DAG:a.can_read")
        yield denied("ron", f"GET /dags/c{rest}?limit=x", "DAG:c.can_read")
        yield denied("ron", f"GET /dags/gone{rest}", "DAG:gone.can_read")
        if behind:
            yield denied("bob", f"GET /dags/b{rest}?offset=x", behind.split(",")[0] + ".can_read")
        if "Task Instances" in behind:
            yield denied("ron", f"GET /dags/b{rest}", "Task Instances.can_read")
        yield ("uma", f"GET /dags/b{rest}", "", 200, answer, 1)
    for asked in ("/dagRuns/gone", "/dagRuns/gone/taskInstances", "/dagRuns/gone/taskInstances/gone", "/dagRuns/r2/taskInstances/gone"):
        yield denied("pat", f"GET /dags/b{asked}", "DAG:b.can_read")
        yield denied("bob", f"GET /dags/b{asked}", "DAG Runs.can_read")
        yield denied("bob", f"GET /dags/a{asked}", "DAG:a.can_read")


def denied_changes():
    """Who edits no DAG, or another one, is denied at the DAG; who edits it and is missing the next permission is denied that."""
    for form, good, behind in CHANGES:
        for body in (good, "{"):
            yield denied("vera", form % "b", "DAG:b.can_edit", body)
            yield denied("bob", form % "b", "DAG:b.can_edit", body)
            yield denied("pat", form % "a", "DAG:a.can_edit", body)
            yield denied("edna", form % "a", "DAG:a.can_edit", body)
            yield denied("edna", form % "gone", "DAG:gone.can_edit", body)
            if behind:
                yield denied("edna", form % "b", behind, body)
                yield denied("edna", (form % "b").replace("r2", "gone"), behind, body)
    yield ("uma", "GET /dags/b/dagRuns/r2", "", 200, ROW, 1)
    yield ("uma", "GET /dags/b", "", 200, dag_row("b"), 1)


DENIALS = [
    ("readings of a DAG: a denial at it, then each further one", "baseline,pages", NOW, {}, [AT_R2, *denied_readings()]),
    ("changes of a DAG: a denial at it, then each further one", "baseline,backfill", NOW, {}, [AT_R2, *denied_changes()]),
    ("a clear of a DAG's instances by one who may not read runs", "landed", NOW, {}, [
        AT_R2,
        ("adam", "PATCH /users/pat", roles_alone("EditB"), 200, user_row("pat", "EditB"), None, 1),
        denied("pat", "POST /dags/b/clearTaskInstances", "DAG Runs.can_read", "{"),
        ("adam", "PATCH /roles/EditB", f'{{"actions":{pairs_text(READS_RUNS)}}}', 200, role_row("EditB", READS_RUNS), None, 2),
        denied("pat", "POST /dags/b/clearTaskInstances", "Task Instances.can_edit", "{"),
        denied("pat", "POST /dags/a/clearTaskInstances", "DAG:a.can_edit", "{"),
        ("adam", "PATCH /roles/EditB", f'{{"actions":{pairs_text(CLEARS)}}}', 200, role_row("EditB", CLEARS), None, 3),
        ("pat", "POST /dags/b/clearTaskInstances", '{"only_failed":false}', 200, CHOSEN, 1),
        denied("pat", "GET /dags/b", "DAG:b.can_read"),
        denied("pat", "POST /dags/b/dagRuns/r2/clear", "DAG Runs.can_edit", "{}"),
    ]),
]  # fmt: skip
