"""Connections over examples/base.json whose answers were worked out by hand: what users read who may not read two of three DAGs, or not the runs of two, where
these are there and where they are not. Both get the same answers, to the byte. Their form is that of worked_cases.py.
"""
from worked_rows import NOW, dag_row, instance_row, listed, pairs_text, role_row, run_row, variable_row

ONLY_B = {"dags": [{"dag_id": "b", "tasks": [{"task_id": "t"}]}]}
UNKNOWN, NO_DAGS, NOT_A, NO_RUNS = "authentication required", *(f"missing permission {it}.can_read" for it in ("DAGs", "DAG:a", "DAG Runs"))
B, RUN, INSTANCE = dag_row("b"), run_row("b", "r2", "2024-01-02T00:00:00+00:00"), instance_row()
DAGS, RUNS, NO_MORE_RUNS, INSTANCES = listed("dags", 1, B), listed("dag_runs", 1, RUN), listed("dag_runs", 1), listed("task_instances", 1, INSTANCE)
TASK = '{"downstream_task_ids":[],"pool":"default_pool","pool_slots":1,"priority_weight":1,"retries":0,"task_id":"t","trigger_rule":"all_success"}'
TASKS = f'{{"tasks":[{TASK}],"total_entries":1}}'


def given(permissions, version):
    """The role of ron gets just these permissions."""
    return ("adam", "PATCH /roles/RunsB", f'{{"actions":{pairs_text(permissions)}}}', 200, role_row("RunsB", permissions), None, version)


def triggered(dag, n, seq):
    date = f"2024-01-0{n}T00:00:00"
    return ("uma", f"POST /dags/{dag}/dagRuns", f'{{"dag_run_id":"r{n}","logical_date":"{date}Z"}}', 200, run_row(dag, f"r{n}", f"{date}+00:00"), seq)


def variable(key, seq):
    return ("adam", "POST /variables", variable_row(key, "1"), 200, variable_row(key, "1"), seq)


# ron may read all of b. That run of b has number 2 among three, or number 1; the other entries are of variables then.
ALL_OF_B = given("DAG Runs.can_read,Task Instances.can_read,DAG:b.can_read", 1)
OF_THREE = [ALL_OF_B, triggered("a", 1, 1), triggered("b", 2, 2), triggered("c", 3, 3)]
OF_ONE = [ALL_OF_B, variable("j", 1), triggered("b", 2, 2), variable("k", 3)]

# The seven operations that read DAGs, tasks, runs and instances, of who may read b's row, of nobody, of who may read nothing, and of who may read all of b.
READINGS = [
    ("bob", "GET /dags", "", 200, DAGS, 3),
    ("bob", "GET /dags/a", "", 403, NOT_A, 3),
    ("bob", "GET /dags/b", "", 200, B, 3),
    ("bob", "GET /dags/a/dagRuns", "", 403, NOT_A, 3),
    ("bob", "GET /dags/a/tasks", "", 403, NOT_A, 3),
    ("bob", "GET /dags/~/dagRuns", "", 403, NO_RUNS, 3),
    ("bob", "GET /dags/b/dagRuns", "", 403, NO_RUNS, 3),
    ("bob", "GET /dags/a/dagRuns/r1", "", 403, NOT_A, 3),
    ("bob", "GET /dags/a/dagRuns/r1/taskInstances", "", 403, NOT_A, 3),
    ("bob", "GET /dags/a/dagRuns/r1/taskInstances/t", "", 403, NOT_A, 3),
    ("nobody", "GET /dags", "", 401, UNKNOWN, 3),
    ("nobody", "GET /dags/a", "", 401, UNKNOWN, 3),
    ("nobody", "GET /dags/a/tasks", "", 401, UNKNOWN, 3),
    ("nobody", "GET /dags/~/dagRuns", "", 401, UNKNOWN, 3),
    ("nobody", "GET /dags/a/dagRuns", "", 401, UNKNOWN, 3),
    ("nobody", "GET /dags/a/dagRuns/r1", "", 401, UNKNOWN, 3),
    ("nobody", "GET /dags/a/dagRuns/r1/taskInstances", "", 401, UNKNOWN, 3),
    ("nobody", "GET /dags/a/dagRuns/r1/taskInstances/t", "", 401, UNKNOWN, 3),
    ("pat", "GET /dags", "", 403, NO_DAGS, 3),
    ("pat", "GET /dags/a", "", 403, NOT_A, 3),
    ("pat", "GET /dags/a/tasks", "", 403, NOT_A, 3),
    ("pat", "GET /dags/~/dagRuns", "", 403, NO_DAGS, 3),
    ("pat", "GET /dags/a/dagRuns", "", 403, NOT_A, 3),
    ("pat", "GET /dags/a/dagRuns/r1", "", 403, NOT_A, 3),
    ("pat", "GET /dags/a/dagRuns/r1/taskInstances", "", 403, NOT_A, 3),
    ("pat", "GET /dags/a/dagRuns/r1/taskInstances/t", "", 403, NOT_A, 3),
    ("ron", "GET /dags", "", 200, DAGS, 3),
    ("ron", "GET /dags/a", "", 403, NOT_A, 3),
    ("ron", "GET /dags/b", "", 200, B, 3),
    ("ron", "GET /dags/a/tasks", "", 403, NOT_A, 3),
    ("ron", "GET /dags/b/tasks", "", 200, TASKS, 3),
    ("ron", "GET /dags/~/dagRuns?limit=1", "", 200, RUNS, 3),
    ("ron", "GET /dags/~/dagRuns?offset=1", "", 200, NO_MORE_RUNS, 3),
    ("ron", "GET /dags/a/dagRuns", "", 403, NOT_A, 3),
    ("ron", "GET /dags/b/dagRuns", "", 200, RUNS, 3),
    ("ron", "GET /dags/a/dagRuns/r1", "", 403, NOT_A, 3),
    ("ron", "GET /dags/b/dagRuns/r1", "", 404, "no such run: r1", 3),
    ("ron", "GET /dags/b/dagRuns/1", "", 404, "no such run: 1", 3),
    ("ron", "GET /dags/b/dagRuns/r2", "", 200, RUN, 3),
    ("ron", "GET /dags/a/dagRuns/r1/taskInstances", "", 403, NOT_A, 3),
    ("ron", "GET /dags/b/dagRuns/r2/taskInstances", "", 200, INSTANCES, 3),
    ("ron", "GET /dags/a/dagRuns/r1/taskInstances/t", "", 403, NOT_A, 3),
    ("ron", "GET /dags/b/dagRuns/r1/taskInstances/t", "", 404, "no such run: r1", 3),
    ("ron", "GET /dags/b/dagRuns/r2/taskInstances/t", "", 200, INSTANCE, 3),
]
# ron may read all DAGs and the runs of b alone, and then b and the runs of a alone.
RUN_READINGS = [
    given("DAGs.can_read,Task Instances.can_read,DAG Run:b.can_read", 2),
    ("ron", "GET /dags/~/dagRuns", "", 200, RUNS, 3),
    ("ron", "GET /dags/b/dagRuns/r2", "", 200, RUN, 3),
    ("ron", "GET /dags/b/dagRuns/r2/taskInstances", "", 200, INSTANCES, 3),
    ("ron", "GET /dags/a/dagRuns", "", 403, NO_RUNS, 3),
    ("ron", "GET /dags/a/dagRuns/r1", "", 403, NO_RUNS, 3),
    ("ron", "GET /dags/a/dagRuns/r1/taskInstances", "", 403, NO_RUNS, 3),
    ("ron", "GET /dags/a/dagRuns/r1/taskInstances/t", "", 403, NO_RUNS, 3),
    given("DAG:b.can_read,DAG Run:a.can_read", 3),
    ("ron", "GET /dags/~/dagRuns", "", 403, NO_RUNS, 3),
]
HIDDEN = [
    ("DAGs that are hidden", "landed", NOW, {}, OF_THREE + READINGS),
    ("DAGs that are not there", "landed", NOW, ONLY_B, OF_ONE + READINGS),
    ("runs that are hidden", "landed", NOW, {}, OF_THREE + RUN_READINGS),
    ("runs that are not there", "landed", NOW, {}, OF_ONE + RUN_READINGS),
]
