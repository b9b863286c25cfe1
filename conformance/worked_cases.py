"""Connections over examples/base.json whose answers were worked out by hand, for oracle_test.py and differential.py: operations on the state.

A connection is its title, what the program has to have, the moment, members that the configuration has in place of its own, and the steps
(worked_rows.exchanges). Those of bodies stand in worked_bodies.py, those of denials at a DAG in worked_denials.py and those of backfills in
worked_backfills.py, which are among these; those of event logs in worked_logs.py, those of roles and users in worked_policies.py and worked_faults.py, and
those of permissions on the runs of one DAG in worked_run_pairs.py, and what is hidden in worked_hidden.py. Rows that are added, changed and deleted are in
worked_stories.py and worked_accounts.py, lists in worked_lists.py, and paths in worked_paths.py; these are among them too.
"""
from worked_accounts import ACCOUNTS
from worked_backfills import BACKFILLS
from worked_bodies import BODIES
from worked_denials import DENIALS
from worked_lists import LISTS
from worked_paths import PATHS
from worked_rows import ENDED, MIDNIGHT, NOW, T1, dag_row, instance_row, listed, pool_row, run_row, variable_row
from worked_stories import STORIES


def on_day(dag, n):
    return run_row(dag, f"r{n}", f"2024-01-0{n}T00:00:00+00:00")


TASK = '{"downstream_task_ids":[],"pool":"default_pool","pool_slots":1,"priority_weight":1,"retries":0,"task_id":"t","trigger_rule":"all_success"}'
ONE_IN_Q_R = [{"dag_id": "a", "tasks": [{"task_id": "t", "pool": "q r"}, {"task_id": "u"}]}]
TWO_VARIABLES = [{"key": "a", "value": "\u00e9"}, {"key": "B", "value": ""}]
FIVE_RUNS = [
    ("uma", f"POST /dags/{dag}/dagRuns", '{"dag_run_id":"r%d","logical_date":"2024-01-0%dT00:00:00Z"}' % (n, n), 200, on_day(dag, n), n)
    for n, dag in enumerate("abbab", 1)
]
CLEARED = '{"task_instances":[{"dag_id":"b","dag_run_id":"r2","logical_date":"2024-01-02T00:00:00+00:00","task_id":"t"}]}'
R2 = "/dags/b/dagRuns/r2"
RUNS, CLEAR = "/dags/b/dagRuns", "POST /dags/b/clearTaskInstances"
Q_R = "/pools/q%20r"

# title, what the program has to have, the moment, members of the configuration, steps
OPERATIONS = [
    ("DAGs of those who read them all, or one", "baseline", NOW, {}, [
        ("vera", "GET /dags", "", 200, listed("dags", 3, dag_row("a", "true"), dag_row("b"), dag_row("c")), 0),
        ("", "GET /version", "", 200, '{"git_version":null,"version":"afplane 1"}', None, None),
        ("bob", "GET /dags", "", 200, listed("dags", 1, dag_row("b")), 0),
        ("pat", "GET /dags", "", 403, "missing permission DAGs.can_read", 0),
        ("nobody", "GET /dags", "", 401, "authentication required", 0),
        ("", "GET /dags", "", 401, "authentication required", 0),
        ("vera", "PUT /dags", "", 405, "GET", None, None),
        ("vera", "HEAD /dags", "", 405, "GET", None, None),
    ]),
    ("absence is told to readers alone", "baseline", NOW, {}, [
        ("bob", "GET /dags/a", "", 403, "missing permission DAG:a.can_read", 0),
        ("bob", "GET /dags/nosuch", "", 403, "missing permission DAG:nosuch.can_read", 0),
        ("vera", "GET /dags/nosuch", "", 404, "no such dag: nosuch", 0),
    ]),
    ("a trigger", "baseline", T1, {}, [
        ("uma", f"POST {RUNS}", "{}", 200, run_row("b", f"manual__{T1}", T1), 1),
        ("uma", f"POST {RUNS}", "{}", 409, f"run exists: manual__{T1}", 1),
        ("uma", f"POST {RUNS}", '{"dag_run_id":"x"}', 409, f"date taken: {T1}", 1),
    ]),
    ("a denial before a body", "baseline", NOW, {}, [
        ("edna", f"POST {RUNS}", "{}", 403, "missing permission DAG Runs.can_create", 0),
        ("edna", f"POST {RUNS}", "{", 403, "missing permission DAG Runs.can_create", 0),
        ("uma", f"POST {RUNS}", "{", 400, "bad body", 0),
    ]),
    ("a denial, then a body, then an absence, then a conflict", "baseline", NOW, {}, [
        ("edna", "PATCH /dags/gone/dagRuns/x", '{"state":"x"}', 403, "missing permission DAG:gone.can_edit", 0),
        ("edna", "PATCH /dags/b/dagRuns/x", '{"state":"x"}', 403, "missing permission DAG Runs.can_edit", 0),
        ("uma", "PATCH /dags/gone/dagRuns/x", '{"state":"x"}', 400, "bad member: state", 0),
        ("uma", "PATCH /dags/gone/dagRuns/x", '{"state":"failed"}', 404, "no such dag: gone", 0),
        ("uma", "PATCH /dags/b/dagRuns/x", '{"state":"failed"}', 404, "no such run: x", 0),
        ("uma", f"POST {RUNS}", '{"dag_run_id":"x"}', 200, run_row("b", "x", MIDNIGHT), 1),
        ("uma", "PATCH /dags/b/dagRuns/x", '{"state":"failed"}', 200, run_row("b", "x", MIDNIGHT, "failed", ENDED), 2),
        ("uma", "POST /dags/a/dagRuns", '{"logical_date":"x","execution_date":"y"}', 400, "bad member: logical_date", 2),
        ("uma", "POST /dags/a/dagRuns", '{"logical_date":null,"execution_date":"y"}', 400, "bad member: execution_date", 2),
        ("uma", "POST /dags/a/dagRuns", '{"dag_run_id":"~","conf":1}', 400, "bad member: dag_run_id", 2),
        ("uma", "POST /dags/a/dagRuns", '{"conf":{"x":1}}', 400, "bad member: conf", 2),
        ("uma", "POST /dags/~/dagRuns", "{}", 404, "no such path", None, None),
    ]),
    ("runs of a reader of one DAG", "baseline,pages", NOW, {}, [
        *FIVE_RUNS,
        ("ron", "GET /dags/~/dagRuns", "", 200, listed("dag_runs", 3, on_day("b", 2), on_day("b", 3), on_day("b", 5)), 5),
        ("ron", "GET /dags/%7e/dagRuns?limit=2&offset=1", "", 200, listed("dag_runs", 3, on_day("b", 3), on_day("b", 5)), 5),
        ("bob", "GET /dags/~/dagRuns", "", 403, "missing permission DAG Runs.can_read", 5),
        ("pat", "GET /dags/~/dagRuns", "", 403, "missing permission DAGs.can_read", 5),
        ("ron", "GET /dags/a/dagRuns", "", 403, "missing permission DAG:a.can_read", 5),
        ("vera", "GET /dags/a/dagRuns", "", 200, listed("dag_runs", 2, on_day("a", 1), on_day("a", 4)), 5),
        ("vera", f"GET {R2}", "", 200, on_day("b", 2), 5),
        ("vera", f"GET {RUNS}/r1", "", 404, "no such run: r1", 5),
    ]),
    ("tasks and instances", "baseline", NOW, {}, [
        *FIVE_RUNS,
        ("vera", f"GET {R2}/taskInstances/t", "", 200, instance_row(), 5),
        ("vera", f"GET {R2}/taskInstances", "", 200, listed("task_instances", 1, instance_row()), 5),
        ("ron", f"GET {R2}/taskInstances", "", 403, "missing permission Task Instances.can_read", 5),
        ("vera", "GET /dags/b/tasks", "", 200, listed("tasks", 1, TASK), 5),
        ("vera", f"GET {R2}/taskInstances/u", "", 404, "no such task: u", 5),
    ]),
    ("pages of the runs of a reader of one DAG", "baseline,pages", NOW, {}, [
        *FIVE_RUNS,
        ("ron", "GET /dags/~/dagRuns?limit=2&offset=1", "", 200, listed("dag_runs", 3, on_day("b", 3), on_day("b", 5)), 5),
        ("ron", "GET /dags/~/dagRuns?offset=9", "", 200, listed("dag_runs", 3), 5),
        ("ron", "GET /dags/~/dagRuns?limit=0", "", 200, listed("dag_runs", 3), 5),
        ("ron", "GET /dags/~/dagRuns?limit=1000", "", 200, listed("dag_runs", 3, on_day("b", 2), on_day("b", 3), on_day("b", 5)), 5),
        ("ron", "GET /dags/~/dagRuns?limit=-1", "", 400, "bad parameter: limit", 5),
        ("bob", "GET /dags/~/dagRuns?limit=-1", "", 403, "missing permission DAG Runs.can_read", 5),
        ("ron", "GET /dags/~/dagRuns?limit=1&limit=x&offset=2", "", 200, listed("dag_runs", 3, on_day("b", 5)), 5),
        ("ron", "GET /dags/~/dagRuns?offset=x&limit=", "", 400, "bad parameter: limit", 5),
        ("ron", "GET /dags/~/dagRuns?%6cimit=1&OFFSET=9", "", 200, listed("dag_runs", 3, on_day("b", 2)), 5),
        ("ron", f"GET /dags/~/dagRuns?limit={'9' * 30}", "", 200, listed("dag_runs", 3, on_day("b", 2), on_day("b", 3), on_day("b", 5)), 5),
        ("ron", f"GET /dags/~/dagRuns?offset={'9' * 30}", "", 200, listed("dag_runs", 3), 5),
        ("ron", "GET /dags/b/dagRuns?limit=1&offset=1", "", 200, listed("dag_runs", 3, on_day("b", 3)), 5),
        ("vera", "GET /dags/nosuch/dagRuns?offset=+1", "", 400, "bad parameter: offset", 5),
        ("vera", f"GET {R2}/taskInstances?limit=1", "", 200, listed("task_instances", 1, instance_row()), 5),
        ("vera", f"GET {R2}/taskInstances?offset=1", "", 200, listed("task_instances", 1), 5),
        ("vera", "GET /dags/b/tasks?limit=x", "", 200, listed("tasks", 1, TASK), 5),
        ("vera", f"GET {R2}?limit=x", "", 200, on_day("b", 2), 5),
    ]),
    ("marks and clears", "baseline", NOW, {}, [
        *FIVE_RUNS[:3],
        ("uma", f"PATCH {R2}", '{"state":"queued"}', 200, on_day("b", 2), 3),
        ("uma", f"PATCH {R2}", '{"state":"success"}', 200, run_row("b", "r2", "2024-01-02T00:00:00+00:00", "success", ENDED), 4),
        ("uma", f"PATCH {R2}", '{"state":"success"}', 200, run_row("b", "r2", "2024-01-02T00:00:00+00:00", "success", ENDED), 4),
        ("vera", f"GET {R2}/taskInstances/t", "", 200, instance_row('"success"', ENDED), 4),
        ("uma", CLEAR, '{"dry_run":false}', 200, '{"task_instances":[]}', 4),
        ("uma", CLEAR, '{"only_failed":false,"end_date":"2024-01-02T00:00:00Z"}', 200, CLEARED, 4),
        ("uma", f"POST {R2}/clear", '{"dry_run":false}', 200, CLEARED, 5),
        ("uma", f"POST {R2}/clear", '{"dry_run":false}', 200, CLEARED, 5),
        ("vera", f"GET {R2}", "", 200, on_day("b", 2), 5),
        ("vera", f"GET {R2}/taskInstances/t", "", 200, instance_row(), 5),
        ("uma", f"PATCH {R2}", '{"state":"failed"}', 200, run_row("b", "r2", "2024-01-02T00:00:00+00:00", "failed", ENDED), 6),
        ("vera", f"GET {R2}/taskInstances/t", "", 200, instance_row('"skipped"', ENDED), 6),
        ("uma", CLEAR, '{"dag_run_id":"gone","task_ids":["u"]}', 404, "no such run: gone", 6),
        ("uma", CLEAR, '{"dag_run_id":"r2","task_ids":["t","u","v"]}', 404, "no such task: u", 6),
        ("uma", f"DELETE {R2}", "", 204, "", 7),
        ("uma", f"DELETE {R2}", "", 404, "no such run: r2", 7),
    ]),
    ("pools and variables", "baseline", NOW, {}, [
        ("adam", "POST /pools", '{"name":"p","slots":2}', 200, pool_row("p", 2), 1),
        ("adam", "POST /pools", '{"name":"p","slots":2}', 409, "exists: p", 1),
        ("adam", "GET /pools", "", 200, listed("pools", 2, pool_row("default_pool", 128), pool_row("p", 2)), 1),
        ("adam", "GET /pools/p", "", 200, pool_row("p", 2), 1),
        ("adam", "PATCH /pools/p", '{"slots":2}', 200, pool_row("p", 2), 1),
        ("adam", "PATCH /pools/p", '{"slots":0}', 200, pool_row("p", 0), 2),
        ("adam", "PATCH /pools/p", '{"slots":1000001}', 400, "bad member: slots", 2),
        ("adam", "DELETE /pools/default_pool", "", 409, "default pool", 2),
        ("adam", "DELETE /pools/p", "", 204, "", 3),
        ("adam", "DELETE /pools/p", "", 404, "no such pool: p", 3),
        ("adam", "POST /variables", '{"key":"k","value":"v"}', 200, variable_row("k", "v"), 4),
        ("adam", "POST /variables", '{"key":"k","value":"w"}', 409, "exists: k", 4),
        ("adam", "GET /variables", "", 200, listed("variables", 1, variable_row("k", "v")), 4),
        ("adam", "PATCH /variables/k", '{"value":"\\u0001\\u007f"}', 200, variable_row("k", "\\u0001\x7f"), 5),
        ("adam", "PATCH /variables/k", '{"value":"\\u0001\x7f"}', 200, variable_row("k", "\\u0001\x7f"), 5),
        ("adam", "DELETE /variables/k", "", 204, "", 6),
        ("adam", "GET /variables/k", "", 404, "no such variable: k", 6),
        ("vera", "GET /pools", "", 403, "missing permission Pools.can_read", 6),
    ]),
    ("of a pool: a denial, then a body, then an absence, then a conflict", "baseline", NOW, {}, [
        ("uma", "POST /pools", "{", 403, "missing permission Pools.can_create", 0),
        ("adam", "POST /pools", "{", 400, "bad body", 0),
        ("adam", "POST /pools", "[]", 400, "bad body", 0),
        ("adam", "POST /pools", '{"slots":-1}', 400, "bad member: name", 0),
        ("adam", "POST /pools", '{"name":"","slots":-1}', 400, "bad member: name", 0),
        ("adam", "POST /pools", '{"name":"default_pool","slots":-1}', 400, "bad member: slots", 0),
        ("adam", "POST /pools", '{"name":"default_pool","slots":1.0}', 400, "bad member: slots", 0),
        ("adam", "POST /pools", '{"name":"default_pool","slots":null}', 400, "bad member: slots", 0),
        ("adam", "POST /pools", '{"name":"default_pool","slots":1}', 409, "exists: default_pool", 0),
        ("uma", "PATCH /pools/gone", '{"slots":"x"}', 403, "missing permission Pools.can_edit", 0),
        ("adam", "PATCH /pools/gone", '{"slots":"x"}', 400, "bad member: slots", 0),
        ("adam", "PATCH /pools/gone", '{"slots":1}', 404, "no such pool: gone", 0),
        ("adam", "PATCH /pools/default_pool", '{"slots":1000000}', 200, pool_row("default_pool", 1000000), 1),
        ("uma", "DELETE /pools/gone", "", 403, "missing permission Pools.can_delete", 1),
        ("adam", "DELETE /pools/gone", "", 404, "no such pool: gone", 1),
        ("adam", "POST /pools", '{"name":"q r","slots":0,"note":1}', 200, pool_row("q r", 0), 2),
        ("adam", f"GET {Q_R}", "", 200, pool_row("q r", 0), 2),
        ("adam", "GET /pools/%C3%A9", "", 404, "no such path", None, None),
        ("adam", "GET /pools/", "", 404, "no such path", None, None),
        ("adam", "PUT /pools", "", 405, "GET, POST", None, None),
        ("adam", "POST /pools/p", "", 405, "GET, PATCH, DELETE", None, None),
    ]),
    ("pools that tasks name", "baseline", NOW, {"pools": [{"name": "q r", "slots": 1}, {"name": "default_pool", "slots": 5}], "dags": ONE_IN_Q_R}, [
        ("adam", "GET /pools", "", 200, listed("pools", 2, pool_row("default_pool", 5), pool_row("q r", 1)), 0),
        ("adam", f"DELETE {Q_R}", "", 409, "pool in use: q r", 0),
        ("adam", "DELETE /pools/default_pool", "", 409, "default pool", 0),
        ("adam", f"PATCH {Q_R}", '{"slots":0}', 200, pool_row("q r", 0), 1),
    ]),
    ("of a variable: a denial, then a body, then an absence, then a conflict", "baseline", NOW, {"variables": TWO_VARIABLES}, [
        ("adam", "GET /variables", "", 200, listed("variables", 2, variable_row("B", ""), variable_row("a", "é")), 0),
        ("uma", "GET /variables", "", 403, "missing permission Variables.can_read", 0),
        ("uma", "POST /variables", '{"key":"","value":1}', 403, "missing permission Variables.can_create", 0),
        ("adam", "POST /variables", '{"key":"","value":1}', 400, "bad member: key", 0),
        ("adam", "POST /variables", '{"key":"a","value":1}', 400, "bad member: value", 0),
        ("adam", "POST /variables", '{"key":"a","value":null}', 400, "bad member: value", 0),
        ("adam", "POST /variables", '{"key":"a","value":""}', 409, "exists: a", 0),
        ("uma", "PATCH /variables/c", "{", 403, "missing permission Variables.can_edit", 0),
        ("adam", "PATCH /variables/c", "{", 400, "bad body", 0),
        ("adam", "PATCH /variables/c", '{"value":"x"}', 404, "no such variable: c", 0),
        ("adam", "POST /variables", '{"key":"A/\\u0022","value":"x"}', 200, variable_row('A/\\"', "x"), 1),
        ("adam", "GET /variables/A%2F%22", "", 200, variable_row('A/\\"', "x"), 1),
        ("adam", "PATCH /variables/A%2f%22", '{"value":"x","key":"y"}', 200, variable_row('A/\\"', "x"), 1),
        ("uma", "DELETE /variables/c", "", 403, "missing permission Variables.can_delete", 1),
        ("adam", "DELETE /variables/c", "", 404, "no such variable: c", 1),
        ("adam", "DELETE /variables/A%2F%22", "", 204, "", 2),
        ("adam", "GET /variables", "", 200, listed("variables", 2, variable_row("B", ""), variable_row("a", "é")), 2),
    ]),
]  # fmt: skip

CONNECTIONS = OPERATIONS + BODIES + DENIALS + BACKFILLS + STORIES + LISTS + ACCOUNTS + PATHS
