"""Connections over examples/base.json whose answers were worked out by hand: rows that are added, changed, read and deleted, with refused requests between
these. Their form is that of worked_cases.py.
"""
from worked_rows import ENDED, MIDNIGHT, NOW, dag_row, instance_row, listed, pool_row, run_row, variable_row

SECOND, MANUAL = "2024-01-02T00:00:00+00:00", f"manual__{MIDNIGHT}"
ON, OFF = '{"is_paused":true}', '{"is_paused":false}'
RUNS, RUN, CLEAR = "/dags/b/dagRuns", "/dags/b/dagRuns/r", "POST /dags/b/clearTaskInstances"
T_OF_RUN, UNKNOWN = f"GET {RUN}/taskInstances/t", "authentication required"
TASK = '{"downstream_task_ids":[],"pool":"default_pool","pool_slots":1,"priority_weight":1,"retries":0,"task_id":"t","trigger_rule":"all_success"}'
CHOSEN = '{"task_instances":[{"dag_id":"b","dag_run_id":"r","logical_date":"2024-01-01T00:00:00+00:00","task_id":"t"}]}'
NONE_CHOSEN = '{"task_instances":[]}'
SUCCEEDED, FAILED = (run_row("b", "r", MIDNIGHT, it, ENDED) for it in ("success", "failed"))
FROM_LATER = '{"dry_run":false,"only_failed":false,"start_date":"2024-01-01T00:00:00.000001Z"}'
AT_MIDNIGHT = '{"dry_run":false,"only_failed":false,"task_ids":["t","t"],"start_date":"2024-01-01T00:00:00Z","end_date":"2024-01-01T00:00:00Z"}'

# A DAG of two tasks: the first waits for the second, and is in a pool of a name that has to be escaped.
LANE, LANE_TEXT = 'slow "lane"', 'slow \\"lane\\"'
LATER = {"task_id": "u", "upstream": ["t", "t"], "pool": LANE, "pool_slots": 3, "priority_weight": -7, "retries": 2, "trigger_rule": "one_failed"}
OF_TWO = {"pools": [{"name": LANE, "slots": 4}], "dags": [{"dag_id": "f", "tasks": [LATER, {"task_id": "t"}]}]}
LATER_INSTANCE = (
    f'{{"dag_id":"f","dag_run_id":"r","end_date":null,"pool":"{LANE_TEXT}","pool_slots":3,"priority_weight":-7,'
    f'"start_date":null,"state":null,"task_id":"u","try_number":0}}'
)
LATER_TASK = (
    f'{{"downstream_task_ids":[],"pool":"{LANE_TEXT}","pool_slots":3,"priority_weight":-7,"retries":2,"task_id":"u","trigger_rule":"one_failed"}}'
)
LATERS_TASK = TASK.replace("[]", '["u"]')
RUN_OF_F = ("uma", "POST /dags/f/dagRuns", '{"dag_run_id":"r"}', 200, run_row("f", "r", MIDNIGHT), 1)

STORIES = [
    ("the DAGs of each user", "baseline", NOW, {}, [
        *((it, "GET /dags", "", 200, listed("dags", 3, dag_row("a", "true"), dag_row("b"), dag_row("c")), 0) for it in ("adam", "zoe", "edna", "uma")),
        ("ron", "GET /dags", "", 200, listed("dags", 1, dag_row("b")), 0),
    ]),
    ("a DAG that is paused and goes on", "baseline", NOW, {}, [
        ("", "PATCH /dags/b", "{", 401, UNKNOWN, 0),
        ("vera", "PATCH /dags/b", "{", 403, "missing permission DAG:b.can_edit", 0),
        ("uma", "PATCH /dags/nosuch", "{", 400, "bad body", 0),
        ("uma", "PATCH /dags/nosuch", "{}", 400, "bad member: is_paused", 0),
        ("uma", "PATCH /dags/nosuch", ON, 404, "no such dag: nosuch", 0),
        ("uma", "PATCH /dags/b", ON, 200, dag_row("b", "true"), 1),
        ("uma", "PATCH /dags/b", ON, 200, dag_row("b", "true"), 1),
        ("bob", "GET /dags/b", "", 200, dag_row("b", "true"), 1),
        ("uma", "PATCH /dags/b", OFF, 200, dag_row("b"), 2),
        ("vera", "GET /dags", "", 200, listed("dags", 3, dag_row("a", "true"), dag_row("b"), dag_row("c")), 2),
    ]),
    ("runs that are triggered, and who looks at them", "baseline", NOW, {}, [
        ("ron", "GET /dags/~/dagRuns", "", 200, listed("dag_runs", 0), 0),
        ("uma", "POST /dags/nosuch/dagRuns", "{", 400, "bad body", 0),
        ("uma", "POST /dags/nosuch/dagRuns", '{"logical_date":null,"execution_date":"x","conf":1}', 400, "bad member: execution_date", 0),
        ("uma", "POST /dags/nosuch/dagRuns", "{}", 404, "no such dag: nosuch", 0),
        ("uma", f"POST {RUNS}", "{}", 200, run_row("b", MANUAL, MIDNIGHT), 1),
        ("uma", f"POST {RUNS}", "{}", 409, f"run exists: {MANUAL}", 1),
        ("uma", f"POST {RUNS}", '{"dag_run_id":"x"}', 409, f"date taken: {MIDNIGHT}", 1),
        ("uma", "POST /dags/a/dagRuns", '{"dag_run_id":"r2","logical_date":"2024-01-02T00:00:00Z"}', 200, run_row("a", "r2", SECOND), 2),
        ("vera", "GET /dags/~/dagRuns", "", 200, listed("dag_runs", 2, run_row("b", MANUAL, MIDNIGHT), run_row("a", "r2", SECOND)), 2),
        ("ron", "GET /dags/~/dagRuns", "", 200, listed("dag_runs", 1, run_row("b", MANUAL, MIDNIGHT)), 2),
        ("ron", f"GET {RUNS}", "", 200, listed("dag_runs", 1, run_row("b", MANUAL, MIDNIGHT)), 2),
        ("vera", "GET /dags/c/dagRuns", "", 200, listed("dag_runs", 0), 2),
        ("vera", "GET /dags/nosuch/dagRuns", "", 404, "no such dag: nosuch", 2),
        ("ron", f"GET {RUNS}/{MANUAL}", "", 200, run_row("b", MANUAL, MIDNIGHT), 2),
        ("ron", f"GET {RUNS}/r2", "", 404, "no such run: r2", 2),
        ("vera", "GET /dags/nosuch/dagRuns/r2", "", 404, "no such dag: nosuch", 2),
    ]),
    ("dates as they are returned", "baseline", NOW, {}, [
        ("uma", f"POST {RUNS}", f'{{"dag_run_id":"r{n}","logical_date":"{asked}"}}', 200, run_row("b", f"r{n}", told), n)
        for n, (asked, told) in enumerate([
            ("1970-01-01T00:00:00Z", "1970-01-01T00:00:00+00:00"),
            ("2024-02-29T23:59:59.999999Z", "2024-02-29T23:59:59.999999+00:00"),
            ("2100-03-01T09:05:07.0001Z", "2100-03-01T09:05:07.000100+00:00"),
            ("2000-01-01T01:00:00.5+02:30", "1999-12-31T22:30:00.500000+00:00"),
            ("9998-12-31T23:59:59.999999Z", "9998-12-31T23:59:59.999999+00:00"),
            ("2024-01-01T00:00:00.000001Z", "2024-01-01T00:00:00.000001+00:00"),
        ], 1)
    ]),
    ("a run that is marked with each state in turn", "baseline", NOW, {}, [
        ("uma", f"POST {RUNS}", '{"dag_run_id":"r"}', 200, run_row("b", "r", MIDNIGHT), 1),
        ("vera", f"PATCH {RUN}", "{", 403, "missing permission DAG:b.can_edit", 1),
        ("bob", f"PATCH {RUN}", "{", 403, "missing permission DAG:b.can_edit", 1),
        ("uma", f"PATCH {RUN}", "{", 400, "bad body", 1),
        ("uma", "PATCH /dags/x/dagRuns/r", '{"state":"running"}', 400, "bad member: state", 1),
        ("uma", "PATCH /dags/x/dagRuns/r", '{"state":"success"}', 404, "no such dag: x", 1),
        ("uma", "PATCH /dags/a/dagRuns/r", '{"state":"success"}', 404, "no such run: r", 1),
        ("uma", f"PATCH {RUN}", '{"state":"queued"}', 200, run_row("b", "r", MIDNIGHT), 1),
        ("uma", f"PATCH {RUN}", '{"state":"success"}', 200, SUCCEEDED, 2),
        ("uma", f"PATCH {RUN}", '{"state":"success"}', 200, SUCCEEDED, 2),
        ("uma", T_OF_RUN, "", 200, instance_row('"success"', ENDED, run="r"), 2),
        ("uma", f"PATCH {RUN}", '{"state":"failed"}', 200, FAILED, 3),
        ("uma", T_OF_RUN, "", 200, instance_row('"success"', ENDED, run="r"), 3),
        ("uma", f"PATCH {RUN}", '{"state":"queued"}', 200, run_row("b", "r", MIDNIGHT), 4),
        ("uma", T_OF_RUN, "", 200, instance_row('"success"', ENDED, run="r"), 4),
        ("uma", "PATCH /dags/~/dagRuns/r", '{"state":"failed"}', 404, "no such path", None, None),
        ("uma", f"POST {RUN}", "", 405, "GET, PATCH, DELETE", None, None),
    ]),
    ("instances that are cleared, and a run that is deleted", "baseline", NOW, {}, [
        ("uma", f"POST {RUNS}", '{"dag_run_id":"r"}', 200, run_row("b", "r", MIDNIGHT), 1),
        ("vera", CLEAR, "{", 403, "missing permission DAG:b.can_edit", 1),
        ("bob", f"POST {RUN}/clear", "{", 403, "missing permission DAG:b.can_edit", 1),
        ("uma", CLEAR, "{", 400, "bad body", 1),
        ("uma", "POST /dags/x/clearTaskInstances", '{"dry_run":0}', 400, "bad member: dry_run", 1),
        ("uma", "POST /dags/x/clearTaskInstances", '{"dag_run_id":"s","task_ids":["u"]}', 404, "no such dag: x", 1),
        ("uma", CLEAR, '{"dag_run_id":"s","task_ids":["u"]}', 404, "no such run: s", 1),
        ("uma", CLEAR, '{"dag_run_id":"r","task_ids":["t","u","v"]}', 404, "no such task: u", 1),
        ("uma", "POST /dags/a/dagRuns/r/clear", "{}", 404, "no such run: r", 1),
        ("uma", f"PATCH {RUN}", '{"state":"failed"}', 200, FAILED, 2),
        ("uma", CLEAR, "{}", 200, NONE_CHOSEN, 2),
        ("uma", CLEAR, '{"only_failed":false}', 200, CHOSEN, 2),
        ("uma", CLEAR, '{"dry_run":false}', 200, NONE_CHOSEN, 2),
        ("uma", f"POST {RUN}/clear", "{}", 200, CHOSEN, 2),
        ("uma", f"POST {RUN}/clear", '{"dry_run":false}', 200, CHOSEN, 3),
        ("uma", f"POST {RUN}/clear", '{"dry_run":false}', 200, CHOSEN, 3),
        ("uma", T_OF_RUN, "", 200, instance_row(run="r"), 3),
        ("uma", f"GET {RUN}", "", 200, run_row("b", "r", MIDNIGHT), 3),
        ("uma", f"PATCH {RUN}", '{"state":"success"}', 200, SUCCEEDED, 4),
        ("uma", CLEAR, FROM_LATER, 200, NONE_CHOSEN, 4),
        ("uma", CLEAR, AT_MIDNIGHT, 200, CHOSEN, 5),
        ("uma", "POST /dags/~/clearTaskInstances", "{}", 404, "no such path", None, None),
        ("uma", "GET /dags/b/clearTaskInstances", "", 405, "POST", None, None),
        ("uma", f"PATCH {RUN}/clear", "{}", 405, "POST", None, None),
        ("vera", f"DELETE {RUN}", "", 403, "missing permission DAG:b.can_edit", 5),
        ("uma", "DELETE /dags/x/dagRuns/r", "", 404, "no such dag: x", 5),
        ("uma", f"DELETE {RUNS}/s", "", 404, "no such run: s", 5),
        ("uma", f"DELETE {RUN}", "", 204, "", 6),
        ("uma", f"DELETE {RUN}", "", 404, "no such run: r", 6),
        ("uma", f"GET {RUN}", "", 404, "no such run: r", 6),
        ("uma", f"POST {RUN}", "", 405, "GET, PATCH, DELETE", None, None),
    ]),
    ("instances of a run, and the tasks of its DAG", "baseline", NOW, {}, [
        ("uma", f"POST {RUNS}", '{"dag_run_id":"r+1"}', 200, run_row("b", "r+1", MIDNIGHT), 1),
        ("vera", f"GET {RUNS}/r%2b1/taskInstances", "", 200, listed("task_instances", 1, instance_row(run="r+1")), 1),
        ("uma", f"GET {RUNS}/r+1/taskInstances/t?limit=x", "", 200, instance_row(run="r+1"), 1),
        ("vera", f"GET {RUNS}/r+1/taskInstances/u", "", 404, "no such task: u", 1),
        ("vera", f"GET {RUN}/taskInstances/u", "", 404, "no such run: r", 1),
        ("vera", "GET /dags/d/dagRuns/r/taskInstances", "", 404, "no such dag: d", 1),
        ("ron", f"GET {RUNS}/r+1/taskInstances", "", 403, "missing permission Task Instances.can_read", 1),
        ("bob", f"GET {RUNS}/r+1/taskInstances/t", "", 403, "missing permission DAG Runs.can_read", 1),
        ("ron", "GET /dags/d/dagRuns/r/taskInstances/t", "", 403, "missing permission DAG:d.can_read", 1),
        ("vera", "GET /dags/b/tasks?limit=0&offset=x", "", 200, listed("tasks", 1, TASK), 1),
        ("vera", "GET /dags/d/tasks", "", 404, "no such dag: d", 1),
        ("bob", "GET /dags/d/tasks", "", 403, "missing permission DAG:d.can_read", 1),
        ("nobody", f"GET {RUNS}/r+1/taskInstances", "", 401, UNKNOWN, 1),
        ("", f"GET {RUN}/taskInstances/t~1", "", 404, "no such path", None, None),
        ("", "GET /dags/~/tasks", "", 404, "no such path", None, None),
        ("", f"GET {RUNS}/~/taskInstances", "", 404, "no such path", None, None),
        ("", f"DELETE {RUN}/taskInstances/t", "", 405, "GET", None, None),
    ]),
    ("a DAG of two tasks in two pools", "baseline", NOW, OF_TWO, [
        ("vera", "GET /dags/f/tasks", "{", 200, listed("tasks", 2, LATER_TASK, LATERS_TASK), 0),
        ("vera", "GET /dags/g/tasks", "", 404, "no such dag: g", 0),
        ("bob", "GET /dags/b/tasks", "", 403, "missing permission Task Instances.can_read", 0),
        ("ron", "GET /dags/g/tasks", "", 403, "missing permission DAG:g.can_read", 0),
        ("", "GET /dags/f/tasks", "", 401, UNKNOWN, 0),
        RUN_OF_F,
        ("vera", "GET /dags/f/dagRuns/r/taskInstances", "", 200, listed("task_instances", 2, LATER_INSTANCE, instance_row(dag="f", run="r")), 1),
        ("vera", "GET /dags/f/dagRuns/r/taskInstances/t", "", 200, instance_row(dag="f", run="r"), 1),
        ("vera", "GET /dags/f/dagRuns/r/taskInstances/x", "", 404, "no such task: x", 1),
        ("vera", "GET /dags/f/dagRuns/s/taskInstances/x", "", 404, "no such run: s", 1),
        ("vera", "GET /dags/f/dagRuns/s/taskInstances", "", 404, "no such run: s", 1),
        ("vera", "GET /dags/g/dagRuns/s/taskInstances/x", "", 404, "no such dag: g", 1),
        ("ron", f"GET {RUNS}/s/taskInstances/x", "", 403, "missing permission Task Instances.can_read", 1),
        ("bob", f"GET {RUNS}/s/taskInstances", "", 403, "missing permission DAG Runs.can_read", 1),
        ("bob", "GET /dags/f/dagRuns/s/taskInstances", "", 403, "missing permission DAG:f.can_read", 1),
        ("", "GET /dags/f/dagRuns/r/taskInstances", "", 401, UNKNOWN, 1),
    ]),
    ("pools, one of which a task names", "baseline", NOW, OF_TWO, [
        ("uma", "GET /pools", "", 403, "missing permission Pools.can_read", 0),
        ("adam", "GET /pools", "", 200, listed("pools", 2, pool_row("default_pool", 128), pool_row(LANE_TEXT, 4)), 0),
        ("vera", "POST /pools", "{", 403, "missing permission Pools.can_create", 0),
        ("adam", "POST /pools", '{"slots":2}', 400, "bad member: name", 0),
        ("adam", "POST /pools", '{"name":"p","slots":2}', 200, pool_row("p", 2), 1),
        ("adam", "POST /pools", '{"name":"p","slots":3}', 409, "exists: p", 1),
        ("adam", "PATCH /pools/p", '{"slots":3}', 200, pool_row("p", 3), 2),
        ("adam", "GET /pools/p", "", 200, pool_row("p", 3), 2),
        ("adam", "GET /pools", "", 200, listed("pools", 3, pool_row("default_pool", 128), pool_row("p", 3), pool_row(LANE_TEXT, 4)), 2),
        ("adam", "PATCH /pools/q", "{}", 400, "bad member: slots", 2),
        ("adam", "PATCH /pools/q", '{"slots":3}', 404, "no such pool: q", 2),
        ("adam", "GET /pools/q", "", 404, "no such pool: q", 2),
        ("uma", "DELETE /pools/p", "", 403, "missing permission Pools.can_delete", 2),
        ("adam", "DELETE /pools/slow%20%22lane%22", "", 409, 'pool in use: slow "lane"', 2),
        ("adam", "DELETE /pools/q", "", 404, "no such pool: q", 2),
        ("adam", "PATCH /pools/default%5Fpool", '{"slots":0}', 200, pool_row("default_pool", 0), 3),
        ("adam", "GET /pools", "", 200, listed("pools", 3, pool_row("default_pool", 0), pool_row("p", 3), pool_row(LANE_TEXT, 4)), 3),
        ("adam", "DELETE /pools/p", "", 204, "", 4),
        ("adam", "GET /pools/p", "", 404, "no such pool: p", 4),
        ("adam", "PATCH /pools/p", '{"slots":3}', 404, "no such pool: p", 4),
    ]),
    ("a default pool of no slots", "baseline", NOW, {}, [
        ("adam", "POST /pools", '{"name":"p","slots":3}', 200, pool_row("p", 3), 1),
        ("adam", "PATCH /pools/default%5Fpool", '{"slots":0}', 200, pool_row("default_pool", 0), 2),
        ("adam", "GET /pools", "", 200, listed("pools", 2, pool_row("default_pool", 0), pool_row("p", 3)), 2),
    ]),
    ("variables that come, change and go", "baseline", NOW, {}, [
        ("vera", "GET /variables", "", 403, "missing permission Variables.can_read", 0),
        ("vera", "POST /variables", "{", 403, "missing permission Variables.can_create", 0),
        ("uma", "POST /variables", "{", 403, "missing permission Variables.can_create", 0),
        ("adam", "POST /variables", '{"key":"","value":"v"}', 400, "bad member: key", 0),
        ("adam", "POST /variables", '{"key":"","value":7}', 400, "bad member: key", 0),
        ("adam", "POST /variables", '{"key":"j","value":1}', 400, "bad member: value", 0),
        ("adam", "POST /variables", '{"key":"k","value":"v"}', 200, variable_row("k", "v"), 1),
        ("adam", "POST /variables", '{"key":"a b","value":"\\u00e9\\n"}', 200, variable_row("a b", "é\\n"), 2),
        ("adam", "GET /variables", "", 200, listed("variables", 2, variable_row("a b", "é\\n"), variable_row("k", "v")), 2),
        ("adam", "GET /variables/a%20b", "", 200, variable_row("a b", "é\\n"), 2),
        ("adam", "DELETE /variables/a%20b", "", 204, "", 3),
        ("adam", "PATCH /variables/k", '{"value":"v"}', 200, variable_row("k", "v"), 3),
        ("adam", "PATCH /variables/k", '{"value":"w\\n"}', 200, variable_row("k", "w\\n"), 4),
        ("adam", "GET /variables/k", "", 200, variable_row("k", "w\\n"), 4),
        ("adam", "GET /variables", "", 200, listed("variables", 1, variable_row("k", "w\\n")), 4),
        ("adam", "PATCH /variables/j", "{}", 400, "bad member: value", 4),
        ("adam", "PATCH /variables/j", '{"value":"v"}', 404, "no such variable: j", 4),
        ("adam", "GET /variables/j", "", 404, "no such variable: j", 4),
        ("uma", "PATCH /variables/k", '{"value":"v"}', 403, "missing permission Variables.can_edit", 4),
        ("adam", "DELETE /variables/j", "", 404, "no such variable: j", 4),
        ("adam", "PATCH /variables/k", '{"value":""}', 200, variable_row("k", ""), 5),
        ("adam", "PATCH /variables/k", '{"value":""}', 200, variable_row("k", ""), 5),
        ("adam", "PATCH /variables/k", '{"value":"say \\"x\\""}', 200, variable_row("k", 'say \\"x\\"'), 6),
        ("adam", "DELETE /variables/k", "", 204, "", 7),
        ("adam", "DELETE /variables/k", "", 404, "no such variable: k", 7),
        ("adam", "GET /variables/k", "", 404, "no such variable: k", 7),
        ("adam", "PATCH /variables/k", '{"value":"v"}', 404, "no such variable: k", 7),
    ]),
]  # fmt: skip
