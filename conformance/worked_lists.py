"""Connections over examples/base.json whose answers were worked out by hand: pages of lists, long lists, rows in their order, and histories that are full.
Their form is that of worked_cases.py.
"""
import json

from worked_bodies import SECOND
from worked_rows import MIDNIGHT, NOW, dag_row, instance_row, listed, pool_row, run_row, variable_row
from worked_stories import RUN_OF_F, TASK

ON, OFF = '{"is_paused":true}', '{"is_paused":false}'
RUNS, ALL_RUNS, UNKNOWN, FULL = "/dags/b/dagRuns", "GET /dags/~/dagRuns", "authentication required", "history full"
THIRD, FIFTH = (run_row("b", f"r{n}", f"2024-01-0{n}T00:00:00+00:00") for n in (3, 5))
ONE_TASK = [{"task_id": "t"}]
MANY_DAGS = [f"dag{n}" for n in range(1024)]
MANY_TASKS = [f"t-{n}" for n in range(150)]
# Of three DAGs one may be read by two default roles, one by none, and of one nothing is said.
GRANTING = {
    "roles": [{"name": "OnlyB", "actions": [{"action": {"name": "can_read"}, "resource": {"name": f"DAG:{it}"}} for it in "bc"]}],
    "users": [
        {"username": "adam", "roles": [{"name": "Admin"}], "token_sha256": "8c6976e5b5410415bde908bd4dee15dfb167a9c873fc4bb8a81f6f2ab448a918"},
        {"username": "bob", "roles": [{"name": "OnlyB"}], "token_sha256": "2c26b46b68ffc68ff99b453c1d30413413422d706483bfa0f98a5e886266e7ae"},
        {"username": "pat", "roles": [{"name": "Public"}], "token_sha256": "fcde2b2edba56bf408601fb721fe9b5c338d10ee429ea04fae5511b68fbf8fb9"},
    ],
    "dags": [
        {"dag_id": "a", "access_control": {"Public": ["can_read"], "Admin": ["can_read"]}, "tasks": ONE_TASK},
        {"dag_id": "b", "access_control": {}, "tasks": ONE_TASK},
        {"dag_id": "c", "access_control": None, "tasks": ONE_TASK},
    ],
}
UNSORTED = {"variables": [{"key": "b", "value": "1"}, {"key": "B", "value": ""}, {"key": "a", "value": "\u00e9"}]}
# A schedule, its start date, and the first point at or after it, if there is one.
STARTS = [
    ("@hourly", "2024-02-28T23:00:00.000001Z", "2024-02-29T00:00:00+00:00"),
    ("@daily", "2024-02-29T00:00:00Z", "2024-02-29T00:00:00+00:00"),
    ("@weekly", "2024-01-01T00:00:00Z", "2024-01-07T00:00:00+00:00"),
    ("@monthly", "2024-01-01T00:00:01Z", "2024-02-01T00:00:00+00:00"),
    (7, "2024-01-01T00:00:01.5Z", "2024-01-01T00:00:01.500000+00:00"),
    ("@monthly", "9998-12-31T00:00:00Z", None),
]
STARTING = {"dags": [{"dag_id": f"d{n}", "schedule": it, "start_date": start, "is_paused": True, "tasks": ONE_TASK} for n, (it, start, _) in enumerate(STARTS)]}
FIRST_POINTS = [
    dag_row(f"d{n}", "true").replace('"next_dagrun":null,"schedule_interval":null', f'"next_dagrun":{json.dumps(first)},"schedule_interval":{json.dumps(it)}')
    for n, (it, _, first) in enumerate(STARTS)
]


def of_task(row, task):
    return row.replace('"task_id":"t"', f'"task_id":"{task}"')


LISTS = [
    ("the first point of each schedule, of DAGs that are paused", "landed", NOW, STARTING, [
        ("vera", "GET /dags", "", 200, listed("dags", 6, *FIRST_POINTS), 0),
    ]),
    ("pages of runs, by odd queries", "baseline,pages", NOW, {}, [
        *(("uma", f"POST /dags/{dag}/dagRuns", f'{{"dag_run_id":"r{n}","logical_date":"2024-01-0{n}T00:00:00Z"}}', 200,
           run_row(dag, f"r{n}", f"2024-01-0{n}T00:00:00+00:00"), n) for n, dag in enumerate("abbab", 1)),
        ("ron", f"{ALL_RUNS}?limit=x&limit=1", "", 400, "bad parameter: limit", 5),
        ("ron", f"{ALL_RUNS}?%6cimit=1", "", 200, listed("dag_runs", 3, run_row("b", "r2", SECOND)), 5),
        ("ron", f"{ALL_RUNS}?LIMIT=1&offset=%32", "", 200, listed("dag_runs", 3, FIFTH), 5),
        ("ron", f"{ALL_RUNS}?limit=1?offset=2", "", 400, "bad parameter: limit", 5),
        ("uma", f"{ALL_RUNS}?limit=1&limits=x", "", 200, listed("dag_runs", 5, run_row("a", "r1", MIDNIGHT)), 5),
        ("ron", f"GET {RUNS}?limit=1&offset=1", "", 200, listed("dag_runs", 3, THIRD), 5),
        ("ron", f"GET {RUNS}?offset=3", "", 200, listed("dag_runs", 3), 5),
        ("ron", "GET /dags/a/dagRuns?limit=x", "", 403, "missing permission DAG:a.can_read", 5),
        ("vera", "GET /dags/nosuch/dagRuns?offset=1", "", 404, "no such dag: nosuch", 5),
    ]),
    ("pages of DAGs, pools, variables and instances", "baseline,pages", NOW, {}, [
        ("vera", "GET /dags?limit=1&offset=1", "", 200, listed("dags", 3, dag_row("b")), 0),
        ("bob", "GET /dags?limit=1", "", 200, listed("dags", 1, dag_row("b")), 0),
        ("bob", "GET /dags?offset=1", "", 200, listed("dags", 1), 0),
        ("vera", "GET /dags?limit", "", 400, "bad parameter: limit", 0),
        ("pat", "GET /dags?limit=x", "", 403, "missing permission DAGs.can_read", 0),
        ("nobody", "GET /dags?limit=x", "", 401, UNKNOWN, 0),
        ("bob", "GET /dags/b?limit=x", "", 200, dag_row("b"), 0),
        ("adam", "GET /pools?limit=0", "", 200, listed("pools", 1), 0),
        ("adam", "GET /pools?offset=0x", "", 400, "bad parameter: offset", 0),
        ("adam", "GET /pools?offset=0&limit=100", "", 200, listed("pools", 1, pool_row("default_pool", 128)), 0),
        ("adam", "POST /variables", '{"key":"j","value":"1"}', 200, variable_row("j", "1"), 1),
        ("adam", "POST /variables", '{"key":"k","value":"2"}', 200, variable_row("k", "2"), 2),
        ("adam", "GET /variables?offset=1", "", 200, listed("variables", 2, variable_row("k", "2")), 2),
        ("adam", "GET /variables?limit=1", "", 200, listed("variables", 2, variable_row("j", "1")), 2),
        ("adam", "GET /variables?limit=1.0", "", 400, "bad parameter: limit", 2),
        ("uma", f"POST {RUNS}", '{"dag_run_id":"r","logical_date":"2024-01-01T00:00:00Z"}', 200, run_row("b", "r", MIDNIGHT), 3),
        ("vera", f"GET {RUNS}/r/taskInstances?limit=1", "", 200, listed("task_instances", 1, instance_row(run="r")), 3),
        ("vera", f"GET {RUNS}/r/taskInstances?offset=1", "", 200, listed("task_instances", 1), 3),
        ("vera", f"GET {RUNS}/nosuch/taskInstances?limit=-0", "", 400, "bad parameter: limit", 3),
    ]),
    ("a page of a hundred DAGs", "baseline", NOW, {"dags": [{"dag_id": it, "tasks": ONE_TASK} for it in MANY_DAGS]}, [
        ("vera", "GET /dags", "", 200, listed("dags", 1024, *map(dag_row, sorted(MANY_DAGS)[:100])), 0),
    ]),
    ("a page of a hundred instances, and all tasks", "baseline", NOW, {"dags": [{"dag_id": "f", "tasks": [{"task_id": it} for it in MANY_TASKS]}]}, [
        ("vera", "GET /dags/f/tasks", "", 200, listed("tasks", 150, *(of_task(TASK, it) for it in MANY_TASKS)), 0),
        RUN_OF_F,
        ("vera", "GET /dags/f/dagRuns/r/taskInstances", "", 200,
         listed("task_instances", 150, *(of_task(instance_row(dag="f", run="r"), it) for it in MANY_TASKS[:100])), 1),
    ]),
    ("variables of the configuration, in order of key", "baseline", NOW, UNSORTED, [
        ("adam", "GET /variables", "", 200, listed("variables", 3, variable_row("B", ""), variable_row("a", "é"), variable_row("b", "1")), 0),
    ]),
    ("DAGs that access control grants", "landed", NOW, GRANTING, [
        ("pat", "GET /dags", "", 200, listed("dags", 1, dag_row("a")), 0),
        ("bob", "GET /dags", "", 200, listed("dags", 1, dag_row("c")), 0),
        ("bob", "GET /dags/b", "", 403, "missing permission DAG:b.can_read", 0),
        ("adam", "GET /dags/b", "", 200, dag_row("b"), 0),
    ]),
    ("the last entry is a pause", "baseline,pages,audit", NOW, {"history_limit": 1}, [
        ("uma", "PATCH /dags/b", OFF, 200, dag_row("b"), 0),
        ("uma", "PATCH /dags/b", ON, 200, dag_row("b", "true"), 1),
        ("uma", "PATCH /dags/b", OFF, 507, FULL, 1),
        ("uma", "PATCH /dags/b", ON, 200, dag_row("b", "true"), 1),
        ("adam", "POST /pools", '{"name":"p","slots":2}', 507, FULL, 1),
        ("adam", "PATCH /pools/default_pool", '{"slots":128}', 200, pool_row("default_pool", 128), 1),
        ("adam", "PATCH /pools/default_pool", '{"slots":1}', 507, FULL, 1),
        ("adam", "DELETE /pools/default_pool", "", 409, "default pool", 1),
        ("adam", "POST /variables", '{"key":"k","value":"v"}', 507, FULL, 1),
    ]),
    ("the last entry is a run", "baseline,pages,audit", NOW, {"history_limit": 1}, [
        ("uma", f"POST {RUNS}", "{}", 200, run_row("b", f"manual__{MIDNIGHT}", MIDNIGHT), 1),
        ("uma", "POST /dags/c/dagRuns", "{}", 507, FULL, 1),
        ("uma", "PATCH /dags/b", ON, 507, FULL, 1),
        ("uma", "PATCH /dags/b", OFF, 200, dag_row("b"), 1),
        ("uma", f"GET {RUNS}", "", 200, listed("dag_runs", 1, run_row("b", f"manual__{MIDNIGHT}", MIDNIGHT)), 1),
    ]),
]  # fmt: skip
