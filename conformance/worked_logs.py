"""Connections over examples/base.json whose answers were worked out by hand: event logs, and the two limits.

Their form is that of worked_cases.py.
"""
from worked_rows import ENDED, MIDNIGHT, NOW, T1
from worked_rows import dag_row, entry_row, listed, new_role, new_user, pairs_text, pool_row, role_row, roles_alone, run_row, user_row, variable_row

ON, OFF = '{"is_paused":true}', '{"is_paused":false}'
R2, CLEAR = "/dags/b/dagRuns/r2", "POST /dags/b/clearTaskInstances"
SECOND = "2024-01-02T00:00:00+00:00"
CLEARED = '{"task_instances":[{"dag_id":"b","dag_run_id":"r2","logical_date":"2024-01-02T00:00:00+00:00","task_id":"t"}]}'
FAILED = run_row("b", "r2", SECOND, "failed", ENDED)
NO_LOGS = "missing permission Audit Logs.can_read"
FIFTEEN = [
    *["patch_dag b", "trigger_dag_run b r2", "patch_dag_run b r2", "clear_dag_run b r2", "patch_dag_run b r2", "clear_task_instances b r2"],
    *["patch_dag_run b r2", "clear_task_instances b", "delete_dag_run b r2", "post_pool", "patch_pool", "delete_pool"],
    *["post_variable", "patch_variable", "delete_variable"],
]
ENTRIES = [entry_row(n, it.split(" ")[0], "uma" if " b" in it else "adam", *it.split(" ")[1:]) for n, it in enumerate(FIFTEEN, 1)]
THIRD, FOURTH = "2024-01-03T00:00:00.000001+00:00", "2024-01-04T00:00:00+00:00"
MANUAL, ALL = f"manual__{MIDNIGHT}", '"dry_run":false,"only_failed":false'
# What is asked of b, and which run its entry names: of a trigger the one that it added, of a clear the one that its body names.
NAMED = [
    *[f"trigger_dag_run {MANUAL}", "trigger_dag_run x:1", f"trigger_dag_run manual__{THIRD}", "trigger_dag_run ~~", f"trigger_dag_run manual__{FOURTH}"],
    *[f"patch_dag_run {MANUAL}", "clear_task_instances null", f"patch_dag_run {MANUAL}", f"clear_task_instances {MANUAL}", f"delete_dag_run {MANUAL}"],
]
OF_NAMED = [entry_row(n, it.split(" ")[0], "uma", "b", it.split(" ")[1]) for n, it in enumerate(NAMED, 1)]
OF_MANUAL = f'{{"task_instances":[{{"dag_id":"b","dag_run_id":"{MANUAL}","logical_date":"{MIDNIGHT}","task_id":"t"}}]}}'
OF_ANN = [entry_row(2, "patch_dag", "uma", "b", version=2), entry_row(3, "post_variable", "adam", version=2), entry_row(5, "patch_dag", "uma", "b", version=2)]

LOGS = [
    ("the event logs of one change", "baseline,pages,audit", NOW, {}, [
        ("adam", "GET /eventLogs", "", 200, listed("event_logs", 0), 0),
        ("uma", "PATCH /dags/b", ON, 200, dag_row("b", "true"), 1),
        ("uma", "PATCH /dags/b", ON, 200, dag_row("b", "true"), 1),
        ("vera", "GET /dags/b", "", 200, dag_row("b", "true"), 1),
        ("adam", "GET /eventLogs", "", 200, listed("event_logs", 1, entry_row(1, "patch_dag", "uma", "b")), 1),
        ("uma", "GET /eventLogs", "", 403, NO_LOGS, 1),
        ("nobody", "GET /eventLogs", "", 401, "authentication required", 1),
        ("", "GET /eventLogs?limit=x", "", 401, "authentication required", 1),
        ("uma", "GET /eventLogs?limit=x", "", 403, NO_LOGS, 1),
        ("adam", "GET /eventLogs?limit=x", "", 400, "bad parameter: limit", 1),
        ("adam", "GET /eventLogs", "{", 200, listed("event_logs", 1, entry_row(1, "patch_dag", "uma", "b")), 1),
        ("adam", "POST /eventLogs", "{}", 405, "GET", None, None),
        ("adam", "HEAD /eventLogs", "", 405, "GET", None, None),
        ("adam", "GET /eventLogs/", "", 404, "no such path", None, None),
        ("adam", "GET /eventLogs/1", "", 404, "no such path", None, None),
        ("adam", "GET /eventlogs", "", 404, "no such path", None, None),
    ]),
    ("an entry of a moment with microseconds", "baseline,pages,audit", T1, {}, [
        ("uma", "POST /dags/c/dagRuns", '{"dag_run_id":"x:1"}', 200, run_row("c", "x:1", T1), 1),
        ("adam", "GET /eventLogs", "", 200, listed("event_logs", 1, entry_row(1, "trigger_dag_run", "uma", "c", "x:1", when=T1)), 1),
        ("uma", "POST /dags/b/dagRuns", "{}", 200, run_row("b", f"manual__{T1}", T1), 2),
        ("adam", "GET /eventLogs?offset=1", "", 200, listed("event_logs", 2, entry_row(2, "trigger_dag_run", "uma", "b", f"manual__{T1}", when=T1)), 2),
    ]),
    ("the runs that entries name", "landed", NOW, {}, [
        ("uma", "POST /dags/b/dagRuns", "{}", 200, run_row("b", MANUAL, MIDNIGHT), 1),
        ("uma", "POST /dags/b/dagRuns", f'{{"dag_run_id":"x:1","logical_date":"{SECOND}"}}', 200, run_row("b", "x:1", SECOND), 2),
        ("uma", "POST /dags/b/dagRuns", f'{{"logical_date":"{THIRD}"}}', 200, run_row("b", f"manual__{THIRD}", THIRD), 3),
        ("uma", "POST /dags/b/dagRuns", '{"dag_run_id":"x:1"}', 409, "run exists: x:1", 3),
        ("uma", "POST /dags/b/dagRuns", '{"dag_run_id":"~~","logical_date":"2024-01-05T00:00:00Z"}', 200, run_row("b", "~~", "2024-01-05T00:00:00+00:00"), 4),
        ("uma", "POST /dags/b/dagRuns", f'{{"execution_date":"{FOURTH}"}}', 200, run_row("b", f"manual__{FOURTH}", FOURTH), 5),
        ("uma", f"PATCH /dags/b/dagRuns/{MANUAL}", '{"state":"failed"}', 200, run_row("b", MANUAL, MIDNIGHT, "failed", ENDED), 6),
        ("uma", CLEAR, f'{{{ALL},"task_ids":["t"],"end_date":"{MIDNIGHT}"}}', 200, OF_MANUAL, 7),
        ("uma", f"PATCH /dags/b/dagRuns/{MANUAL}", '{"state":"failed"}', 200, run_row("b", MANUAL, MIDNIGHT, "failed", ENDED), 8),
        ("uma", CLEAR, f'{{{ALL},"dag_run_id":"{MANUAL}"}}', 200, OF_MANUAL, 9),
        ("uma", f"DELETE /dags/b/dagRuns/{MANUAL}", "", 204, "", 10),
        ("adam", "GET /eventLogs", "", 200, listed("event_logs", 10, *OF_NAMED), 10),
    ]),
    ("each kind of entry, and what adds none", "baseline,pages,audit", NOW, {}, [
        ("uma", "PATCH /dags/b", ON, 200, dag_row("b", "true"), 1),
        ("uma", "PATCH /dags/b", ON, 200, dag_row("b", "true"), 1),
        ("uma", "POST /dags/b/dagRuns", f'{{"dag_run_id":"r2","logical_date":"{SECOND}"}}', 200, run_row("b", "r2", SECOND), 2),
        ("uma", "POST /dags/b/dagRuns", f'{{"dag_run_id":"r2","logical_date":"{SECOND}"}}', 409, "run exists: r2", 2),
        ("uma", f"PATCH {R2}", '{"state":"queued"}', 200, run_row("b", "r2", SECOND), 2),
        ("uma", f"PATCH {R2}", '{"state":"failed"}', 200, FAILED, 3),
        ("uma", f"POST {R2}/clear", "{}", 200, CLEARED, 3),
        ("uma", f"POST {R2}/clear", '{"dry_run":false}', 200, CLEARED, 4),
        ("uma", f"POST {R2}/clear", '{"dry_run":false}', 200, CLEARED, 4),
        ("uma", f"PATCH {R2}", '{"state":"failed"}', 200, FAILED, 5),
        ("uma", CLEAR, '{"dry_run":false,"only_failed":false,"dag_run_id":"r2"}', 200, CLEARED, 6),
        ("uma", f"PATCH {R2}", '{"state":"failed"}', 200, FAILED, 7),
        ("uma", CLEAR, '{"dry_run":false,"only_failed":false,"task_ids":["t"]}', 200, CLEARED, 8),
        ("vera", f"DELETE {R2}", "", 403, "missing permission DAG:b.can_edit", 8),
        ("uma", f"DELETE {R2}", "", 204, "", 9),
        ("uma", f"DELETE {R2}", "", 404, "no such run: r2", 9),
        ("adam", "POST /pools", '{"name":"p","slots":2}', 200, pool_row("p", 2), 10),
        ("adam", "PATCH /pools/p", '{"slots":3}', 200, pool_row("p", 3), 11),
        ("adam", "PATCH /pools/p", '{"slots":3}', 200, pool_row("p", 3), 11),
        ("adam", "DELETE /pools/p", "", 204, "", 12),
        ("adam", "POST /variables", '{"key":"k","value":"v"}', 200, variable_row("k", "v"), 13),
        ("adam", "POST /variables", "{", 400, "bad body", 13),
        ("adam", "PATCH /variables/k", '{"value":"w"}', 200, variable_row("k", "w"), 14),
        ("adam", "DELETE /variables/k", "", 204, "", 15),
        ("adam", "GET /eventLogs", "", 200, listed("event_logs", 15, *ENTRIES), 15),
        ("adam", "GET /eventLogs?limit=2&offset=13", "", 200, listed("event_logs", 15, *ENTRIES[13:]), 15),
        ("adam", "GET /eventLogs?offset=14&limit=1000", "", 200, listed("event_logs", 15, ENTRIES[14]), 15),
        ("adam", "GET /eventLogs?limit=3", "", 200, listed("event_logs", 15, *ENTRIES[:3]), 15),
    ]),
    ("the event logs of a reader of one DAG", "landed", NOW, {}, [
        ("adam", "POST /roles", new_role("AuditB", "Audit Logs.can_read,DAG:b.can_read"), 200, role_row("AuditB", "Audit Logs.can_read,DAG:b.can_read"), None, 1),
        ("adam", "POST /users", new_user("ann", ["AuditB"], "ann"), 200, user_row("ann", "AuditB"), None, 2),
        ("ann", "GET /eventLogs", "", 200, listed("event_logs", 0), 0),
        ("uma", "PATCH /dags/a", OFF, 200, dag_row("a"), 1),
        ("uma", "PATCH /dags/b", ON, 200, dag_row("b", "true"), 2),
        ("adam", "POST /variables", '{"key":"k","value":"v"}', 200, variable_row("k", "v"), 3),
        ("uma", "PATCH /dags/c", ON, 200, dag_row("c", "true"), 4),
        ("uma", "PATCH /dags/b", OFF, 200, dag_row("b"), 5),
        ("ann", "GET /eventLogs", "", 200, listed("event_logs", 3, *OF_ANN), 5),
        ("ann", "GET /eventLogs?limit=1&offset=1", "", 200, listed("event_logs", 3, OF_ANN[1]), 5),
        ("ann", "GET /eventLogs?limit=2", "", 200, listed("event_logs", 3, *OF_ANN[:2]), 5),
        ("ann", "GET /eventLogs?offset=2", "", 200, listed("event_logs", 3, OF_ANN[2]), 5),
        ("ann", "GET /eventLogs?offset=3", "", 200, listed("event_logs", 3), 5),
        ("ann", "GET /eventLogs?limit=0", "", 200, listed("event_logs", 3), 5),
        ("ann", "GET /eventLogs?limit=1&limit=x&offset=2", "", 200, listed("event_logs", 3, OF_ANN[2]), 5),
        ("ann", "GET /eventLogs?%6cimit=1&OFFSET=9", "", 200, listed("event_logs", 3, OF_ANN[0]), 5),
        ("ann", "GET /eventLogs?offset=x&limit=", "", 400, "bad parameter: limit", 5),
        ("ann", "GET /eventLogs?offset=x&limit=2", "", 400, "bad parameter: offset", 5),
        ("ann", "GET /eventLogs?limit=-1", "", 400, "bad parameter: limit", 5),
        ("bob", "GET /eventLogs?limit=-1", "", 403, NO_LOGS, 5),
        ("ann", f"GET /eventLogs?limit={'9' * 30}&offset=000", "", 200, listed("event_logs", 3, *OF_ANN), 5),
        ("ann", f"GET /eventLogs?offset={'9' * 30}", "", 200, listed("event_logs", 3), 5),
        ("adam", "GET /eventLogs?limit=2&offset=2", "", 200, listed("event_logs", 5, OF_ANN[1], entry_row(4, "patch_dag", "uma", "c", version=2)), 5),
        ("adam", "PATCH /roles/AuditB", f'{{"actions":{pairs_text("Audit Logs.can_read")}}}', 200, role_row("AuditB", "Audit Logs.can_read"), None, 3),
        ("ann", "GET /eventLogs", "", 200, listed("event_logs", 1, OF_ANN[1]), 5),
        ("uma", "PATCH /dags/b", ON, 200, dag_row("b", "true"), 6),
        ("adam", "GET /eventLogs?offset=5", "", 200, listed("event_logs", 6, entry_row(6, "patch_dag", "uma", "b", version=3)), 6),
        ("adam", "DELETE /users/ann", "", 204, "", None, 4),
        ("ann", "GET /eventLogs", "", 401, "authentication required", 6),
        ("adam", "GET /eventLogs?limit=1", "", 200, listed("event_logs", 6, entry_row(1, "patch_dag", "uma", "a", version=2)), 6),
    ]),
    ("the limit of the history", "baseline,pages,audit", NOW, {"history_limit": 3}, [
        ("uma", "PATCH /dags/b", ON, 200, dag_row("b", "true"), 1),
        ("uma", "PATCH /dags/b", OFF, 200, dag_row("b"), 2),
        ("uma", "PATCH /dags/b", ON, 200, dag_row("b", "true"), 3),
        ("uma", "PATCH /dags/b", OFF, 507, "history full", 3),
        ("uma", "PATCH /dags/b", ON, 200, dag_row("b", "true"), 3),
        ("uma", "GET /dags/b", "", 200, dag_row("b", "true"), 3),
    ]),
    ("the limit of the history, of pools and variables, behind each other fault", "baseline,pages,audit", NOW, {"history_limit": 1}, [
        ("adam", "POST /variables", '{"key":"k","value":"v"}', 200, variable_row("k", "v"), 1),
        ("adam", "POST /variables", '{"key":"k","value":"v"}', 409, "exists: k", 1),
        ("adam", "POST /variables", '{"key":"l","value":"v"}', 507, "history full", 1),
        ("adam", "POST /variables", '{"key":"l"}', 400, "bad member: value", 1),
        ("uma", "POST /variables", '{"key":"l"}', 403, "missing permission Variables.can_create", 1),
        ("nobody", "POST /variables", '{"key":"l"}', 401, "authentication required", 1),
        ("adam", "PATCH /variables/k", '{"value":"v"}', 200, variable_row("k", "v"), 1),
        ("adam", "PATCH /variables/k", '{"value":"w"}', 507, "history full", 1),
        ("adam", "PATCH /variables/l", '{"value":"w"}', 404, "no such variable: l", 1),
        ("adam", "DELETE /variables/k", "", 507, "history full", 1),
        ("adam", "POST /pools", '{"name":"p","slots":2}', 507, "history full", 1),
        ("adam", "DELETE /pools/default_pool", "", 409, "default pool", 1),
        ("uma", "POST /dags/b/dagRuns", "{}", 507, "history full", 1),
        ("uma", "GET /dags/b/dagRuns", "", 200, listed("dag_runs", 0), 1),
        ("adam", "GET /eventLogs", "", 200, listed("event_logs", 1, entry_row(1, "post_variable", "adam")), 1),
    ]),
    ("a full history, and a policy that goes on", "landed", NOW, {"history_limit": 1, "version_limit": 2}, [
        ("uma", "PATCH /dags/b", ON, 200, dag_row("b", "true"), 1),
        ("uma", "PATCH /dags/b", OFF, 507, "history full", 1),
        ("adam", "PATCH /users/uma", roles_alone("Viewer"), 200, user_row("uma", "Viewer"), None, 1),
        ("uma", "PATCH /dags/b", OFF, 403, "missing permission DAG:b.can_edit", 1),
        ("adam", "PATCH /dags/b", OFF, 507, "history full", 1),
        ("adam", "PATCH /users/uma", "{}", 200, user_row("uma", "Viewer"), None, 2),
        ("adam", "PATCH /users/uma", "{}", 507, "versions full", None),
        ("adam", "GET /eventLogs", "", 200, listed("event_logs", 1, entry_row(1, "patch_dag", "uma", "b")), 1),
    ]),
]  # fmt: skip
