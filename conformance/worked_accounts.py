"""Connections over examples/base.json whose answers were worked out by hand: roles, users and versions that are added, changed and deleted, and what the
next answers show of it. Their form is that of worked_cases.py.
"""
from worked_rows import NOW
from worked_rows import dag_row, entry_row, listed, me_row, new_role, role_row, roles_alone, synced, user_row

ON, NO_ACTIONS, UNKNOWN = '{"is_paused":true}', '{"actions":[]}', "authentication required"
SYNC = "POST /own/dags/b/sync"
NO_RUN = new_role("Viewer", 'DAG:b.can_create,Pools.can \\"run\\"')
OF_TOM = '{"username":"tom","roles":[{"name":"R"}],"token_sha256":"71d1a3aa7ea9e6b5f0fde4e1e5f5a3f2a0d8e93f1bdcd8a80b4f0a8ee3e2bd51"}'
DIGEST = "7D4E63E88FD1C69B4F9FE8AC0A4C5D03A6C4E2E0DAC3D8B1A4E2E5A0F3C2B1A9"
OF_CY = f'{{"username":"cy","roles":[{{"name":"R"}},{{"name":"OnlyB"}},{{"name":"R"}}],"token_sha256":"{DIGEST}"}}'
OF_NOBODY = f'{{"username":"bob","roles":[{{"name":"Nobody"}}],"token_sha256":"{DIGEST}"}}'
RUNS_B = role_row("RunsB", "DAG Runs.can_read,DAG:b.can_read")
NEW_R = ("adam", "POST /roles", new_role("R", "Pools.can_read,DAG:b.can_edit,Pools.can_read"), 200, role_row("R", "Pools.can_read,DAG:b.can_edit"), None, 1)

ACCOUNTS = [
    ("what is taken is denied next", "landed", NOW, {}, [
        ("vera", "GET /dags/b", "", 200, dag_row("b"), 0),
        ("adam", "PATCH /users/vera", roles_alone("Public"), 200, user_row("vera", "Public"), None, 1),
        ("vera", "GET /dags/b", "", 403, "missing permission DAG:b.can_read", 0),
        ("uma", "PATCH /dags/b", ON, 200, dag_row("b", "true"), 1),
        ("adam", "DELETE /users/vera", "", 204, "", None, 2),
        ("vera", "GET /dags/b", "", 401, UNKNOWN, 1),
        ("adam", "GET /eventLogs", "", 200, listed("event_logs", 1, entry_row(1, "patch_dag", "uma", "b", version=1)), 1),
    ]),
    ("a change of nothing is a version, up to the last", "landed", NOW, {"version_limit": 2}, [
        ("adam", "PATCH /users/bob", roles_alone(), 200, user_row("bob"), None, 1),
        ("adam", "PATCH /users/bob", roles_alone(), 200, user_row("bob"), None, 2),
        ("adam", "PATCH /users/bob", roles_alone(), 507, "versions full", None),
        ("adam", "PATCH /users/nobody", roles_alone(), 404, "no such user: nobody", None),
        ("bob", "GET /own/me", "", 200, me_row("bob", 2, ""), None),
    ]),
    ("who reads roles and users", "landed", NOW, {}, [
        ("bob", "GET /roles/X", "", 403, "missing permission Roles.can_read", None),
        ("adam", "GET /roles/X", "", 404, "no such role: X", None),
        ("adam", "GET /users/X", "", 404, "no such user: X", None),
        ("adam", "GET /users/ron", "", 200, user_row("ron", "RunsB"), None),
        ("adam", "GET /users/nobody", "", 404, "no such user: nobody", None),
        ("vera", "GET /users/nobody", "", 403, "missing permission Users.can_read", None),
        ("adam", "GET /roles?limit=1&offset=5", "", 200, listed("roles", 8, RUNS_B), None),
        ("adam", "GET /roles?limit=2&offset=4", "", 200, listed("roles", 8, role_row("Public", ""), RUNS_B), None),
        ("adam", "GET /users?limit=1", "", 200, listed("users", 8, user_row("adam", "Admin")), None),
        ("adam", "GET /users?offset=99999999999999999999", "", 200, listed("users", 8), None),
        ("adam", "GET /roles?limit=x", "", 400, "bad parameter: limit", None),
    ]),
    ("a role and its user", "landed", NOW, {}, [
        ("adam", "POST /roles", new_role("R", "DAG:a.can_read"), 200, role_row("R", "DAG:a.can_read"), None, 1),
        ("adam", "POST /roles", '{"name":"R","actions":[]}', 409, "exists: R", None),
        ("adam", "PATCH /roles/R", NO_ACTIONS, 200, role_row("R", ""), None, 2),
        ("adam", "POST /users", OF_TOM, 200, user_row("tom", "R"), None, 3),
        ("adam", "DELETE /roles/R", "", 409, "role in use: R", None),
        ("adam", "PATCH /users/tom", roles_alone(), 200, user_row("tom"), None, 4),
        ("adam", "DELETE /roles/R", "", 204, "", None, 5),
        ("zoe", "DELETE /users/adam", "", 204, "", None, 6),
        ("adam", "GET /own/me", "", 401, UNKNOWN, None),
        ("zoe", "DELETE /users/zoe", "", 409, "last admin", None),
    ]),
    ("a role whose permissions are repeated", "landed", NOW, {}, [
        ("adam", "POST /roles", '{"name":"R"}', 400, "bad member: actions", None),
        ("adam", "POST /roles", NO_RUN, 400, 'bad action: can "run"', None),
        ("adam", "POST /roles", new_role("Viewer", "DAG:b.can_create"), 400, "pair not allowed: DAG:b.can_create", None),
        NEW_R,
        ("adam", "PATCH /roles/X", NO_ACTIONS, 404, "no such role: X", None),
        ("adam", "PATCH /roles/R", NO_ACTIONS, 200, role_row("R", ""), None, 2),
        ("adam", "DELETE /roles/R", "", 204, "", None, 3),
        ("adam", "DELETE /roles/X", "", 404, "no such role: X", None),
    ]),
    ("a user whose roles are repeated, up to the last version", "landed", NOW, {"version_limit": 5}, [
        ("adam", "POST /users", '{"username":"cy","roles":[{"name":""}],"token_sha256":"7d"}', 400, "bad member: roles", None),
        ("adam", "POST /users", '{"username":"cy","roles":[{"name":"R"}],"token_sha256":"7d"}', 400, "bad member: token_sha256", None),
        ("adam", "POST /users", OF_NOBODY, 400, "unknown role: Nobody", None),
        NEW_R,
        ("adam", "POST /users", OF_CY, 200, user_row("cy", "OnlyB", "R", "R"), None, 2),
        ("adam", "POST /users", OF_CY, 409, "exists: cy", None),
        ("adam", "PATCH /users/cy", roles_alone("Viewer"), 200, user_row("cy", "Viewer"), None, 3),
        ("adam", "DELETE /users/zoe", "", 204, "", None, 4),
        ("adam", "PATCH /users/adam", roles_alone("Viewer"), 409, "last admin", None),
        ("adam", "DELETE /users/adam", "", 409, "last admin", None),
        ("adam", "DELETE /users/X", "", 404, "no such user: X", None),
        ("adam", "DELETE /users/cy", "", 204, "", None, 5),
        ("adam", "DELETE /users/cy", "", 404, "no such user: cy", None),
        ("adam", "DELETE /users/ron", "", 507, "versions full", None),
    ]),
    ("a sync, and what a user may do then", "landed", NOW, {}, [
        ("bob", SYNC, "{", 403, "missing permission Roles.can_edit", None),
        ("uma", SYNC, "{", 403, "missing permission Roles.can_edit", None),
        ("adam", SYNC, "{}", 200, synced(1), None, 1),
        ("adam", SYNC, '{"access_control":{}}', 200, synced(2), None, 2),
        ("bob", "GET /own/me", "", 200, me_row("bob", 2, "", "OnlyB"), None),
        ("adam", SYNC, '{"access_control":{"OnlyB":["can_edit"]}}', 200, synced(3), None, 3),
        ("bob", "GET /own/me", "", 200, me_row("bob", 3, "DAG:b.can_edit", "OnlyB"), None),
    ]),
    ("a name that is escaped in a list", "landed", NOW, {}, [
        ("adam", "POST /roles", '{"name":"\\\\","actions":[]}', 200, role_row("\\\\", ""), None, 1),
        ("adam", "PATCH /users/bob", '{"roles":[{"name":"OnlyB"},{"name":"\\\\"}]}', 200, user_row("bob", "OnlyB", "\\\\"), None, 2),
        ("bob", "GET /own/me", "", 200, me_row("bob", 2, "DAG:b.can_read", "OnlyB", "\\\\"), None),
    ]),
]  # fmt: skip
