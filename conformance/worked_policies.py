"""Connections over examples/base.json whose answers were worked out by hand: roles, users, who am I, sync; and all of this kind, with event logs, faults,
permissions on the runs of one DAG, and what is hidden.

Their form is that of worked_cases.py.
"""
from worked_faults import FAULTS
from worked_hidden import HIDDEN
from worked_logs import LOGS
from worked_rows import ADMIN, NOW, OP, USER, VIEWER
from worked_rows import dag_row, listed, me_row, new_role, role_row, roles_alone, synced, user_row
from worked_run_pairs import RUN_PAIRS

ON = '{"is_paused":true}'
SYNC = "POST /own/dags/b/sync"
# of four roles and more, which are not in order
MANY = '{"access_control":{"Viewer":[],"User":[],"Public":[],"Op":[],%s}}'
B_ALONE = listed("dags", 1, dag_row("b"))
NO_DAGS = "missing permission DAGs.can_read"

POLICIES = [
    ("one's own permissions", "landed", NOW, {}, [
        ("bob", "GET /own/me", "", 200, '{"permissions":["DAG:b.can_read"],"policy_version":0,"roles":["OnlyB"],"username":"bob"}', None),
        ("ron", "GET /own/me", "", 200, me_row("ron", 0, "DAG Runs.can_read,DAG:b.can_read", "RunsB"), None),
        ("edna", "GET /own/me?x=1", "", 200, me_row("edna", 0, f"{VIEWER},DAG:b.can_edit", "EditB", "Viewer"), None),
        ("pat", "GET /own/me", "", 200, me_row("pat", 0, "", "Public"), None),
        ("adam", "GET /own/me", "", 200, me_row("adam", 0, ADMIN, "Admin"), None),
        ("", "GET /own/me", "", 401, "authentication required", None),
        ("nobody", "GET /own/me", "", 401, "authentication required", None),
        ("bob", "POST /own/me", "{}", 405, "GET", None, None),
        ("bob", "HEAD /own/me", "", 405, "GET", None, None),
        ("bob", "GET /own/me/", "", 404, "no such path", None, None),
    ]),
    ("a role that is taken away", "landed", NOW, {}, [
        ("vera", "GET /dags?limit=1", "", 200, listed("dags", 3, dag_row("a", "true")), 0),
        ("adam", "PATCH /users/vera", roles_alone("Public"), 200, user_row("vera", "Public"), None, 1),
        ("vera", "GET /dags", "", 403, NO_DAGS, 0),
        ("adam", "GET /dags?offset=2", "", 200, listed("dags", 3, dag_row("c")), 0),
        ("vera", "GET /own/me", "", 200, me_row("vera", 1, "", "Public"), None),
        ("zoe", "PATCH /users/vera", roles_alone("Public", "OnlyB", "Public"), 200, user_row("vera", "OnlyB", "Public", "Public"), None, 2),
        ("vera", "GET /own/me", "", 200, me_row("vera", 2, "DAG:b.can_read", "OnlyB", "Public", "Public"), None),
        ("vera", "GET /dags", "", 200, B_ALONE, 0),
    ]),
    ("sync", "landed", NOW, {}, [
        ("adam", SYNC, "{}", 200, synced(1), None, 1),
        ("bob", "GET /dags", "", 200, B_ALONE, 0),
        ("adam", SYNC, '{"access_control":{}}', 200, synced(2), None, 2),
        ("bob", "GET /dags", "", 403, NO_DAGS, 0),
        ("adam", SYNC, '{"access_control":{"Nobody":["can_read"]}}', 400, "unknown role: Nobody", None),
        ("adam", SYNC, '{"access_control":{"OnlyB":["can_create"]}}', 400, "bad action: can_create", None),
        ("adam", SYNC, '{"access_control":{"Zed":["x"],"Abe":["y"]}}', 400, "bad action: y", None),
        ("adam", SYNC, '{"access_control":{"Zed":["can_read"],"Abe":["can_read"]}}', 400, "unknown role: Abe", None),
        ("adam", SYNC, '{"access_control":{"Abe":["can_read"],"OnlyB":["can_read","x","y"]}}', 400, "bad action: x", None),
        ("adam", SYNC, '{"access_control":{"OnlyB":null}}', 400, "bad member: access_control", None),
        ("adam", SYNC, '{"access_control":{"OnlyB":"can_read"}}', 400, "bad member: access_control", None),
        ("adam", SYNC, '{"access_control":{"OnlyB":{"Pools":["can_read"]}}}', 400, "bad member: access_control", None),
        ("adam", SYNC, '{"access_control":{"OnlyB":["x"],"":["can_read"]}}', 400, "bad member: access_control", None),
        ("adam", SYNC, '{"access_control":["OnlyB"]}', 400, "bad member: access_control", None),
        ("adam", SYNC, "[]", 400, "bad body", None),
        ("uma", SYNC, "[]", 403, "missing permission Roles.can_edit", None),
        ("nobody", SYNC, "[]", 401, "authentication required", None),
        ("adam", SYNC, '{"access_control":{"Admin":["can_read"],"Viewer":["can_edit"]}}', 200, synced(3), None, 3),
        ("adam", "GET /roles/Admin", "", 200, role_row("Admin", f"{ADMIN},DAG:b.can_read"), None),
        ("adam", "GET /roles/Viewer", "", 200, role_row("Viewer", f"{VIEWER},DAG:b.can_edit"), None),
        ("adam", SYNC, '{"access_control":{}}', 200, synced(4), None, 4),
        ("adam", "GET /roles/Admin", "", 200, role_row("Admin", f"{ADMIN},DAG:b.can_read"), None),
        ("adam", "GET /roles/Viewer", "", 200, role_row("Viewer", VIEWER), None),
        ("adam", SYNC, '{"access_control":null,"x":1}', 200, synced(5), None, 5),
        ("adam", SYNC, '{"access_control":{"OnlyB":["can_delete","can_read","can_delete"]}}', 200, synced(6), None, 6),
        ("bob", "GET /own/me", "", 200, me_row("bob", 6, "DAG:b.can_read,DAG:b.can_delete", "OnlyB"), None),
        ("bob", "GET /dags", "", 200, B_ALONE, 0),
        ("adam", "POST /own/dags/not.there/sync", '{"access_control":{"OnlyB":["can_edit"]}}', 200, synced(7, "not.there"), None, 7),
        ("bob", "GET /own/me", "", 200, me_row("bob", 7, "DAG:b.can_read,DAG:b.can_delete,DAG:not.there.can_edit", "OnlyB"), None),
        ("bob", "PATCH /dags/not.there", ON, 404, "no such dag: not.there", 0),
        ("adam", "POST /own/dags/~/sync", "{}", 404, "no such path", None, None),
        ("adam", "GET /own/dags/b/sync", "", 405, "POST", None, None),
        ("adam", "POST /own/dags/b/syncs", "{}", 404, "no such path", None, None),
    ]),
    ("sync of many roles", "landed", NOW, {}, [
        ("adam", SYNC, MANY % '"OnlyB":["can_edit"],"Admin":[]', 200, synced(1), None, 1),
        ("bob", "GET /own/me", "", 200, me_row("bob", 1, "DAG:b.can_edit", "OnlyB"), None),
        ("adam", SYNC, MANY % '"OnlyB":["x"],"Admin":[],"OnlyB":["can_edit"],"Op":[],"OnlyB":["can_delete"]', 200, synced(2), None, 2),
        ("bob", "GET /own/me", "", 200, me_row("bob", 2, "DAG:b.can_delete", "OnlyB"), None),
        ("adam", SYNC, MANY % '"Z4":["x"],"Z3":["y"],"Z2":["can_read"],"Z1":["can_read"]', 400, "bad action: y", None),
        ("adam", SYNC, MANY % '"Z4":[],"Z3":[],"Z2":[],"Z1":[]', 400, "unknown role: Z1", None),
        ("adam", SYNC, MANY % '"Z5":[],"Z4":[],"Z3":[],"Z2":[],"Z1":[]', 400, "unknown role: Z1", None),
    ]),
    ("roles and users", "landed", NOW, {}, [
        ("adam", "GET /roles/OnlyB", "", 200, role_row("OnlyB", "DAG:b.can_read"), None),
        ("adam", "GET /users?limit=1", "", 200, listed("users", 8, user_row("adam", "Admin")), None),
        ("adam", "DELETE /roles/OnlyB", "", 409, "role in use: OnlyB", None),
        ("adam", "PATCH /roles/Viewer", '{"actions":[]}', 409, "default role: Viewer", None),
        ("adam", "DELETE /users/adam", "", 204, "", None, 1),
        ("adam", "GET /dags", "", 401, "authentication required", 0),
        ("zoe", "DELETE /users/zoe", "", 409, "last admin", None),
        ("zoe", "PATCH /users/zoe", roles_alone("Op"), 409, "last admin", None),
        ("zoe", "PATCH /users/zoe", roles_alone("Op", "Admin"), 200, user_row("zoe", "Admin", "Op"), None, 2),
        ("zoe", "PATCH /users/vera", roles_alone("Admin"), 200, user_row("vera", "Admin"), None, 3),
        ("vera", "DELETE /users/zoe", "", 204, "", None, 4),
        ("vera", "PATCH /users/vera", roles_alone(), 409, "last admin", None),
        ("zoe", "GET /users", "", 401, "authentication required", None),
    ]),
    ("all roles and users, in order of name", "landed", NOW, {}, [
        ("adam", "GET /roles?limit=3", "", 200, listed("roles", 8, role_row("Admin", ADMIN), role_row("EditB", "DAG:b.can_edit"), role_row("OnlyB", "DAG:b.can_read")), None),
        ("adam", "GET /roles?offset=3&limit=2", "", 200, listed("roles", 8, role_row("Op", OP), role_row("Public", "")), None),
        ("adam", "GET /roles?offset=5", "", 200, listed("roles", 8, role_row("RunsB", "DAG Runs.can_read,DAG:b.can_read"), role_row("User", USER), role_row("Viewer", VIEWER)), None),
        ("adam", "GET /roles?limit=0", "", 200, listed("roles", 8), None),
        ("adam", "GET /roles?limit=x", "", 400, "bad parameter: limit", None),
        ("vera", "GET /roles?limit=x", "", 403, "missing permission Roles.can_read", None),
        ("nobody", "GET /roles?limit=x", "", 401, "authentication required", None),
        ("adam", "GET /users?offset=1&limit=3", "", 200, listed("users", 8, user_row("bob", "OnlyB"), user_row("edna", "EditB", "Viewer"), user_row("pat", "Public")), None),
        ("adam", "GET /users?offset=4", "", 200, listed("users", 8, user_row("ron", "RunsB"), user_row("uma", "User"), user_row("vera", "Viewer"), user_row("zoe", "Admin")), None),
        ("adam", "GET /users?offset=8", "", 200, listed("users", 8), None),
        ("adam", "GET /users?offset=", "", 400, "bad parameter: offset", None),
        ("uma", "GET /users", "", 403, "missing permission Users.can_read", None),
        ("adam", "GET /users/edna?limit=x", "", 200, user_row("edna", "EditB", "Viewer"), None),
        ("adam", "GET /users/gone", "", 404, "no such user: gone", None),
        ("uma", "GET /users/gone", "", 403, "missing permission Users.can_read", None),
        ("adam", "GET /roles/gone?limit=x", "", 404, "no such role: gone", None),
        ("uma", "GET /roles/gone", "", 403, "missing permission Roles.can_read", None),
    ]),
    ("paths of roles and users", "landed", NOW, {}, [
        ("adam", "POST /roles", new_role('A/b %', ""), 200, role_row("A/b %", ""), None, 1),
        ("adam", "GET /roles/A%2Fb%20%25", "", 200, role_row("A/b %", ""), None),
        ("adam", "GET /roles/A%2fb%20%", "", 200, role_row("A/b %", ""), None),
        ("adam", "GET /roles/A/b%20%25", "", 404, "no such path", None, None),
        ("adam", f"GET /roles/{'r' * 64}", "", 404, f"no such role: {'r' * 64}", None),
        ("adam", f"GET /roles/{'r' * 65}", "", 404, "no such path", None, None),
        ("adam", "GET /roles/", "", 404, "no such path", None, None),
        ("adam", "GET /users/%C3%A9", "", 404, "no such path", None, None),
        ("adam", "GET /users/%22", "", 404, 'no such user: "', None),
        ("adam", "PUT /roles", "", 405, "GET, POST", None, None),
        ("adam", "DELETE /users", "", 405, "GET, POST", None, None),
        ("adam", "POST /roles/OnlyB", "{}", 405, "GET, PATCH, DELETE", None, None),
        ("adam", "PUT /users/bob", "{}", 405, "GET, PATCH, DELETE", None, None),
        ("adam", "HEAD /users/bob", "", 405, "GET, PATCH, DELETE", None, None),
        ("adam", "GET /own/roles", "", 404, "no such path", None, None),
    ]),
]  # fmt: skip

CONNECTIONS = LOGS + POLICIES + FAULTS + RUN_PAIRS + HIDDEN
