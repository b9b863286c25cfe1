"""The cases of refusals.py: the examples, each kind of change, readings, faults, limits and single DAGs of a configuration."""
import json
import os

from request_cases import head, with_body

ROOT = os.path.dirname(os.path.dirname(os.path.realpath(__file__)))
EXAMPLES, OUT = os.path.join(ROOT, "examples"), os.path.join(ROOT, "conformance", "out")
INPUTS = [("base.json", "viewer.http"), ("team.json", "one-team.http"), ("team.json", "denied.http"), ("team.json", "wrong-token.http"), ("base.json", "pause.http"), ("team.json", "morning.http")]
INPUTS += [("daily.json", "backfill.http")] + [("team.json", it) for it in ("everything.http", "pools.http", "variables.http", "audit.http", "policies.http")]
PAIRS = [("DAGs", "can_read"), ("DAG Run:b", "can_create"), ("DAG:b", "can_edit"), ("DAG:not.there", "can_delete"), ("DAG Runs", "can_create"), ("DAGs", "can_read")]
ROLE_Y = '{"name":"Y","actions":[%s]}' % ",".join('{"action":{"name":"%s"},"resource":{"name":"%s"}}' % (action, resource) for resource, action in PAIRS)
# Changes over base.json, of each kind one or more, after what has to stand before them; what they do is looked at, and they are asked for again. Of
# one kind the last is the one that is done before others. Where a DAG is to be backfilled, b runs each day.
CHANGES = [
    ("patch_dag", "PATCH /dags/b", '{"is_paused":true}', "/dags/b"),
    ("patch_dag", "PATCH /dags/a", '{"is_paused":false}', "/dags"),
    ("trigger_run", "POST /dags/b/dagRuns", "{}", "/dags/b/dagRuns"),
    ("trigger_run", "POST /dags/b/dagRuns", '{"dag_run_id":"r2"}', "/dags/b/dagRuns/r2"),
    ("trigger_run", "POST /dags/b/dagRuns", '{"dag_run_id":"r2","logical_date":"2024-02-29T12:00:00.5Z","conf":{}}', "/dags/~/dagRuns"),
    ("trigger_run", "POST /dags/b/dagRuns", '{"execution_date":"2024-02-29T12:00:00+01:00"}', "/dags/b/dagRuns"),
    ("trigger_run", "POST /dags/b/dagRuns", '{"dag_run_id":"r1"}', "/dags/b/dagRuns/r1"),
    ("backfill", "POST /own/dags/b/backfills", '{"start_date":"2023-12-30T00:00:00Z","end_date":"2024-01-03T00:00:00Z"}', "/dags/b/dagRuns"),
    ("backfill", "POST /own/dags/b/backfills", '{"start_date":"2023-12-30T00:00:00Z","end_date":"2023-12-31T00:00:00Z"}', "/dags/b/dagRuns"),
    ("mark_run", "PATCH /dags/b/dagRuns/r1", '{"state":"failed"}', "/dags/b/dagRuns/r1"),
    ("delete_run", "DELETE /dags/b/dagRuns/r1", "", "/dags/b/dagRuns"),
    ("clear_run", "POST /dags/b/dagRuns/r1/clear", '{"dry_run":false}', "/dags/b/dagRuns/r1"),
    ("clear_instances", "POST /dags/b/clearTaskInstances", '{"dry_run":false,"only_failed":false}', "/dags/b/dagRuns/r1/taskInstances"),
    ("add_pool", "POST /pools", '{"name":"q \\u0072","slots":0}', "/pools/q%20r"),
    ("add_pool", "POST /pools", '{"name":"p","slots":2}', "/pools"),
    ("set_pool", "PATCH /pools/default_pool", '{"slots":2}', "/pools"),
    ("delete_pool", "DELETE /pools/p", "", "/pools"),
    ("add_variable", "POST /variables", '{"key":"a \\"b\\"","value":"' + "\\n" * 300 + '"}', "/variables/a%20%22b%22"),
    ("add_variable", "POST /variables", '{"key":"k","value":"v"}', "/variables"),
    ("set_variable", "PATCH /variables/k", '{"value":"w"}', "/variables"),
    ("set_variable", "PATCH /variables/k", '{"value":"' + "w" * 300 + '"}', "/variables/k"),
    ("delete_variable", "DELETE /variables/k", "", "/variables"),
    ("add_role", "POST /roles", ROLE_Y, "/roles/Y"),
    ("add_role", "POST /roles", '{"name":"X","actions":[]}', "/roles"),
    ("set_role", "PATCH /roles/EditB", '{"actions":[]}', "/roles/EditB"),
    ("set_role", "PATCH /roles/OnlyB", ROLE_Y, "/own/me"),
    ("drop_role", "DELETE /roles/X", "", "/roles"),
    ("add_user", "POST /users", '{"username":"x \\"y\\"","roles":[{"name":"Op"},{"name":"EditB"}],"token_sha256":"' + "1" * 64 + '"}', "/users/x%20%22y%22"),
    ("add_user", "POST /users", '{"username":"x","roles":[],"token_sha256":"' + "0" * 64 + '"}', "/users"),
    ("set_user", "PATCH /users/bob", '{"roles":[]}', "/users/bob"),
    ("set_user", "PATCH /users/adam", '{"roles":[{"name":"Viewer"}]}', "/own/me"),
    ("set_user", "PATCH /users/adam", '{"token_sha256":"' + "2" * 64 + '"}', "/dags"),
    ("drop_user", "DELETE /users/zoe", "", "/users"),
    ("drop_user", "DELETE /users/adam", "", "/own/me"),
    ("sync", "POST /own/dags/b/sync", '{"access_control":{"OnlyB":[]}}', "/roles/OnlyB"),
    ("sync", "POST /own/dags/c/sync", '{"access_control":{"Viewer":["can_edit"],"Admin":["can_read"],"OnlyB":["can_read","can_delete"]}}', "/roles"),
    ("sync", "POST /own/dags/b/sync", '{"access_control":{"Op":{"DAG Runs":["can_delete"]},"OnlyB":{"DAGs":["can_read"],"DAG Runs":["can_read","can_create"]}}}', "/roles"),
    ("sync", "POST /own/dags/b/sync", "{}", "/own/me"),
]
# What is asked for after some changes; for each, who asks.
READINGS = [
    ("list_entries", "GET /eventLogs", "admin"),
    ("list_entries", "GET /eventLogs?limit=1&offset=1", "admin"),
    ("list_entries", "GET /eventLogs?offset=x", "admin"),
    ("list_entries", "GET /eventLogs", "abc"),
    ("me", "GET /own/me", "hello"),
    ("me", "GET /own/me", "nope"),
    ("list_roles", "GET /roles", "admin"),
    ("list_roles", "GET /roles?limit=2&offset=x", "admin"),
    ("show_role", "GET /roles/Op", "admin"),
    ("show_role", "GET /roles/gone", "admin"),
    ("list_users", "GET /users?limit=3", "admin"),
    ("show_user", "GET /users/edna", "admin"),
    ("show_user", "GET /users/bob", "abc"),
]
# Changes of the policy that are refused, each for another reason.
FAULTS = [
    ("POST /roles", "{", "admin"),
    ("POST /roles", '{"name":"X"}', "admin"),
    ("POST /roles", '{"name":"X","actions":[]}', "abc"),
    ("POST /roles", '{"name":"X","actions":[{"action":{"name":"can_\\"fly\\""},"resource":{"name":"DAGs"}}]}', "admin"),
    ("POST /roles", '{"name":"X","actions":[{"action":{"name":"can_read"},"resource":{"name":"DAG Run:b c"}}]}', "admin"),
    ("PATCH /users/bob", '{"roles":[{"name":"nobody"}]}', "admin"),
    ("PATCH /roles/gone", '{"actions":[]}', "admin"),
    ("PATCH /roles/Viewer", '{"actions":[]}', "admin"),
    ("DELETE /users/gone", "", "admin"),
    ("POST /users", '{"username":"bob","roles":[],"token_sha256":"' + "3" * 64 + '"}', "admin"),
    ("DELETE /roles/OnlyB", "", "admin"),
    ("DELETE /users/zoe", "", "admin"),
    ("DELETE /users/adam", "", "admin"),
    ("POST /own/dags/b/sync", '{"access_control":{"Nobody":["can_read"]}}', "admin"),
    ("POST /own/dags/b/sync", '{"access_control":{"OnlyB":["can_create"]}}', "nope"),
    ("POST /own/dags/b/sync", '{"access_control":{"OnlyB":{"DAG Runs":["can_create","can_fly"]}}}', "admin"),
]
# What has to be done before them.
BEFORE = {"trigger_run": ["trigger_run"], "mark_run": ["trigger_run"], "delete_run": ["trigger_run"], "clear_run": ["mark_run"], "clear_instances": ["mark_run"]}
BEFORE.update({"delete_pool": ["add_pool"], "set_variable": ["add_variable"], "delete_variable": ["add_variable"], "drop_role": ["add_role"]})
# Paths and methods that are not there: no memory is wanted to say so.
NOWHERE = ["GET /nope", "GET /dags/%20", "PUT /dags/%62", "GET /dags/b/dagRuns/%FF", "GET /dags/%7E/dagRuns/r1", "DELETE /dags/b/dagRuns"]
NOWHERE += ["GET /roles/", "PUT /own/me", "GET /own/dags/b/sync", "POST /eventLogs"]
SETUP = {"trigger_run": ("POST /dags/b/dagRuns", '{"dag_run_id":"r1","logical_date":"2023-12-31T00:00:00Z"}')}


def request(asked, body="", token="admin"):
    """A request, by adam, who may do everything, where nobody else is named."""
    method, path = asked.split(" ")
    first = f"{method} {path if path.startswith('/own/') else '/api/v1' + path} HTTP/1.1".encode()
    if method in ("POST", "PATCH"):
        return with_body(first, token.encode(), body.encode())
    return head(first, [b"Host: h", b"Authorization: Bearer " + token.encode()])


def done_before(name):
    """The requests after which a change is one."""
    rows = {it[0]: it[1:3] for it in CHANGES}
    text = b""
    for it in BEFORE.get(name, []):
        text += (b"" if it in SETUP else done_before(it)) + request(*SETUP.get(it, rows[it]))
    return text


def changed_base(name, members, **of_b):
    """The path of a configuration that is base.json but for these members, and for these of the DAG b."""
    with open(os.path.join(EXAMPLES, "base.json"), "rb") as file:
        config = json.load(file)
    config.update(members)
    config["dags"] = [{**it, **of_b} if it["dag_id"] == "b" else it for it in config["dags"]]
    path = os.path.join(OUT, name)
    with open(path, "w", encoding="utf-8") as file:
        json.dump(config, file)
    return path


def readings(has):
    """Event logs and policies after some changes, those that are refused, and what a configuration says of limits and of one DAG."""
    pause, role = request("PATCH /dags/b", '{"is_paused":true}'), request("POST /roles", ROLE_Y)
    changes = pause + request(*SETUP["trigger_run"]) + request("POST /variables", '{"key":"k","value":"v"}') + role
    for name, asked, token in READINGS:
        if name in has:
            yield f"{asked} by {token}", "base.json", changes + request(asked, "", token) * 2
    if "sync" in has:
        yield "changes of the policy that are refused", "base.json", b"".join(request(*it) for it in FAULTS)
        limited = changed_base("limited.json", {"history_limit": 1, "version_limit": 1})
        more = request("PATCH /dags/a", '{"is_paused":false}') + request("DELETE /roles/Y") + request("GET /eventLogs")
        yield "full history and versions", limited, pause + role + pause + more
        access = changed_base("access.json", {}, access_control={"OnlyB": ["can_read", "can_edit"], "Viewer": {"DAGs": ["can_delete"], "DAG Runs": ["can_create"]}, "RunsB": []})
        yield "access_control", access, request("GET /own/me", "", "foo") + request("GET /roles") + pause


def inputs(has):
    """Name, configuration and requests of each case."""
    for config, requests in INPUTS:
        with open(os.path.join(EXAMPLES, requests), "rb") as file:
            yield f"{config} {requests}", config, file.read()
    yield "nowhere", "base.json", b"".join(request(asked) for asked in NOWHERE)
    for name, asked, body, look in CHANGES:
        if name in has:
            change = request(asked, body)
            config = changed_base("daily.json", {}, schedule="@daily", start_date="2024-01-01T00:00:00Z") if name == "backfill" else "base.json"
            yield f"{asked} {body}", config, done_before(name) + change + request(f"GET {look}") + change
    yield from readings(has)
