"""Calls of the program that were written out by hand: its words, its configuration or a trace; its exit status, and what it writes.

A configuration is refused for the first fault in the order of docs/CONFIGURATION.md, and a row names its reason, or `taken`. The rows of a table stand in
one frame.
"""
import json
import os

from worked_rows import MIDNIGHT, listed, new_role, role_row, roles_alone, run_row, user_row

TOP = os.path.dirname(os.path.dirname(os.path.realpath(__file__)))
BASE = os.path.join(TOP, "examples", "base.json")
NOW, TASK = "2024-01-01T00:00:00Z", '{"task_id":"t"}'
USAGE = b"usage: afplane once CONFIG NOW | serve CONFIG PORT WORKERS | verify TRACE\n"
DIGEST = "8c6976e5b5410415bde908bd4dee15dfb167a9c873fc4bb8a81f6f2ab448a918"
ADMIN = f'"users":[{{"username":"u","roles":[{{"name":"Admin"}}],"token_sha256":"{DIGEST}"}}]'

WHOLE = [
    ("syntax", "{"),
    ("shape", "[]"),
    ("admin", "{}"),
    ("pair", '{"roles":[{"name":"R","actions":[{"action":{"name":"can_read"},"resource":{"name":"Nothing"}}]}]}'),
    ("syntax", ""),
    ("syntax", '{} {}'),
    ("syntax", '{"users":1e999}'),
    ("shape", '{"roles":{}}'),
    ("shape", '{"roles":null,"users":7}'),
    ("admin", '{"pools":7,"dags":7}'),
    ("shape", '{"roles":[5]}'),
    ("shape", '{"roles":[{"name":"R"}]}'),
    ("name", '{"roles":[{"name":"","actions":[]}]}'),
    ("shape", '{"roles":[{"name":"R","actions":[{"action":{"name":"can_read"}}]}]}'),
    ("action", '{"roles":[{"name":"R","actions":[{"action":{"name":"can_run"},"resource":{"name":"Nothing"}}]}]}'),
    ("action", '{"roles":[{"name":"R","actions":[{"action":{"name":"can_read"},"resource":{"name":"Nothing"}},{"action":{"name":"can_run"},"resource":{"name":"DAGs"}}]}]}'),
    ("pair", '{"roles":[{"name":"R","actions":[{"action":{"name":"can_create"},"resource":{"name":"DAG:a"}}]}]}'),
    ("pair", '{"roles":[{"name":"R","actions":[{"action":{"name":"can_read"},"resource":{"name":"DAG:a b"}}]}]}'),
    ("duplicate", '{"roles":[{"name":"Viewer","actions":[]}]}'),
    ("duplicate", '{"roles":[{"name":"R","actions":[]},{"name":"R","actions":[]}]}'),
    ("shape", '{"users":[{"username":"u","roles":[],"token_sha256":"00"}]}'),
    ("role", '{"users":[{"username":"u","roles":[{"name":"Nobody"}],"token_sha256":"' + DIGEST + '"}]}'),
    ("name", '{"users":[{"username":"u","roles":[{"name":""}],"token_sha256":"00"}]}'),
    ("admin", '{"users":[{"username":"u","roles":[{"name":"Viewer"}],"token_sha256":"' + DIGEST + '"}]}'),
    ("duplicate", '{"users":[{"username":"u","roles":[{"name":"Admin"}],"token_sha256":"' + DIGEST + '"},{"username":"v","roles":[],"token_sha256":"8C6976E5B5410415BDE908BD4DEE15DFB167A9C873FC4BB8A81F6F2AB448A918"}]}'),
]
# Pools and DAGs, beside an administrator: each row, and each of its faults before those of the rows below it.
ROWS = [
    ("taken", '"pools":null,"dags":null'),
    ("taken", '"pools":[{"name":"p","slots":1000000}]'),
    ("taken", '"pools":[{"name":"default_pool","slots":0},{"name":"q","slots":1}]'),
    ("shape", '"pools":{}'),
    ("shape", '"pools":[{"slots":1}]'),
    ("shape", '"pools":[{"name":"p"}]'),
    ("name", '"pools":[{"name":"","slots":"1"}]'),
    ("shape", '"pools":[{"name":"p","slots":"1"}]'),
    ("shape", '"pools":[{"name":"p","slots":1.0}]'),
    ("limit", '"pools":[{"name":"p","slots":-1}]'),
    ("limit", '"pools":[{"name":"p","slots":1000001}]'),
    ("duplicate", '"pools":[{"name":"p","slots":1},{"name":"p","slots":1}]'),
    ("duplicate", '"pools":[{"name":"default_pool","slots":1},{"name":"default_pool","slots":1}]'),
    ("limit", '"pools":[{"name":"p","slots":1000001}],"dags":7'),
    ("shape", '"dags":[{}]'),
    ("name", '"dags":[{"dag_id":"a/b","schedule":7.5}]'),
    ("graph", '"dags":[{"dag_id":"a"}]'),
    ("graph", '"dags":[{"dag_id":"a","tasks":[]}]'),
    ("shape", '"dags":[{"dag_id":"a","tasks":{}}]'),
    ("duplicate", '"dags":[{"dag_id":"a","tasks":[{"task_id":"t"}]},{"dag_id":"b","tasks":[{"task_id":"t"}]},{"dag_id":"a","tasks":[{"task_id":"t"}]}]'),
]
# A role, before a user with the role Admin.
OF_A_ROLE = [
    *(("taken", f'"{action}"}},"resource":{{"name":"DAG Run:{rest}"') for action in ("can_create", "can_read", "can_edit", "can_delete") for rest in ("a", "not.there")),
    ("taken", f'"can_create"}},"resource":{{"name":"DAG Run:{"d" * 250}"'),
    ("action", '"can_fly"},"resource":{"name":"DAG Run:a b"'),
    *(("pair", f'"can_read"}},"resource":{{"name":"{it}"') for it in ("DAG Run:", "DAG Run:a b", "DAG Run:~", "DAG Run:" + "d" * 251, "DAG run:a", "DAG Runs:a", "DAG Run")),
    ("pair", '"can_create"},"resource":{"name":"DAG:a"'),
]
# The members of a DAG of one task, each before those that are read after it.
OF_A_DAG = [
    ("taken", '"schedule":null,"start_date":7,"catchup":null,"max_active_runs":null,"is_paused":null'),
    ("taken", '"schedule":"@daily","start_date":"2024-01-01T00:00:00Z"'),
    ("taken", '"schedule":31536000,"start_date":"2024-01-01T00:00:00Z"'),
    ("taken", '"max_active_runs":1000'),
    ("shape", '"schedule":true,"start_date":"2024-01-01T00:00:00Z"'),
    ("shape", '"schedule":1.5,"start_date":"2024-01-01T00:00:00Z"'),
    ("schedule", '"schedule":"@yearly","start_date":"2024-01-01T00:00:00Z"'),
    ("limit", '"schedule":0,"start_date":7'),
    ("limit", '"schedule":31536001,"start_date":"2024-01-01T00:00:00Z"'),
    ("limit", '"schedule":-1,"start_date":"2024-01-01T00:00:00Z"'),
    ("schedule", '"schedule":"@daily"'),
    ("schedule", '"schedule":"@daily","start_date":7,"catchup":7'),
    ("schedule", '"schedule":"@daily","start_date":"2024-01-01"'),
    ("schedule", '"schedule":"@daily","start_date":"1969-12-31T23:59:59Z"'),
    ("shape", '"catchup":7,"max_active_runs":0'),
    ("limit", '"max_active_runs":0,"is_paused":7'),
    ("limit", '"max_active_runs":1001'),
    ("limit", '"max_active_runs":-1'),
    ("shape", '"max_active_runs":1.0'),
    ("limit", '"max_active_runs":18446744073709551615'),
    ("shape", '"is_paused":0'),
]
# The tasks of one DAG, beside a pool `p`.
TASKS = [
    ("taken", '{"task_id":"t","upstream":null,"pool":null,"pool_slots":1000000,"priority_weight":-2147483648,"retries":1000,"retry_delay":31536000,'
     '"trigger_rule":"none_failed_min_one_success","script":["success","failed","skipped"]}'),
    ("taken", '{"task_id":"t","upstream":["u","u"]},{"task_id":"u"}'),
    ("taken", '{"task_id":"t","pool":"p","script":[]}'),
    ("shape", '7'),
    ("name", '{"task_id":""}'),
    ("shape", '{"task_id":"t","upstream":["a b",7]}'),
    ("name", '{"task_id":"t","upstream":["a b"],"pool":7}'),
    ("shape", '{"task_id":"t","upstream":"u"}'),
    ("shape", '{"task_id":"t","pool":7}'),
    ("name", '{"task_id":"t","pool":""}'),
    ("pool", '{"task_id":"t","pool":"q","pool_slots":"1"}'),
    ("shape", '{"task_id":"t","pool_slots":"1","priority_weight":2147483648}'),
    ("limit", '{"task_id":"t","priority_weight":2147483648,"retries":"1"}'),
    ("limit", '{"task_id":"t","priority_weight":18446744073709551615}'),
    ("limit", '{"task_id":"t","priority_weight":-2147483649}'),
    ("shape", '{"task_id":"t","priority_weight":1.0}'),
    ("limit", '{"task_id":"t","retries":1001,"retry_delay":"1"}'),
    ("limit", '{"task_id":"t","retry_delay":31536001,"trigger_rule":7}'),
    ("shape", '{"task_id":"t","trigger_rule":"dummy"}'),
    ("shape", '{"task_id":"t","script":["success","lost"]}'),
    ("shape", '{"task_id":"t","script":"success"}'),
    ("shape", '{"task_id":"t","pool_slots":0},7'),
    ("graph", '{"task_id":"t","pool_slots":0}'),
    ("graph", '{"task_id":"t","pool_slots":-1}'),
    ("graph", '{"task_id":"t","pool_slots":1000001}'),
    ("graph", '{"task_id":"t"},{"task_id":"t"}'),
    ("graph", '{"task_id":"t","upstream":["u"]}'),
    ("graph", '{"task_id":"t","upstream":["u"]},{"task_id":"u","upstream":["t"]}'),
]
# The access control of one DAG, beside a role `R`.
ACCESS = [
    ("taken", 'null'),
    ("taken", '{}'),
    ("taken", '{"R":[]}'),
    ("taken", '{"R":["can_read","can_edit","can_delete","can_read"],"Admin":["can_read"]}'),
    ("taken", '{"R":7,"R":["can_read"]}'),
    ("shape", '7'),
    ("shape", '[]'),
    ("shape", '{"R":null}'),
    ("shape", '{"R":"can_read"}'),
    ("taken", '{"R":{}}'),
    ("taken", '{"R":{"DAGs":null,"DAG Runs":null}}'),
    ("taken", '{"R":{"DAGs":["can_read","can_edit","can_delete"],"DAG Runs":["can_create","can_read","can_edit","can_delete","can_read"]},"Admin":["can_read"]}'),
    ("taken", '{"R":{"DAGs":7,"DAGs":[]}}'),
    ("shape", '{"R":{"Pools":["can_read"]}}'),
    ("shape", '{"R":{"Pools":null}}'),
    ("shape", '{"R":{"DAGs":[],"dag runs":[]}}'),
    ("shape", '{"R":{"DAGs":"can_read"}}'),
    ("shape", '{"R":{"DAG Runs":{}}}'),
    ("shape", '{"R":{"DAG Runs":["can_read",null]}}'),
    ("shape", '{"":[],"R":{"DAG Runs":["can_fly",7]}}'),
    ("shape", '{"R":["can_read",7]}'),
    ("shape", '{"R":["can_read"],"R":7}'),
    ("shape", '{"":["can_fly"],"R":[7]}'),
    ("name", '{"":["can_fly"]}'),
    ("name", r'{"R":["can_fly"],"\u00e9":[]}'),
    ("name", '{"RRRRRRRRRRRRRRRRRRRRRRRRRRRRRRRRRRRRRRRRRRRRRRRRRRRRRRRRRRRRRRRRR":[]}'),
    ("role", '{"RRRRRRRRRRRRRRRRRRRRRRRRRRRRRRRRRRRRRRRRRRRRRRRRRRRRRRRRRRRRRRRR":[]}'),
    ("action", '{"R":["can_create"]}'),
    ("action", '{"R":["Can_read"]}'),
    ("action", '{"Nobody":["can_read"],"R":["can_fly"]}'),
    ("action", '{"R":{"DAGs":["can_create"]}}'),
    ("action", '{"R":{"DAG Runs":["can_create","Can_read"]}}'),
    ("action", '{"Nobody":{},"R":{"DAG Runs":["can_fly"]}}'),
    ("name", '{"":{"DAG Runs":["can_fly"]}}'),
    ("role", '{"Nobody":{"DAG Runs":["can_create"]}}'),
    ("role", '{"Nobody":{}}'),
    ("role", '{"Nobody":["can_read"]}'),
    ("role", '{"Nobody":[]}'),
]
# What is in the other members is found before, and the limits after; DAGs are taken in the order of the file.
ORDER = [
    ("graph", '"dags":[{"dag_id":"a","access_control":7,"tasks":[{"task_id":"t"}]},{"dag_id":"b"}]'),
    ("role", '"dags":[{"dag_id":"a","access_control":{"Nobody":[]},"tasks":[{"task_id":"t"}]},{"dag_id":"b","access_control":7,"tasks":[{"task_id":"t"}]}]'),
    ("name", '"dags":[{"dag_id":"b","access_control":{"":[]},"tasks":[{"task_id":"t"}]},{"dag_id":"a","access_control":7,"tasks":[{"task_id":"t"}]}]'),
    ("name", '"history_limit":0,"dags":[{"dag_id":"a","access_control":{"":[]},"tasks":[{"task_id":"t"}]}]'),
    ("limit", '"history_limit":0,"dags":[{"dag_id":"a","access_control":{},"tasks":[{"task_id":"t"}]}]'),
]
VARIABLES = [
    ("taken", '"variables":null'),
    ("taken", '"variables":[]'),
    ("taken", r'"variables":[{"key":"k","value":""},{"key":"a b","value":"\u00e9","description":7}]'),
    ("shape", '"variables":{}'),
    ("shape", '"variables":[7]'),
    ("shape", '"variables":[{"value":"v"}]'),
    ("name", '"variables":[{"key":"","value":7}]'),
    ("shape", '"variables":[{"key":"k"}]'),
    ("shape", '"variables":[{"key":"k","value":null}]'),
    ("shape", '"variables":[{"key":"k","value":7}]'),
    ("shape", '"variables":[{"key":"k","value":"v"},{"key":"k","value":7}]'),
    ("duplicate", '"variables":[{"key":"k","value":"v"},{"key":"k","value":"w"}]'),
    ("name", r'"variables":[{"key":"k\u00e9","value":"v"}],"dags":7'),
    ("name", '"variables":7,"pools":[{"name":""}]'),
]
LIMITS = [
    ("taken", '"history_limit":null,"version_limit":null'),
    ("taken", '"history_limit":1,"version_limit":1'),
    ("taken", '"history_limit":4294967294,"version_limit":4294967295'),
    ("limit", '"history_limit":0'),
    ("limit", '"history_limit":4294967295'),
    ("limit", '"history_limit":-1'),
    ("limit", '"history_limit":18446744073709551615'),
    ("shape", '"history_limit":"1"'),
    ("shape", '"history_limit":1.0'),
    ("limit", '"version_limit":0'),
    ("limit", '"version_limit":4294967296'),
    ("shape", '"version_limit":true'),
    ("limit", '"version_limit":true,"history_limit":0'),
    ("shape", '"history_limit":0,"dags":7'),
]

FRAMES = [
    ("a configuration", "%s", WHOLE),
    ("pools and DAGs", f"{{{ADMIN},%s}}", ROWS),
    ("a role", f'{{"roles":[{{"name":"R","actions":[{{"action":{{"name":%s}}}}]}}],{ADMIN}}}', OF_A_ROLE),
    ("a DAG", f'{{{ADMIN},"dags":[{{"dag_id":"a",%s,"tasks":[{TASK}]}}]}}', OF_A_DAG),
    ("tasks", f'{{{ADMIN},"pools":[{{"name":"p","slots":1}}],"dags":[{{"dag_id":"a","tasks":[%s]}}]}}', TASKS),
    ("access control", f'{{"roles":[{{"name":"R","actions":[]}}],{ADMIN},"dags":[{{"dag_id":"a","access_control":%s,"tasks":[{TASK}]}}]}}', ACCESS),
    ("DAGs in order", f"{{{ADMIN},%s}}", ORDER),
    ("variables", f"{{{ADMIN},%s}}", VARIABLES),
    ("limits", f"{{{ADMIN},%s}}", LIMITS),
]


def ended(reason):
    """The exit status of a call in which nothing is answered, and what it writes."""
    return (0, b"", b"") if reason == "taken" else (3, b"", f"afplane: configuration refused: {reason}\n".encode())


# The name, the text of a configuration, what is asked under it, and how the program ends. Under one that is refused no input is answered.
CONFIGURATIONS = [
    (f"{kind} {n}", (frame % text).encode(), b"" if reason == "taken" else b"GET", ended(reason))
    for kind, frame, rows in FRAMES
    for n, (reason, text) in enumerate(rows)
]

WRONG_WORDS = [
    *[[], ["verify"], ["once", BASE], ["check", "trace.json"], ["verify", "trace.json", NOW], ["verify", "trace.json", "more", "words"]],
    *[["once", BASE, "today"], ["once", BASE, NOW, "more"], ["once", BASE, "0", "1"], ["twice", BASE, NOW]],
    *[["serve", BASE, "0"], ["serve", BASE, "0", "1", "more"], ["serve", BASE, "65536", "1"], ["serve", BASE, "4294967376", "1"]],
    *[["serve", BASE, "+80", "1"], ["serve", BASE, "", "1"], ["serve", BASE, "0", "0"], ["serve", BASE, "0", "17"], ["serve", BASE, "0", "-1"]],
]
# Words, and how the program ends that is called with them. Of a server under no file only the words count.
WORDS = [
    *((it, (2, b"", USAGE)) for it in WRONG_WORDS),
    (["once", BASE, NOW], ended("taken")),
    (["once", BASE + "x", NOW], ended("unreadable")),
    *((["serve", BASE + "x", *it], ended("unreadable")) for it in (["0", "1"], ["65535", "16"], ["008080", "04"])),
    (["verify", BASE], ended("trace")),
    *((["verify", it], ended("unreadable")) for it in (BASE + "x", os.path.join(TOP, NOW), "")),
]


def act(token, asked, body, told, seq):
    """The steps in which the only session of a trace looks, and then sends a request."""
    method, path = asked.split(" ")
    step = {"act": 0, "token": token, "method": method, "target": "/api/v1" + path, "body": body, "now": NOW}
    return [[{"look": 0}, None], [step, {"status": 200, "version": 0, "seq": seq, "body": told}]]


def moment(kind, told, seq):
    return [[{kind: NOW}, {"status": 200, "version": 0, "seq": seq, "body": told}]]


def of_the_default_pool(queued, running):
    """The row of a pool of 128 slots, of which an instance holds one."""
    return f'{{"name":"default_pool","occupied_slots":1,"open_slots":127,"queued_slots":{queued},"running_slots":{running},"slots":128}}'


def slots_of_an_instance(queued, running):
    """A trace in which the only instance of a run is queued, and then runs; and the slots of the pool at both moments."""
    steps = act("abc", "POST /dags/b/dagRuns", '{"dag_run_id":"r"}', run_row("b", "r", MIDNIGHT), 1) + moment("tick", "changed", 2)
    steps += act("admin", "GET /pools/default_pool", "", of_the_default_pool(*queued), 2) + moment("claim", "1 t 1", 3)
    steps += act("admin", "GET /pools/default_pool", "", of_the_default_pool(*running), 3)
    with open(BASE, "rb") as file:
        return json.dumps({"config": json.load(file), "sessions": 1, "steps": steps}).encode()


RUN_X = run_row("b", "x", MIDNIGHT)


def published(at, asked, body, told):
    """The step in which the only session of a trace changes the policy."""
    method, path = asked.split(" ")
    step = {"publish": 0, "at": at, "token": "admin", "method": method, "target": "/api/v1" + path, "body": body}
    return [[step, {"status": 200, "version": at + 1, "seq": None, "body": told}]]


def runs_of_one_dag(told, missing="DAG Runs.can_edit"):
    """A trace in which bob is given the runs of b, to create and to read, and DAG a to read; what he is told of all runs, and what he is missing."""
    pairs = "DAG:a.can_read,DAG:b.can_read,DAG:b.can_edit,DAG Run:b.can_create,DAG Run:b.can_read"
    steps = published(0, "POST /roles", new_role("RunB", pairs), role_row("RunB", pairs))
    steps += published(1, "PATCH /users/bob", roles_alone("RunB"), user_row("bob", "RunB"))
    for token, asked, body, answer, seq in (
        ("abc", "POST /dags/a/dagRuns", '{"dag_run_id":"y"}', run_row("a", "y", MIDNIGHT), 1),
        ("foo", "POST /dags/b/dagRuns", '{"dag_run_id":"x"}', RUN_X, 2),
        ("foo", "GET /dags/~/dagRuns", "", told, 2),
        ("foo", "PATCH /dags/b/dagRuns/x", '{"state":"failed"}', f'{{"detail":"missing permission {missing}","status":403,"title":"Forbidden","type":"about:blank"}}', 2),
    ):
        look, (step, given) = act(token, asked, body, answer, seq)
        steps += [look, [step, {**given, "status": 403 if "detail" in answer else 200, "version": 2}]]
    with open(BASE, "rb") as file:
        return json.dumps({"config": json.load(file), "sessions": 1, "steps": steps}).encode()


# Traces, and how the program ends that verifies one.
TRACES = [
    ("the runs of one DAG", runs_of_one_dag(listed("dag_runs", 1, RUN_X)), (0, b"agrees\n", b"")),
    ("the runs of one DAG, and a total of all", runs_of_one_dag(listed("dag_runs", 2, RUN_X)), (1, b"differs\n", b"")),
    ("the runs of one DAG, and a denial that names it", runs_of_one_dag(listed("dag_runs", 1, RUN_X), "DAG Run:b.can_edit"), (1, b"differs\n", b"")),
    ("a queued instance's slot, and a running one's", slots_of_an_instance((1, 0), (0, 1)), (0, b"agrees\n", b"")),
    ("a queued instance's slot as a running one's", slots_of_an_instance((0, 1), (0, 1)), (1, b"differs\n", b"")),
    ("a running instance's slot as a queued one's", slots_of_an_instance((1, 0), (1, 0)), (1, b"differs\n", b"")),
]
