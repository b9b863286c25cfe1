"""Fixed cases of event logs and of changes of the policy for differential.py: every member of a body in every way that is wrong, alone and beside
other faults; each pair of action and resource; digests; long event logs by three readers; what configurations say of single DAGs.

A case is the members that the configuration has in place of those of examples/base.json, and its requests.
"""
import hashlib
import itertools
import json

from body_cases import OTHERS
from config_cases import role_row, user_row
from request_cases import head, with_body
from state_cases import QUERIES

MOST = 950  # a connection closes with its 1,000th request
ABSENT = object()
LABELS = ["", " ", "~", '"', "\\", "\u00e9", "\x7f", "\x1f", "n" * 64, "n" * 65, "Viewer", "OnlyB", "bob", "adam", "new"]
LISTS = [*OTHERS, [{}], [None], [[]], ["x"], [{"name": None}], [{"name": 1}], [{"name": [""]}]]
ACTIONS = ["can_create", "can_read", "can_edit", "can_delete", "can_fly", "", "Can_read", "can_read "]
RESOURCES = [
    *["DAGs", "DAG Runs", "Task Instances", "Pools", "Variables", "Audit Logs", "Roles", "Users"],
    *(f"{kind}:{rest}" for kind in ("DAG", "DAG Run") for rest in ("b", "not.there", "d" * 250, "d" * 251, "", "a b", "~", " b")),
    *["dags", "", "DAG", "DAG Run", "DAG run:b", "DAG Runs:b", "Connections", 'x"\n', "\u00e9"],
]
KINDS = ["DAGs", "DAG Runs"]


def asked(method, path, body=None, token=b"admin"):
    first = f"{method} {path if path.startswith('/own/') else '/api/v1' + path} HTTP/1.1".encode()
    if body is None:
        return head(first, [b"Host: h", b"Authorization: Bearer " + token])
    text = body if isinstance(body, bytes) else json.dumps(body, ensure_ascii=False).encode("utf-8", "surrogatepass")
    return with_body(first, token, text)


def cut(requests, end):
    """The requests as connections of so many, each with the same end."""
    requests = iter(requests)
    while part := list(itertools.islice(requests, MOST)):
        yield b"".join([*part, *end])


def pairs(*given):
    return role_row("", *given)["actions"]


def digest(token):
    return hashlib.sha256(token).hexdigest()


def bodies(**members):
    """Each body that has one of these values for each of its members; a value that is absent leaves the member out."""
    for values in itertools.product(*members.values()):
        yield {name: it for name, it in zip(members, values) if it is not ABSENT}


LOOKS = [asked("GET", it) for it in ("/roles", "/users", "/own/me", "/roles/OnlyB", "/users/bob", "/eventLogs")]


# ---- Bodies ---------------------------------------------------------------------------------------------------


def role_faults():
    """New roles and changed ones: each value of each member alone, and each two kinds of fault at once."""
    good = pairs(("can_read", "DAGs"))
    bad = [[], pairs(("can_read", "x"), ("can_fly", "DAGs")), pairs(("can_create", "DAG:b")), [{"action": {"name": "x"}}], ABSENT, None]
    for name in [*LABELS, *OTHERS, ABSENT]:
        yield asked("POST", "/roles", next(bodies(name=[name], actions=[good])))
    whole = [{"action": {"name": "can_read", "x": 1}, "resource": {"name": "Pools", "y": []}, "z": None}]
    odd = [[{"action": {"name": "can_read"}, "resource": it}] for it in OTHERS] + [[{"action": it, "resource": {"name": "DAGs"}}] for it in OTHERS]
    for actions in [*LISTS, *odd, whole, good * 3, pairs(*(("can_read", f"DAG:d{n}") for n in range(200))), ABSENT]:
        yield from (asked(method, path, next(bodies(name=["r"], actions=[actions]))) for method, path in (("POST", "/roles"), ("PATCH", "/roles/OnlyB")))
    for body in bodies(name=["Viewer", "OnlyB", "new", "", None, ABSENT], actions=[good, *bad]):
        yield asked("POST", "/roles", body)
    for path in ("gone", "Admin", "OnlyB", "%C3%A9"):
        yield from (asked("PATCH", f"/roles/{path}", body) for body in bodies(actions=[good, *bad]))
        yield asked("DELETE", f"/roles/{path}")


def pair_faults():
    """Each action on each resource, alone; and of each two faults the one that is told."""
    for pair in itertools.product(ACTIONS, RESOURCES):
        yield asked("POST", "/roles", {"name": "r", "actions": pairs(pair)})
        yield asked("PATCH", "/roles/EditB", {"actions": pairs(("can_read", "DAGs"), pair)})
    faults = [("can_fly", "DAGs"), ("can_walk", "x"), ("can_create", "DAG:b"), ("can_read", "y")]
    for two in itertools.permutations(faults, 2):
        yield asked("PATCH", "/roles/gone", {"actions": pairs(("can_read", "Pools"), *two)})


ROLE_LISTS = [[], [{"name": "Viewer"}, {"name": "OnlyB"}, {"name": "Viewer"}], [{"name": "x"}, {"name": "y"}], [{"name": "Viewer"}, {"name": ""}], "x", ABSENT, None]
DIGESTS = [digest(b"fresh"), digest(b"foo").upper(), "0" * 63, 1, ABSENT, None]


def user_faults():
    """New users."""
    good = {"username": "ann", "roles": [], "token_sha256": digest(b"ann")}
    for name in [*LABELS, *OTHERS]:
        yield asked("POST", "/users", {**good, "username": name})
        yield asked("DELETE", "/users/ann")
    for roles in [*LISTS, *([{"name": it}] for it in LABELS)]:
        yield from (asked(method, path, {**good, "roles": roles}) for method, path in (("POST", "/users"), ("PATCH", "/users/pat"), ("DELETE", "/users/ann")))
    for text in [*OTHERS, "0" * 64, "F" * 64, "f" * 64, "0" * 65, " " + "0" * 63, "\u0660" * 64, "g" * 64, digest(b"foo"), digest(b"admin")]:
        yield from (asked(method, path, {**good, "token_sha256": text}) for method, path in (("POST", "/users"), ("PATCH", "/users/pat"), ("DELETE", "/users/ann")))
    for body in bodies(username=["bob", "ann", "", None, ABSENT], roles=ROLE_LISTS, token_sha256=DIGESTS):
        yield asked("POST", "/users", body)
        yield asked("DELETE", "/users/ann")


def admin_faults():
    """Users that change, while one user has Admin alone; then another one has it too, and the first goes."""
    yield asked("DELETE", "/users/zoe")
    for path in ("gone", "pat", "adam", "%7f"):
        yield from (asked("PATCH", f"/users/{path}", body) for body in bodies(roles=ROLE_LISTS, token_sha256=DIGESTS if path != "adam" else DIGESTS[1:]))
        yield asked("DELETE", f"/users/{path}" if path != "pat" else "/users/gone")
    admins = [{"name": it} for it in ("Op", "Admin", "Admin")]
    yield from (asked("PATCH", f"/users/{name}", {"roles": roles}) for name, roles in (("adam", admins), ("pat", admins[1:]), ("adam", admins[:1])))
    yield from (asked("GET", path, None, token) for path in ("/own/me", "/users") for token in (b"admin", b"fresh", b"bar"))
    yield from (asked("DELETE", "/users/" + name, None, b"fresh") for name in ("pat", "adam", "pat"))


ACCESS = [
    *OTHERS[1:],
    *[{}, {"Viewer": []}, {"OnlyB": ["can_read", "can_edit", "can_delete", "can_read"]}, {"Admin": ["can_read"], "Public": ["can_edit"]}, {"n" * 64: []}],
    *[{"OnlyB": it} for it in OTHERS],
    *[{"OnlyB": [it]} for it in OTHERS],
    *[{"OnlyB": [it]} for it in ACTIONS],
    *[{it: ["can_read"]} for it in LABELS],
    *[{"OnlyB": ["can_read", "x", "y"]}, {"Zed": ["x"], "Abe": ["y"]}, {"Zed": ["can_read"], "Abe": ["can_read"]}, {"Zed": ["can_read"], "OnlyB": ["x"]}],
    *[{"OnlyB": ["x"], "": ["can_read"]}, {"OnlyB": ["x"], "Viewer": None}, {"Nobody": [], "OnlyB": ["can_create"]}, {"OnlyB": {"DAGs": ["can_read"]}}],
    *[{"OnlyB": {}}, {"OnlyB": {it: None for it in KINDS}}, {"OnlyB": {it: ["can_delete", "can_read"] for it in KINDS}, "Admin": {"DAG Runs": ["can_edit"]}, "EditB": ["can_edit"]}],
    *[{"OnlyB": {kind: it}} for kind in KINDS for it in OTHERS],
    *[{"OnlyB": {kind: [it]}} for kind in KINDS for it in [*ACTIONS, *OTHERS]],
    *[{"OnlyB": {it: []}} for it in (*RESOURCES[2:9], "dags", "DAG", "DAG Run", "DAG runs", "")],
    *[{"OnlyB": {"DAGs": ["can_read"], "Pools": None}}, {"OnlyB": {"DAGs": ["x"], "DAG Runs": ["y"]}}, {"OnlyB": {"DAGs": ["x"], "DAG Runs": ["can_create", "can_read"]}}],
    *[{"Zed": {"DAG Runs": ["x"]}, "Abe": ["y"]}, {"Abe": {}, "OnlyB": {"DAG Runs": ["x"]}}, {"Abe": {}, "OnlyB": {"DAG Runs": ["can_read"]}}, {"": {}}],
    *[{**{f"Z{it}": ["can_read"] for it in range(count, 0, -1)}, **more} for count in (3, 7, 8, 9, 40) for more in ({}, {"OnlyB": ["x"]}, {"Abe": [], "": []})],
]


def sync_faults():
    for dag in ("b", "not.there", "a%2Eb", "~", "a%20b"):
        yield from (asked("POST", f"/own/dags/{dag}/sync", {"access_control": it}) for it in (ACCESS if dag == "b" else ACCESS[:24]))
        yield from (asked("POST", f"/own/dags/{dag}/sync", it) for it in ({}, {"x": 1}, [], b"", b"{", b'{"access_control":{"OnlyB":["can_read"],"OnlyB":[]}}'))
        yield asked("POST", f"/own/dags/{dag}/sync?limit=x", {"access_control": {"OnlyB": ["can_read"]}})


# ---- Event logs -----------------------------------------------------------------------------------------------


def long_logs():
    """More entries than two pages have, of three DAGs and of none, cut by each query for those who see all, one DAG's, or none of any DAG."""
    roles = [role_row("AuditB", ("can_read", "Audit Logs"), ("can_read", "DAG:b"), ("can_edit", "DAG:b"), ("can_create", "DAG Runs"))]
    roles += [role_row("Audit", ("can_read", "Audit Logs"))]
    users = [user_row("root", b"admin", "Admin"), user_row("b", b"of-b", "AuditB"), user_row("none", b"of-none", "Audit")]
    changes = []
    for n in range(64):
        changes.append(asked("POST", f"/dags/{'abc'[n % 3]}/dagRuns", {"dag_run_id": f"r{n}", "logical_date": f"2024-03-01T00:00:{n % 60:02}.{n:06}Z"}, b"admin" if n % 3 != 1 else b"of-b"))
        changes.append(asked("PATCH", f"/dags/{'abc'[n % 3]}", {"is_paused": n % 2 == 0}))
        changes.append(asked("POST", "/variables", {"key": f"k{n}", "value": "v"}))
        if n % 8 == 0:
            changes.append(asked("PATCH", "/roles/Audit", {"actions": pairs(("can_read", "Audit Logs"))}))
    looks = [asked("GET", "/eventLogs" + it.decode(), None, token) for it in [b"", *QUERIES, b"?offset=100", b"?limit=100&offset=199"] for token in (b"admin", b"of-b", b"of-none", b"nope")]
    end = [asked("PATCH", "/roles/AuditB", {"actions": pairs(("can_read", "Audit Logs"), ("can_read", "DAG:c"))}), asked("GET", "/eventLogs", None, b"of-b")]
    yield {"roles": roles, "users": users}, b"".join([*changes, *looks, *end])
    yield {"roles": roles, "users": users, "history_limit": 100}, b"".join([*changes, *looks[:4], *end])


def fixed(base):
    """Members and requests of each case."""
    for faults in (role_faults(), pair_faults(), user_faults(), admin_faults(), sync_faults()):
        yield from (({}, data) for data in cut(faults, LOOKS))
    for limit in (1, 7):
        yield {"version_limit": limit}, b"".join([*itertools.islice(sync_faults(), 100), *LOOKS])
    yield from long_logs()
    one = {"tasks": [{"task_id": "t"}]}
    looks = b"".join([*LOOKS, *(asked("GET", path, None, token) for path in ("/dags", "/own/me", "/dags/b") for token in (b"foo", b"secret", b"test", b"hello"))])
    for it in ACCESS:
        yield {"dags": [{"dag_id": "a", **one}, {"dag_id": "b", **one, "access_control": it}]}, looks
    orders = [{"": 1}, {"": []}, {"Nobody": []}, {"Nobody": ["x"]}, {"OnlyB": []}, None]
    for first, second in itertools.product(orders, orders):
        yield {"dags": [{"dag_id": "b", **one, "access_control": first}, {"dag_id": "a", **one, "access_control": second}]}, looks
    bad = {"dag_id": "a", **one, "access_control": {"Nobody": []}}
    for members in ({"history_limit": 0}, {"version_limit": 0}, {"variables": 1}, {"pools": [{}]}, {"users": []}, {"dags": [bad, {"dag_id": "c"}]}, {"dags": [bad, bad]}):
        yield {"dags": [bad], **members}, looks
    yield {"dags": [{"dag_id": f"d{n}", **one, "access_control": {"OnlyB": ["can_read"], f"r{n % 40}": ["can_edit"]}} for n in range(1024)],
           "roles": [*base["roles"], *(role_row(f"r{n}") for n in range(40))]}, looks  # fmt: skip
