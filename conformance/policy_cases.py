"""Changes of the policy for differential.py, and the members of a configuration that came later; good ones and bad ones."""
import hashlib
import json

import config_cases
import request_cases
from body_cases import members, needed

ROLE_NAMES = ["own0", "own1", "own2", "new", "A b", "Viewer", "Admin", "Public", "Nobody", "~", "%zz"]
USER_NAMES = ["op", "uma", "o0", "o1", "new", "A b", "nobody", '"', "vi"]
RESOURCES = [*config_cases.RESOURCES, *(f"{kind}:{it}" for kind in ("DAG", "DAG Run") for it in ("a", "b", "a.b", "gone"))]
ACTIONS = ["can_create", "can_read", "can_edit", "can_delete"]
BAD_PAIRS = [("can_fly", "DAGs"), ("can_create", "DAG:a"), ("can_read", "dags"), ("", "x"), ("can_read", "DAG:a b"), ("can_create", "DAG Run:a b"), ("can_fly", "DAG Run:a")]
BAD_LISTS = ["x", [1], [None], [{}], [{"name": 1}], [{"name": None}], {}, [{"action": {"name": "can_read"}}], [["can_read", "DAGs"]]]
TOKENS = [b"root-token", b"uma-token", b"o0-token", b"fresh", b"later"]
DIGESTS = [hashlib.sha256(it).hexdigest() for it in TOKENS] + [hashlib.sha256(b"fresh").hexdigest().upper()]
BAD_DIGESTS = ["0" * 63, "0" * 65, "g" * 64, "", 1]


def pairs(rng, wild):
    found = [(rng.choice(ACTIONS[1:] if (resource := rng.choice(RESOURCES)).startswith("DAG:") else ACTIONS), resource) for _ in range(rng.randint(0, 5))]
    if rng.random() < wild:
        found.insert(rng.randint(0, len(found)), rng.choice(BAD_PAIRS))
    if rng.random() < wild / 2:
        found.append(rng.choice(BAD_PAIRS))
    return config_cases.role_row("", *found)["actions"]


def role_list(rng):
    return [{"name": it} for it in rng.choices(["own0", "own1", "own2", "new", "Viewer", "User", "Op", "Admin", "Admin", "Public"], k=rng.randint(0, 3))]


BAD_ROLE_LISTS = [[{"name": "nobody"}], [{"name": "Viewer"}, {"name": "none"}, {"name": "nobody"}], [{"name": ""}], [{"name": "r" * 65}], [{"name": "\u00e9"}], *BAD_LISTS]


def listed(rng):
    """What a sync lists for a role: actions on the DAG, or on the DAG and its runs; now and then one of the two, null, or none."""
    on_dag, on_runs = rng.choices(ACTIONS[1:], k=rng.randint(0, 3)), rng.choices(ACTIONS, k=rng.randint(0, 4))
    if rng.random() < 0.5:
        return on_dag
    found = {kind: rng.choice([actions] * 5 + [None]) for kind, actions in (("DAGs", on_dag), ("DAG Runs", on_runs)) if rng.random() < 0.8}
    return dict(rng.sample(sorted(found.items()), len(found)))


BAD_LISTED = [
    *[["can_create"], ["x", "can_read"], [], None, "can_read", {}, [1], 3, {"Pools": ["can_read"]}, {"DAGs": ["can_read"], "dag runs": None}, {"DAGs": {}}, {"DAG Runs": [1]}],
    *[{"DAGs": ["can_create"], "DAG Runs": ["can_create"]}, {"DAGs": ["x"], "DAG Runs": ["y"]}, {"DAG Runs": "can_read", "DAGs": ["x"]}, {"DAG Runs": ["can_fly"]}],
]


def access(rng, wild):
    """What each role may do on one DAG and on its runs."""
    names = rng.sample(ROLE_NAMES[:8], rng.randint(0, 3))
    found = {it: listed(rng) for it in names}
    if rng.random() < wild:
        found[rng.choice(["Zed", "Abe", "own0", "", "\u00e9", "n" * 65])] = rng.choice(BAD_LISTED)
    return found


def sync_body(rng, wild, focus):
    return members(rng, wild, access_control=([access(rng, wild)], ["x", [], 1, [["own0", []]]]))


def role_body(rng, wild, focus):
    return needed(rng, wild, actions=([pairs(rng, wild)], BAD_LISTS))


def new_role_body(rng, wild, focus):
    return needed(rng, wild, name=([focus["O"], *ROLE_NAMES], ["", "\u00e9", "n" * 65, 1]), actions=([pairs(rng, wild)], BAD_LISTS))


def user_body(rng, wild, focus):
    return members(rng, wild, roles=([role_list(rng)], BAD_ROLE_LISTS), token_sha256=(DIGESTS, BAD_DIGESTS))


def new_user_body(rng, wild, focus):
    fresh = [hashlib.sha256(b"%d" % rng.randrange(1000)).hexdigest(), *DIGESTS]
    return needed(rng, wild, username=([focus["U"], *USER_NAMES], ["", "\u00e9", "n" * 65, 1]), roles=([role_list(rng)], BAD_ROLE_LISTS), token_sha256=(fresh, BAD_DIGESTS))


MAKERS = [
    ("list_roles", "GET /roles", None),
    ("add_role", "POST /roles", new_role_body),
    ("show_role", "GET /roles/O", None),
    ("set_role", "PATCH /roles/O", role_body),
    ("drop_role", "DELETE /roles/O", None),
    ("list_users", "GET /users", None),
    ("add_user", "POST /users", new_user_body),
    ("show_user", "GET /users/U", None),
    ("set_user", "PATCH /users/U", user_body),
    ("drop_user", "DELETE /users/U", None),
    ("me", "GET /own/me", None),
    ("sync", "POST /own/dags/D/sync", sync_body),
]


def own_role(rng, name, dags, has):
    """A role that may do something on some of the DAGs and their runs, and on the rows of some kinds."""
    found = [(rng.choice(ACTIONS[1:]), "DAG:" + rng.choice(dags)) for _ in range(rng.randint(1, 4))]
    if "run_pairs" in has:
        found += [(rng.choice(ACTIONS), "DAG Run:" + rng.choice([it.partition(":")[2] for _, it in found] + dags)) for _ in range(rng.randint(0, 4))]
        one = rng.choice(dags)
        found += [*((it, f"DAG:{one}") for it in ("can_read", "can_edit")), *((it, f"DAG Run:{one}") for it in rng.sample(ACTIONS, 3))] * (rng.random() < 0.5)
    found += [(rng.choice(ACTIONS), rng.choice(config_cases.RESOURCES[1:])) for _ in range(rng.randint(0, 8))]
    found += [("can_read", it) for it in ("DAG Runs", "Task Instances") if rng.random() < 0.5]
    return config_cases.role_row(name, *found)


def add_members(rng, made, has):
    """The members of the configuration that came later; where they have not come, they hold whatever it be."""
    odd = [None, "x", -1, [], {}, [{"key": 1}]]
    names = [it["name"] for it in made["roles"]] + ["Viewer", "Admin", "Public"]
    if "variables" in has and rng.random() < 0.6:
        made["variables"] = config_cases.variable_rows(rng)
    elif "variables" not in has and rng.random() < 0.2:
        made["variables"] = rng.choice(odd)
    for name, values in config_cases.LIMITS.items():
        if name in has and rng.random() < 0.2:
            made[name] = rng.choice(values)
        elif name not in has and rng.random() < 0.2:
            made[name] = rng.choice(odd)
    for row in made["dags"]:
        if "access_control" in has and rng.random() < 0.3:
            row["access_control"] = rng.choice([None, {}, *[{it: listed(rng) for it in rng.sample(names, min(len(names), 2))}] * 2])
        elif "access_control" not in has and rng.random() < 0.1:
            row["access_control"] = rng.choice(odd)


def add_fault(rng, made):
    """Spoils one of these members."""
    which = rng.choice(["variables", "access_control", "access_control", "limits"])
    if which == "variables":
        row = {"key": rng.choice(["k", "k2", "", "\u00e9", "k" * 251, 1, None]), "value": rng.choice(["v", "v", 1, None, []])}
        made["variables"] = rng.choice([[row], [{"key": "k", "value": ""}, row], [{"key": "k"}], row, 1, None])
    elif which == "limits":
        config_cases.limit_fault(rng, made)
    elif isinstance(made.get("dags"), list) and made["dags"] and isinstance(row := rng.choice(made["dags"]), dict):
        row["access_control"] = rng.choice([access(rng, 1), access(rng, 1), [], "x", {"Viewer": {"Pools": []}}, {"Viewer": {"DAG Runs": ["can_read", 1]}}, {"": 1}, {"": ["x"]}, {"nobody": ["can_fly"]}])


def fixed_full():
    """Lists that are full but for one row, and the requests that fill them, and go past their end."""
    base = {"users": [config_cases.user_row("root", b"test", "Admin")], "dags": [{"dag_id": "a", "tasks": [{"task_id": "t"}]}]}
    rows = {
        "pools": ("/api/v1/pools", [{"name": f"p{n}", "slots": 1} for n in range(65534)], '{"name":"%s","slots":1}'),
        "variables": ("/api/v1/variables", [{"key": f"k{n}", "value": ""} for n in range(65535)], '{"key":"%s","value":""}'),
        "roles": ("/api/v1/roles", [config_cases.role_row(f"r{n}") for n in range(4090)], '{"name":"%s","actions":[]}'),
        "users": ("/api/v1/users", [config_cases.user_row(f"u{n}", b"%d" % n) for n in range(65534)], '{"username":"%s","roles":[],"token_sha256":"%064x"}'),
    }
    for name, (path, found, body) in rows.items():
        config = json.dumps({**base, name: base.get(name, []) + found}).encode()
        bodies = [(body % ((it, n) if body.count("%") > 1 else it)).encode() for n, it in enumerate(["x", "x", "y", "y"])]
        add = [request_cases.with_body(b"POST %s HTTP/1.1" % path.encode(), b"test", it) for it in bodies]
        fields = [b"Host: h", b"Authorization: Bearer test"]
        gone = request_cases.head(b"DELETE %s/x HTTP/1.1" % path.encode(), fields)
        if name == "users":
            # of a user too many an unknown role is told first
            add.append(request_cases.with_body(b"POST /api/v1/users HTTP/1.1", b"test", b'{"username":"z","roles":[{"name":"Sky"}],"token_sha256":"%064x"}' % 7))
        absent, listing = (request_cases.head(b"GET %s%s HTTP/1.1" % (path.encode(), it), fields) for it in (b"/y", b""))
        requests = b"".join([*add, absent, listing, gone, *add, listing])
        yield config, requests + request_cases.list_request(b"test")
