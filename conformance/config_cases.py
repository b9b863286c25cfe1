"""Configurations for differential.py: good ones, and ones with a fault or two, made from a seeded generator."""
import copy
import hashlib
import json

RESOURCES = ["DAGs", "DAG Runs", "Task Instances", "Pools", "Variables", "Audit Logs", "Roles", "Users"]
TOKENS = [b"test", b"a", b"two words", "na\u00efve".encode(), b"\x80\xff", b"\ttab", b"Bearer x", b"x" * 300, b"a,b", b"=" * 55, b"k" * 56, b"q" * 64]
SCHEDULES = ["@hourly", "@daily", "@weekly", "@monthly", 1, 60, 31_536_000]
STARTS = [
    *["2024-01-01T00:00:00Z", "2024-01-31T00:00:00.000001Z", "1970-01-01T00:00:00Z", "2024-02-29T23:59:59.999999+00:00"],
    *["9998-12-31T23:59:59.9999999Z", "9998-12-01T00:00:01Z", "2024-01-01 00:30:00+01:00", "1999-12-31T22:00:00-02:00"],
]
RULES = ["all_success", "all_failed", "all_done", "one_success", "one_failed", "one_done", "none_failed", "none_failed_min_one_success", "none_skipped", "all_skipped", "always"]
POOLS = ["p", "default_pool", "q r", "~", "P" * 250]
KEYS = ["k", "K", "a b", "a/b", "~", "%", '"\\', "k" * 250, "none"]
VALUES = ["v", "", "\u00e9\U0001f600", '"\\/\b\f\n\r\t\u0000\u001f\u007f\u2028', "x" * 300, "null", "v2"]
LIMITS = {"history_limit": [1, 2, 5, 30, 10**6, 2**32 - 2, None], "version_limit": [1, 2, 5, 30, 2**32 - 2, 2**32 - 1, None]}
NAMES = ["vera", "x", "A b", "~", " ", '"', "\\", "u" * 64, "{}", "Viewer2", "admin", "DAG:a"]
DAG_IDS = ["a", "b", "c", "a.b", "A", "_", "-", "0", "z" * 250, "a-b", "a_b", ".", "team.report", "B1"]
OTHERS = [None, True, 0, -1, 1.5, "", "x", [], {}, [0], {"name": 1}, [None], [{"name": None}], [{}], [[]]]


def role_row(name, *pairs):
    return {"name": name, "actions": [{"action": {"name": a}, "resource": {"name": r}} for a, r in pairs]}


def user_row(name, token, *roles):
    digest = hashlib.sha256(token).hexdigest()
    return {"username": name, "roles": [{"name": it} for it in roles], "token_sha256": digest}


def pair(rng, has):
    chance, actions = rng.random(), ["can_create", "can_read", "can_edit", "can_delete"]
    if chance < 0.2 and "run_pairs" in has:
        return rng.choice([*actions, "can_read"]), "DAG Run:" + rng.choice([*DAG_IDS[:6], "gone"])
    if chance < 0.6:
        return rng.choice([*actions[1:], "can_read"]), "DAG:" + rng.choice([*DAG_IDS[:6], "gone"])
    return rng.choice(actions), rng.choice(RESOURCES)


def task_rows(rng, pools):
    """Tasks without a cycle: each stands behind some of those before it."""
    names = rng.sample(["t", "x", "y", "z", "w", "t.1", "A-b_c", "k" * 250], rng.choice([1, 1, 1, 2, 4, 8]))
    rows = []
    for n, name in enumerate(names):
        row = {"task_id": name}
        if rng.random() < 0.5:
            row["upstream"] = rng.choice([rng.choices(names[:n], k=rng.randint(0, 3)) if n else [], None, names[:n]])
        row.update(rng.choice([{}, {}, {"pool": rng.choice(pools)}, {"pool": None, "pool_slots": rng.choice([1, 1_000_000, None])}]))
        row.update(rng.choice([{}, {}, {"priority_weight": rng.choice([-(2**31), 2**31 - 1, 0])}, {"retries": rng.choice([0, 1000])}]))
        row.update(rng.choice([{}, {}, {"retry_delay": rng.choice([0, 31_536_000])}, {"trigger_rule": rng.choice(RULES)}]))
        row.update(rng.choice([{}, {}, {"script": rng.choices(["success", "failed", "skipped"], k=rng.randint(0, 4))}, {"script": None}]))
        rows.append(row)
    rng.shuffle(rows)
    return rows


def variable_rows(rng):
    """Variables, now and then more than a page has, or none."""
    keys = rng.sample(KEYS, rng.randint(0, 5)) if rng.random() < 0.9 else [f"v{n}" for n in range(rng.randint(98, 130))]
    return [{"key": it, "value": rng.choice(VALUES)} for it in keys] or rng.choice([None, []])


def good(rng, has):
    """A configuration that is accepted, and the tokens that its users have."""
    roles = [role_row(it, *[pair(rng, has) for _ in range(rng.randint(0, 4))]) for it in rng.sample(NAMES, rng.randint(0, 5))]
    known = ["Public", "Viewer", "User", "Op", "Admin"] + [it["name"] for it in roles]
    own = [it["name"] for it in roles] * 3
    tokens = rng.sample(TOKENS, rng.randint(2, 8))
    users = [
        user_row(name, token, *rng.choices(known + own, k=rng.randint(0, 3))) for name, token in zip(rng.sample(NAMES, len(tokens)), tokens)
    ]
    rng.choice(users)["roles"].append({"name": "Admin"})
    pools = rng.sample(POOLS, rng.randint(0, 4))
    ids = [f"d{i}" for i in range(rng.randint(98, 130))] if rng.random() < 0.1 else rng.sample(DAG_IDS, rng.randint(0, 8))
    rng.shuffle(ids)
    dags = [{"dag_id": it} for it in ids]
    for it in dags:
        it.update(rng.choice([{}, {}, {"is_paused": True}, {"is_paused": False}, {"is_paused": None, "schedule": None}]))
        it.update(rng.choice([{}, {}, {"max_active_runs": rng.randint(1, 1000)}, {"max_active_runs": None}, {"max_active_runs": 1}]))
        it.update(rng.choice([{}, {"schedule": rng.choice(SCHEDULES), "start_date": rng.choice(STARTS)}, {"start_date": [], "other": {"a": []}}]))
        it.update(rng.choice([{}, {}, {"catchup": True}, {"catchup": False}, {"catchup": None}]))
        it["tasks"] = task_rows(rng, [*pools, "default_pool"])
    config = {"roles": roles, "users": users, "dags": dags}
    if pools or rng.random() < 0.2:
        config["pools"] = [{"name": it, "slots": rng.choice([0, 1, 128, 1_000_000])} for it in pools] or None
    if rng.random() < 0.4:
        config["variables"] = variable_rows(rng)
    config.update({name: rng.choice(values) for name, values in LIMITS.items() if rng.random() < 0.1})
    if not roles and rng.random() < 0.5:
        config["roles"] = None
    return config, tokens


def written(rng, config):
    """The configuration as JSON, in one of several ways to write the same."""
    text = json.dumps(config, indent=rng.choice([None, None, 0, 3]), ensure_ascii=rng.random() < 0.5)
    if rng.random() < 0.2:
        text = "".join(f"\\u{ord(it):04x}" if it in "vV~A" else it for it in text)
    if rng.random() < 0.15:
        text = text.replace('"users":', '"users": [0], "users":').replace('"dag_id":', '"dag_id": 3, "dag_id":')
    if rng.random() < 0.15:
        text = rng.choice([" ", "\r\n\t", ""]) + text + rng.choice(["\n", "  \r", "\t"])
    return text.encode()


def wrong(rng, *values):
    return rng.choice(OTHERS if rng.random() < 0.3 else values)


def role_fault(rng, row):
    which = rng.choice(["name", "actions", "one", "drop"])
    if which == "name":
        row["name"] = wrong(rng, "n" * 65, "\u00e9", "\x7f", "a\nb", "Admin", "Public", "vera")
    elif which == "actions":
        row["actions"] = wrong(rng, role_row("", ("can_fly", "DAGs"))["actions"], role_row("", ("can_fly", "x"), ("can_read", "x"))["actions"])
    elif which == "one":
        resources = ["Can_read", "dags", "DAG:", "DAG:a b", "DAG", "DAG: a", "DAG:" + "x" * 251, "", "DAG:\u00e9", "Connections"]
        resources += ["DAG Run:a", "DAG Run:", "DAG Run:a b", "DAG run:a", "DAG Runs:a", "DAG Run:" + "x" * 251]
        row["actions"] = role_row("", rng.choice([("can_create", "DAG:a"), ("", "DAGs"), ("CAN_READ", "DAGs"), ("can_read", rng.choice(resources))]))["actions"]
    else:
        row.pop(rng.choice(sorted(row)), None)


def user_fault(rng, row):
    which = rng.choice(["username", "roles", "token_sha256", "drop"])
    if which == "username":
        row["username"] = wrong(rng, "n" * 65, "\u00e9", "\x1f", "vera", "x")
    elif which == "roles":
        row["roles"] = wrong(rng, [{"name": "nobody"}], [{"name": ""}], [{"name": "r" * 65}], [{"name": "Admin"}, {"name": "admin "}], [{"name": "\u00e9"}])
    elif which == "token_sha256":
        row["token_sha256"] = wrong(rng, "0" * 63, "0" * 65, "g" * 64, "\u0660" * 64, " " + "0" * 63, "0" * 64, hashlib.sha256(b"test").hexdigest().upper())
    else:
        row.pop(rng.choice(sorted(row)), None)


def task_fault(rng, tasks):
    """Spoils one task, or the graph."""
    which = rng.choice(["task_id", "upstream", "pool", "pool_slots", "priority_weight", "retries", "retry_delay", "trigger_rule", "script", "drop", "graph"])
    row = rng.choice(tasks)
    if which == "task_id":
        row["task_id"] = wrong(rng, "x" * 251, "a b", "\u00e9", "~", tasks[0].get("task_id"))
    elif which == "upstream":
        row["upstream"] = wrong(rng, ["nobody"], ["a b"], [row.get("task_id")], "x")
    elif which == "pool":
        row["pool"] = wrong(rng, "gone", "", "\u00e9", "P" * 251)
    elif which == "pool_slots":
        row["pool_slots"] = wrong(rng, 0, 1_000_001, -5, 2**64 - 1, 2**64, 1.0, -0.0)
    elif which == "priority_weight":
        row["priority_weight"] = wrong(rng, 2**31, -(2**31) - 1, 1.0)
    elif which in ("retries", "retry_delay"):
        row[which] = wrong(rng, -1, 1001, 31_536_001, 2**63, 1.5)
    elif which == "trigger_rule":
        row["trigger_rule"] = wrong(rng, "dummy", "all_succes", "ALWAYS", "")
    elif which == "script":
        row["script"] = wrong(rng, ["success", "upstream_failed"], ["success", None], ["Failed"])
    elif which == "drop":
        row.pop(rng.choice(sorted(row)), None)
    else:
        names = [it.get("task_id") for it in tasks]
        row["upstream"] = rng.choice([names, names[:1] * 3, [*names[1:], row.get("task_id")]])


def pool_fault(rng, row):
    which = rng.choice(["name", "slots", "drop"])
    if which == "name":
        row["name"] = wrong(rng, "P" * 251, "", "\u00e9", "a\tb", "default_pool", "p")
    elif which == "slots":
        row["slots"] = wrong(rng, 1_000_001, -1, 1.0, 2**64)
    else:
        row.pop(rng.choice(sorted(row)), None)


def variable_fault(rng, row):
    which = rng.choice(["key", "value", "both", "drop"])
    if which in ("key", "both"):
        row["key"] = wrong(rng, "k" * 251, "", "\u00e9", "a\nb", "\x7f", "k", "K")
    if which in ("value", "both"):
        row["value"] = rng.choice(OTHERS)
    if which == "drop":
        row.pop(rng.choice(sorted(row)), None)


def limit_fault(rng, config):
    """Spoils one of the limits, or both, so that the first of them is told."""
    for name in rng.choice([["history_limit"], ["version_limit"], ["history_limit", "version_limit"]]):
        config[name] = wrong(rng, 0, -1, 2**32 - 1, 2**32, 2**63, 2**64, 1.0, -0.0, "1")


def dag_fault(rng, row):
    which = rng.choice(["dag_id", "schedule", "start_date", "catchup", "max_active_runs", "is_paused", "tasks", "task", "task", "drop"])
    if which == "dag_id":
        row["dag_id"] = wrong(rng, "x" * 251, "a b", "\u00e9", "a/b", "~", "a:b", "a", "b")
    elif which == "schedule":
        row["schedule"] = rng.choice(["@daily", "@yearly", 60, 0, 31_536_001, -1, True, [], 1.5, "", "daily"])
    elif which == "start_date":
        row["schedule"] = rng.choice(SCHEDULES)
        row["start_date"] = wrong(rng, "2024-01-01", "2024-01-01T00:00:00", "9999-01-01T00:00:00Z", "1969-12-31T23:59:59Z")
    elif which == "catchup":
        row["catchup"] = wrong(rng, "yes", 1)
    elif which == "max_active_runs":
        row["max_active_runs"] = wrong(rng, 1001, 1000, 2**63, 2**64 - 1, 2**64, -(2**63), -(2**63) - 1, 3.0, 1e2, -0.0)
    elif which == "is_paused":
        row["is_paused"] = wrong(rng, "true", 1)
    elif which == "tasks":
        row["tasks"] = wrong(rng, None, [], [{"task_id": f"t{i}"} for i in range(513)], [{"task_id": f"t{i}"} for i in range(512)])
    elif which == "task" and isinstance(row.get("tasks"), list) and row["tasks"] and all(isinstance(it, dict) for it in row["tasks"]):
        task_fault(rng, row["tasks"])
    else:
        row.pop(rng.choice(sorted(row)), None)


def faulty(rng, has, spoil=None):
    """A configuration with one or two faults (now and then the change is none); `spoil` may put one into it too."""
    config, _ = good(rng, has)
    config = copy.deepcopy(config)
    if rng.random() < 0.2:
        text = written(rng, config)
        at = rng.randrange(len(text))
        return rng.choice([text[:at], text[:at] + rng.choice([b"\xff", b"\x00", b",", b"}", b'"', b"\\", b"1"]) + text[at:]])
    if spoil is not None and rng.random() < 0.3:
        spoil(config)
        if rng.random() < 0.5:
            return written(rng, config)
    for _ in range(rng.choice([1, 1, 2])):
        part = rng.choice(["roles", "users", "pools", "variables", "dags", "dags", "dags", "list", "limits", "admin", "again"])
        if part == "list":
            config[rng.choice(["roles", "users", "pools", "variables", "dags"])] = rng.choice(OTHERS)
        elif part == "limits":
            limit_fault(rng, config)
        elif part == "admin" and isinstance(config.get("users"), list):
            for it in config["users"]:
                if isinstance(it, dict) and isinstance(it.get("roles"), list):
                    it["roles"] = [{"name": "Viewer"}]
        elif part == "again" and isinstance(config.get("dags"), list) and config["dags"]:
            config["dags"].append(copy.deepcopy(config["dags"][0]))
        elif part in ("roles", "users", "pools", "variables", "dags"):
            of = config.get(part)
            if isinstance(of, list) and of and isinstance(row := rng.choice(of), dict) and "touched" not in row:
                {"roles": role_fault, "users": user_fault, "pools": pool_fault, "variables": variable_fault, "dags": dag_fault}[part](rng, row)
                row["touched"] = True
    return written(rng, config)


def fixed_configs():
    """Configurations at the limits, tried once each: all are read with the token `test`."""
    users = [user_row("root", b"test", "Admin")]
    base = {"users": users, "dags": [{"dag_id": "a", "tasks": [{"task_id": "t"}]}]}
    yield from fixed_texts(base)
    yield from fixed_lists(base, users)
    yield from fixed_dags(base)


def fixed_texts(base):
    """JSON at its limits."""
    yield from (b"", b" ", b"null", b"[]", b"3", b"{}", b'{"users":[]}', b"{", b"\xef\xbb\xbf{}")
    text = json.dumps(base)
    values = ["[" * n + "]" * n for n in (126, 127, 128, 5000)]
    values += ['"\\ud800"', '"\\udc00\\ud800"', '"\\ud83d\\ude00"', '"\\u12g4"', '"\\x"', '"\t"', '"\x7f"', '"\u2028"', "NaN", "-Infinity", "nul"]
    values += ["1e308", "1e309", "-1e309", "9" * 308, "9" * 309, "9" * 400, "01", "1.", ".5", "-", "+1", "1e", "0x1", "-0", "'a'", '{"\\udfff":1}', "[1,]", '{"a":1,}', "{a:1}"]
    yield from (text.replace("{", '{"other":' + it + ",", 1).encode("utf-8", "surrogatepass") for it in values)


def fixed_lists(base, users):
    """Numbers and lists at their limits, and faults that meet."""
    text = json.dumps(base)
    runs = ["1", "1000", "0", "1001", "-1", "1.0", "1e2", "-0", "18446744073709551615", "18446744073709551616", "9223372036854775808", "true", '"1"', "null"]
    yield from (text.replace('"a"', f'"a","max_active_runs":{it}').encode() for it in runs)
    yield from (json.dumps({**base, "dags": [{"dag_id": f"d{i}", "tasks": [{"task_id": "t"}]} for i in range(n)]}).encode() for n in (99, 100, 101, 1024, 1025))
    yield from (json.dumps({**base, "roles": [role_row(f"r{i}") for i in range(n)]}).encode() for n in (4091, 4092))
    many = [user_row(f"u{i}", b"%d" % i) for i in range(65536)]
    yield from (json.dumps({**base, "users": users + many[:n]}).encode() for n in (65535, 65536))
    yield from (text.encode().ljust(16 * 1024 * 1024 + n) for n in (0, 1))
    slots = ["0", "1000000", "1000001", "-1", "1.0", "1e2", "-0", "18446744073709551616", "null"]
    yield from (text.replace("{", '{"pools":[{"name":"p","slots":' + it + "}],", 1).encode() for it in slots)
    yield from (json.dumps({**base, "pools": [{"name": it, "slots": 1} for it in names]}).encode() for names in (["default_pool"], ["default_pool"] * 2, ["p", "p"]))
    yield from (json.dumps({**base, "pools": [{"name": f"p{i}", "slots": 1} for i in range(n)]}).encode() for n in (65535, 65536))
    yield from (json.dumps({**base, "variables": [{"key": it, "value": it} for it in keys]}).encode() for keys in (["k"], ["k", "k"], ["k", "K"], [" "], ["k" * 250], ["k" * 251]))
    yield from (json.dumps({**base, "variables": [{"key": "k", "value": it}]}).encode() for it in [*OTHERS, *VALUES, "x" * 1_000_000])
    yield from (json.dumps({**base, "variables": [{"key": f"k{i}", "value": ""} for i in range(n)]}).encode() for n in (65536, 65537))
    # Of two members with a fault, the one that is taken first is told, whatever their order in the file.
    faults = {"pools": [{"name": "p", "slots": 1}] * 2, "variables": [{"key": "", "value": ""}], "dags": [{"dag_id": "a"}], "history_limit": 0, "version_limit": True}
    for one in faults:
        for other in faults:
            yield json.dumps({one: faults[one], other: faults[other], "users": users, **({} if "dags" in (one, other) else {"dags": base["dags"]})}).encode()
    numbers = ["0", "1", "-1", "1.0", "1e2", "-0", "4294967294", "4294967295", "4294967296", "9223372036854775808", "18446744073709551615", "18446744073709551616", "true", '"1"', "[]", "null"]
    yield from (text.replace("{", f'{{"{name}":{it},', 1).encode() for name in ("history_limit", "version_limit") for it in numbers)


def fixed_dags(base):
    """Schedules and graphs."""
    for start in STARTS:
        yield from (json.dumps({**base, "dags": [{**base["dags"][0], "schedule": it, "start_date": start}]}).encode() for it in SCHEDULES)
    cycle = [{"task_id": "x", "upstream": ["y"]}, {"task_id": "y", "upstream": ["x"]}]
    twice = [{"task_id": "x"}, {"task_id": "y", "upstream": ["x", "x"]}]
    for tasks in (None, [], [{"task_id": "t"}] * 2, cycle, twice, [{"task_id": "x", "upstream": ["x"]}], [{"task_id": "x", "upstream": ["z"]}]):
        yield json.dumps({**base, "dags": [{"dag_id": "a", "tasks": tasks}]}).encode()
    for n in (512, 513):
        yield json.dumps({**base, "dags": [{"dag_id": "a", "tasks": [{"task_id": f"t{i}"} for i in range(n)]}]}).encode()
    for slots in (0, 1, 1_000_000, 1_000_001, -1):
        yield json.dumps({**base, "dags": [{"dag_id": "a", "tasks": [{"task_id": "t", "pool_slots": slots}]}]}).encode()
    for name, low, high in (("priority_weight", -(2**31), 2**31 - 1), ("retries", 0, 1000), ("retry_delay", 0, 31_536_000)):
        for value in (low - 1, low, high, high + 1):
            yield json.dumps({**base, "dags": [{"dag_id": "a", "tasks": [{"task_id": "t", name: value}]}]}).encode()
