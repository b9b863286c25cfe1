"""The loads of bench.py: configurations, and the requests that are played under them."""
import hashlib
import itertools
import json
import random

MOST = 999  # a connection closes with its 1,000th request
RULES = ["all_success", "all_done", "none_failed", "one_success", "none_failed_min_one_success"]


# ---- Configurations ----------------------------------------------------------------------------------------


def ids_of(dags):
    return [f"team{i % 7}.dag_{i:04}" for i in range(dags)]


def tasks_of(count):
    """One plain task, or tasks in layers of four, which name upstream tasks, pools, rules and numbers."""
    if count == 1:
        return [{"task_id": "t"}]
    rows = []
    for n in range(count):
        row = {"task_id": f"step_{n:02}", "upstream": [f"step_{it:02}" for it in range(max(0, n - n % 4 - 4), n - n % 4, 2)]}
        if n % 4 == 1:
            row |= {"pool": f"pool_{n % 8}", "pool_slots": 1 + n % 3, "priority_weight": n - 7}
        if n % 4 == 2:
            row |= {"retries": n % 5, "retry_delay": 60, "trigger_rule": RULES[n // 4 % len(RULES)]}
        if n == 3:
            row |= {"script": ["failed", "success"]}
        rows.append(row)
    return rows


def config(users=10, dags=3, tasks=1, asking=0, role="Viewer", variables=0):
    """So many users, variables, and DAGs with so many tasks each; the user who asks has the role."""
    ids = ids_of(dags)
    one_dag = [{"action": {"name": "can_read"}, "resource": {"name": "DAG:" + ids[dags // 2]}}]

    def role_of(i):
        return role if i == asking else "Admin" if i in (1, 2) else "User"

    def digest(i):
        return hashlib.sha256(b"token%d" % i).hexdigest()

    made = {
        "roles": [{"name": "One", "actions": one_dag}],
        "users": [{"username": f"user{i}", "roles": [{"name": role_of(i)}], "token_sha256": digest(i)} for i in range(users)],
        "pools": [{"name": f"pool_{i}", "slots": 4} for i in range(8)] if tasks > 1 else None,
        "variables": [{"key": f"key_{i * 7919 % variables:05}", "value": str(i)} for i in range(variables)] or None,
        "dags": [{"dag_id": it, "is_paused": i % 5 == 0, "tasks": tasks_of(tasks)} for i, it in enumerate(ids)],
    }
    if tasks > 1:
        for i, row in enumerate(made["dags"]):
            if i % 2:
                row |= {"schedule": ["@daily", 3600, "@monthly"][i // 2 % 3], "start_date": "2024-01-31T06:00:00Z", "catchup": i % 4 == 1}
    return json.dumps(made).encode()


# ---- Requests ----------------------------------------------------------------------------------------------


def ask(path, method="GET", body=None, asking=0, top="/api/v1"):
    head = f"{method} {top}{path} HTTP/1.1\r\nHost: h\r\nAuthorization: Bearer token{asking}\r\n"
    if body is None:
        return f"{head}\r\n".encode()
    text = json.dumps(body, separators=(",", ":"))
    return f"{head}Content-Type: application/json\r\nContent-Length: {len(text)}\r\n\r\n{text}".encode()


def pause(dag, is_paused):
    return ask(f"/dags/{dag}", "PATCH", {"is_paused": is_paused})


def trigger(dag, n):
    """The n-th run, with an id and a date of its own."""
    date = f"2023-{n // 672 % 12 + 1:02}-{n // 24 % 28 + 1:02}T{n % 24:02}:{n % 60:02}:00+00:00"
    return ask(f"/dags/{dag}/dagRuns", "POST", {"dag_run_id": f"run_{n:05}", "logical_date": date})


def runs_before(ids, count):
    """So many triggers, three of four on one DAG, and where each run is."""
    dags = [ids[len(ids) // 2] if n % 4 else ids[n % len(ids)] for n in range(count)]
    return [trigger(it, n) for n, it in enumerate(dags)], [f"/dags/{it}/dagRuns/run_{n:05}" for n, it in enumerate(dags)]


def added(path, row, n):
    """A row is added, and then it is deleted."""
    return ask(path, "POST", row) if n % 2 == 0 else ask(f"{path}/{next(iter(row.values()))}", "DELETE")


def mixed(ids):
    """A hundred triggers; then four reads of five, and changes."""
    rng, is_paused = random.Random(6), {}
    lead = [trigger(it, n) for n, it in enumerate(ids[:100])]
    runs, played = [f"/dags/{it}/dagRuns/run_{n:05}" for n, it in enumerate(ids[:100])], []
    for n in range(100, MOST):
        dag, kind = rng.choice(ids), rng.randrange(10)
        if kind == 0:
            is_paused[dag] = not is_paused.get(dag, False)
            played.append(pause(dag, is_paused[dag]))
        elif kind == 1:
            runs.append(f"/dags/{dag}/dagRuns/run_{n:05}")
            played.append(trigger(dag, n))
        else:
            run = rng.choice(runs)
            reads = [f"/dags/{dag}", f"/dags/{dag}/tasks", f"/dags/{dag}/dagRuns", run, f"{run}/taskInstances", f"{run}/taskInstances/step_03"]
            played.append(ask(rng.choice(reads)))
    return lead, played


def changed(ids, before):
    """So many triggers; then four reads of five, of five kinds, and changes of five kinds."""
    rng, is_paused = random.Random(14), {}
    runs = [(it, f"run_{n:05}") for n in range(before) for it in [ids[n % len(ids)]]]
    lead = [trigger(dag, n) for n, (dag, _) in enumerate(runs)]
    lead += [ask("/variables", "POST", {"key": f"key_{n}", "value": "0"}) for n in range(10)]
    played = []
    for n in range(before, MOST - 10):
        dag, run = rng.choice(runs)
        path, kind = f"/dags/{dag}/dagRuns/{run}", rng.randrange(5)
        if rng.randrange(5):
            played.append(ask([f"/dags/{dag}", f"/dags/{dag}/dagRuns", path, f"{path}/taskInstances", "/pools"][kind]))
        elif kind == 0:
            is_paused[dag] = not is_paused.get(dag, False)
            played.append(pause(dag, is_paused[dag]))
        elif kind == 1:
            runs.append((dag, f"run_{n:05}"))
            played.append(trigger(dag, n))
        elif kind == 2:
            played.append(ask(path, "PATCH", {"state": rng.choice(["success", "failed", "queued"])}))
        elif kind == 3:
            played.append(ask(f"/dags/{dag}/clearTaskInstances", "POST", {"dag_run_id": run, "dry_run": False, "only_failed": False}))
        else:
            played.append(ask(f"/variables/key_{n % 10}", "PATCH", {"value": str(n)}))
    return lead, played


def paged(ids, count):
    """So many triggers; then pages of a hundred runs, of one DAG and of all in turn."""
    pages = [("~", n * 7 % (count - 100)) if n % 2 else (ids[50], n % 50) for n in range(MOST)]
    return runs_before(ids, count)[0], [ask(f"/dags/{dag}/dagRuns?limit=100&offset={offset}") for dag, offset in pages]


def logged(ids, count):
    """Nearly so many changes; then pages of a hundred event logs."""
    lead = [trigger(ids[n % 100], n) if n % 2 else pause(ids[n % 100], n % 200 >= 100) for n in range(count)]
    return lead, [ask(f"/eventLogs?limit=100&offset={n * 7 % (count - 100)}") for n in range(MOST)]


def mixed_pages(ids):
    """A hundred triggers; then four reads of five, of five kinds, two of them pages of twenty, and changes."""
    rng, is_paused = random.Random(6), {}
    runs, played = [(it, f"run_{n:05}") for n, it in enumerate(ids)], []
    lead = [trigger(it, n) for n, it in enumerate(ids)]
    for n in range(100, MOST):
        dag, kind, (of, run), offset = rng.choice(ids), rng.randrange(10), rng.choice(runs), rng.randrange(100)
        path = f"/dags/{of}/dagRuns/{run}"
        reads = [f"/dags/{dag}", path, f"{path}/taskInstances", *(f"{it}?limit=20&offset={offset}" for it in ("/dags/~/dagRuns", "/eventLogs"))]
        if kind == 0:
            is_paused[dag] = not is_paused.get(dag, ids.index(dag) % 5 == 0)
            played.append(pause(dag, is_paused[dag]))
        elif kind == 1:
            runs.append((dag, f"run_{n:05}"))
            played.append(trigger(dag, n))
        else:
            played.append(ask(rng.choice(reads)))
    return lead, played


# ---- Loads -------------------------------------------------------------------------------------------------


class Load:
    """A configuration, the requests that are played first, and those that are measured. Of a start-up the first alone."""

    def __init__(self, name, config, play, lead=(), figure="further"):
        self.name, self.config, self.lead, self.figure = name, config, list(lead), figure
        self.play = list(play)[: MOST - len(self.lead)]

    def requests(self):
        return self.lead + self.play


def list_loads():
    for dags in (3, 100, 1024):
        yield Load(f"a Viewer's list, {dags:,} DAGs", lambda dags=dags: config(dags=dags), [ask("/dags")] * MOST)
    for users in (10, 1000, 65536):
        for place, asking in (("first", 0), ("middle", users // 2), ("last", users - 1)):
            made = lambda users=users, asking=asking: config(users=users, asking=asking)
            yield Load(f"{users:,} users, the {place} asks", made, [ask("/dags", asking=asking)] * MOST)
    yield Load("a user of one DAG, 1,024 DAGs", lambda: config(dags=1024, role="One"), [ask("/dags")] * MOST)


def dag_loads():
    for dags in (100, 1024):
        ids, made = ids_of(dags), lambda dags=dags: config(dags=dags, role="User")
        yield Load(f"show a DAG, {dags:,} DAGs", made, [ask(f"/dags/{ids[n * 389 % dags]}") for n in range(MOST)])
        yield Load(f"pause and unpause, {dags:,} DAGs", made, [pause(ids[n // 2 * 389 % dags], n % 2 == 0) for n in range(MOST)])
        yield Load(f"pause, nothing changes, {dags:,} DAGs", made, [pause(ids[dags // 2], True)] * (MOST - 1), [pause(ids[dags // 2], True)])
    ids = ids_of(100)
    for tasks in (5, 20):
        made = lambda tasks=tasks: config(dags=100, tasks=tasks, role="User")
        yield Load(f"tasks of a DAG, {tasks}", made, [ask(f"/dags/{ids[n % 100]}/tasks") for n in range(MOST)])


def run_loads():
    ids, made = ids_of(100), lambda: config(dags=100, tasks=5, role="User")
    one = ids[50]
    yield Load("trigger a run, 0 to 99 there", made, [trigger(one, n) for n in range(100)])
    yield Load("trigger a run, 900 to 998 there", made, [trigger(one, n) for n in range(900, MOST)], [trigger(one, n) for n in range(900)])
    lead, runs = runs_before(ids, 200)
    yield Load("show a run, 200 runs", made, [ask(runs[n % 200]) for n in range(MOST)], lead)
    yield Load("runs of a DAG, 100 of 150", made, [ask(f"/dags/{one}/dagRuns")] * MOST, lead)
    yield Load("runs of all DAGs, 100 of 200", made, [ask("/dags/~/dagRuns")] * MOST, lead)
    yield Load("instances of a run, 5", made, [ask(f"{runs[n % 200]}/taskInstances") for n in range(MOST)], lead)
    yield Load("an instance, 5 tasks", made, [ask(f"{runs[n % 200]}/taskInstances/step_0{n % 5}") for n in range(MOST)], lead)
    lead, played = mixed(ids)
    yield Load("mixed, 100 DAGs of 5 tasks", made, played, lead)


def change_loads():
    ids, made = ids_of(100), as_op
    lead, runs = runs_before(ids, 400)
    yield Load("mark a run, 400 runs", made, [ask(runs[n // 2 % 400], "PATCH", {"state": ("failed", "queued")[n % 2]}) for n in range(MOST)], lead)
    clears = [ask(runs[n // 2 % 400], "PATCH", {"state": "failed"}) if n % 2 == 0 else ask(f"{runs[n // 2 % 400]}/clear", "POST", {"dry_run": False}) for n in range(MOST)]
    yield Load("mark and clear a run, 400 runs", made, clears, lead)
    dry = ask(f"/dags/{ids[50]}/clearTaskInstances", "POST", {"only_failed": False, "task_ids": ["step_00"]})
    yield Load("clear, a dry run of 300 of 400 runs", made, [dry] * MOST, lead)
    yield Load("delete a run, of 400", made, [ask(it, "DELETE") for it in runs], lead)
    for runs in (700, 890):
        lead, played = changed(ids, runs)
        yield Load(f"reads and changes, {runs} runs", made, played, lead)


def pool_loads():
    made, (lead, _) = as_op, runs_before(ids_of(100), 400)
    yield Load("pools, 9", made, [ask("/pools")] * MOST)
    yield Load("show a pool, of 9", made, [ask(f"/pools/pool_{n % 8}") for n in range(MOST)])
    yield Load("show a pool, 400 runs of 5 tasks", made, [ask("/pools/pool_1")] * MOST, lead)
    yield Load("pools, 9, 400 runs of 5 tasks", made, [ask("/pools")] * MOST, lead)
    yield Load("add and delete a pool, of 9", made, [added("/pools", {"name": f"new_{n // 2}", "slots": 4}, n) for n in range(MOST)])
    yield Load("change a pool", made, [ask("/pools/pool_1", "PATCH", {"slots": 4 + n % 2}) for n in range(MOST)])


def variable_loads():
    made, many = as_op, lambda: config(dags=100, tasks=5, role="Op", variables=10_000)
    variables = [ask("/variables", "POST", {"key": f"key_{n:03}", "value": "0"}) for n in range(100)]
    news = [added("/variables", {"key": f"new_{n // 2}", "value": str(n)}, n) for n in range(MOST)]
    yield Load("change a variable, of 100", made, [ask(f"/variables/key_{n % 100:03}", "PATCH", {"value": str(n)}) for n in range(MOST)], variables)
    yield Load("show a variable, of 100", made, [ask(f"/variables/key_{n % 100:03}") for n in range(MOST)], variables)
    yield Load("add and delete a variable, of 100", made, news, variables)
    yield Load("variables, 100", made, [ask("/variables")] * MOST, variables)
    yield Load("add and delete a variable, of 10,000", many, news)
    yield Load("variables, 100 of 10,000", many, [ask("/variables")] * MOST)


def page_loads():
    ids = ids_of(100)
    # 890 leave a connection 109 requests
    for count in (200, 890):
        yield Load(f"pages of 100 runs, of {count}", as_op, *paged(ids, count)[::-1])
    for count in (500, 890):
        yield Load(f"pages of 100 event logs, of {count}", as_op, *logged(ids, count)[::-1])
    yield Load("mixed, with pages and event logs", as_op, *mixed_pages(ids)[::-1])


def start_loads():
    for name, made in (
        ("10 users, 3 DAGs", lambda: config()),
        ("1,024 DAGs of 1 task", lambda: config(dags=1024)),
        ("1,024 DAGs of 20 tasks", lambda: config(dags=1024, tasks=20)),
        ("65,536 users, 3 DAGs", lambda: config(users=65536)),
        ("10,000 variables, 3 DAGs", lambda: config(variables=10_000)),
        ("65,536 users, 1,024 DAGs", lambda: config(users=65536, dags=1024)),
    ):
        yield Load(f"start-up, {name}", made, [ask("/dags")], figure="start")


def as_op():
    """100 DAGs of five tasks, and an Op who asks."""
    return config(dags=100, tasks=5, role="Op")


def loads():
    return itertools.chain(list_loads(), dag_loads(), run_loads(), change_loads(), pool_loads(), variable_loads(), page_loads(), start_loads())
