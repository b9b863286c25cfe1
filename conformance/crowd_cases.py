"""What the clients of many_clients.py ask for: the configuration, and of each client its requests, made from a seed and from what it was answered.

Names come from few, those of state_cases.py, so that clients meet on the same rows: two administrators on roles, users and tokens, the others on DAGs, runs, pools
and variables. So do the ranges of backfills: the scheduler comes to some of them before, and to others after. Runs that the scheduler made are learned from
listings, and then shown, marked, cleared and deleted. Some clients may do little, some nothing.
"""
import json
import random

import with_model  # noqa: F401
import request_cases
from body_cases import needed
from config_cases import role_row, user_row
from oracle_names import MICROS, instant_of, isoformat
from oracle_table import LANDED
from state_cases import BAD_DATES, Asker

# How often each operation is asked for by clients of each kind.
LISTS = dict.fromkeys(["list_dags", "list_tasks", "list_runs", "list_instances", "list_pools", "list_variables", "me"], 2)
READINGS = {**LISTS, **dict.fromkeys(["show_dag", "show_run", "show_instance", "show_pool", "show_variable"], 1)}
ON_RUNS = {"trigger_run": 6, "backfill": 3, "patch_dag": 2, "mark_run": 2, "delete_run": 2, "clear_run": 2, "clear_instances": 2, "show_run": 2, "list_instances": 2, "list_runs": 2}
ON_ROWS = {"add_pool": 4, "set_pool": 2, "delete_pool": 1, "add_variable": 4, "set_variable": 2, "delete_variable": 1, "show_pool": 1, "show_variable": 1, **LISTS}
ON_POLICY = {"add_role": 2, "set_role": 4, "drop_role": 1, "add_user": 2, "set_user": 4, "drop_user": 1, "sync": 4, **dict.fromkeys(["list_roles", "show_role", "list_users", "show_user"], 1)}
# Users whose roles and tokens the administrators change, and others that keep theirs.
CHANGING = {"root": "Admin", "op": "Op", "uma": "User", "vi": "Viewer", "o0": "own0", "o1": "own1", "o2": "own2"}
LASTING = {"adam": "Admin", "zoe": "Admin", "kim": "User", "ida": "Auditor", "pat": "Public"}
WEAK = [b"vi-token", b"o0-token", b"o1-token", b"o2-token", b"pat-token", b"fresh", b"later", b"nope"]
OPERATORS = [b"root-token", b"op-token", b"uma-token", b"kim-token"]
MOST_AT_ONCE = 6
# Where the ranges of backfills begin, in seconds after the schedules, and how long they are; the last are too long for each schedule.
BEGINS, LENGTHS = [-2, 0, 10, 20, 40, 60, 90], [0, 2, 4, 4, 10, 10, 86400]
FEW_RUNS, MANY_RUNS = 40, 120


def token(name):
    return f"{name}-token".encode()


def config(now):
    """The bytes of a configuration whose schedules begin at a moment, in microseconds since 1970."""
    start, pairs = isoformat(now // MICROS * MICROS), lambda *resources: [("can_read", it) for it in resources]
    retried = {"task_id": "t", "script": ["failed", "failed", "success"], "retries": 2, "retry_delay": 1}
    rules = [{"task_id": it, "upstream": ["t"], "trigger_rule": rule} for it, rule in (("x", "one_failed"), ("y", "all_done"), ("z", "none_failed"))]
    return json.dumps({
        "roles": [
            role_row("own0", *pairs("DAG:b", "DAG:_", "DAG Run:b", "Task Instances"), ("can_edit", "DAG:b"), ("can_create", "DAG Run:b"), ("can_edit", "DAG Run:b")),
            role_row("own1", *pairs("DAG:a", "DAG:a.b", "DAG Runs", "Pools"), ("can_edit", "Pools"), ("can_create", "Pools")),
            role_row("own2", *pairs("DAG:_", "Audit Logs", "Variables"), ("can_create", "Variables"), ("can_delete", "Variables")),
            role_row("Auditor", *pairs("Audit Logs", "DAG:a", "DAG:b")),
        ],
        "users": [user_row(name, token(name), it) for name, it in {**CHANGING, **LASTING}.items()],
        "pools": [{"name": "p", "slots": 1}, {"name": "q r", "slots": 2}],
        "variables": [{"key": "k", "value": "v"}],
        "dags": [
            {"dag_id": "a", "schedule": 2, "start_date": start, "max_active_runs": 3, "tasks": [retried, *rules]},
            {"dag_id": "b", "tasks": [{"task_id": "t", "pool": "p"}, {"task_id": "x", "upstream": ["t"], "script": ["skipped"], "pool": "p"}]},
            {"dag_id": "a.b", "schedule": 5, "start_date": start, "catchup": False, "max_active_runs": 1, "tasks": [{**retried, "pool": "q r"}, *rules]},
            {"dag_id": "c", "is_paused": True, "tasks": [{"task_id": "t", "priority_weight": 5}]},
            {"dag_id": "_", "tasks": [{"task_id": "t", "retries": 1, "retry_delay": 2, "script": ["failed"]}, {"task_id": "w", "priority_weight": 9}]},
        ],
    }).encode()  # fmt: skip


def config_of_rivals(entries, rivals):
    """The bytes of a configuration whose history has room for so many entries: users, each with a DAG of the same name, in which the scheduler changes nothing."""
    return json.dumps({
        "users": [user_row("adam", token("adam"), "Admin"), *(user_row(it, token(it), "User") for it in rivals)],
        "dags": [{"dag_id": it, "tasks": [{"task_id": "t"}]} for it in rivals],
        "history_limit": entries,
    }).encode()  # fmt: skip


class Guest:
    """A client: which tokens it has, how often it asks for each operation, and how odd its requests are."""

    def __init__(self, seed, made, tokens, weights, wild):
        self.rng, self.made, self.wild = random.Random(seed), json.loads(made), wild
        self.asker = Asker(self.rng, self.made, tokens, LANDED)
        self.asker.makers = [(name, form, self.range_body if name == "backfill" else body) for name, form, body in self.asker.makers]
        self.asker.weights = [weights.get(name, 0) for name, _, _ in self.asker.makers]

    def requests(self):
        """What it sends next, in one write: a request, or a few."""
        count = self.rng.randint(2, MOST_AT_ONCE) if self.rng.random() < 0.15 else 1
        return [self.request() for _ in range(count)]

    def request(self):
        return self.asker.request(self.wild)

    def range_body(self, rng, wild, focus):
        """The body of a backfill: a range of few, so that clients ask for the same one at once."""
        start = instant_of(self.made["dags"][0]["start_date"]) + rng.choice(BEGINS) * MICROS
        dates = [isoformat(it) for it in (start, start + rng.choice(LENGTHS) * MICROS)]
        return needed(rng, wild, start_date=(dates[:1], BAD_DATES), end_date=(dates[1:], BAD_DATES))

    def learn(self, exchanges):
        pass


class Administrator(Guest):
    """A client that changes the policy, and now and then gives a role or a user what the configuration gave them, so that others can do something again."""

    def request(self):
        rng, one = self.rng, self.rng.choice(self.made["roles"] + self.made["users"] * 3)
        if rng.random() < 0.7:
            return super().request()
        path = b"/api/v1/users" if "username" in one else b"/api/v1/roles"
        if rng.random() < 0.5:
            path += b"/" + one.get("username", one.get("name")).encode()
        return request_cases.with_body(b"%s %s HTTP/1.1" % (b"PATCH" if path.count(b"/") == 4 else b"POST", path), self.asker.tokens[0], json.dumps(one).encode())


class Keeper(Guest):
    """A client that learns of runs from listings, and shows, marks and clears them; and deletes them where there are many."""

    def __init__(self, seed, made, tokens):
        super().__init__(seed, made, tokens, {}, 0)
        self.runs, self.total = [], 0

    def request(self):
        rng = self.rng
        ask = lambda method, path, body=b"": request_cases.with_body(b"%s /api/v1/dags/%s HTTP/1.1" % (method, path), rng.choice(self.asker.tokens), body)
        if rng.random() < 0.1:
            return ask(b"PATCH", rng.choice(self.made["dags"])["dag_id"].encode(), b'{"is_paused":false}')
        if not self.runs:
            return ask(b"GET", b"~/dagRuns?limit=20&offset=%d" % rng.choice([0, max(0, self.total - 20), rng.randint(0, self.total)]))
        path = b"%s/dagRuns/%s" % self.runs.pop()
        return rng.choice([
            lambda: ask(b"GET", path + b"/taskInstances"),
            lambda: ask(b"PATCH", path, rng.choice([b'{"state":"failed"}', b'{"state":"success"}', b'{"state":"queued"}'])),
            lambda: ask(b"POST", path + b"/clear", rng.choice([b'{"dry_run":false}', b"{}"])),
            lambda: ask(b"DELETE" if self.total > FEW_RUNS else b"GET", path),
            lambda: ask(b"DELETE" if self.total > MANY_RUNS else b"GET", path),
        ])()  # fmt: skip

    def learn(self, exchanges):
        for it in exchanges:
            body = it.answer.partition(b"\r\n\r\n")[2]
            if b"/dagRuns?" in it.request and b" 200 OK\r\n" in it.answer:
                told = json.loads(body)
                found, self.total = [(run["dag_id"].encode(), run["dag_run_id"].encode()) for run in told["dag_runs"]], told["total_entries"]
                self.runs = self.rng.sample(found, min(len(found), 8))


def guests(seed, made, count):
    """So many clients. The first two are the administrators, the third and the fourth keep the number of runs small."""
    kinds = [
        lambda own: Administrator(own, made, [token("adam")], ON_POLICY, 0.03),
        lambda own: Administrator(own, made, [token("zoe")], ON_POLICY, 0.03),
        lambda own: Keeper(own, made, [token("kim"), token("adam")]),
        lambda own: Keeper(own, made, [token("kim")]),
        lambda own: Guest(own, made, OPERATORS, ON_RUNS, 0.03),
        lambda own: Guest(own, made, OPERATORS + WEAK, ON_ROWS, 0.05),
        lambda own: Guest(own, made, WEAK, READINGS, 0.03),
        lambda own: Guest(own, made, [*WEAK, *OPERATORS], {**ON_RUNS, **ON_ROWS, **READINGS}, 0.1),
        lambda own: Guest(own, made, [token("ida"), token("adam"), token("o2")], {"list_entries": 5, **READINGS}, 0.02),
        lambda own: Guest(own, made, [token("root"), *WEAK], {**READINGS, **ON_POLICY}, 0.02),
    ]
    return [kinds[it % len(kinds)](f"{seed} {it}") for it in range(count)]
