"""The loads of serve_bench.py: a configuration, what is played before, and what each connection plays, round and round."""
import hashlib
import json
import random

CONNECTIONS = 16
TEAMS, DAGS, TASKS, USERS, RUNS = 7, 112, 5, 1_000, 5
# The first DAGs are paused and have runs, so a scheduler leaves these alone. Each connection has DAGs of its own to pause, and users and a role to change.
WITH_RUNS, OWN_DAGS, OWN_USERS = 16, 6, 4
# So many requests does a connection play; the changes among them leave everything as it was before the first.
ROUND, EVERY = 960, 10
FIELDS = "User-Agent: python-requests/2.31.0\r\nAccept-Encoding: gzip, deflate\r\nAccept: */*\r\nConnection: keep-alive\r\n"


def token_of(user):
    return f"token-of-user-{user:05}"


def dag_of(n):
    return f"team{n % TEAMS}.dag_{n:04}"


def run_of(n):
    return f"run_{n:05}"


def pair(action, resource):
    return {"action": {"name": action}, "resource": {"name": resource}}


def role_of(user):
    """What a user is: the first two administer; of ten others one is of a team, two run DAGs, seven view."""
    if user < 2:
        return "Admin"
    return {5: f"Team{user // 10 % TEAMS}", 6: "User", 7: "User"}.get(user % 10, "Viewer")


def own_users(connection):
    """Users who ask for nothing themselves."""
    return range(USERS - (connection + 1) * OWN_USERS, USERS - connection * OWN_USERS)


def dag_row(n, tasks):
    rows = [{"task_id": f"step_{it:02}", "upstream": [f"step_{it - 1:02}"] if it else [], "retries": it % 3} for it in range(tasks)]
    return {"dag_id": dag_of(n), "is_paused": n < WITH_RUNS, "tasks": rows}


def user_row(user, role=None):
    digest = hashlib.sha256(token_of(user).encode()).hexdigest()
    return {"username": f"user{user:05}", "roles": [{"name": role or role_of(user)}], "token_sha256": digest}


def config(users=USERS, dags=DAGS, tasks=TASKS, limit=4_000_000):
    """The text of a configuration: one role for each team, of the usual DAGs, and one for each connection; no schedules."""
    actions = ("can_read", "can_edit")
    reading = [pair("can_read", "DAG Runs"), pair("can_read", "Task Instances")]
    teams = [{"name": f"Team{t}", "actions": reading + [pair(it, f"DAG:{dag_of(n)}") for n in range(t, DAGS, TEAMS) for it in actions]} for t in range(TEAMS)]
    own = [{"name": f"Own{it}", "actions": []} for it in range(CONNECTIONS)]
    made = {"history_limit": limit, "roles": teams + own, "users": [user_row(it) for it in range(users)], "dags": [dag_row(it, tasks) for it in range(dags)]}
    return json.dumps(made).encode()


class Asked:
    """A request, the status that its answer has, and whether it is a change of the policy, which may be told that the policy has moved."""

    def __init__(self, path, user, method="GET", body=None, status=200, is_change=False, token=None):
        head = f"{method} {path} HTTP/1.1\r\nHost: 127.0.0.1:8080\r\n{FIELDS}Authorization: Bearer {token or token_of(user)}\r\n"
        text = "" if body is None else json.dumps(body)
        if body is not None:
            head += f"Content-Type: application/json\r\nContent-Length: {len(text)}\r\n"
        self.bytes, self.status, self.is_change = f"{head}\r\n{text}".encode(), status, is_change

    def record(self, connection):
        """As serve_load reads it."""
        return b"%d %d %d %d\n" % (connection, self.status, self.is_change, len(self.bytes)) + self.bytes


# ---- What is asked -----------------------------------------------------------------------------------------


def read(rng):
    """One read, of a user drawn by chance: of a hundred, 30 show a DAG, 5 are `/own/me`, 5 are refused, 60 are lists, runs, tasks and instances."""
    kind, user = rng.randrange(100), rng.randrange(2, USERS - CONNECTIONS * OWN_USERS)
    role = role_of(user)
    mine = [it for it in range(DAGS) if not role.startswith("Team") or it % TEAMS == int(role[4:])]
    dag, run = rng.choice(mine), rng.choice([it for it in mine if it < WITH_RUNS])
    runs = f"/api/v1/dags/{dag_of(run)}/dagRuns"
    one = f"{runs}/{run_of(run * RUNS + rng.randrange(RUNS))}"
    if kind < 30:
        return Asked(f"/api/v1/dags/{dag_of(dag)}", user)
    if kind < 40:
        return Asked(f"/api/v1/dags?limit=20&offset={rng.randrange(80) if len(mine) == DAGS else 0}", user)
    if kind < 50:
        return Asked(f"/api/v1/dags/{dag_of(dag)}/tasks", user)
    if kind < 60:
        return Asked(runs, user)
    if kind < 70:
        return Asked(f"/api/v1/dags/~/dagRuns?limit=20&offset={rng.randrange(60) if len(mine) == DAGS else 0}", user)
    if kind < 80:
        return Asked(one, user)
    if kind < 90:
        return Asked(f"{one}/taskInstances", user)
    if kind < 95:
        return Asked("/own/me", user)
    if kind < 98:
        return Asked("/api/v1/users/user00005", user, status=403)
    return Asked(f"/api/v1/dags/{dag_of(dag)}", user, status=401, token="a-token-of-nobody")


def trigger(n, dag, user=0):
    date = f"20{10 + n // 360_000 % 80:02}-{n // 30_000 % 12 + 1:02}-{n // 1_200 % 25 + 1:02}T{n // 60 % 20:02}:{n % 60:02}:00+00:00"
    return Asked(f"/api/v1/dags/{dag_of(dag)}/dagRuns", user, "POST", {"dag_run_id": run_of(n), "logical_date": date})


def before():
    """What is played once, on one connection: the runs of paused DAGs."""
    return [trigger(n, n // RUNS) for n in range(WITH_RUNS * RUNS)]


def pauses(connection):
    """Pauses and unpauses of a connection's DAGs, without an end."""
    own = [WITH_RUNS + connection * OWN_DAGS + it for it in range(OWN_DAGS)]
    while True:
        for is_paused in (True, False):
            for it in own:
                yield Asked(f"/api/v1/dags/{dag_of(it)}", 1, "PATCH", {"is_paused": is_paused})


def policies(connection):
    """Changes of a connection's users, of its role, and of what roles may do on a DAG, without an end: two, one and one of four."""
    users, role, turn = own_users(connection), f"Own{connection}", 0
    dag, team = dag_of(WITH_RUNS + connection), f"Team{(WITH_RUNS + connection) % TEAMS}"

    def change(path, method, body):
        return Asked(path, 1, method, body, is_change=True)

    while True:
        is_on = turn // OWN_USERS % 2 == 0
        for it in (turn % OWN_USERS, (turn + 1) % OWN_USERS):
            name = role if is_on else role_of(users[it])
            yield change(f"/api/v1/users/user{users[it]:05}", "PATCH", {"roles": [{"name": name}]})
        yield change(f"/api/v1/roles/{role}", "PATCH", {"actions": [pair("can_read", "Pools"), pair("can_read", f"DAG:{dag}")] if is_on else []})
        yield change(f"/own/dags/{dag}/sync", "POST", {"access_control": {team: ["can_read", "can_edit"], role: ["can_read"] if is_on else []}})
        turn += 2


# ---- Loads -------------------------------------------------------------------------------------------------


class Load:
    """What each connection plays. Of every ten requests one is a change of these kinds, in turn; none where there are no kinds."""

    def __init__(self, name, kinds, every=EVERY):
        self.name, self.kinds, self.every = name, kinds, every

    def plays(self, connection, count=ROUND):
        rng = random.Random(f"{connection}")
        changes = [it(connection) for it in self.kinds]
        for n in range(count):
            if changes and n % self.every == self.every - 1:
                yield next(changes[n // self.every % len(changes)])
            else:
                yield read(rng)

    def records(self, connections=CONNECTIONS):
        return b"".join(it.record(c) for c in range(connections) for it in self.plays(c))


READERS = Load("readers alone", [])
CHANGES = Load("one in ten a change", [pauses, policies])
PAUSES = Load("one in ten a pause", [pauses])
POLICIES = Load("one in ten a change of the policy", [policies])
