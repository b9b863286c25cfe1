"""A server over the reference model for the tests of history.py: sessions that ask it in any order, and a scheduler and an executor beside them."""
import copy
import json

import with_model  # noqa: F401
import mixed_cases
import oracle
import oracle_sched
from blind_cases import role, user
from exchanges import Asked, Exchange
from history import fault
from oracle_names import instant_of, isoformat
from oracle_policy import Fault
from oracle_table import having
from oracle_verdict import told
from worked_rows import TOKENS

NOW, ALL = instant_of("2024-01-01T00:00:00Z"), having("landed")
TRIGGER, LIST = "POST /dags/b/dagRuns", "GET /dags/b/dagRuns"
CONFIG = {
    "roles": [role("OnlyB", ["DAG:b.can_read"]), role("RunsB", ["DAG:b.can_read", "DAG:b.can_edit", "DAG Runs.can_read", "DAG Runs.can_create"])],
    "users": [user("adam", "Admin"), user("zoe", "Admin"), user("uma", "User"), user("vera", "Viewer"), user("bob", "OnlyB"), user("ron", "RunsB")],
    "pools": [{"name": "p", "slots": 1}],
    "dags": [
        {"dag_id": "a", "schedule": 2, "start_date": "2024-01-01T00:00:00Z", "tasks": [{"task_id": "t", "script": ["failed"], "retries": 1, "retry_delay": 3}]},
        {"dag_id": "b", "tasks": [{"task_id": "t", "pool": "p", "script": ["skipped"]}, {"task_id": "u", "upstream": ["t"], "trigger_rule": "all_done"}]},
        {"dag_id": "c", "is_paused": True, "tasks": [{"task_id": "t", "pool": "p"}]},
    ],
}  # fmt: skip


def run(n):
    """The body that triggers a run."""
    return json.dumps({"dag_run_id": f"r{n}", "logical_date": f"2024-01-0{n}T00:00:00Z"})


class Server:
    """A plane that answers sessions in the order in which they ask, and a scheduler and an executor beside them. What it writes is the model's."""

    def __init__(self, sessions, config=CONFIG):
        self.config = json.dumps(config).encode()
        self.plane, self.sessions, self.seen = oracle.Plane(self.config, NOW), [[] for _ in range(sessions)], [0] * sessions
        self.looked, self.claimed, self.clock = 0, None, 0

    def under(self, version):
        """The plane where this version is the latest; its list of entries is the plane's own."""
        plane = copy.copy(self.plane)
        plane.versions = self.plane.versions[: version + 1]
        return plane

    def ask(self, session, data, version=None):
        """Answers a request, under the latest version or an earlier one: it was looked up before other sessions made later ones."""
        last = self.plane.version()
        version = last if version is None else version
        plane, self.clock = self.under(version), self.clock + 2
        out, _ = oracle.answers(plane, data)
        asked = Asked(session, 1, Exchange(data, out), ALL)
        if plane.version() > version:
            if version < last:
                status, body, _ = told(409, f"policy moved to version {last}")
                out = asked.text_of((status, body, [f"X-Policy-Version: {last}"]))
            else:
                self.plane.versions = plane.versions
        elif asked.operation and not asked.operation.on_policy:
            self.plane.state, self.looked = plane.state, version
        self.sessions[session].append(Exchange(data, out, self.clock - 1, self.clock))
        asked = Asked(session, 1, self.sessions[session][-1], ALL)
        self.seen[session] = max(self.seen[session], asked.version or 0)
        return asked

    def enter(self, state, event, owner, *names):
        if state != self.plane.state:
            self.plane.state = state
            self.under(self.looked).add_entry(event, owner, self.plane.now, *names)

    def tick(self):
        self.enter(oracle_sched.tick(self.plane.state, self.plane.now), "tick", "scheduler")

    def claim(self):
        state, claim = oracle_sched.claim(self.plane.state, self.plane.now)
        if claim:
            run = next(it for it in state.runs if it.number == claim[0])
            self.claimed = claim, (run.dag_id, run.run_id, claim[1])
            self.enter(state, "claim", "executor", *self.claimed[1])
        return claim

    def report(self, outcome=None):
        (number, task, tries), names = self.claimed
        script = next(it.get("script", []) for dag in CONFIG["dags"] if dag["dag_id"] == names[0] for it in dag["tasks"] if it["task_id"] == task)
        outcome = outcome or (script[tries - 1] if tries <= len(script) else "success")
        self.claimed = None
        try:
            self.enter(oracle_sched.report(self.plane.state, (number, task, tries), outcome, self.plane.now), "report", "executor", *names)
        except Fault:
            pass

    def executor(self, rng):
        """The next thing that scheduler and executor do."""
        if self.claimed:
            self.report()
        elif rng.random() < 0.5 or not self.claim():
            self.tick()

    def rows(self):
        return [{**it, "when": isoformat(it["when"])} for it in self.plane.entries]

    def fault(self, rows=None):
        return fault(self.config, self.sessions, self.rows() if rows is None else rows)


def pieces(data):
    """The requests of a text, one by one."""
    while data:
        end = oracle.head_end(data, 0)
        end += oracle.Request(data[:end]).length
        yield data[:end]
        data = data[end:]


def random_history(rng, count):
    """So many requests of some sessions, with ticks, claims and reports in between. Some are decided under a version that is no longer the latest."""
    it = Server(rng.randint(1, 5))
    mixer = mixed_cases.Mixer(rng, CONFIG, [token.encode() for token in TOKENS.values()], NOW, ALL)
    done = 0
    while done < count:
        it.plane.now += rng.choice([0, 1, 250_000, 1_000_000, -1])
        if rng.random() < 0.3:
            it.executor(rng)
        mixer.plane = copy.copy(it.plane)
        mixer.plane.versions, mixer.plane.entries = list(it.plane.versions), list(it.plane.entries)
        for data in pieces(mixer.request()):
            session = rng.randrange(len(it.sessions))
            least = max(it.seen[session], it.looked if Asked(0, 1, Exchange(data, b""), ALL).operation is not None else 0)
            it.ask(session, data, rng.randint(least, it.plane.version()) if rng.random() < 0.1 else None)
            done += 1
    return it
