"""Random pairs of connections that differ in hidden rows alone, for blindness.py.

A reader reads some DAGs and not the others. The DAGs that are read stand in both configurations, and an admin makes the same changes of them on both sides, in
the same order. The others stand on one side, on the other, on both with other tasks and schedules, or on none. Changes of these stand in between, so that runs
have other numbers on each side; so do changes of pools, of variables, and of roles and users that leave to the reader what the reader has.

Readers of two kinds read the runs of some DAGs alone, each by a permission on the runs of that DAG. Of the other DAGs that are read, each side has runs of its
own: only whether the DAG is paused is the same on both.

Each change is one that is done and that leaves another state or another policy than it found. Ids of runs and dates come from few, so that hidden runs often
have those of runs that are read.
"""
import json

import with_model  # noqa: F401
from blind_cases import ADMIN, NOW, Pair, Side, role, user
from oracle_names import DAY, MICROS, instant_of, isoformat, points_within
from worked_rows import digest

DAGS = ["A", "a", "a.1", "b", "b-2", "b.", "c", "c_3", "d", "zz"]
ABSENT = "gone"
RUN_IDS = ["r1", "r2", "r3", "r4", "x", "scheduled__2024-01-01T00:00:00+00:00", "backfill__2024-01-02T00:00:00+00:00", "a~b:+"]
UNITS = {"@daily": DAY * MICROS, "@monthly": 31 * DAY * MICROS, 60: 60 * MICROS}
DATES = [NOW, "2024-01-01T00:00:00.5Z", "2024-01-02T00:00:00Z", "2024-01-03T00:00:00Z", "2024-01-04T00:00:00+01:00", "1970-01-01T00:00:00Z"]
TASKS = ["t", "u", "v", "w"]
READER = "bob"
BEHIND = ["DAG Runs.can_read", "Task Instances.can_read"]
KINDS = ("one", "some", "none", "no runs", "runs of some", "all, and runs of some")
LIMITS = ["", "0", "1", "2", "3", "5", "100", "101", "x", "-1", "000", "9" * 30]


class Changes:
    """Changes of some DAGs, of which each is done and leaves another state; what was done before is known. Of each DAG it is said whether it may be paused, and
    whether its runs may be changed."""

    def __init__(self, rng, pausing, running):
        self.rng, self.rows = rng, {it["dag_id"]: it for it in [*pausing, *running]}
        self.paused, self.runs = {it["dag_id"]: it["is_paused"] for it in pausing}, {it["dag_id"]: {} for it in running}

    def one(self):
        dag, made = self.rng.choice(sorted(self.rows)), None
        makers = [self.pause] if dag in self.paused else []
        if dag in self.runs:
            makers += [self.trigger] * 4 + [self.backfill, self.backfill]
            makers += [self.mark, self.mark, self.clear, self.clear, self.delete] * bool(self.runs[dag])
        while made is None:
            made = self.rng.choice(makers)(dag)
        return made

    def pause(self, dag):
        self.paused[dag] = not self.paused[dag]
        return f"PATCH /dags/{dag}", json.dumps({"is_paused": self.paused[dag]})

    def trigger(self, dag):
        """A run whose id and date are free; nothing where there is none."""
        taken = self.taken(dag)
        ids, dates = [it for it in RUN_IDS if it not in self.runs[dag]], [it for it in DATES if instant_of(it) not in taken]
        if not ids or not dates:
            return None
        made, date = self.rng.choice(ids), self.rng.choice(dates)
        self.add(dag, made, instant_of(date))
        return f"POST /dags/{dag}/dagRuns", json.dumps({"dag_run_id": made, self.rng.choice(["logical_date", "execution_date"]): date})

    def taken(self, dag):
        return {it["date"] for it in self.runs[dag].values()}

    def add(self, dag, run_id, date):
        self.runs[dag][run_id] = {"date": date, "state": "queued", "fresh": True}

    def backfill(self, dag):
        """The runs of a range of a few points, of which one at least is free; nothing where there is none."""
        row, taken = self.rows[dag], self.taken(dag)
        if row.get("schedule") is None:
            return None
        start = instant_of(self.rng.choice(DATES))
        end = start + self.rng.choice([0, 1, 2, 5]) * UNITS[row["schedule"]]
        points = points_within(row["schedule"], instant_of(row["start_date"]), start, end, 101)
        made = {f"backfill__{isoformat(at)}": at for at, _ in points if at not in taken}
        free = {run_id: at for run_id, at in made.items() if run_id not in self.runs[dag]}
        for run_id, at in free.items():
            self.add(dag, run_id, at)
        return (f"POST /own/dags/{dag}/backfills", json.dumps({"start_date": isoformat(start), "end_date": isoformat(end)})) if free else None

    def some_run(self, dag):
        run_id = self.rng.choice(sorted(self.runs[dag]))
        return self.runs[dag][run_id], f"/dags/{dag}/dagRuns/{run_id}", run_id

    def mark(self, dag):
        """A run that is marked otherwise than it is: success and failed end its instances."""
        run, path, _ = self.some_run(dag)
        to = self.rng.choice([it for it in ("success", "failed", "queued") if it != run["state"]])
        run["state"], run["fresh"] = to, run["fresh"] and to == "queued"
        return f"PATCH {path}", json.dumps({"state": to})

    def clear(self, dag):
        """All instances of a run of which they have ended; by the run, or by the DAG."""
        run, path, run_id = self.some_run(dag)
        if run["fresh"]:
            return None
        run["state"], run["fresh"] = "queued", True
        if self.rng.random() < 0.5:
            return f"POST {path}/clear", '{"dry_run":false}'
        return f"POST /dags/{dag}/clearTaskInstances", json.dumps({"dry_run": False, "only_failed": False, "dag_run_id": run_id})

    def delete(self, dag):
        run, path, run_id = self.some_run(dag)
        del self.runs[dag][run_id]
        return f"DELETE {path}", ""


class Maker:
    """Makes one pair."""

    def __init__(self, rng, kind):
        self.rng, self.kind = rng, kind
        ids = rng.sample(DAGS, len(DAGS))
        count = {"one": 1, "none": 0}.get(kind, rng.randint(1, 4)) + ("runs" in kind)
        self.read, self.hidden = ids[:count], ids[count : count + rng.randint(1, 5)] if "all" not in kind else []
        # of so many DAGs that are read the runs are read too: of none by who reads no runs, of all by who reads all runs
        self.runs_read = self.read if kind in ("one", "some", "none") else self.read[: 0 if kind == "no runs" else rng.choice([0, *[1] * 4, len(self.read) - 1])]
        self.rows = [self.row(it) for it in self.read]

    def row(self, dag_id):
        rng = self.rng
        names = rng.sample(TASKS, rng.randint(1, 3))
        upstream = [rng.sample(names[:at], rng.randint(0, at)) for at in range(len(names))]
        tasks = [{"task_id": it, "upstream": before, "pool": rng.choice(["default_pool", "p"])} for it, before in zip(names, upstream)]
        row = {"dag_id": dag_id, "is_paused": rng.random() < 0.3, "max_active_runs": rng.choice([1, 16]), "tasks": tasks}
        if rng.random() < 0.5:
            row.update({"schedule": rng.choice(["@daily", "@monthly", 60]), "start_date": rng.choice(DATES)})
        return row

    def reader_roles(self):
        """What the reader may read, and beside it edits of hidden DAGs, and of runs that are not read; spread over one role or two.

        Nobody who may create the runs of a DAG may edit the DAG, so that backfills are denied. Who reads the runs of a hidden DAG reads none of them.
        """
        rng = self.rng
        behind = BEHIND[: 2 - (rng.random() < 0.2)] if self.kind in ("one", "some", "none") else BEHIND[1:] * (rng.random() < 0.8)
        found = ["DAGs.can_read"] if "all" in self.kind else [f"DAG:{it}.can_read" for it in self.read]
        found += behind + [f"DAG Run:{it}.can_read" for it in self.runs_read if "DAG Runs.can_read" not in behind]
        found += [f"DAG:{it}.{rng.choice(['can_edit', 'can_delete'])}" for it in self.hidden if rng.random() < 0.3]
        found += [f"DAG Run:{it}.{rng.choice(['can_edit', 'can_delete'])}" for it in self.hidden if rng.random() < 0.3]
        found += [f"DAG Run:{rng.choice(self.hidden)}.can_read"] * (rng.random() < 0.7) if self.hidden else []
        for it in self.read:
            if it not in self.runs_read and rng.random() < 0.4:
                found += rng.choice([[f"DAG Run:{it}.can_create"], [f"DAG:{it}.can_edit", f"DAG Run:{it}.can_edit"], [f"DAG Run:{it}.can_delete"]])
        found += [f"DAG:{ABSENT}.can_edit"] if rng.random() < 0.1 else []
        found += [f"DAG Run:{ABSENT}.can_read"] if rng.random() < 0.2 else []
        rng.shuffle(found)
        cut = rng.randint(0, len(found))
        return [role("Reader", found[:cut]), role("Reader too", found[cut:])]

    def others(self, n):
        """Changes of no DAG, which the reader is not to see either: each pair of method, path and body is done once on a side."""
        rng = self.rng
        return rng.choice([
            ("POST /variables", json.dumps({"key": f"k{n}", "value": "v"})),
            ("POST /pools", json.dumps({"name": f"q{n}", "slots": n})),
            ("PATCH /pools/default_pool", json.dumps({"slots": 1000 + n})),
            ("POST /roles", json.dumps(role(f"role {n}", [f"{kind}:{it}.can_read" for kind in ("DAG", "DAG Run") for it in self.hidden]))),
            ("POST /users", json.dumps({**user("ann", "Viewer"), "username": f"ann {n}", "token_sha256": digest("ann")[:-4] + f"{n:04x}"})),
        ])  # fmt: skip

    def side(self, shared):
        """One side: hidden DAGs of its own, and changes of its own between those that both have."""
        rng = self.rng
        rows = [self.row(it) for it in self.hidden if rng.random() < 0.7]
        own = Changes(rng, rows, rows + [it for it in self.rows if it["dag_id"] not in self.runs_read])
        count = rng.choice([0, 1, 4, 12, 20])
        hidden = [self.others(n) if not own.rows or rng.random() < 0.15 else own.one() for n in range(count)]
        places = sorted(rng.randint(0, len(shared)) for _ in hidden)
        changes, done = [], 0
        for place, change in zip(places, hidden):
            changes += [*shared[done:place], change]
            done = place
        return rows, changes + shared[done:]

    def pair(self, title):
        rng = self.rng
        both = Changes(rng, self.rows, [it for it in self.rows if it["dag_id"] in self.runs_read])
        shared = [both.one() for _ in range(rng.choice([0, 3, 8, 16]))] if self.rows else []
        roles, users = self.reader_roles(), [user(ADMIN, "Admin"), user(READER, "Reader", "Reader too")]
        sides = []
        for rows, changes in (self.side(shared), self.side(shared)):
            dags = rng.sample([*self.rows, *rows], len(self.rows) + len(rows))
            pools = [{"name": "p", "slots": rng.choice([0, 3])}, *({"name": it, "slots": 1} for it in ("pa", "pb") if rng.random() < 0.3)]
            sides.append(Side({"roles": roles, "users": users, "pools": pools, "dags": dags}, changes))
        return Pair(title, READER, tuple(sides), self.asked())

    # ---- What the reader asks for ----

    def query(self):
        rng = self.rng
        page = [f"{it}={rng.choice(LIMITS)}" for it in ("limit", "offset") if rng.random() < 0.5]
        return "?" + "&".join(rng.sample(page, len(page))) if page else ""

    def asked(self):
        """Each DAG by its id, that which is nowhere too, and a backfill of each, which the reader is denied; and then what stands below them, by any ids."""
        rng, found = self.rng, []
        for dag in [*self.read, *self.hidden, ABSENT]:
            found += [f"GET /dags/{dag}", f"GET /dags/{dag}/tasks{self.query()}", f"GET /dags/{dag}/dagRuns{self.query()}", f"POST /own/dags/{dag}/backfills"]
        found += [f"GET /dags{self.query()}" for _ in range(3)] + [f"GET /dags/~/dagRuns{self.query()}" for _ in range(5)]
        for _ in range(24):
            dag = rng.choice([*self.read * 3, *self.hidden, ABSENT])
            run = f"GET /dags/{dag}/dagRuns/{rng.choice([*RUN_IDS, ABSENT])}"
            found.append(run + rng.choice(["", "", f"/taskInstances{self.query()}", f"/taskInstances/{rng.choice([*TASKS, ABSENT])}"]))
        return rng.sample(found, len(found))
