"""The replay of a connection: its event logs and its requests, done again over the opening state, are to give what its last looks show.

Part of differential.py, and of use on the answers of any server: nothing here is taken from what the oracle would have answered. An entry is read off the
pages of the event logs, the request that it is of off the number of entries that each answer names; the state is the oracle's (oracle_state.py,
oracle_sched.py), which each of these requests changes, at the moment of its entry, and no other request.
"""
import hashlib
import json
import os
import sys

import oracle_bodies as bodies
import oracle_rows
import oracle_sched
import oracle_state as states
from oracle_config import read_config
from oracle_names import instant_of
from oracle_ops import PAGE, Call
from oracle_policy import Fault
from oracle_table import KINDS, LANDED, route

sys.path.insert(0, os.path.join(os.path.dirname(os.path.dirname(os.path.realpath(__file__))), "tools"))
from trace_of import Answer, Request, Unusable  # noqa: E402

DONE = (200, 204)


class Differs(Exception):
    """What is told, and what the replay makes of it."""


def equal(what, told, wanted):
    if told != wanted:
        raise Differs(f"{what}: told {told!r}, by the replay {wanted!r}")


def exchanges(data, out):
    """Each request with its answer."""
    found, at, read = [], 0, 0
    while read < len(out):
        request = Request(data, at)
        answer = Answer(out, read, request.method == b"HEAD")
        found.append((request, answer))
        at, read = request.end, answer.end
    return found


class Replay:
    """The state and the versions of the policy, and how many of the entries that are told were done again."""

    def __init__(self, config, now, entries, has=LANDED):
        policy, self.state, _, _ = read_config(config, has)
        self.versions, self.now, self.entries, self.done, self.has = [policy], now, entries, 0, has

    def version(self):
        return len(self.versions) - 1

    def next_entry(self, what):
        if self.done == len(self.entries):
            raise Differs(f"{what}: there is no entry {self.done + 1}")
        entry = self.entries[self.done]
        equal("the number of an entry", entry["event_log_id"], self.done + 1)
        self.done += 1
        return entry, instant_of(entry["when"])

    def leaves(self, what, state):
        """A change leaves another state."""
        if state == self.state:
            raise Differs(f"{what} has an entry, and changes nothing")
        self.state = state

    def unasked(self, number):
        """The entries up to this number that are of no request: ticks and claims."""
        while self.done < min(number, len(self.entries)) and self.entries[self.done]["event"] in ("tick", "claim"):
            entry, now = self.next_entry("an entry of no request")
            what = f"entry {self.done}, {entry['event']}"
            if entry["event"] == "tick":
                self.leaves(what, oracle_sched.tick(self.state, now))
                continue
            state, claimed = oracle_sched.claim(self.state, now)
            run = next((it for it in self.state.runs if claimed and it.number == claimed[0]), None)
            names = [entry[it] for it in ("dag_id", "run_id", "task_id")]
            equal(what, names, run and [run.dag_id, run.run_id, claimed[1]])
            self.leaves(what, state)

    def call(self, operation, parts, request, now):
        """What the operation is given: it reads all, since a change does not depend on who reads."""
        policy = self.versions[-1]
        user = policy.by_digest.get(hashlib.sha256(request.token or b"").digest())
        call = Call(policy, self.state, [], user, set(), now, parts)
        call.input = bodies.read_body(request.body, operation.body) if operation.body else None
        return call

    def take(self, number, request, answer):
        """What a request changes, as far as its answer says that it was done, and no entry where it was not."""
        what = f"request {number}, {request.method.decode('latin-1')} {request.target.decode('latin-1')}"
        operation, parts = route(request.target.partition(b"?")[0], request.method, self.has)
        if operation is None:
            return
        done = answer.status in DONE
        if operation.on_policy:
            if done and operation.method != "GET":
                self.versions.append(operation.act(self.call(operation, parts, request, self.now))[0])
        else:
            self.unasked(answer.seq)
            if done and operation.method != "GET":
                self.change(what, operation, parts, request, answer)
            equal(f"{what}: the number of entries", answer.seq, self.done)
        equal(f"{what}: the version", answer.version, self.version())

    def change(self, what, operation, parts, request, answer):
        """A change of the state that was done: with its entry it leaves another state, without one the same."""
        if answer.seq == self.done:
            state, _ = operation.act(self.call(operation, parts, request, self.now))
            if state != self.state:
                raise Differs(f"{what} has no entry, and changes the state")
            return
        entry, now = self.next_entry(what)
        call = self.call(operation, parts, request, now)
        state, _ = operation.act(call)
        self.leaves(what, state)
        named = dict(zip([it for it in operation.path if it in KINDS], parts))
        run = named.get("{dag_run_id}")
        run = self.state.runs[-1].run_id if operation.name == "trigger_run" else call.input["run_id"] if operation.name == "clear_instances" else run
        wanted = {"dag_id": named.get("{dag_id}"), "event": operation.event, "owner": call.user, "policy_version": self.version(), "run_id": run, "task_id": None}
        for name, value in wanted.items():
            equal(f"{what}: its entry's {name}", entry[name], value)


# ---- The last looks ------------------------------------------------------------------------------------------


def pages(target, rows):
    """The targets of all pages of a listing of so many rows, one page more than is full."""
    return [f"{target}?offset={at}" for at in range(0, rows + 1, PAGE)]


def instances_target(run):
    return f"/api/v1/dags/{run.dag_id}/dagRuns/{run.run_id}/taskInstances"


def looks(state, entries, runs):
    """The targets that show the event logs and all of a state, of instances those of these runs."""
    tables = {"/api/v1/dags": state.dags, "/api/v1/dags/~/dagRuns": state.runs, "/api/v1/pools": state.pools, "/api/v1/variables": state.variables}
    found = pages("/api/v1/eventLogs", entries)
    for target, rows in tables.items():
        found += pages(target, len(rows))
    for it in runs:
        found += pages(instances_target(it), len(state.dags[it.dag_id].tasks))
    return found


def told_rows(found):
    """The rows that the looks tell, by the path of each listing; of all pages of one the total is the same, and the number of its rows."""
    rows, totals = {}, {}
    for request, answer in found:
        path = request.target.partition(b"?")[0].decode()
        equal(f"{path}: the status", answer.status, 200)
        body = json.loads(answer.body)
        total = body.pop("total_entries")
        equal(f"{path}: total_entries", total, totals.setdefault(path, total))
        (page,) = body.values()
        rows.setdefault(path, []).extend(page)
    for path, total in totals.items():
        equal(f"{path}: the rows of all pages", len(rows[path]), total)
    return rows


def rows_of(state, path):
    """The rows that a listing is to tell of a state."""
    if path == "/api/v1/dags":
        return [states.show_dag(it) for _, it in sorted(state.dags.items())]
    if path == "/api/v1/dags/~/dagRuns":
        return [states.show_run(it) for it in state.runs]
    if path == "/api/v1/pools":
        return [oracle_rows.show_pool(state, it) for it in sorted(state.pools)]
    if path == "/api/v1/variables":
        return [oracle_rows.show_variable(state, it) for it in sorted(state.variables)]
    run = next((it for it in state.runs if instances_target(it) == path), None)
    if run is None:
        raise Differs(f"{path}: the replay has no such run")
    return [states.show_instance(run, task, it) for task, it in states.instances_of(state, run)]


def compare(state, rows):
    """Each member of each row that the looks tell with that of the state."""
    for path, told in rows.items():
        wanted = rows_of(state, path)
        equal(f"{path}: how many rows", len(told), len(wanted))
        for place, (one, other) in enumerate(zip(told, wanted)):
            equal(f"{path}: the members of row {place}", sorted(one), sorted(other))
            for name in other:
                equal(f"{path}: {name} of row {place}", one[name], other[name])


def fault(config, now, found, count, has=LANDED):
    """Why the replay of these exchanges at this moment, of which the last so many are looks, is not what the looks show; or nothing."""
    try:
        rows = told_rows(found[len(found) - count :])
        replay = Replay(config, now, rows.pop("/api/v1/eventLogs"), has)
        for number, (request, answer) in enumerate(found, 1):
            replay.take(number, request, answer)
        equal("the entries that were done again", replay.done, len(replay.entries))
        compare(replay.state, rows)
    except Differs as why:
        return str(why)
    except (Fault, bodies.BadInput, KeyError, ValueError, Unusable) as why:
        return f"what was done can not be done again: {why!r}"
    return None
