"""Checks the answers that a server gave to many clients at once: whether they are those of one plane and one policy, by the reference model.

A history is a list of sessions, one for each connection. A session is its exchanges in order: each a request and its whole answer (exchanges.Exchange). Beside
it stand all rows of the event logs, read at the end (exchanges.rows_of_pages). Nothing else says what came before what. A change of the policy has its place by
the version that its answer names, and a change of the state by its number; ticks, claims and reports have theirs by their entries.

`fault` returns the first thing that is wrong, with its request, or None where all of this holds:

1. Within one session neither versions nor numbers fall. If exchanges have times, no number is below one whose answer had been received before the request
   was sent: no contract says so of two connections, but the lock of the plane does.
2. Each version from 1 on was made by exactly one change, and each entry of a user by exactly one request, without gaps. An entry has the owner, version, event
   and names that it has in the model. The timestamp of a change is its entry's.
3. Applied in this order to the model, each change has the answer that it had, to the byte. Each entry of the scheduler or the executor is of a tick that
   changes something, of the claim whose turn it is, or of the report that the task's script has for the claim before it.
4. Every other answer is the model's, to the byte, under the version and at the number that it names. A change with the answer that the policy moved would have
   been done under some version before the one that was found, and not before one that its session had seen.
5. Answers on the state and entries name no version below one of an earlier number. An entry of the scheduler or the executor names the last version before it.

Which request made an entry can be open: two clients pause a DAG, and both answers name one number. Each request that fits is tried, and one has to fit all
answers. Each request needs its answer: one that was lost, or that reports out of memory or a missing policy, is an error here.
"""
import collections
import copy
import json
import re
from dataclasses import dataclass

import with_model  # noqa: F401
import oracle_sched
from exchanges import Asked, Differs, First, check_order, check_times, entries_in
from oracle_config import read_config
from oracle_names import LAST
from oracle_policy import Fault
from oracle_table import LANDED
from oracle_verdict import Plane, told

MOVED = re.compile(r"policy moved to version [0-9]+")


@dataclass
class Claimed:
    """A claim that was not reported yet: run number, task and try, and the names of its entry."""

    claim: tuple
    names: tuple


@dataclass
class Way:
    """One way in which everything so far can have come about: the state, the claim that was not reported yet, and the request that made the last entry."""

    state: object
    claimed: object = None
    maker: object = None


class History:
    def __init__(self, config, sessions, rows, has=LANDED):
        has = frozenset(has)
        self.opening, self.entries = Plane(read_config(config, has), 0, has), entries_in(rows)
        self.versions, self.floor, self.scripts = list(self.opening.versions), 0, scripts_in(config)
        self.sessions = [[Asked(place, turn, it, has) for turn, it in enumerate(session, 1)] for place, session in enumerate(sessions)]

    def check(self):
        for it in self.sessions:
            check_order(it)
        asked = [it for session in self.sessions for it in session]
        check_times(asked)
        on_state = [it for it in asked if it.operation and not it.operation.on_policy]
        self.check_policy([it for it in asked if it.operation is None or it.operation.on_policy])
        self.check_state(on_state)

    def plane(self, version, state=None, number=0, now=LAST):
        """The plane under a version, in a state, with so many entries. What is added to its versions and entries is added to it alone."""
        plane = copy.copy(self.opening)
        plane.versions, plane.entries, plane.now = First(self.versions, version + 1), First(self.entries, number), now
        plane.state = self.opening.state if state is None else state
        return plane

    # ---- The policy: the changes by the versions that they made, then all else under the versions that it names ----

    def check_policy(self, asked):
        made = {}
        for it in filter(Asked.changes, asked):
            if it.version is None:
                it.expect(it.written(self.plane(0)))
            if it.version in made:
                raise Differs(f"version {it.version} was made twice: {made[it.version]}; {it}")
            made[it.version] = it
        for version in range(1, len(made) + 1):
            if version not in made:
                raise Differs(f"nobody made version {version}, and this made version {max(made)}: {made[max(made)]}")
            plane = self.plane(version - 1)
            made[version].expect(made[version].written(plane))
            self.versions.append(plane.versions[-1])
        known, kept = {}, None
        for it in sorted((it for it in asked if not it.changes()), key=lambda it: it.version or 0):
            self.check_version(it)
            if MOVED.fullmatch(it.detail):
                self.check_moved(it)
                continue
            if it.version != kept:  # (the model's texts are kept under one version alone: there may be very many)
                known, kept = {}, it.version
            key = it.exchange.request, it.version, it.is_last()
            known[key] = known.get(key) or it.written(self.plane(it.version or 0))
            it.expect(known[key])

    def check_version(self, it):
        if it.version is not None and it.version >= len(self.versions):
            raise Differs(f"{it}: names version {it.version}, which nobody made")

    def check_moved(self, it):
        """The answer names the version that was found; the change would have been done under one before that."""
        status, body, _ = told(409, f"policy moved to version {it.version}")
        it.expect(it.text_of((status, body, [f"X-Policy-Version: {it.version}"])))
        if not any(self.is_done(it, version) for version in reversed(range(it.seen, it.version))):
            raise Differs(f"{it}: the answer is that the policy moved, but under no version from {it.seen} to {it.version - 1} is the change done")

    def is_done(self, it, version):
        plane = self.plane(version)
        it.written(plane)
        return plane.version() > version

    # ---- The state: the entries by their numbers, and after each of them all answers that name its number ----

    def check_state(self, asked):
        at, ways = collections.defaultdict(list), [Way(self.opening.state)]
        for it in asked:
            self.check_version(it)
            if it.version is None or it.seq is None:
                raise Differs(f"{it}: names no version, or no number: {it.exchange.answer!r}")
            if it.seq > len(self.entries):
                raise Differs(f"{it}: names number {it.seq}, and the event logs end with {len(self.entries)}")
            at[it.seq].append(it)
        for number in range(len(self.entries) + 1):
            ways = self.ways_to(number, ways, at[number])
            self.floor = max([self.floor, *(it.version for it in at[number])])

    def ways_to(self, number, ways, asked):
        """The ways in which the entry of this number was made and all answers at it are right."""
        found, first = [], None
        for way in ways:
            try:
                tried = self.next_ways(number, way, asked) if number else ways
            except Differs as why:
                first, tried = first or why, []
            for after in tried:
                try:
                    self.check_answers(number, after, asked)
                except Differs as why:
                    first = first or why
                else:
                    found.append(after)
        if not found:
            raise first
        return [it for place, it in enumerate(found) if all((it.state, it.claimed) != (other.state, other.claimed) for other in found[:place])]

    def check_answers(self, number, way, asked):
        """Each answer at a number, except that of the request which made its entry. A request that comes again is decided once under one version."""
        known = {}
        least = max(self.floor, way.maker.version if way.maker else 0)
        for it in (it for it in asked if it is not way.maker):
            if it.version < least:
                raise Differs(f"{it}: names version {it.version} at number {number}, where version {least} had been named before")
            key = it.exchange.request, it.version, it.detail, it.is_last()
            if key not in known:
                plane = self.plane(it.version, way.state, number, it.now())
                known[key] = it.written(plane)
                if plane.entries.added:
                    maker = way.maker or (self.entries[number - 1] if number else "nothing")
                    raise Differs(f"{it}: changes the state, and names number {number}, which is made by {maker}")
            it.expect(known[key])

    def next_ways(self, number, way, asked):
        """The ways to the entry of this number from one to the entry before it."""
        entry = self.entries[number - 1]
        if entry["event"] in ("tick", "claim", "report"):
            return [self.by_executor(number, entry, way)]
        found, first = [], None
        for it in (it for it in asked if it.operation.event == entry["event"] and it.changes()):
            plane = self.plane(it.version, way.state, number - 1, entry["when"])
            try:
                it.expect(it.written(plane))
                self.check_entry(it, plane.entries.added, entry)
                found.append(Way(plane.state, way.claimed, it))
            except Differs as why:
                first = first or why
        if not found:
            others = "; ".join(f"{it}, status {it.status}" for it in asked if it.request.method != b"GET")
            raise first or Differs(f"entry {number} was made by no request that was answered so: {entry}; at this number came: {others or 'none'}")
        return found

    def check_entry(self, what, made, entry):
        if made != [entry] or entry["policy_version"] < self.floor:
            raise Differs(f"{what}\n  its entry  {entry}\n  by the model {made}, under version {self.floor} or a later one")

    # ---- Ticks, claims and reports ----

    def by_executor(self, number, entry, way):
        """Applies what the scheduler or the executor did."""
        event, what = entry["event"], f"entry {number}, {entry['event']}"
        try:
            after, names = {"tick": self.tick, "claim": self.claim, "report": self.report}[event](what, way, entry["when"])
        except Fault as why:
            raise Differs(f"{what}: the model refuses it: {why.args[0]}") from why
        if after.state == way.state:
            raise Differs(f"{what}: by the model it changes nothing")
        dag_id, run_id, task_id = names
        made = {"dag_id": dag_id, "event": event, "event_log_id": number, "owner": "scheduler" if event == "tick" else "executor"}
        made.update({"policy_version": self.floor, "run_id": run_id, "task_id": task_id, "when": entry["when"]})
        self.check_entry(what, [made], entry)
        return after

    def tick(self, what, way, now):
        self.check_reported(what, way, now)
        return Way(oracle_sched.tick(way.state, now)), (None, None, None)

    def claim(self, what, way, now):
        self.check_reported(what, way, now)
        state, claim = oracle_sched.claim(way.state, now)
        if claim is None:
            raise Differs(f"{what}: by the model there is nothing to claim")
        run = next(it for it in state.runs if it.number == claim[0])
        names = run.dag_id, run.run_id, claim[1]
        return Way(state, Claimed(claim, names)), names

    def report(self, what, way, now):
        """The outcome is that of the task's script for this try; past its end, success."""
        if way.claimed is None:
            raise Differs(f"{what}: there is no claim before it that was not reported yet")
        (_, task_id, tries), names = way.claimed.claim, way.claimed.names
        script = self.scripts[names[0], task_id]
        outcome = script[tries - 1] if tries <= len(script) else "success"
        return Way(oracle_sched.report(way.state, way.claimed.claim, outcome, now)), names

    def check_reported(self, what, way, now):
        """The executor reports each claim before the next claim or tick: if there is no report in between, the report was refused, and still is."""
        if way.claimed is None:
            return
        try:
            oracle_sched.report(way.state, way.claimed.claim, "success", now)
        except Fault:
            return
        raise Differs(f"{what}: the claim before it was not reported: {way.claimed.names}")


def scripts_in(config):
    """The outcomes of each task of each DAG, by try."""
    dags = json.loads(config).get("dags") or []
    return {(dag["dag_id"], task["task_id"]): task.get("script") or [] for dag in dags for task in dag["tasks"]}


def fault(config, sessions, rows, has=LANDED):
    """The first thing that is wrong with a history over this configuration, or None. The rows are those of the event logs."""
    try:
        History(config, sessions, rows, has).check()
    except Differs as why:
        return str(why)
    return None
