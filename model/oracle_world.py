"""The world of sessions, the scheduler and executors, put plainly, and whether a trace is a run of it: part of oracle.py.

A step of a session is decided as oracle_verdict.py decides a request, on the plane as it was under the version that counts for the step; a tick, a claim
and a report are oracle_sched.py's.
"""
import copy

import oracle_sched
from oracle_config import MOST_BYTES, Refused, need, read_value
from oracle_json import compact, read_json
from oracle_names import instant_of, is_task_id
from oracle_policy import Fault
from oracle_table import LANDED, route
from oracle_verdict import Plane, decide, told

MOST_SESSIONS, MOST_NUMBER = 1024, 2**64 - 1
KINDS = ("look", "act", "me", "publish", "tick", "claim", "report")
REPORT_FAULTS = {"NoSuchInstance": 404, "NotRunning": 409, "WrongTry": 409}


def answer_of(status, version, seq, body):
    return {"status": status, "version": version, "seq": seq, "body": body}


class World:
    """The plane; the version under which acts are decided; which session holds the plane; the latest version that each session has seen."""

    def __init__(self, opening, sessions, has=LANDED):
        self.plane, self.has = Plane(opening, 0, has), has
        self.version, self.holder, self.seen = 0, None, [0] * sessions

    def under(self, version, now=0):
        """The plane as it is where this version is the latest; the entries are its own."""
        plane = copy.copy(self.plane)
        plane.versions, plane.now = self.plane.versions[: version + 1], now
        return plane

    def asked(self, plane, method, target, token, body):
        """What is answered where the plane stands so."""
        status, shown, fields = decide(plane, method, target, token, body)
        numbers = dict(it.split(": ") for it in fields if it.startswith("X-"))
        version, seq = (int(numbers[it]) if it in numbers else None for it in ("X-Policy-Version", "X-Plane-Seq"))
        return answer_of(int(status.split(" ")[0]), version, seq, "" if shown is None else compact(shown).decode())

    def told(self, session, version, answer):
        """A session is told of a version, and no longer holds the plane."""
        self.seen[session] = max(self.seen[session], version)
        self.holder = None if self.holder == session else self.holder
        return answer

    # ---- Steps of sessions ----

    def look(self, session):
        self.version = self.plane.version()
        self.seen[session] = max(self.seen[session], self.version)
        self.holder = session

    def act(self, session, token, method, target, body, now):
        if self.holder != session:
            return None
        self.holder, plane = None, self.under(self.version, now)
        answer = self.asked(plane, method, target, token, body)
        self.plane.state = plane.state
        return answer

    def me(self, session, token, target):
        last = self.plane.version()
        return self.told(session, last, self.asked(self.under(last), b"GET", target, token, b""))

    def moved(self, session):
        last = self.plane.version()
        status, shown, _ = told(409, f"policy moved to version {last}")
        return self.told(session, last, answer_of(int(status[:3]), last, None, compact(shown).decode()))

    def publish(self, session, at, token, method, target, body):
        last = self.plane.version()
        if at > last:
            return None
        if at < self.seen[session]:
            return self.moved(session)
        plane = self.under(at)
        answer = self.asked(plane, method, target, token, body)
        if plane.version() == at:
            return self.told(session, at, answer)
        if at < last:
            return self.moved(session)
        self.plane.versions = plane.versions
        return self.told(session, self.plane.version(), answer)

    # ---- Steps of the scheduler and of executors ----

    def plane_told(self, status, body):
        return answer_of(status, self.version, len(self.plane.entries), body)

    def entered(self, state, event, owner, now, *names):
        """One entry more, if there is room for it; else nothing is done."""
        if len(self.plane.entries) >= self.plane.most_entries:
            return False
        self.under(self.version).add_entry(event, owner, now, *names)
        self.plane.state = state
        return True

    def tick(self, now):
        self.holder, state = None, oracle_sched.tick(self.plane.state, now)
        if state == self.plane.state:
            return self.plane_told(200, "same")
        return self.plane_told(200, "changed") if self.entered(state, "tick", "scheduler", now) else self.plane_told(507, "HistoryFull")

    def names_of(self, number, task_id):
        run = next((it for it in self.plane.state.runs if it.number == number), None)
        return run and (run.dag_id, run.run_id, task_id)

    def claim(self, now):
        self.holder, (state, claimed) = None, oracle_sched.claim(self.plane.state, now)
        if claimed is None:
            return self.plane_told(200, "none")
        number, task_id, tries = claimed
        done = self.entered(state, "claim", "executor", now, *self.names_of(number, task_id))
        return self.plane_told(200, f"{number} {task_id} {tries}") if done else self.plane_told(507, "HistoryFull")

    def report(self, number, task_id, tries, outcome, now):
        self.holder = None
        try:
            state = oracle_sched.report(self.plane.state, (number, task_id, tries), outcome, now)
        except Fault as why:
            return self.plane_told(REPORT_FAULTS[why.args[0]], why.args[0])
        done = self.entered(state, "report", "executor", now, *self.names_of(number, task_id))
        return self.plane_told(200, "") if done else self.plane_told(507, "HistoryFull")


# ---- Traces --------------------------------------------------------------------------------------------------


def member(row, name, is_good, required=True):
    """The member of a row; null counts as absent."""
    value = row.get(name) if type(row) is dict else None
    if value is None and not required:
        return None
    need(value is not None and is_good(value), "trace")
    return value


def is_text(value):
    return type(value) is str


def is_number(value):
    return type(value) is int and 0 <= value <= MOST_NUMBER


def is_moment(value):
    return type(value) is str and instant_of(value) is not None


def moment(row, name):
    return instant_of(member(row, name, is_moment))


def asked_in(row, has, wanted):
    """Method, target and body of a step, which name an operation of its kind."""
    method, target, body = (member(row, name, is_text).encode() for name in ("method", "target", "body"))
    operation, _ = route(target.partition(b"?")[0], method, has)
    need(operation is not None and wanted(operation), "trace")
    return method, target, body


def token_in(row):
    token = member(row, "token", is_text, required=False)
    return None if token is None else token.encode()


def step_in(row, sessions, has):
    """The step as a call on a world."""
    kinds = [it for it in KINDS if type(row) is dict and row.get(it) is not None]
    need(len(kinds) == 1, "trace")
    kind = kinds[0]
    if kind in ("tick", "claim"):
        now = moment(row, kind)
        return lambda world: getattr(world, kind)(now)
    if kind == "report":
        told_of = member(row, "report", lambda it: True)
        number, task = member(told_of, "run", is_number), member(told_of, "task", lambda it: is_text(it) and is_task_id(it))
        tries, outcome = member(told_of, "try", is_number), member(told_of, "outcome", lambda it: it in ("success", "failed", "skipped"))
        now = moment(row, "now")
        return lambda world: world.report(number, task, tries, outcome, now)
    session = member(row, kind, lambda it: is_number(it) and it < sessions)
    if kind == "look":
        return lambda world: world.look(session)
    if kind == "me":
        token, target = token_in(row), member(row, "target", is_text).encode()
        operation, _ = route(target.partition(b"?")[0], b"GET", has)
        need(operation is not None and operation.on_policy, "trace")
        return lambda world: world.me(session, token, target)
    if kind == "act":
        token, asked, now = token_in(row), asked_in(row, has, lambda it: not it.on_policy), moment(row, "now")
        return lambda world: world.act(session, token, *asked, now)
    at, token = member(row, "at", is_number), token_in(row)
    asked = asked_in(row, has, lambda it: it.on_policy and it.method != "GET")
    return lambda world: world.publish(session, at, token, *asked)


def answer_in(value):
    """The answer that is recorded: null, or its members."""
    if value is None:
        return None
    status = member(value, "status", is_number)
    version, seq = (member(value, name, is_number, required=False) for name in ("version", "seq"))
    return answer_of(status, version, seq, member(value, "body", is_text))


def pair_in(value, sessions, has):
    need(type(value) is list and len(value) == 2, "trace")
    return step_in(value[0], sessions, has), answer_in(value[1])


def verify(data, has=LANDED):
    """Whether the answers of a trace are those of the run of its steps; Refused, with the word that says why, where it is no trace."""
    need(len(data) <= MOST_BYTES, "unreadable")
    try:
        trace = read_json(data)
    except ValueError as why:
        raise Refused("syntax") from why
    config = member(trace, "config", lambda it: True)
    opening = read_value(config, has)
    sessions = member(trace, "sessions", lambda it: is_number(it) and it <= MOST_SESSIONS)
    pairs = [pair_in(it, sessions, has) for it in member(trace, "steps", lambda it: type(it) is list)]
    world = World(opening, sessions, has)
    return all(step(world) == answer for step, answer in pairs)
