"""Traces that were written out by hand, and what `verify` says of them: a story with each kind of step, each front of it and each of many changes of it; what is
told to sessions that race; what the scheduler does; what finds no room. Their forms, and what has none, are in worked_forms.py.

The world is that of examples/base.json, of two sessions. What a step is, and its answer, docs/TRACES.md says. A pair is a step and its answer.
"""
import json
import os

from worked_rows import MIDNIGHT, NOW, TOKENS, dag_row, entry_row, instance_row, listed, me_row, new_role, new_user, problem
from worked_rows import role_row, roles_alone, run_row, synced, user_row

TOP = os.path.dirname(os.path.dirname(os.path.realpath(__file__)))
AGREES, DIFFERS = (0, b"agrees\n", b""), (1, b"differs\n", b"")
with open(os.path.join(TOP, "examples", "base.json"), "rb") as base:
    BASE = json.load(base)


def trace(steps, members=(), sessions=2):
    """The bytes of a trace of these steps, each with its answer, where these members stand in place of the configuration's own."""
    return json.dumps({"config": {**BASE, **dict(members)}, "sessions": sessions, "steps": steps}).encode()


def target(path):
    return path if path.startswith("/own/") else "/api/v1" + path


def told(status, text, version, seq):
    """An answer to a request: a body, or the detail of a fault."""
    return {"status": status, "version": version, "seq": seq, "body": text if status < 300 else problem(status, text)}


def look(session):
    return [{"look": session}, None]


def act(session, name, asked, body, *answer, version=0, now=NOW):
    """A request on the state: the status, what is told, and the number of entries; without these it is answered nothing."""
    method, path = asked.split(" ")
    step = {"act": session, "token": TOKENS.get(name), "method": method, "target": target(path), "body": body, "now": now}
    return [step, told(answer[0], answer[1], version, answer[2]) if answer else None]


def me(session, name, path, status, text, version=0):
    return [{"me": session, "token": TOKENS.get(name), "target": target(path)}, told(status, text, version, None)]


def publish(session, at, name, asked, body, *answer):
    """A change of the policy under a version: the status, what is told, and the version that is."""
    method, path = asked.split(" ")
    step = {"publish": session, "at": at, "token": TOKENS.get(name), "method": method, "target": target(path), "body": body}
    return [step, told(*answer, None) if answer else None]


def moment(kind, text, seq, version=0, now=NOW):
    """A tick or a claim: what is told is a word."""
    return [{kind: now}, {"status": 507 if text == "HistoryFull" else 200, "version": version, "seq": seq, "body": text}]


def report(run, tried, outcome, status, text, seq, version=0, now=NOW):
    step = {"run": run, "task": "t", "try": tried, "outcome": outcome}
    return [{"report": step, "now": now}, {"status": status, "version": version, "seq": seq, "body": text}]


NO_READ, UNKNOWN, NOT_THERE = "missing permission DAGs.can_read", "authentication required", "NoSuchInstance"
RUNS, CLEAR, VERA, ROLES = "POST /dags/b/dagRuns", "POST /dags/b/clearTaskInstances", "PATCH /users/vera", "POST /roles"
ON, OFF, FULL = '{"is_paused":true}', '{"is_paused":false}', "history full"
R = '{"dag_run_id":"r","logical_date":"2024-01-01T00:00:00Z"}'
CLEARED = f'{{"task_instances":[{{"dag_id":"b","dag_run_id":"r","logical_date":"{MIDNIGHT}","task_id":"t"}}]}}'
TRIGGER = act(0, "uma", RUNS, R, 200, run_row("b", "r", MIDNIGHT), 1)
LISTED = [act(0, "pat", "GET /dags", "", 403, NO_READ, 0), act(0, "pat", "GET /dags", "")]
ALL, B_ALONE = listed("dags", 3, dag_row("a", "true"), dag_row("b"), dag_row("c")), listed("dags", 1, dag_row("b"))
TO_PUBLIC, IN_PUBLIC, BOB = roles_alone("Public"), user_row("vera", "Public"), me_row("bob", 0, "DAG:b.can_read", "OnlyB")

# Of two sessions one loses a race.
STORY = [
    look(0),
    LISTED[0],
    LISTED[1],  # who has acted holds the plane no more
    me(0, "pat", "/own/me", 200, me_row("pat", 0, "", "Public")),
    look(1),
    act(1, "adam", RUNS, R, 200, run_row("b", "r", MIDNIGHT), 1),
    moment("claim", "none", 1),
    moment("tick", "changed", 2),
    moment("tick", "same", 2),
    moment("claim", "1 t 1", 3),
    moment("claim", "none", 3),
    report(1, 2, "success", 409, "WrongTry", 3),
    report(1, 1, "success", 200, "", 4),
    report(1, 1, "failed", 409, "NotRunning", 4),
    report(2, 1, "skipped", 404, NOT_THERE, 4),
    publish(0, 0, "adam", ROLES, new_role("R", ""), 200, role_row("R", ""), 1),
    publish(1, 0, "adam", ROLES, new_role("S", ""), 409, "policy moved to version 1", 1),  # session 1 has seen version 0, under which the change is well
    publish(0, 0, "nobody", ROLES, "", 409, "policy moved to version 1", 1),  # session 0 has seen version 1, so nothing is decided under version 0
    publish(0, 1, "adam", "DELETE /roles/R", "", 204, "", 2),
    publish(0, 3, "adam", "DELETE /roles/R", ""),  # there is no such version, however large its number
    publish(0, 2**32, "adam", "DELETE /roles/R", ""),
    look(0),
    act(0, "nobody", "GET /pools", "", 401, UNKNOWN, 4, version=2),
    look(1),
    act(1, "adam", "GET /eventLogs?limit=1", "", 200, listed("event_logs", 4, entry_row(1, "trigger_dag_run", "adam", "b", "r")), 4, version=2),
    me(1, "", "/roles/R", 401, UNKNOWN, 2),
]
# The place of a pair of the story, and what its answer says in place of its own: one thing is another, or there is none where there was one.
ANSWERS = [
    (0, told(200, "", 0, 0)),
    *((1, it) for it in ({"seq": 1}, {"seq": None}, {"version": 1}, {"version": None}, {"status": 401}, None)),
    (1, {"body": problem(403, "missing permission DAGs.can_edit")}),
    # what nothing gives: a status that there is not, numbers of more than 32 bits
    *((1, it) for it in ({"status": 418, "body": ""}, {"version": 2**32}, {"seq": 2**32})),
    (3, {"seq": 0}),
    (3, {"version": 1}),
    (7, {"body": "same"}),
    (7, None),
    (8, {"seq": 3}),
    (8, {"body": "samf"}),
    (9, {"body": "1 t 2"}),
    (11, {"body": "NotRunning"}),
    (12, {"seq": 5}),
    (14, {"status": 409}),
    (15, {"version": 0}),
    (15, {"seq": 4}),
    *((18, it) for it in ({"body": " "}, {"status": 200}, {"version": 1})),
    (19, told(204, "", 2, None)),
    (24, {"version": 1}),
    (25, {"status": 403}),
]
# The same of what is asked: another session, which has not looked; another user, and nobody; another operation, body or moment, which event logs tell.
ASKED = [
    *((1, it) for it in ({"act": 1}, {"token": "foo"}, {"token": None}, {"target": "/api/v1/pools"})),
    (3, {"target": "/api/v1/users"}),
    (5, {"body": R.replace("01T", "02T")}),
    (5, {"now": "2024-01-01T00:00:01Z"}),
    (8, {"claim": NOW, "tick": None}),
    *((12, {"report": {**STORY[12][0]["report"], **it}}) for it in ({"task": "u"}, {"try": 2**32 + 1})),
    (14, {"report": {**STORY[14][0]["report"], "run": 1}}),
    (15, {"token": "foo"}),
    (16, {"at": 1}),
    (24, {"target": "/api/v1/eventLogs?limit=2"}),
    (25, {"token": "admin"}),
]


def changed(steps, place, of, members):
    """The steps where the pair at this place has other members in its step (0) or its answer (1), or no answer."""
    pair = list(steps[place])
    pair[of] = members and {**(pair[of] or {}), **members}
    return [*steps[:place], pair, *steps[place + 1 :]]


# A body that is bad, or a member of it, is told after who asks and what is lacked, before what the change is refused for, and makes no version.
BAD = [
    publish(0, 0, "nobody", VERA, "[", 401, UNKNOWN, 0),
    publish(0, 0, "uma", VERA, "[", 403, "missing permission Users.can_edit", 0),
    *(publish(0, 0, "adam", VERA, it, 400, "bad body", 0) for it in ("[", "[]")),
    publish(0, 0, "adam", VERA, '{"roles":"Public"}', 400, "bad member: roles", 0),
    publish(0, 0, "adam", VERA, '{"roles":[{"name":"Nobody"}],"token_sha256":"00"}', 400, "bad member: token_sha256", 0),
    publish(0, 0, "adam", VERA, roles_alone("Nobody"), 400, "unknown role: Nobody", 0),
    publish(0, 0, "adam", "POST /users", "{}", 400, "bad member: username", 0),
    publish(0, 0, "adam", "POST /users", '{"username":"yan","roles":[{"name":"Nobody"}]}', 400, "bad member: token_sha256", 0),
    publish(0, 0, "adam", "PATCH /roles/OnlyB", '{"actions":0}', 400, "bad member: actions", 0),
    publish(0, 0, "adam", "POST /own/dags/b/sync", '{"access_control":{"OnlyB":null}}', 400, "bad member: access_control", 0),
    me(0, "bob", "/own/me", 200, BOB),
]
DEMOTED = publish(1, 0, "adam", VERA, TO_PUBLIC, 200, IN_PUBLIC, 1)
OVERTAKEN = [
    DEMOTED,
    publish(0, 0, "adam", VERA, "[", 400, "bad body", 0),
    publish(1, 0, "adam", VERA, "[", 409, "policy moved to version 1", 1),
    publish(0, 1, "adam", VERA, '{"roles":"Public"}', 400, "bad member: roles", 1),
    publish(0, 0, "adam", VERA, "[", 409, "policy moved to version 1", 1),
]
# Of two changes under one version the first is made; a fault under its own version is told before the other one's, to who has seen no later one.
RACE = [
    publish(0, 0, "adam", VERA, TO_PUBLIC, 200, IN_PUBLIC, 1),
    publish(1, 0, "uma", VERA, TO_PUBLIC, 403, "missing permission Users.can_edit", 0),
    publish(1, 0, "adam", VERA, roles_alone("Nobody"), 400, "unknown role: Nobody", 0),
    publish(1, 0, "zoe", "PATCH /users/pat", TO_PUBLIC, 409, "policy moved to version 1", 1),
    publish(1, 0, "uma", VERA, TO_PUBLIC, 409, "policy moved to version 1", 1),
]
RACE_OF_TWO = [
    *(publish(0, n, "adam", ROLES, new_role(f"R{n}", ""), 200, role_row(f"R{n}", ""), n + 1) for n in range(5)),
    publish(1, 4, "zoe", ROLES, new_role("Z", ""), 409, "policy moved to version 5", 5),
    me(1, "zoe", "/roles/R4", 200, role_row("R4", ""), 5),
    me(1, "zoe", "/roles/Z", 404, "no such role: Z", 5),
    publish(1, 5, "zoe", ROLES, new_role("Z", ""), 200, role_row("Z", ""), 6),
]
# An act is decided under the version that was looked at; the next one, under the later.
BETWEEN = [
    look(1),
    publish(0, 0, "adam", VERA, TO_PUBLIC, 200, IN_PUBLIC, 1),
    act(1, "vera", "GET /dags", "", 200, ALL, 0),
    look(1),
    act(1, "vera", "GET /dags", "", 403, NO_READ, 0, version=1),
    look(0),
    act(0, "adam", "GET /dags", "", 200, ALL, 0, version=1),
]


def pat(session, at, name, *answer):
    return publish(session, at, name, "PATCH /users/pat", TO_PUBLIC, *answer)


# The versions that session 1 is told are 0, 0, 0, 1, 2, 3, 3: they never fall.
CLIMBING = [
    *[look(1), act(1, "vera", "GET /dags", "", 200, ALL, 0), look(1)],
    pat(0, 0, "adam", 200, user_row("pat", "Public"), 1),
    act(1, "vera", "GET /dags", "", 200, ALL, 0),
    pat(1, 0, "vera", 403, "missing permission Users.can_edit", 0),
    me(1, "bob", "/own/me", 200, BOB.replace(":0,", ":1,"), 1),
    pat(0, 1, "adam", 200, user_row("pat", "Public"), 2),
    pat(1, 0, "vera", 409, "policy moved to version 2", 2),
    pat(1, 2, "adam", 200, user_row("pat", "Public"), 3),
    *[look(1), act(1, "vera", "GET /dags", "", 200, ALL, 0, version=3)],
]
# Who has not looked is answered nothing, and so is who was overtaken by another's look, a step of its own or a tick; what does not fit ends no hold.
HOLDS = [
    act(0, "uma", RUNS, R),
    *[look(0), look(1), act(0, "uma", RUNS, R), look(0)],
    publish(0, 1, "adam", "DELETE /users/zoe", ""),
    *[TRIGGER, act(0, "uma", RUNS, R), look(0), me(0, "bob", "/own/me", 200, BOB), act(0, "uma", RUNS, R)],
    *[look(0), moment("tick", "changed", 2), act(0, "uma", RUNS, R)],
    *[look(0), publish(0, 0, "adam", VERA, "[", 400, "bad body", 0), act(0, "bob", "GET /dags", "")],
    *[look(0), publish(1, 0, "adam", VERA, "[", 400, "bad body", 0), act(0, "bob", "GET /dags", "", 200, B_ALONE, 2)],
]
# A run of b that fails; its entries, for who reads all DAGs and for who reads none of their DAGs; it is cleared, first to be told only, and goes again.
STARTED = [look(0), TRIGGER, moment("tick", "changed", 2), moment("claim", "1 t 1", 3)]
FAILS = [*STARTED, report(1, 1, "failed", 200, "", 4), moment("tick", "changed", 5)]
OF_T = '"task_id":"t"'
LOGS = [
    entry_row(1, "trigger_dag_run", "uma", "b", "r"),
    entry_row(2, "tick", "scheduler"),
    *(entry_row(n, it, "executor", "b", "r").replace('"task_id":null', OF_T) for n, it in ((3, "claim"), (4, "report"))),
    entry_row(5, "tick", "scheduler"),
]
FAILED = run_row("b", "r", MIDNIGHT, "failed", f'"{MIDNIGHT}"').replace('"start_date":null', f'"start_date":"{MIDNIGHT}"')
INSTANCE = (
    f'{{"dag_id":"b","dag_run_id":"r","end_date":"{MIDNIGHT}","pool":"default_pool","pool_slots":1,"priority_weight":1,"start_date":"{MIDNIGHT}",'
    '"state":"failed","task_id":"t","try_number":1}'
)
READ = [
    *[look(0), act(0, "uma", "GET /dags/b/dagRuns/r", "", 200, FAILED, 5)],
    *[look(0), act(0, "uma", "GET /dags/b/dagRuns/r/taskInstances/t", "", 200, INSTANCE, 5)],
    *[look(0), act(0, "adam", "GET /eventLogs", "", 200, listed("event_logs", 5, *LOGS), 5)],
    *[look(0), act(0, "adam", "GET /eventLogs?limit=2&offset=1", "", 200, listed("event_logs", 5, *LOGS[1:3]), 5)],
    publish(0, 0, "adam", ROLES, new_role("L", "Audit Logs.can_read"), 200, role_row("L", "Audit Logs.can_read"), 1),
    publish(0, 1, "adam", "POST /users", new_user("ann", ["L"], "ann"), 200, user_row("ann", "L"), 2),
    *[look(0), act(0, "ann", "GET /eventLogs", "", 200, listed("event_logs", 2, LOGS[1], LOGS[4]), 5, version=2)],
    *[look(0), act(0, "ann", "GET /eventLogs?offset=1", "", 200, listed("event_logs", 2, LOGS[4]), 5, version=2)],
    *[look(0), act(0, "ann", "GET /eventLogs?limit=0", "", 200, listed("event_logs", 2), 5, version=2)],
]
AGAIN = [
    *[look(0), act(0, "uma", CLEAR, "{}", 200, CLEARED, 5), look(0), act(0, "uma", CLEAR, '{"dry_run":false}', 200, CLEARED, 6)],
    report(1, 1, "success", 409, "NotRunning", 6),
    *[moment("tick", "changed", 7), moment("claim", "1 t 2", 8)],
    *[report(1, 1, "success", 409, "WrongTry", 8), report(1, 2, "success", 200, "", 9)],
]


def due(**members):
    """The configuration's DAGs, and one that is due each month from the end of January on."""
    return {"dags": [*BASE["dags"], {"dag_id": "m", "schedule": "@monthly", "start_date": "2024-01-31T00:00:00Z", "tasks": [{"task_id": "t"}], **members}]}


def scheduled(date, end, started):
    return run_row("m", f"scheduled__{date}", date).replace('"manual"', '"scheduled"').replace(f'end":"{date}"', f'end":"{end}"').replace(
        '"start_date":null,"state":"queued"', f'"start_date":"{started}","state":"running"')  # fmt: skip


def of_m(next_run):
    return dag_row("m").replace('"next_dagrun":null,"schedule_interval":null', f'"next_dagrun":"{next_run}","schedule_interval":"@monthly"')


FEBRUARY, MARCH, APRIL, MAY, LATE = (f"2024-{it}T00:00:00+00:00" for it in ("02-01", "03-01", "04-01", "05-01", "05-15"))
QUEUED = instance_row('"queued"', dag="m", run=f"scheduled__{FEBRUARY}")
A_MONTH = [
    *[moment("tick", "same", 0, now="2024-02-29T23:59:59.999999Z"), moment("tick", "changed", 1, now="2024-03-01T00:00:00Z"), look(0)],
    *[act(0, "uma", "GET /dags/m/dagRuns", "", 200, listed("dag_runs", 1, scheduled(FEBRUARY, MARCH, MARCH)), 1), look(0)],
    *[act(0, "uma", f"GET /dags/m/dagRuns/scheduled__{FEBRUARY}/taskInstances/t", "", 200, QUEUED, 1), look(0)],
    *[act(0, "uma", "GET /dags/m", "", 200, of_m(MARCH), 1), moment("tick", "same", 1, now="2024-03-01T00:00:00Z")],
]
MISSED = [
    *[moment("tick", "changed", 1, now="2024-05-15T00:00:00Z"), look(0)],
    *[act(0, "uma", "GET /dags/m/dagRuns", "", 200, listed("dag_runs", 1, scheduled(APRIL, MAY, LATE)), 1), look(0)],
    act(0, "uma", "GET /dags/m", "", 200, of_m(MAY), 1),
]
# A tick is entered under the version that was looked at last.
UNDER_ONE = [
    *[publish(0, 0, "adam", VERA, TO_PUBLIC, 200, IN_PUBLIC, 1), look(1), moment("tick", "changed", 1, version=1, now="2024-03-01T00:00:00Z"), look(0)],
    act(0, "adam", "GET /eventLogs", "", 200, listed("event_logs", 1, entry_row(1, "tick", "scheduler", version=1, when=MARCH)), 1, version=1),
]
LATER = "2024-01-01T00:05:00Z"


def after(end, state, tried):
    return INSTANCE.replace(MIDNIGHT, end).replace("failed", state).replace('_number":1', f'_number":{tried}')


# A try that failed is tried again after its delay.
RETRIED = [
    *[*STARTED, report(1, 1, "failed", 200, "", 4), look(0)],
    *[act(0, "uma", "GET /dags/b/dagRuns/r/taskInstances/t", "", 200, after(MIDNIGHT, "up_for_retry", 1), 4)],
    *[moment("tick", "same", 4, now="2024-01-01T00:04:59.999999Z"), moment("tick", "changed", 5, now=LATER), moment("claim", "1 t 2", 6, now=LATER)],
    *[report(1, 2, "failed", 200, "", 7, now=LATER), look(0)],
    act(0, "uma", "GET /dags/b/dagRuns/r/taskInstances/t", "", 200, after("2024-01-01T00:05:00+00:00", "failed", 2), 7),
]
ONE_RETRY = {"dags": [{"dag_id": "b", "tasks": [{"task_id": "t", "retries": 1, "retry_delay": 300}]}]}
# The fourth change finds no room, nor does a tick at which a run is due; what stands so already is told.
THREE = [
    *[look(0), act(0, "uma", "PATCH /dags/b", ON, 200, dag_row("b", "true"), 1), look(0), act(0, "uma", "PATCH /dags/b", OFF, 200, dag_row("b"), 2)],
    *[look(0), act(0, "uma", "PATCH /dags/b", ON, 200, dag_row("b", "true"), 3), look(0), act(0, "uma", "PATCH /dags/b", OFF, 507, FULL, 3)],
    *[moment("tick", "HistoryFull", 3, now="2024-03-01T00:00:00Z"), look(0), act(0, "uma", "PATCH /dags/b", ON, 200, dag_row("b", "true"), 3)],
]
BAD_AND_FULL = [
    *[DEMOTED, publish(0, 1, "adam", VERA, "[", 400, "bad body", 1), publish(0, 1, "adam", VERA, '{"roles":"Public"}', 400, "bad member: roles", 1)],
    publish(0, 1, "adam", VERA, TO_PUBLIC, 507, "versions full", 1),
]
SYNCS = [
    *[publish(0, 0, "adam", "POST /own/dags/b/sync", "{}", 200, synced(1), 1), look(0), act(0, "bob", "GET /dags", "", 200, B_ALONE, 0, version=1)],
    *[publish(0, 1, "adam", "POST /own/dags/b/sync", '{"access_control":{}}', 200, synced(2), 2), look(0), act(0, "bob", "GET /dags", "", 403, NO_READ, 0, version=2)],
    publish(0, 2, "adam", "POST /own/dags/b/sync", '{"access_control":{"Nobody":["can_read"]}}', 400, "unknown role: Nobody", 2),
    publish(0, 2, "adam", "POST /own/dags/b/sync", '{"access_control":{"OnlyB":["can_create"]}}', 400, "bad action: can_create", 2),
]

# The title, the steps, and members of the configuration.
AGREEING = [
    *((f"the first {n} steps of a story", STORY[:n], {}) for n in range(len(STORY) + 1)),
    ("bad bodies of changes", BAD, {}),
    ("bad bodies of overtaken changes", OVERTAKEN, {}),
    ("bad bodies, where versions are full", BAD_AND_FULL, {"version_limit": 1}),
    ("a lost race", RACE, {}),
    ("a race of two roles", RACE_OF_TWO, {}),
    ("a publish between a look and its act", BETWEEN, {}),
    ("the versions that a session is told", CLIMBING, {}),
    ("who holds the plane", HOLDS, {}),
    ("syncs", SYNCS, {}),
    ("a run that fails, and its entries", FAILS + READ, {}),
    ("a run that fails, is cleared and tried again", FAILS + AGAIN, {}),
    ("a try that failed, after its delay", RETRIED, ONE_RETRY),
    ("a month at its end", A_MONTH, due(catchup=True)),
    ("of months that were missed the last", MISSED, due(catchup=False)),
    ("a tick under the version of a look", UNDER_ONE, due()),
    ("an operation finds no room", [look(0), TRIGGER, look(0), act(0, "adam", "PATCH /dags/b", ON, 507, FULL, 1)], {"history_limit": 1}),
    ("a tick finds no room", [look(0), TRIGGER, moment("tick", "HistoryFull", 1)], {"history_limit": 1}),
    ("a claim finds no room", [look(0), TRIGGER, moment("tick", "changed", 2), moment("claim", "HistoryFull", 2)], {"history_limit": 2}),
    ("a report finds no room", [*STARTED, report(1, 2, "success", 409, "WrongTry", 3), report(1, 1, "success", 507, "HistoryFull", 3)], {"history_limit": 3}),
    ("a history of three", THREE, {"history_limit": 3, **due()}),
    ("a third version of two", [*RACE_OF_TWO[:2], publish(0, 2, "adam", ROLES, new_role("R2", ""), 507, "versions full", 2)], {"version_limit": 2}),
]  # fmt: skip
DIFFERING = [
    ("a story without its first look", STORY[1:]),
    *((f"the answer of step {place} with {members}", changed(STORY, place, 1, members)) for place, members in ANSWERS),
    *((f"what step {place} asks with {members}", changed(STORY, place, 0, members)) for place, members in ASKED),
    *((f"bad bodies, the answer of step {place} with {members}", changed(BAD, place, 1, members)) for place, members in (
        (2, {"version": 1}), (2, {"status": 409}), (2, {"body": problem(400, "bad member: roles")}), (2, {"seq": 0}), (4, {"body": problem(400, "bad body")}),
        (5, {"body": problem(400, "unknown role: Nobody")}), (10, None))),
]  # fmt: skip
TRACES = [(title, trace(steps, members), AGREES) for title, steps, members in AGREEING] + [(title, trace(steps), DIFFERS) for title, steps in DIFFERING]
