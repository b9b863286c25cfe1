"""Connections over examples/base.json whose answers were worked out by hand: each member of each body of an operation on the state, in each way in which
it is wrong. Their form is that of worked_cases.py.

A wrong member stands beside good ones, so that it is the one that is named. Then it stands beside others that are wrong too, and the first in the order
of the operation is named. Last comes a good body: the number of entries of its answer says that none of the others changed anything.
"""
from worked_rows import ENDED, MIDNIGHT, NOW, backfill_row, dag_row, listed, pool_row, run_row, variable_row

UNREAD = ["", "{", "[]", "null", '"x"', "1", "{'a':1}", '{"a":1}}', '{"a":1,}', '{"a":"\\ud800"}']
NO_BOOLEAN = ["0", "1", '"true"', "[]", "{}"]
NO_TEXT = ["1", "true", '["x"]', '{"x":"x"}']
NO_INSTANT = [*NO_TEXT, '""', '"now"', '"2024-01-01"', '"2024-01-01T00:00:00"', '"2024-13-01T00:00:00Z"', '"2023-02-29T00:00:00Z"']
NO_INSTANT += ['"1969-12-31T23:59:59Z"', '"9999-01-01T00:00:00Z"', '" 2024-01-01T00:00:00Z"', '"2024-01-01T24:00:00Z"']
NO_RUN_ID = [*NO_TEXT, '""', '"~"', '"a b"', '"a/b"', '"\u00e9"', f'"{"r" * 251}"']
NO_TASK_IDS = ["1", "true", '"t"', '{"t":"t"}', "[1]", "[null]", '[["t"]]', '[""]', '["t","a b"]', '["t:1"]', f'["{"t" * 251}"]']
NO_CONF = ["1", "true", '"{}"', "[]", '{"x":1}']
NO_STATE = [*NO_TEXT, '""', '"running"', '"none"', '"Success"', '"failed "']
NO_NAME = [*NO_TEXT, '""', '"\u00e9"', '"\\u007f"', '"a\\nb"', f'"{"n" * 251}"']
NO_SLOTS = ['"1"', "true", "[1]", '{"x":1}', "-1", "1000001", "1.0", "1e2", "-0", "18446744073709551616"]

R2, RUNS, CLEAR = "/dags/b/dagRuns/r2", "POST /dags/b/dagRuns", "POST /dags/b/clearTaskInstances"
SECOND = "2024-01-02T00:00:00+00:00"
AT_R2 = ("uma", RUNS, f'{{"dag_run_id":"r2","logical_date":"{SECOND}"}}', 200, run_row("b", "r2", SECOND), 1)
CHOSEN = '{"task_instances":[{"dag_id":"b","dag_run_id":"r2","logical_date":"2024-01-02T00:00:00+00:00","task_id":"t"}]}'
NONE_CHOSEN = '{"task_instances":[]}'

GOOD_ID, GOOD_DATE = '"dag_run_id":"r3"', f'"logical_date":"{SECOND}"'
OF_CLEAR = [("dry_run", "false"), ("only_failed", "false"), ("task_ids", '["t"]'), ("dag_run_id", '"r2"')]
OF_CLEAR += [("start_date", f'"{SECOND}"'), ("end_date", f'"{SECOND}"')]
GOOD_CLEAR = [f'"{name}":{good}' for name, good in OF_CLEAR]
ALL_NULL = "{" + ",".join(f'"{name}":null' for name, _ in OF_CLEAR) + "}"

BACKFILL, FROM_SECOND = "POST /own/dags/b/backfills", f'"start_date":"{SECOND}"'
DAILY = [{"dag_id": "b", "schedule": "@daily", "start_date": NOW, "tasks": [{"task_id": "t"}]}]
BEFORE_SECOND = ['"2024-01-01T23:59:59.999999Z"', '"2024-01-02T00:59:59+01:00"', '"1970-01-01T00:00:00Z"']
SAME_MOMENT = f'{{"end_date":"2024-01-02T01:00:00.0000009+01:00",{FROM_SECOND},"max_active_runs":0}}'


def unread(user, asked, seq):
    """The step of each body that is no JSON object."""
    return [(user, asked, it, 400, "bad body", seq) for it in UNREAD]


def wrong(user, asked, seq, name, values, *good):
    """The step of each wrong value of a member; good members stand before it."""
    bodies = ["{" + ",".join([*good, f'"{name}":{it}']) + "}" for it in values]
    return [(user, asked, it, 400, f"bad member: {name}", seq) for it in bodies]


def needed(user, asked, seq, name, values, *good):
    """The same of a member that has to be there: neither absent nor null."""
    body = "{" + ",".join(good) + "}"
    return [(user, asked, body, 400, f"bad member: {name}", seq), *wrong(user, asked, seq, name, ["null", *values], *good)]


def each_before_the_next(user, asked, seq, *members):
    """The steps of bodies in which a member is wrong, those before it in the order of the operation are good, and those after it wrong too; they stand the
    other way round. A member is its name, a good value and a wrong one."""
    for at, (name, _, _) in enumerate(members):
        texts = [f'"{it}":{good if place < at else bad}' for place, (it, good, bad) in enumerate(members)]
        yield (user, asked, "{" + ",".join(texts[::-1]) + "}", 400, f"bad member: {name}", seq)


BODIES = [
    ("the body that pauses a DAG", "baseline", NOW, {}, [
        *unread("uma", "PATCH /dags/b", 0),
        *needed("uma", "PATCH /dags/b", 0, "is_paused", NO_BOOLEAN),
        ("uma", "PATCH /dags/b", '{"is_paused":true}', 200, dag_row("b", "true"), 1),
    ]),
    ("the body that triggers a run", "baseline", NOW, {}, [
        *unread("uma", RUNS, 0),
        *wrong("uma", RUNS, 0, "dag_run_id", NO_RUN_ID),
        *wrong("uma", RUNS, 0, "logical_date", NO_INSTANT, GOOD_ID),
        *wrong("uma", RUNS, 0, "logical_date", ['"now"'], GOOD_ID, f'"execution_date":"{SECOND}"'),
        *wrong("uma", RUNS, 0, "execution_date", NO_INSTANT, GOOD_ID),
        *wrong("uma", RUNS, 0, "execution_date", ['"now"'], '"logical_date":null'),
        *wrong("uma", RUNS, 0, "conf", NO_CONF, GOOD_ID, GOOD_DATE),
        *each_before_the_next("uma", RUNS, 0, ("dag_run_id", '"r3"', "0"), ("logical_date", f'"{SECOND}"', "0"), ("conf", "{}", "0")),
        *each_before_the_next("uma", RUNS, 0, ("dag_run_id", '"r3"', "0"), ("execution_date", f'"{SECOND}"', "0"), ("conf", "{}", "0")),
        ("uma", RUNS, f'{{{GOOD_ID},{GOOD_DATE},"execution_date":"now","conf":{{}}}}', 200, run_row("b", "r3", SECOND), 1),
        ("uma", RUNS, '{"dag_run_id":null,"logical_date":null,"execution_date":null,"conf":null}', 200, run_row("b", f"manual__{MIDNIGHT}", MIDNIGHT), 2),
    ]),
    ("the body that backfills a DAG", "baseline,backfill", NOW, {"dags": DAILY}, [
        *unread("uma", BACKFILL, 0),
        *needed("uma", BACKFILL, 0, "start_date", NO_INSTANT, f'"end_date":"{SECOND}"'),
        *needed("uma", BACKFILL, 0, "end_date", NO_INSTANT, FROM_SECOND),
        *wrong("uma", BACKFILL, 0, "end_date", BEFORE_SECOND, FROM_SECOND),
        *each_before_the_next("uma", BACKFILL, 0, ("start_date", f'"{SECOND}"', "0"), ("end_date", f'"{SECOND}"', "0")),
        ("uma", BACKFILL, SAME_MOMENT, 200, listed("dag_runs", 1, backfill_row("b", SECOND, "2024-01-03T00:00:00+00:00")), 1),
    ]),
    ("the body that marks a run", "baseline", NOW, {}, [
        AT_R2,
        *unread("uma", f"PATCH {R2}", 1),
        *needed("uma", f"PATCH {R2}", 1, "state", NO_STATE),
        ("uma", f"PATCH {R2}", '{"state":"failed"}', 200, run_row("b", "r2", SECOND, "failed", ENDED), 2),
    ]),
    ("the body that clears a run", "baseline", NOW, {}, [
        AT_R2,
        ("uma", f"PATCH {R2}", '{"state":"failed"}', 200, run_row("b", "r2", SECOND, "failed", ENDED), 2),
        *unread("uma", f"POST {R2}/clear", 2),
        *wrong("uma", f"POST {R2}/clear", 2, "dry_run", NO_BOOLEAN),
        ("uma", f"POST {R2}/clear", '{"dry_run":null}', 200, CHOSEN, 2),
        ("uma", f"POST {R2}/clear", '{"dry_run":false}', 200, CHOSEN, 3),
    ]),
    ("the body that clears instances of a DAG", "baseline", NOW, {}, [
        AT_R2,
        ("uma", f"PATCH {R2}", '{"state":"failed"}', 200, run_row("b", "r2", SECOND, "failed", ENDED), 2),
        *unread("uma", CLEAR, 2),
        *wrong("uma", CLEAR, 2, "dry_run", NO_BOOLEAN),
        *wrong("uma", CLEAR, 2, "only_failed", NO_BOOLEAN, *GOOD_CLEAR[:1]),
        *wrong("uma", CLEAR, 2, "task_ids", NO_TASK_IDS, *GOOD_CLEAR[:2]),
        *wrong("uma", CLEAR, 2, "dag_run_id", NO_RUN_ID, *GOOD_CLEAR[:3]),
        *wrong("uma", CLEAR, 2, "start_date", NO_INSTANT, *GOOD_CLEAR[:4]),
        *wrong("uma", CLEAR, 2, "end_date", NO_INSTANT, *GOOD_CLEAR[:5]),
        *each_before_the_next("uma", CLEAR, 2, *((name, good, "0") for name, good in OF_CLEAR)),
        ("uma", CLEAR, ALL_NULL, 200, NONE_CHOSEN, 2),
        ("uma", CLEAR, "{" + ",".join(GOOD_CLEAR) + "}", 200, CHOSEN, 3),
    ]),
    ("the bodies of pools", "baseline", NOW, {}, [
        *unread("adam", "POST /pools", 0),
        *needed("adam", "POST /pools", 0, "name", NO_NAME, '"slots":1'),
        *needed("adam", "POST /pools", 0, "slots", NO_SLOTS, '"name":"p"'),
        *each_before_the_next("adam", "POST /pools", 0, ("name", '"p"', "0"), ("slots", "1", '"1"')),
        ("adam", "GET /pools", "", 200, listed("pools", 1, pool_row("default_pool", 128)), 0),
        ("adam", "POST /pools", '{"name":"p","slots":1}', 200, pool_row("p", 1), 1),
        *unread("adam", "PATCH /pools/p", 1),
        *needed("adam", "PATCH /pools/p", 1, "slots", NO_SLOTS),
        ("adam", "PATCH /pools/p", '{"slots":2}', 200, pool_row("p", 2), 2),
    ]),
    ("the bodies of variables", "baseline", NOW, {}, [
        *unread("adam", "POST /variables", 0),
        *needed("adam", "POST /variables", 0, "key", NO_NAME, '"value":"v"'),
        *needed("adam", "POST /variables", 0, "value", NO_TEXT, '"key":"k"'),
        *each_before_the_next("adam", "POST /variables", 0, ("key", '"k"', "0"), ("value", '"v"', "0")),
        ("adam", "GET /variables", "", 200, listed("variables", 0), 0),
        ("adam", "POST /variables", '{"key":"k","value":"v"}', 200, variable_row("k", "v"), 1),
        *unread("adam", "PATCH /variables/k", 1),
        *needed("adam", "PATCH /variables/k", 1, "value", NO_TEXT),
        ("adam", "PATCH /variables/k", '{"value":"w"}', 200, variable_row("k", "w"), 2),
    ]),
]  # fmt: skip
