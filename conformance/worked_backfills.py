"""Connections over examples/base.json, with DAGs of a schedule beside its own, whose answers were worked out by hand: backfills. Their form is that of
worked_cases.py.

2024 is a leap year that begins on a Monday. The points of a schedule are its own, whatever the range: midnights, full hours, Sundays, first days of months,
or so many seconds after its `start_date` and after one another.
"""
from datetime import datetime, timedelta

from worked_rows import ENDED, MIDNIGHT, NOW, backfill_row, entry_row, instance_row, listed, run_row

ALONE, TWO_TASKS = [{"task_id": "t"}], [{"task_id": "t"}, {"task_id": "u", "upstream": ["t"], "retries": 3}]
OF_BASE = [{"dag_id": "a", "is_paused": True, "tasks": ALONE}, {"dag_id": "b", "tasks": ALONE}, {"dag_id": "c", "tasks": ALONE}]
DAILY = {"dag_id": "d", "schedule": "@daily", "start_date": NOW, "catchup": False, "tasks": ALONE}
HAS, LOGGED = "baseline,backfill", "baseline,backfill,audit"
NONE = listed("dag_runs", 0)
RUNS = "/dags/d/dagRuns"


def dags(*more):
    return {"dags": [*OF_BASE, *more]}


def scheduled(schedule, start, **more):
    """The configuration with a DAG `d` of a schedule."""
    return dags({"dag_id": "d", "schedule": schedule, "start_date": start, "tasks": ALONE, **more})


def asked(dag="d"):
    return f"POST /own/dags/{dag}/backfills"


def within(start, end):
    return f'{{"start_date":"{start}","end_date":"{end}"}}'


def day(n):
    """Midnight of the day that comes so many days after 2024-01-01."""
    return (datetime(2024, 1, 1) + timedelta(days=n)).isoformat() + "+00:00"


def on_days(*days):
    """The listing of the runs of these days, in this order."""
    return listed("dag_runs", len(days), *(backfill_row("d", day(n), day(n + 1)) for n in days))


def at_points(*points):
    """The listing of the runs of all these points but the last, each up to the next one."""
    return listed("dag_runs", len(points) - 1, *(backfill_row("d", one, following) for one, following in zip(points, points[1:])))


def dag_row(schedule, next_run, paused="false", most=16):
    return f'{{"dag_id":"d","is_paused":{paused},"max_active_runs":{most},"next_dagrun":{next_run},"schedule_interval":{schedule}}}'


def trigger(run_id, date, seq):
    return ("uma", f"POST {RUNS}", f'{{"dag_run_id":"{run_id}","logical_date":"{date}"}}', 200, run_row("d", run_id, date), seq)


THREE = within("2024-01-01T00:00:00Z", "2024-01-03T00:00:00Z")
SECOND_RUN = f"{RUNS}/backfill__{day(1)}"
INSTANCE = instance_row(dag="d", run=f"backfill__{day(1)}")
CLEARED = f'{{"task_instances":[{{"dag_id":"d","dag_run_id":"backfill__{day(1)}","logical_date":"{day(1)}","task_id":"t"}}]}}'

BACKFILLS = [
    # 31 + 29 + 31 days are before 1 April. The run `m` takes 2 January, and the first backfill 1 and 3 January.
    ("a backfill, the same again, and a range of 101 and of 100 points", LOGGED, NOW, dags(DAILY), [
        trigger("m", day(1), 1),
        ("uma", asked(), within("2023-12-30T00:00:00Z", "2024-01-03T00:00:00Z"), 200, on_days(0, 2), 2),
        ("uma", asked(), within("2023-12-30T00:00:00Z", "2024-01-03T00:00:00Z"), 200, NONE, 2),
        ("uma", asked(), within("2023-12-30T00:00:00Z", "2024-04-10T00:00:00Z"), 409, "too many", 2),
        ("uma", asked(), within("2023-12-30T00:00:00Z", "2024-04-09T00:00:00Z"), 200, on_days(*range(3, 100)), 3),
        ("uma", asked(), within("2024-01-02T00:00:00Z", "2024-04-10T00:00:00Z"), 200, on_days(100), 4),
        ("uma", asked("b"), THREE, 409, "no schedule", 4),
        ("vera", asked(), THREE, 403, "missing permission DAG:d.can_edit", 4),
        ("uma", asked("~"), THREE, 404, "no such path", None, None),
        ("uma", asked("%7E"), THREE, 404, "no such path", None, None),
        ("uma", f"GET {RUNS}?limit=2", "", 200, listed("dag_runs", 101, run_row("d", "m", day(1)), backfill_row("d", day(0), day(1))), 4),
        ("uma", f"GET {RUNS}?offset=99", "", 200, listed("dag_runs", 101, backfill_row("d", day(99), day(100)), backfill_row("d", day(100), day(101))), 4),
        ("uma", "GET /dags/d", "", 200, dag_row('"@daily"', f'"{day(0)}"'), 4),
        ("adam", "GET /eventLogs", "", 200, listed(
            "event_logs", 4, entry_row(1, "trigger_dag_run", "uma", "d", "m"), *(entry_row(n, "backfill", "uma", "d") for n in (2, 3, 4))), 4),
    ]),
    ("a backfill: a denial, then a body, then an absence, then no schedule, then too many points", HAS, NOW, dags(DAILY), [
        ("edna", asked(), "{", 403, "missing permission DAG:d.can_edit", 0),
        ("edna", asked("b"), "{", 403, "missing permission DAG Runs.can_create", 0),
        ("edna", asked("gone"), "{", 403, "missing permission DAG:gone.can_edit", 0),
        ("nobody", asked("gone"), "{", 401, "authentication required", 0),
        ("uma", asked("gone"), "{", 400, "bad body", 0),
        ("uma", asked("gone"), '{"end_date":"x"}', 400, "bad member: start_date", 0),
        ("uma", asked("b"), within(NOW, "x"), 400, "bad member: end_date", 0),
        ("uma", asked("b"), within(NOW, "2023-12-31T23:59:59.999999Z"), 400, "bad member: end_date", 0),
        ("uma", asked("gone"), within("1970-01-01T00:00:00Z", "9998-12-31T00:00:00Z"), 404, "no such dag: gone", 0),
        ("uma", asked("b"), within("1970-01-01T00:00:00Z", "9998-12-31T00:00:00Z"), 409, "no schedule", 0),
        ("uma", asked(), within("1970-01-01T00:00:00Z", "9998-12-31T00:00:00Z"), 409, "too many", 0),
        ("uma", "GET /own/dags/d/backfills", "", 405, "POST", None, None),
        ("uma", "HEAD /own/dags/d/backfills", "", 405, "POST", None, None),
        ("uma", "POST /own/dags/a%20b/backfills", THREE, 404, "no such path", None, None),
        ("uma", "POST /own/dags/d/backfills/", THREE, 404, "no such path", None, None),
        ("uma", "POST /dags/d/backfills", THREE, 404, "no such path", None, None),
        ("uma", "POST /own/dags/%64/backfills?limit=1&offset=x", THREE, 200, on_days(0, 1, 2), 1),
    ]),
    ("a backfill by the hour, from half an hour on", HAS, NOW, scheduled("@hourly", "2024-01-01T00:30:00Z"), [
        ("uma", asked(), within("2024-01-01T00:00:00Z", "2024-01-01T02:00:00Z"), 200,
            at_points("2024-01-01T01:00:00+00:00", "2024-01-01T02:00:00+00:00", "2024-01-01T03:00:00+00:00"), 1),
        ("uma", asked(), within("2024-01-01T02:00:00.000001Z", "2024-01-01T02:59:59.999999Z"), 200, NONE, 1),
        ("uma", asked(), within("2024-01-01T04:00:00Z", "2024-01-01T04:00:00Z"), 200, at_points("2024-01-01T04:00:00+00:00", "2024-01-01T05:00:00+00:00"), 2),
    ]),
    ("a backfill by the week", HAS, NOW, scheduled("@weekly", NOW), [
        ("uma", asked(), within("2024-01-01T00:00:00Z", "2024-01-14T00:00:00Z"), 200, at_points(day(6), day(13), day(20)), 1),
        ("uma", asked(), within("2024-01-14T00:00:00.000001Z", "2024-01-20T23:59:59.999999Z"), 200, NONE, 1),
    ]),
    ("a backfill by the month, over a leap day", HAS, NOW, scheduled("@monthly", "2023-12-15T12:00:00Z"), [
        ("uma", asked(), within("2023-12-01T00:00:00Z", "2024-02-01T00:00:00Z"), 200, at_points(day(0), day(31), day(60)), 1),
        ("uma", asked(), within("2024-02-29T00:00:00Z", "2024-03-31T23:59:59Z"), 200, at_points(day(60), day(91)), 2),
    ]),
    # The points are 1 January 00:00:00.5, 2 January 00:00:01.5, 3 January 00:00:02.5, 4 January 00:00:03.5.
    ("a backfill by seconds: the points are those of the schedule, not of the range", HAS, NOW, scheduled(86401, "2024-01-01T00:00:00.5Z"), [
        ("uma", asked(), within("2024-01-02T00:00:00Z", "2024-01-02T00:00:01.499999Z"), 200, NONE, 0),
        ("uma", asked(), within("2024-01-02T01:00:01.5+01:00", "2024-01-03T00:00:02.499999Z"), 200,
            at_points("2024-01-02T00:00:01.500000+00:00", "2024-01-03T00:00:02.500000+00:00"), 1),
        ("uma", asked(), within("1970-01-01T00:00:00Z", "2024-01-03T00:00:02.5Z"), 200, listed("dag_runs", 2,
            backfill_row("d", "2024-01-01T00:00:00.500000+00:00", "2024-01-02T00:00:01.500000+00:00"),
            backfill_row("d", "2024-01-03T00:00:02.500000+00:00", "2024-01-04T00:00:03.500000+00:00")), 2),
    ]),
    ("a backfill of a range before the start of the DAG, and of one that begins before it", HAS, NOW, dags(DAILY), [
        ("uma", asked(), within("1970-01-01T00:00:00Z", "2023-12-31T23:59:59.999999Z"), 200, NONE, 0),
        ("uma", asked(), within("1970-01-01T00:00:00Z", "2024-01-01T00:00:00Z"), 200, on_days(0), 1),
    ]),
    ("a backfill of a hundred years by the second, and of the 100 and the 101 seconds from the start on", HAS, NOW, scheduled(1, NOW), [
        ("uma", asked(), within("2000-01-01T00:00:00Z", "2099-12-31T23:59:59Z"), 409, "too many", 0),
        ("uma", asked(), within("1999-01-01T00:00:00Z", "2024-01-01T00:01:40Z"), 409, "too many", 0),
        ("uma", asked(), within("1999-01-01T00:00:00Z", "2024-01-01T00:01:39.999999Z"), 200,
            at_points(*((datetime(2024, 1, 1) + timedelta(seconds=n)).isoformat() + "+00:00" for n in range(101))), 1),
        ("uma", asked(), within("1999-01-01T00:00:00Z", "2024-01-01T00:01:40Z"), 409, "too many", 1),
    ]),
    # 1 December 9998 is a point, and has no next one.
    ("a backfill up to the last instant", HAS, NOW, scheduled("@monthly", "9998-10-01T00:00:00Z"), [
        ("uma", asked(), within("9998-12-01T00:00:00Z", "9998-12-31T23:59:59.999999Z"), 200, NONE, 0),
        ("uma", asked(), within("9998-10-02T00:00:00Z", "9998-12-31T23:59:59.999999Z"), 200,
            at_points("9998-11-01T00:00:00+00:00", "9998-12-01T00:00:00+00:00"), 1),
        ("uma", asked(), within("9998-10-02T00:00:00Z", "9999-01-01T00:00:00Z"), 400, "bad member: end_date", 1),
    ]),
    ("a backfill past the start of a schedule without a further point", HAS, NOW, scheduled(31_536_000, "9998-06-01T00:00:00Z"), [
        ("uma", asked(), within("1970-01-01T00:00:00Z", "9998-12-31T23:59:59Z"), 200, NONE, 0),
        ("uma", "GET /dags/d", "", 200, dag_row("31536000", '"9998-06-01T00:00:00+00:00"'), 0),
    ]),
    ("a backfill after the moment, of a paused DAG that may have one run at a time", HAS, NOW, scheduled("@daily", NOW, is_paused=True, max_active_runs=1), [
        ("uma", asked(), within("2024-01-05T00:00:00Z", "2024-01-07T00:00:00Z"), 200, on_days(4, 5, 6), 1),
        ("uma", "GET /dags/d", "", 200, dag_row('"@daily"', f'"{day(0)}"', "true", 1), 1),
        ("uma", f"GET {RUNS}", "", 200, on_days(4, 5, 6), 1),
    ]),
    # A run `m` has the date of 1 January, and one of another date has the id that a backfill gives to 3 January.
    ("a backfill beside runs that have its dates or its ids, and after they are gone", HAS, NOW, dags(DAILY), [
        trigger("m", day(0), 1),
        trigger(f"backfill__{day(2)}", "2024-06-01T12:00:00+00:00", 2),
        ("uma", asked(), THREE, 200, on_days(1), 3),
        ("uma", f"POST {RUNS}", f'{{"dag_run_id":"n","logical_date":"{day(1)}"}}', 409, f"date taken: {day(1)}", 3),
        ("uma", f"POST {RUNS}", f'{{"dag_run_id":"backfill__{day(1)}","logical_date":"{day(5)}"}}', 409, f"run exists: backfill__{day(1)}", 3),
        ("uma", f"DELETE {RUNS}/m", "", 204, "", 4),
        ("uma", f"DELETE {RUNS}/backfill__{day(2)}", "", 204, "", 5),
        ("uma", asked(), THREE, 200, on_days(0, 2), 6),
        ("uma", f"GET {RUNS}", "", 200, on_days(1, 0, 2), 6),
        ("uma", "POST /dags/b/dagRuns", f'{{"logical_date":"{day(0)}"}}', 200, run_row("b", f"manual__{day(0)}", day(0)), 7),
    ]),
    ("a run of a backfill is shown, marked, cleared and deleted as any other", HAS, NOW, dags(DAILY), [
        ("uma", asked(), within(day(1), day(1)), 200, on_days(1), 1),
        ("vera", f"GET {SECOND_RUN}", "", 200, backfill_row("d", day(1), day(2)), 1),
        ("vera", f"GET {SECOND_RUN}/taskInstances", "", 200, listed("task_instances", 1, INSTANCE), 1),
        ("uma", f"PATCH {SECOND_RUN}", '{"state":"failed"}', 200, backfill_row("d", day(1), day(2), "failed", ENDED), 2),
        ("uma", asked(), within(day(1), day(1)), 200, NONE, 2),
        ("uma", f"POST {SECOND_RUN}/clear", '{"dry_run":false}', 200, CLEARED, 3),
        ("uma", f"DELETE {SECOND_RUN}", "", 204, "", 4),
        ("uma", asked(), within(day(1), day(1)), 200, on_days(1), 5),
    ]),
    ("a backfill of a DAG with several tasks, of which each run has an instance of each", HAS, NOW, scheduled("@daily", NOW, tasks=TWO_TASKS), [
        ("uma", asked(), within(day(1), day(1)), 200, on_days(1), 1),
        ("vera", f"GET {SECOND_RUN}/taskInstances", "", 200, listed("task_instances", 2, INSTANCE, INSTANCE.replace('"task_id":"t"', '"task_id":"u"')), 1),
    ]),
    ("a backfill with a full history: only what would add a run is refused", LOGGED, NOW, {**dags(DAILY), "history_limit": 1}, [
        ("uma", asked(), within(day(0), day(1)), 200, on_days(0, 1), 1),
        ("uma", asked(), within(day(0), day(1)), 200, NONE, 1),
        ("uma", asked(), within(day(0), day(2)), 507, "history full", 1),
        ("uma", asked(), within(day(0), day(100)), 409, "too many", 1),
        ("uma", asked("b"), within(day(0), day(2)), 409, "no schedule", 1),
        ("uma", f"GET {RUNS}", "", 200, on_days(0, 1), 1),
        ("adam", "GET /eventLogs", "", 200, listed("event_logs", 1, entry_row(1, "backfill", "uma", "d", when=MIDNIGHT)), 1),
    ]),
]  # fmt: skip
