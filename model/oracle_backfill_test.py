#!/usr/bin/env python3
"""Backfills: the runs that one makes, what it leaves as it is, and what the scheduler makes of them. The connections of conformance/worked_backfills.py have
the answers and the faults; here are limits that no connection reaches, and states.

  python3 model/oracle_backfill_test.py
"""
import json
import unittest
from dataclasses import replace
from unittest import mock

from test_tools import BASE, NOW, one_answer
import oracle
import oracle_names
import oracle_state as states
import replay
from oracle_names import DAY, LAST, MICROS, instant_of, isoformat, points_within
from oracle_policy import Fault
from oracle_sched import claim, report, tick
from oracle_world import verify
from worked_rows import request, run_row

FIRST, THIRD = "2024-01-01T00:00:00Z", "2024-01-03T00:00:00Z"
BACKFILL, BODY = "POST /own/dags/d/backfills", f'{{"start_date":"2023-12-30T00:00:00Z","end_date":"{THIRD}"}}'
# What a backfill from 30 December 2023 to 3 January 2024 answers where a run has 2 January: written out.
ANSWERED = (
    '{"dag_runs":[{"dag_id":"d","dag_run_id":"backfill__2024-01-01T00:00:00+00:00","data_interval_end":"2024-01-02T00:00:00+00:00",'
    '"data_interval_start":"2024-01-01T00:00:00+00:00","end_date":null,"logical_date":"2024-01-01T00:00:00+00:00","run_type":"backfill",'
    '"start_date":null,"state":"queued"},{"dag_id":"d","dag_run_id":"backfill__2024-01-03T00:00:00+00:00",'
    '"data_interval_end":"2024-01-04T00:00:00+00:00","data_interval_start":"2024-01-03T00:00:00+00:00","end_date":null,'
    '"logical_date":"2024-01-03T00:00:00+00:00","run_type":"backfill","start_date":null,"state":"queued"}],"total_entries":2}'
)


def config(**more):
    """base.json with a fourth DAG, which runs each day from 2024 on."""
    with open(BASE, "rb") as file:
        made = json.load(file)
    made["dags"].append({"dag_id": "d", "schedule": "@daily", "start_date": FIRST, "catchup": False, "tasks": [{"task_id": "t"}], **more})
    return made


def opened(**more):
    return oracle.Plane(json.dumps(config(**more)).encode(), instant_of(NOW))


def day(n):
    """Midnight of the day that comes so many days after 2024-01-01."""
    return instant_of(FIRST) + n * DAY * MICROS


def ids_of(runs):
    return [it.run_id for it in runs]


class Points(unittest.TestCase):
    def found(self, schedule, start, first, last, most=101):
        return [(isoformat(at)[:19], isoformat(after)[:19]) for at, after in points_within(schedule, *map(instant_of, (start, first, last)), most)]

    def test_both_ends_are_in_the_range(self):
        for first, last, days in ((FIRST, FIRST, [1]), (FIRST, THIRD, [1, 2, 3]), ("2024-01-01T00:00:00.000001Z", "2024-01-02T23:59:59.999999Z", [2])):
            wanted = [(f"2024-01-0{n}T00:00:00", f"2024-01-0{n + 1}T00:00:00") for n in days]
            self.assertEqual(self.found("@daily", "2023-01-01T12:00:00Z", first, last), wanted)

    def test_none_is_before_the_start(self):
        """Of seconds the start is a point; of a preset it is one only where it is a full hour, a midnight and so on."""
        start, long_ago = "2024-01-01T00:30:00Z", "1970-01-01T00:00:00Z"
        self.assertEqual(self.found(7200, start, long_ago, "2024-01-01T02:29:59Z"), [("2024-01-01T00:30:00", "2024-01-01T02:30:00")])
        self.assertEqual(self.found("@hourly", start, long_ago, "2024-01-01T01:30:00Z"), [("2024-01-01T01:00:00", "2024-01-01T02:00:00")])

    def test_the_last_point_of_all_is_none(self):
        """31 December 9998 is the last midnight that is an instant, so it has no next one."""
        self.assertEqual(self.found("@daily", FIRST, "9998-12-30T00:00:00Z", "9998-12-31T23:59:59.999999Z"), [("9998-12-30T00:00:00", "9998-12-31T00:00:00")])
        self.assertEqual(self.found(31_536_000, "9998-01-01T00:00:01Z", FIRST, "9998-12-31T23:59:59.999999Z"), [])
        self.assertEqual(isoformat(LAST)[:10], "9998-12-31")

    def test_what_a_hundred_years_cost(self):
        """Of each schedule the search for points is begun no more often than there are points wanted, and once more."""
        for schedule in (1, 60, "@hourly", "@daily", "@weekly", "@monthly"):
            with mock.patch.object(oracle_names, "point_from", side_effect=oracle_names.point_from) as asked:
                found = points_within(schedule, 0, instant_of("2000-01-01T00:00:00Z"), instant_of("2100-01-01T00:00:00Z"), 101)
            self.assertEqual((len(found), asked.call_count), (101, 102), schedule)


class Runs(unittest.TestCase):
    def test_a_run_has_the_date(self):
        """The dates, the ids and the numbers of a backfill beside a run that has one of its dates; then the same again."""
        plane = opened()
        made = one_answer(plane, request("uma", "POST /dags/d/dagRuns", '{"dag_run_id":"m","logical_date":"2024-01-02T00:00:00Z"}'))
        self.assertEqual((made[0], made[3]), (200, 1))
        before = plane.state
        self.assertEqual(one_answer(plane, request("uma", BACKFILL, BODY)), (200, ANSWERED, 0, 2))
        self.assertEqual((plane.state.dags, plane.state.pools, plane.state.runs[0]), (before.dags, before.pools, before.runs[0]))
        self.assertEqual([(it.number, it.date, it.interval_end) for it in plane.state.runs], [(1, day(1), day(1)), (2, day(0), day(1)), (3, day(2), day(3))])
        self.assertEqual(plane.state.next_run, 4)
        self.assertEqual(one_answer(plane, request("uma", BACKFILL, BODY)), (200, '{"dag_runs":[],"total_entries":0}', 0, 2))
        told = {"dag_id": "d", "event": "backfill", "event_log_id": 2, "owner": "uma", "policy_version": 0, "run_id": None, "task_id": None}
        self.assertEqual(plane.entries[1:], [{**told, "when": instant_of(NOW)}])

    def test_what_is_taken_is_no_fault(self):
        """Each of these has an id or a date of the range, or both; a run of another DAG has neither."""
        state, made_id = opened().state, lambda n: f"backfill__{isoformat(day(n))}"
        for dag_id, run_id, date in (("d", made_id(0), day(9)), ("d", "m", day(1)), ("d", made_id(2), day(2)), ("b", made_id(3), day(3))):
            state, _ = states.trigger(state, dag_id, run_id, date)
        state, made = states.backfill(state, "d", day(0), day(4))
        self.assertEqual([it.date for it in made], [day(3), day(4)])
        self.assertEqual(state.runs[4:], tuple(made))

    def test_new_runs_are_as_any_others(self):
        tasks = [{"task_id": "t"}, {"task_id": "u", "upstream": ["t"], "retries": 2}]
        _, (run,) = states.backfill(opened(tasks=tasks).state, "d", day(0), day(0))
        self.assertEqual((run.run_type, run.state, run.start, run.end), ("backfill", "queued", None, None))
        self.assertEqual([(it.state, it.start, it.end, it.tries, it.max_tries) for it in run.instances], [(None, None, None, 0, 0), (None, None, None, 0, 2)])


class Limits(unittest.TestCase):
    def refused(self, state, *range_):
        with self.assertRaises(Fault) as why:
            states.backfill(state, "d", *range_)
        self.assertEqual(why.exception.args[0], "too many")

    def test_runs_of_a_dag(self):
        """65,534 runs are there, one of them with a date of the range: two more may come, and three may not. Runs of other DAGs do not count."""
        state = opened().state
        one, _ = states.trigger(state, "d", "m", day(0))
        (row,) = one.runs
        runs = [replace(row, number=n, run_id=f"r{n}", date=day(0) - n) for n in range(65_533)] + [replace(row, number=70_000)]
        others = [replace(row, number=70_001 + n, dag_id="b", run_id=f"r{n}", date=n) for n in range(10)]
        state = replace(state, runs=(*runs, *others), next_run=80_000)
        full, made = states.backfill(state, "d", day(0), day(2))
        self.assertEqual((len(made), len(states.runs_of(full, "d"))), (2, 65_536))
        self.refused(state, day(0), day(3))
        self.assertEqual(states.backfill(full, "d", day(0), day(2)), (full, []))
        self.refused(full, day(0), day(3))

    def test_numbers_of_runs(self):
        """Numbers have 64 bits: with two left two runs may come, and three may not."""
        state = replace(opened().state, next_run=2**64 - 2)
        after, made = states.backfill(state, "d", day(0), day(1))
        self.assertEqual(([it.number for it in made], after.next_run), ([2**64 - 2, 2**64 - 1], 2**64))
        self.refused(state, day(0), day(2))
        self.assertEqual(states.backfill(after, "d", day(0), day(1)), (after, []))


class Scheduler(unittest.TestCase):
    """What ticks make of the runs of a backfill."""

    def states_of(self, state):
        return [it.state for it in state.runs]

    def test_so_many_run_at_a_time(self):
        state, _ = states.backfill(opened(max_active_runs=2).state, "d", day(10), day(14))
        now = day(0)
        state = tick(state, now)
        self.assertEqual(self.states_of(state), ["running", "running", "queued", "queued", "queued"])
        for wanted in (["success", "running", "queued"], ["success", "success", "running"]):
            state, claimed = claim(state, now)
            state = tick(report(state, claimed, "success", now), now)
            self.assertEqual(self.states_of(state)[:3], wanted)
            state = tick(state, now)
        self.assertEqual(self.states_of(state), ["success", "success", "running", "running", "queued"])

    def test_a_paused_dag_waits(self):
        state, _ = states.backfill(opened(is_paused=True).state, "d", day(0), day(1))
        self.assertEqual(tick(state, day(5)), state)
        state = states.with_dag(state, replace(state.dags["d"], is_paused=False))
        self.assertEqual(self.states_of(tick(state, day(0))), ["running", "running"])

    def test_a_tick_passes_over_what_is_there(self):
        """The cursor has not moved, so the tick comes to the points of the backfill: it makes the other runs alone, and moves on."""
        state, _ = states.backfill(opened(catchup=True).state, "d", day(1), day(1))
        self.assertEqual(state.dags["d"].cursor, day(0))
        state = tick(state, day(3))
        names = [f"backfill__{isoformat(day(1))}", f"scheduled__{isoformat(day(0))}", f"scheduled__{isoformat(day(2))}"]
        self.assertEqual((ids_of(state.runs), state.dags["d"].cursor), (names, day(3)))
        self.assertEqual(states.backfill(state, "d", day(0), day(2)), (state, []))


class Told(unittest.TestCase):
    """A backfill in the replay of a connection, and in a trace."""

    def test_a_replay(self):
        looks = [request("adam", f"GET {it}?offset=0") for it in ("/eventLogs", "/dags", "/dags/~/dagRuns", "/pools", "/variables")]
        data = b"".join([request("uma", BACKFILL, BODY), request("uma", BACKFILL, BODY), *looks])
        made = json.dumps(config()).encode()
        out, _ = oracle.answers(oracle.Plane(made, instant_of(NOW)), data)
        self.assertIsNone(replay.fault(made, instant_of(NOW), replay.exchanges(data, out), len(looks)))
        for told, other, part in ((b'"event":"backfill"', b'"event":"Backfill"', "event"), (b'"run_type":"backfill"', b'"run_type":"Backfill"', "run_type")):
            at = out.rindex(told)
            altered = out[:at] + other + out[at + len(told) :]
            self.assertIn(part, replay.fault(made, instant_of(NOW), replay.exchanges(data, altered), len(looks)))

    def test_a_trace(self):
        step = {"act": 0, "token": "abc", "method": "POST", "target": "/own/dags/d/backfills", "body": BODY, "now": NOW}
        manual = {**step, "target": "/api/v1/dags/d/dagRuns", "body": '{"dag_run_id":"m","logical_date":"2024-01-02T00:00:00Z"}'}
        told = lambda seq, body: {"status": 200, "version": 0, "seq": seq, "body": body}
        steps = [[{"look": 0}, None], [manual, told(1, run_row("d", "m", "2024-01-02T00:00:00+00:00"))]]
        steps += [[{"look": 0}, None], [step, told(2, ANSWERED)], [{"tick": NOW}, told(3, "changed")]]
        trace = {"config": config(), "sessions": 1, "steps": steps}
        self.assertTrue(verify(json.dumps(trace).encode()))
        for name, value in (("status", 204), ("seq", 3), ("body", ANSWERED.replace("total_entries\":2", "total_entries\":3"))):
            altered = json.loads(json.dumps(trace))
            altered["steps"][3][1][name] = value
            self.assertFalse(verify(json.dumps(altered).encode()))


if __name__ == "__main__":
    unittest.main()
