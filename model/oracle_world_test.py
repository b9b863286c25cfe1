"""Traces whose answers were worked out by hand, such with one thing altered, and traces that are none.

  python3 model/oracle_world_test.py
"""
import json
import unittest

from oracle_config import Refused
from oracle_world import verify
from test_tools import BASE, NOW

DENIED = '{"detail":"missing permission DAGs.can_read","status":403,"title":"Forbidden","type":"about:blank"}'
MOVED = '{"detail":"policy moved to version 1","status":409,"title":"Conflict","type":"about:blank"}'
ROW_B = '{"dag_id":"b","is_paused":%s,"max_active_runs":16,"next_dagrun":null,"schedule_interval":null}'
ROLE = '{"actions":[],"name":"%s"}'


def told(status, version, seq, body):
    return {"status": status, "version": version, "seq": seq, "body": body}


def act(session, token, asked, body="", now=NOW):
    method, path = asked.split(" ")
    return {"act": session, "token": token, "method": method, "target": "/api/v1" + path, "body": body, "now": now}


def publish(session, at, name):
    return {"publish": session, "at": at, "token": "admin", "method": "POST", "target": "/api/v1/roles", "body": json.dumps({"name": name, "actions": []})}


def trace(*steps, sessions=1):
    with open(BASE, "rb") as file:
        return {"config": json.load(file), "sessions": sessions, "steps": list(steps)}


def verified(made):
    return verify(json.dumps(made).encode())


ONE_DENIAL = trace([{"look": 0}, None], [act(0, "bar", "GET /dags"), told(403, 0, 0, DENIED)])
PAUSED = [act(0, "abc", "PATCH /dags/b", '{"is_paused":true}'), told(200, 0, 1, ROW_B % "true")]


class Agrees(unittest.TestCase):
    def agrees(self, made):
        """The trace agrees, and with any one number, status, or text of its answers altered it differs."""
        self.assertTrue(verified(made))
        for place, (_, answer) in enumerate(made["steps"]):
            for name, value in (answer or {}).items():
                altered = json.loads(json.dumps(made))
                altered["steps"][place][1][name] = value[:-1] + "x" if type(value) is str else (value or 0) + 1
                self.assertFalse(verified(altered), (place, name))

    def test_a_denial(self):
        self.agrees(ONE_DENIAL)

    def test_a_lost_race(self):
        self.agrees(trace([publish(0, 0, "One"), told(200, 1, None, ROLE % "One")], [publish(1, 0, "Two"), told(409, 1, None, MOVED)], [publish(1, 1, "Two"), told(200, 2, None, ROLE % "Two")], sessions=2))

    def test_an_act_is_under_the_version_of_its_look(self):
        self.agrees(trace([{"look": 0}, None], [publish(1, 0, "One"), told(200, 1, None, ROLE % "One")], PAUSED, sessions=2))

    def test_holds(self):
        """Another look takes the plane, and so does a tick; an act without a look, or twice, answers nothing."""
        shown = [act(1, "test", "GET /dags/b"), told(200, 0, 1, ROW_B % "true")]
        self.agrees(trace([{"look": 0}, None], PAUSED, [PAUSED[0], None], [{"look": 0}, None], [{"look": 1}, None], [PAUSED[0], None], shown, sessions=2))
        self.agrees(trace([{"look": 0}, None], [{"tick": NOW}, told(200, 0, 0, "same")], [PAUSED[0], None]))

    def test_a_run(self):
        run = '{"dag_id":"b","dag_run_id":"r","data_interval_end":"%s","data_interval_start":"%s","end_date":null,"logical_date":"%s","run_type":"manual","start_date":null,"state":"queued"}'
        date = "2024-01-01T00:00:00+00:00"
        trigger = [act(0, "abc", "POST /dags/b/dagRuns", '{"dag_run_id":"r"}'), told(200, 0, 1, run % (date, date, date))]
        done = {"report": {"run": 1, "task": "t", "try": 1, "outcome": "success"}, "now": NOW}
        self.agrees(trace([{"look": 0}, None], trigger, [{"tick": NOW}, told(200, 0, 2, "changed")], [{"claim": NOW}, told(200, 0, 3, "1 t 1")], [{"claim": NOW}, told(200, 0, 3, "none")],
            [done, told(200, 0, 4, "")], [done, told(409, 0, 4, "NotRunning")], [{**done, "report": {**done["report"], "run": 2}}, told(404, 0, 4, "NoSuchInstance")]))

    def test_a_full_history(self):
        made = trace([{"look": 0}, None], PAUSED, [{"tick": NOW}, told(507, 0, 1, "HistoryFull")])
        made["config"]["history_limit"] = 1
        made["config"]["dags"][2].update({"schedule": "@daily", "start_date": "2023-12-31T00:00:00Z"})
        self.agrees(made)


class Refusals(unittest.TestCase):
    def refused(self, data, reason):
        with self.assertRaises(Refused) as why:
            verify(data if type(data) is bytes else json.dumps(data).encode())
        self.assertEqual(why.exception.args[0], reason)

    def test_order(self):
        self.refused(b" " * (16 * 1024 * 1024 + 1), "unreadable")
        self.refused(b"{", "syntax")
        for made in ([], {}, {"sessions": 1, "steps": []}, {"config": None}):
            self.refused(made, "trace")
        self.refused({"config": 1, "sessions": -1}, "shape")
        self.refused({"config": {}, "steps": 1}, "admin")
        for sessions in (None, -1, 1025, "1", 1.0):
            self.refused({**ONE_DENIAL, "sessions": sessions}, "trace")

    def test_steps(self):
        good = ONE_DENIAL["steps"][1][0]
        steps = [{}, 1, {"look": 1}, {"look": 0, "tick": NOW}, {**good, "act": "0"}, {**good, "method": "PUT"}, {**good, "target": "/api/v1/version"}, {**good, "target": "/own/me"}]
        steps += [{**good, "now": "now"}, {**good, "body": None}, {"me": 0, "target": "/api/v1/dags"}, {"tick": "x"}, {"claim": 1}, publish(0, -1, "One"), {**publish(0, 0, "One"), "target": "/api/v1/dags"}]
        steps += [{"report": {"run": 1, "task": "a b", "try": 1, "outcome": "success"}, "now": NOW}, {"report": {"run": 1, "task": "t", "try": 1, "outcome": "done"}, "now": NOW}]
        for it in steps:
            self.refused(trace([it, None]), "trace")
        for pair in ([], [good], [good, None, None], [good, 1], [good, {"status": 200}], [good, {"body": ""}], [good, told("200", 0, 0, "")]):
            self.refused(trace(pair), "trace")


if __name__ == "__main__":
    unittest.main()
