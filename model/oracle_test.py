#!/usr/bin/env python3
"""Answers that are written out by hand, of which the oracle must give each byte.

  python3 model/oracle_test.py
  python3 -m unittest discover -s model -p '*_test.py'       with the other tests of the oracle
"""
import json
import unittest

from test_tools import BASE, NOW, one_answer, opened
import oracle
import oracle_names as names
import oracle_rows
import oracle_state
import worked_cases
import worked_policies
from oracle_names import instant_of, isoformat
from oracle_policy import Fault
from oracle_sched import claim, report, tick
from oracle_table import OPERATIONS, having, route
from worked_rows import exchanges, request

VERSION = b"GET /api/v1/version HTTP/1.1\r\nHost: h\r\n\r\n"
VERSION_ANSWER = (
    b'HTTP/1.1 200 OK\r\nContent-Type: application/json\r\nContent-Length: 42\r\n\r\n{"git_version":null,"version":"afplane 1"}'
)
INCOMPLETE = (
    b"HTTP/1.1 400 Bad Request\r\nContent-Type: application/problem+json\r\nContent-Length: 87\r\nConnection: close\r\n\r\n"
    b'{"detail":"incomplete request","status":400,"title":"Bad Request","type":"about:blank"}'
)
SEEN = b"X-Policy-Version: 0\r\nX-Plane-Seq: 0\r\n"
ROW_A = b'{"dag_id":"a","is_paused":true,"max_active_runs":16,"next_dagrun":null,"schedule_interval":null}'
ROW_B = b'{"dag_id":"b","is_paused":false,"max_active_runs":16,"next_dagrun":null,"schedule_interval":null}'
ROW_C = b'{"dag_id":"c","is_paused":false,"max_active_runs":16,"next_dagrun":null,"schedule_interval":null}'


def listing(length, body):
    return b"HTTP/1.1 200 OK\r\nContent-Type: application/json\r\nContent-Length: %d\r\n%s\r\n%s" % (length, SEEN, body)


def problem(first, length, fields, body):
    return b"HTTP/1.1 %s\r\nContent-Type: application/problem+json\r\nContent-Length: %d\r\n%s\r\n%s" % (first, length, fields, body)


def dags(token=None, method=b"GET"):
    field = b"" if token is None else b"Authorization: Bearer " + token + b"\r\n"
    return method + b" /api/v1/dags HTTP/1.1\r\nHost: h\r\n" + field + b"\r\n"


class Answers(unittest.TestCase):
    def gives(self, data, wanted, status=0):
        self.assertEqual(oracle.run(["once", BASE, NOW], data), (status, wanted, b""))

    def test_viewer(self):
        body = b'{"dags":[' + ROW_A + b"," + ROW_B + b"," + ROW_C + b'],"total_entries":3}'
        self.gives(dags(b"test") + VERSION, listing(321, body) + VERSION_ANSWER)

    def test_one_dag(self):
        self.gives(dags(b"foo"), listing(126, b'{"dags":[' + ROW_B + b'],"total_entries":1}'))

    def test_denied(self):
        body = b'{"detail":"missing permission DAGs.can_read","status":403,"title":"Forbidden","type":"about:blank"}'
        self.gives(dags(b"bar"), problem(b"403 Forbidden", 99, SEEN, body))

    def test_unknown(self):
        body = b'{"detail":"authentication required","status":401,"title":"Unauthorized","type":"about:blank"}'
        wanted = problem(b"401 Unauthorized", 93, b"WWW-Authenticate: Bearer\r\n" + SEEN, body)
        self.gives(dags(b"nope") + dags(), wanted + wanted)

    def test_method(self):
        body = b'{"detail":"method not allowed","status":405,"title":"Method Not Allowed","type":"about:blank"}'
        self.gives(dags(method=b"PUT"), problem(b"405 Method Not Allowed", len(body), b"Allow: GET\r\n", body))

    def test_cut(self):
        self.assertEqual(len(VERSION), 41)
        self.gives(b"", b"")
        for length in range(1, 41):
            self.gives(VERSION[:length], INCOMPLETE, status=1)
        self.gives(VERSION + VERSION, VERSION_ANSWER + VERSION_ANSWER)

    def test_refused_messages(self):
        lines = b"".join(b"N%d: x\r\n" % n for n in range(64))
        for line, first in ((b"Content-Length: 65537", b"413 "), (b"Transfer-Encoding: chunked", b"501 "), (lines[:-2], b"431 ")):
            data = VERSION.replace(b"Host: h", b"Host: h\r\n" + line)
            status, out, _ = oracle.run(["once", BASE, NOW], data + VERSION)
            self.assertEqual((status, out[:13], out.count(b"HTTP/1.1 "), b"\r\nConnection: close\r\n" in out), (1, b"HTTP/1.1 " + first, 1, True))

    def test_names_and_instants(self):
        for is_good, good, bad in (
            (names.is_dag_id, ["a", "a" * 250, "A-b_c.1"], ["a b", "", "a" * 251, "~", "a:b", "\u00e9"]),
            (names.is_run_id, ["a~b", "~~", "R:1+2", "a" * 250], ["~", "", "a" * 251, "a b", "a/b"]),
            (names.is_label, [" ", "~", "a" * 64], ["", "a" * 65, "\x7f", "\x1f", "\u00e9"]),
            (names.is_pool_name, ["a" * 250, "a/b"], ["", "a" * 251, "a\nb"]),
        ):
            self.assertEqual([*map(is_good, good), *map(is_good, bad)], [True] * len(good) + [False] * len(bad))
        self.assertEqual(isoformat(instant_of("2024-01-01T00:00:00.0000019Z")), "2024-01-01T00:00:00.000001+00:00")
        for text in ("1969-12-31T23:59:59Z", "1969-12-31T23:59:59.9999999Z", "2024-13-01T00:00:00Z", "9999-01-01T00:00:00Z", "2024-01-01T00:00:00"):
            self.assertIsNone(instant_of(text))
        self.assertEqual(instant_of("9998-12-31T23:59:59.9999999Z"), names.LAST)

    def test_refused_calls(self):
        usage = b"usage: afplane once CONFIG NOW | serve CONFIG PORT WORKERS | verify TRACE\n"
        self.assertEqual(oracle.run(["once", BASE], b""), (2, b"", usage))
        self.assertEqual(oracle.run(["once", BASE + "x", NOW], b""), (3, b"", b"afplane: configuration refused: unreadable\n"))
        for words in (["0"], ["0", "0"], ["0", "17"], ["65536", "1"], ["1" + "0" * 30, "1"], ["-1", "1"], ["", "1"], ["0", ""], ["0", "1", "1"], ["\u0661", "1"]):
            self.assertEqual(oracle.run(["serve", BASE, *words], b""), (2, b"", usage), words)
        for words in (["0", "1"], ["65535", "16"], ["0" * 30, "0" * 30 + "9"]):
            self.assertEqual(oracle.run(["serve", BASE, *words], b"")[:2], (70, b""), words)
            self.assertEqual(oracle.run(["serve", BASE + "x", *words], b""), (3, b"", b"afplane: configuration refused: unreadable\n"))
        self.assertEqual(oracle.run(["serve", BASE, "0", "1"], b"", having("baseline")), (2, b"", usage))


class Connections(unittest.TestCase):
    def test_worked_connections(self):
        """Each answer, byte for byte, by what the connection wants alone and by all that there is."""
        for title, has, now, members, steps in worked_cases.CONNECTIONS + worked_policies.CONNECTIONS:
            for names in (has, "all"):
                plane = opened(names, now, members.items())
                for number, (asked, wanted) in enumerate(exchanges(steps)):
                    with self.subTest(title=title, has=names, step=steps[number][:3]):
                        self.assertEqual(oracle.answers(plane, asked), (wanted, True))

    def test_worked_operations(self):
        """Of each operation some connection has a success; of those on event logs and policies also a denial and, where there is a body, a fault of it."""
        seen = set()
        for _, has, now, members, steps in worked_cases.CONNECTIONS + worked_policies.CONNECTIONS:
            for (_, asked, *_), (_, wanted) in zip(steps, exchanges(steps)):
                method, path = asked.split(" ")
                path = (path if path.startswith("/own/") else "/api/v1" + path).partition("?")[0]
                operation, _ = route(path.encode(), method.encode(), having("all"))
                seen |= {(operation.name, int(wanted[9:12]))} if operation else set()
        for it in OPERATIONS:
            self.assertTrue({(it.name, 200), (it.name, 204)} & seen, it.name)
        for it in (it for it in OPERATIONS if it.on_policy or it.name == "list_entries"):
            self.assertTrue(not it.needs or (it.name, 403) in seen, it.name)
            self.assertTrue(not it.body or (it.name, 400) in seen, it.name)

    def test_clear_and_try_again(self):
        plane, now = opened("all"), instant_of(NOW)
        one_answer(plane, request("uma", "POST /dags/b/dagRuns", '{"dag_run_id":"r1"}'))
        plane.state = tick(plane.state, now)
        plane.state, first = claim(plane.state, now)
        self.assertEqual(first, (1, "t", 1))
        plane.state = tick(report(plane.state, first, "failed", now), now)
        self.assertEqual(plane.state.runs[0].state, "failed")
        clear = "POST /dags/b/clearTaskInstances"
        wanted = '{"task_instances":[{"dag_id":"b","dag_run_id":"r1","logical_date":"2024-01-01T00:00:00+00:00","task_id":"t"}]}'
        before = plane.state
        self.assertEqual(one_answer(plane, request("uma", clear, "{}")), (200, wanted, 0, 1))
        self.assertEqual(plane.state, before)
        self.assertEqual(one_answer(plane, request("uma", clear, '{"dry_run":false}')), (200, wanted, 0, 2))
        self.fails(plane, first, "NotRunning")
        plane.state, second = claim(tick(plane.state, now), now)
        self.assertEqual(second, (1, "t", 2))
        self.fails(plane, first, "WrongTry")
        plane.state = report(plane.state, second, "success", now)
        self.assertEqual(plane.state.runs[0].instances[0].state, "success")
        self.assertEqual(one_answer(plane, request("adam", "DELETE /dags/b/dagRuns/r1")), (204, "", 0, 3))
        self.fails(plane, second, "NoSuchInstance")

    def test_slots_that_instances_hold(self):
        tasks = [{"task_id": it, "pool": "p", "pool_slots": n} for it, n in (("x", 3), ("y", 2), ("z", 1))]
        members = {"pools": [{"name": "p", "slots": 4}], "dags": [{"dag_id": "b", "tasks": tasks}]}
        plane, now = opened("all", members=members.items()), instant_of(NOW)
        one_answer(plane, request("uma", "POST /dags/b/dagRuns", '{"dag_run_id":"r1"}'))
        row = '{"name":"p","occupied_slots":%d,"open_slots":%d,"queued_slots":%d,"running_slots":%d,"slots":%d}'

        def holds(*numbers):
            self.assertEqual(one_answer(plane, request("adam", "GET /pools/p"))[1], row % numbers)

        holds(0, 4, 0, 0, 4)
        plane.state = tick(plane.state, now)
        holds(4, 0, 4, 0, 4)
        plane.state, claimed = claim(plane.state, now)
        self.assertEqual(claimed, (1, "x", 1))
        holds(4, 0, 1, 3, 4)
        self.assertEqual(one_answer(plane, request("adam", "PATCH /pools/p", '{"slots":3}'))[1], row % (4, 0, 1, 3, 3))
        plane.state = report(plane.state, claimed, "success", now)
        holds(1, 2, 1, 0, 3)
        listed = one_answer(plane, request("adam", "GET /pools"))[1]
        default = '{"name":"default_pool","occupied_slots":0,"open_slots":128,"queued_slots":0,"running_slots":0,"slots":128}'
        self.assertEqual(listed, f'{{"pools":[{default},{row % (1, 2, 1, 0, 3)}],"total_entries":2}}')
        self.assertEqual(one_answer(plane, request("adam", "DELETE /pools/p"))[:2], (409, "pool in use: p"))

    def test_allowed_methods(self):
        plane = opened("landed")
        for path, allowed in (("pools", b"GET, POST"), ("pools/p", b"GET, PATCH, DELETE"), ("variables", b"GET, POST"), ("variables/k", b"GET, PATCH, DELETE")):
            text, _ = oracle.answers(plane, request("", f"PUT /{path}"))
            self.assertIn(b"\r\nAllow: " + allowed + b"\r\n", text)

    def fails(self, plane, claimed, wanted):
        with self.assertRaises(Fault) as why:
            report(plane.state, claimed, "success", plane.now)
        self.assertEqual(why.exception.args[0], wanted)


class Ticks(unittest.TestCase):
    def state(self, dag, pools=()):
        dag = {"dag_id": "d", "tasks": [{"task_id": "t"}], **dag}
        user = {"username": "u", "roles": [{"name": "Admin"}], "token_sha256": "0" * 64}
        return oracle.Plane(json.dumps({"users": [user], "pools": list(pools), "dags": [dag]}).encode()).state

    def test_months(self):
        monthly = {"schedule": "@monthly", "start_date": "2024-01-31T00:00:00Z"}
        begun = self.state(monthly)
        self.assertEqual(tick(begun, instant_of("2024-02-29T23:59:59.999999Z")), begun)
        state = tick(begun, instant_of("2024-03-01T00:00:00Z"))
        (run,) = state.runs
        self.assertEqual((run.run_id, run.state), ("scheduled__2024-02-01T00:00:00+00:00", "running"))
        self.assertEqual([isoformat(it) for it in (run.interval_end, state.dags["d"].cursor)], ["2024-03-01T00:00:00+00:00"] * 2)
        self.assertEqual([it.state for it in run.instances], ["queued"])
        state = tick(self.state({**monthly, "catchup": False}), instant_of("2024-05-15T00:00:00Z"))
        self.assertEqual([isoformat(it.date) for it in state.runs], ["2024-04-01T00:00:00+00:00"])
        self.assertEqual(isoformat(state.dags["d"].cursor), "2024-05-01T00:00:00+00:00")
        weekly = self.state({"schedule": "@weekly", "start_date": NOW})
        self.assertEqual(isoformat(weekly.dags["d"].cursor), "2024-01-07T00:00:00+00:00")

    def test_slots(self):
        tasks = [{"task_id": "x", "pool_slots": 3, "priority_weight": 5}, *({"task_id": it} for it in "yzw")]
        tasks = [{**it, "pool": "p"} for it in tasks]
        now = instant_of(NOW)
        state = self.state({"tasks": tasks}, [{"name": "p", "slots": 2}])
        state, _ = oracle_state.trigger(state, "d", "r", now)
        state = tick(state, now)
        self.assertEqual([it.state for it in state.runs[0].instances], ["scheduled", "queued", "queued", "scheduled"])
        state = oracle_rows.set_pool(state, "p", 1)
        shown = oracle_rows.show_pool(state, "p")
        self.assertEqual((shown["occupied_slots"], shown["open_slots"]), (2, 0))
        for name, then in (("y", ["scheduled", "success", "queued", "scheduled"]), ("z", ["scheduled", "success", "success", "queued"])):
            state, claimed = claim(state, now)
            self.assertEqual(claimed, (1, name, 1))
            state = tick(report(state, claimed, "success", now), now)
            self.assertEqual([it.state for it in state.runs[0].instances], then)

    def test_retry(self):
        now = instant_of(NOW)
        state, _ = oracle_state.trigger(self.state({"tasks": [{"task_id": "t", "retries": 1}]}), "d", "r", now)
        state, first = claim(tick(state, now), now)
        state = report(state, first, "failed", now)
        self.assertEqual(state.runs[0].instances[0].state, "up_for_retry")
        self.assertEqual(tick(state, now + 299_999_999), state)
        state, second = claim(tick(state, now + 300_000_000), now)
        self.assertEqual(report(state, second, "failed", now).runs[0].instances[0].state, "failed")


if __name__ == "__main__":
    unittest.main()
