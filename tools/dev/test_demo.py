#!/usr/bin/env python3
"""Tests of examples/demo.json, played by the reference model as the server plays it: what its first half minute shows. And the tokens of examples/README.md.

    python3 tools/dev/test_demo.py
"""
import hashlib
import json
import pathlib
import re
import sys
import unittest

TOP = pathlib.Path(__file__).resolve().parents[2]
sys.dont_write_bytecode = True
sys.path.insert(0, str(TOP / "model"))
import check_config  # noqa: E402
import oracle  # noqa: E402
import oracle_sched  # noqa: E402
import oracle_state  # noqa: E402
from oracle_names import MICROS, instant_of  # noqa: E402
from oracle_table import LANDED, route  # noqa: E402

EXAMPLES = TOP / "examples"
START, SECONDS = "2026-11-28T04:10:02.3Z", 30


class Played:
    """A configuration for some seconds from a moment on. Each second has a tick, and then claims and their reports by the scripts, until none is left."""

    def __init__(self, path, start, seconds):
        data = path.read_bytes()
        rows = [(dag["dag_id"], task) for dag in json.loads(data)["dags"] for task in dag["tasks"]]
        self.scripts = {(dag_id, task["task_id"]): task.get("script", []) for dag_id, task in rows}
        self.now = instant_of(start)
        self.state = oracle.Plane(data, self.now).state
        self.waited, self.most_running, self.entries = set(), {}, 0
        for _ in range(seconds):
            self.second()

    def second(self):
        self.now += MICROS
        self.enter(oracle_sched.tick(self.state, self.now))
        self.waited |= {(dag_id, task) for dag_id, task, it in self.instances() if it.state == "scheduled"}
        for dag_id in self.state.dags:
            self.most_running[dag_id] = max(self.most_running.get(dag_id, 0), self.runs(dag_id).count("running"))
        claimed = self.claim()
        while claimed:
            self.report(claimed)
            claimed = self.claim()

    def enter(self, state):
        self.entries += state != self.state
        self.state = state

    def claim(self):
        state, claimed = oracle_sched.claim(self.state, self.now)
        self.enter(state)
        return claimed

    def report(self, claimed):
        number, task, tries = claimed
        script = self.scripts[next(it.dag_id for it in self.state.runs if it.number == number), task]
        self.enter(oracle_sched.report(self.state, claimed, script[tries - 1] if tries <= len(script) else "success", self.now))

    def instances(self):
        """DAG, task and row of each instance."""
        for run in self.state.runs:
            for task, it in zip(self.state.dags[run.dag_id].tasks, run.instances):
                yield run.dag_id, task.task_id, it

    def runs(self, dag_id):
        """The states of a DAG's runs."""
        return [it.state for it in self.state.runs if it.dag_id == dag_id]

    def ended(self, dag_id, task_id):
        """State and number of tries of a task's instances in runs that have ended."""
        over = [it for it in self.state.runs if it.dag_id == dag_id and it.end is not None]
        place = [it.task_id for it in self.state.dags[dag_id].tasks].index(task_id)
        return {(it.instances[place].state, it.instances[place].tries) for it in over}


class Demo(unittest.TestCase):
    @classmethod
    def setUpClass(cls):
        cls.played = Played(EXAMPLES / "demo.json", START, SECONDS)

    def test_runs_end(self):
        self.assertGreater(self.played.runs("payments.charge").count("success"), 3)
        self.assertGreater(self.played.runs("payments.settle").count("failed"), 1)
        self.assertGreater(self.played.runs("search.crawl").count("success"), 3)

    def test_tasks_fail_and_are_tried_again(self):
        self.assertEqual(self.played.ended("payments.charge", "capture"), {("success", 2)})
        self.assertEqual(self.played.ended("payments.settle", "transfer"), {("failed", 1)})
        self.assertEqual(self.played.ended("payments.settle", "close"), {("upstream_failed", 0)})
        self.assertEqual(self.played.ended("payments.settle", "alert"), {("success", 1)})
        self.assertEqual(self.played.ended("search.crawl", "west"), {("skipped", 1)})

    def test_tasks_wait_for_their_pool(self):
        wanted = {("search.crawl", "east"), ("search.crawl", "west"), ("search.backfill", "rebuild"), ("payments.settle", "transfer")}
        self.assertLessEqual(wanted, self.played.waited)
        self.assertNotIn(("search.crawl", "north"), self.played.waited)

    def test_a_catch_up_has_two_runs_at_a_time(self):
        self.assertEqual(self.played.runs("search.backfill"), ["success"] * 10)
        self.assertEqual(self.played.most_running["search.backfill"], 2)

    def test_a_backfill_of_the_last_week(self):
        """Of seven days the last has its run; the others run two at a time, and in so many seconds all have ended."""
        played = Played(EXAMPLES / "demo.json", START, 5)
        self.assertEqual([it.run_id for it in played.state.runs if it.dag_id == "payments.report"], ["scheduled__2026-11-27T00:00:00+00:00"])
        range_ = [instant_of(f"2026-11-{it}T00:00:00Z") for it in (21, 27)]
        played.state, made = oracle_state.backfill(played.state, "payments.report", *range_)
        self.assertEqual([it.run_id for it in made], [f"backfill__2026-11-{it}T00:00:00+00:00" for it in range(21, 27)])
        self.assertEqual(oracle_state.backfill(played.state, "payments.report", *range_)[1], [])
        for _ in range(10):
            played.second()
        self.assertEqual(played.runs("payments.report"), ["success"] * 7)
        self.assertEqual(played.most_running["payments.report"], 2)

    def test_on_call_for_one_dag(self):
        """What nora is answered on the walk: of refunds what she may do, of all else the first permission that is missing."""
        plane, refunds = oracle.Plane((EXAMPLES / "demo.json").read_bytes(), instant_of(START)), "/api/v1/dags/payments.refund/dagRuns"

        def ask(user, method, path, body=""):
            head = f"{method} {path} HTTP/1.1\r\nHost: h\r\nAuthorization: Bearer {user}-demo-token\r\nContent-Length: {len(body)}\r\n\r\n"
            first, _, told = oracle.answers(plane, (head + body).encode())[0].decode().partition("\r\n\r\n")
            return int(first.split(" ")[1]), json.loads(told)

        self.assertEqual(ask("pia", "POST", refunds, '{"dag_run_id":"r1"}')[0], 200)
        self.assertEqual(ask("pia", "POST", "/api/v1/dags/payments.charge/dagRuns", "{}")[0], 200)
        given = [f"DAG:payments.refund.{it}" for it in ("can_read", "can_edit")] + [f"DAG Run:payments.refund.{it}" for it in ("can_create", "can_read", "can_edit")]
        self.assertEqual(ask("nora", "GET", "/own/me")[1]["permissions"], given)
        self.assertEqual([it["dag_id"] for it in ask("nora", "GET", "/api/v1/dags")[1]["dags"]], ["payments.refund"])
        self.assertEqual(ask("nora", "POST", refunds, '{"dag_run_id":"r2","logical_date":"2026-11-28T00:00:00Z"}')[0], 200)
        listed = ask("nora", "GET", "/api/v1/dags/~/dagRuns")[1]
        self.assertEqual(([it["dag_run_id"] for it in listed["dag_runs"]], listed["total_entries"]), (["r1", "r2"], 2))
        self.assertEqual(ask("audrey", "GET", "/api/v1/dags/~/dagRuns")[1]["total_entries"], 3)
        cleared = ask("nora", "POST", f"{refunds}/r1/clear", '{"dry_run":false}')[1]["task_instances"]
        self.assertEqual([it["task_id"] for it in cleared], ["check", "pay", "notify"])
        for method, path, missing in (
            ("POST", "/api/v1/dags/payments.charge/dagRuns", "DAG:payments.charge.can_edit"),
            ("DELETE", f"{refunds}/r1", "DAG Runs.can_delete"),
            ("GET", f"{refunds}/r1/taskInstances", "Task Instances.can_read"),
            ("GET", "/api/v1/dags/search.crawl/dagRuns", "DAG:search.crawl.can_read"),
        ):
            status, told = ask("nora", method, path, "{}" if method == "POST" else "")
            self.assertEqual((status, told["detail"]), (403, f"missing permission {missing}"))

    def test_what_does_not_run_by_itself(self):
        self.assertEqual(self.played.runs("search.purge"), [])
        self.assertEqual(self.played.runs("payments.refund"), [])

    def test_how_fast_entries_come(self):
        self.assertIn(self.played.entries, range(150, 220))


class Configurations(unittest.TestCase):
    def test_they_are_accepted_and_nothing_in_them_is_ignored(self):
        for path in sorted(EXAMPLES.glob("*.json")):
            with self.subTest(path.name):
                self.assertEqual(check_config.judged(str(path)), (0, "accepted", []))

    def test_users_have_the_tokens_that_the_page_names(self):
        page = (EXAMPLES / "README.md").read_text(encoding="utf-8")
        for name in ("base.json", "daily.json", "team.json", "demo.json"):
            table = re.search(rf"(?ms)^\| `{re.escape(name)}` \| Token \|.*?^\n", page)[0]
            told = {}
            for names, tokens in re.findall(r"(?m)^\| ([a-z, ]+) \| ((?:`[^`]+`(?:, )?)+) \|", table):
                told.update(zip(names.split(", "), re.findall(r"`([^`]+)`", tokens)))
            digests = {user: hashlib.sha256(token.encode()).hexdigest() for user, token in told.items()}
            with self.subTest(name):
                users = json.loads((EXAMPLES / name).read_bytes())["users"]
                self.assertEqual(digests, {it["username"]: it["token_sha256"] for it in users})

    def test_the_walk_asks_for_operations_by_users_of_the_demo(self):
        page = (EXAMPLES / "README.md").read_text(encoding="utf-8")
        users = {it["username"] for it in json.loads((EXAMPLES / "demo.json").read_bytes())["users"]}
        asked = re.findall(r"ask ([a-z]+) '?(/[^ '|;\n]+)'?([^|;\n]*)", "\n".join(re.findall(r"(?m)^    (.*)$", page)))
        self.assertGreater(len(asked), 15)
        for user, target, more in asked:
            method = re.search(r"-X ([A-Z]+)", more)
            method = method[1] if method else "POST" if "-d " in more else "GET"
            with self.subTest(user=user, method=method, target=target):
                self.assertIn(user, users)
                self.assertIsNotNone(route(target.partition("?")[0].encode(), method.encode(), LANDED)[0])


if __name__ == "__main__":
    sys.exit(unittest.main())
