#!/usr/bin/env python3
"""1,024 DAGs with 65,536 runs each stay usable: the page reads pages, and shows a part."""
import time
import unittest

from case import Case
from servers import MadeUp, page_of


DAGS, RUNS = 1024, 65536
WHEN = "2026-11-30T06:{:02}:{:02}+00:00"


def dag(at):
    return {"dag_id": f"team{at % 8}.dag{at:04}", "is_paused": at % 5 == 0, "max_active_runs": 16, "next_dagrun": None, "schedule_interval": None}


def run(at, of="team3.dag0003"):
    when = WHEN.format(at // 60 % 60, at % 60)
    return {"dag_id": of, "dag_run_id": f"run{at:05}", "data_interval_start": when, "data_interval_end": when, "logical_date": when, "run_type": "manual",
        "start_date": when, "end_date": when,
            "state": "failed" if at % 1000 == 7 else "success"}


def task(at):
    return {"task_id": f"t{at:03}", "downstream_task_ids": [f"t{it:03}" for it in (at + 1, at + 7) if it < 512], "pool": "default_pool", "pool_slots": 1,
            "priority_weight": 1, "retries": 0, "trigger_rule": "all_success"}


def many(path, query):
    """1,024 DAGs, each with 65,536 runs of 20 tasks: as many of each as the server takes."""
    if path == ["me"]:
        return {"username": "any", "policy_version": 0, "roles": ["Viewer"],
            "permissions": ["DAGs.can_read", "DAG Runs.can_read", "Task Instances.can_read", "Audit Logs.can_read"]}
    if path == ["dags"]:
        return page_of(dag, "dags", query, DAGS)
    if path == ["eventLogs"]:
        return page_of(lambda at: {"dag_id": None, "event": "post_pool" if at == 900000 else "tick", "event_log_id": at + 1,
            "owner": "otto" if at == 900000 else "scheduler", "policy_version": 0, "run_id": None, "task_id": None,
            "when": WHEN.format(0, 0)}, "event_logs", query, 1000000)
    if path[-1] == "dagRuns":
        return page_of(lambda at: run(at, "team3.dag0003" if path[1] == "~" else path[1]), "dag_runs", query, RUNS)
    if path[-1] == "tasks":
        if path[1].endswith("0512"):
            return {"tasks": [task(at) for at in range(512)], "total_entries": 512}
        return {"tasks": [{"task_id": f"t{at}", "downstream_task_ids": [f"t{at + 1}"] if at < 19 else [], "pool": "default_pool", "pool_slots": 1,
            "priority_weight": 1, "retries": 0, "trigger_rule": "all_success"} for at in range(20)], "total_entries": 20}
    if path[-1] == "taskInstances":
        return page_of(lambda at: {"dag_id": path[1], "dag_run_id": path[3], "task_id": f"t{at}", "start_date": WHEN.format(0, 0),
            "end_date": WHEN.format(0, 1), "pool": "default_pool", "pool_slots": 1, "priority_weight": 1, "state": "success",
            "try_number": 1}, "task_instances", query, 20)
    return {**dag(int(path[1][-4:])), "dag_id": path[1]} if len(path) == 2 else None


class Many(Case, unittest.TestCase):
    @classmethod
    def opens(cls, keep):
        cls.made = keep(MadeUp(many))
        return cls.made.port

    def test_the_dags_are_pages(self):
        began = time.monotonic()
        self.browser.sign_in("any", "#/dags")
        self.browser.see("1–25 of 1,024")
        self.browser.wait(lambda: self.browser.js("return document.querySelectorAll('svg.bars[aria-label^=\"The last 14 runs\"]').length") == 25,
            "the last runs of a page", 30)
        # a page of DAGs, of each the end of its list of runs in two requests, and what is followed beside
        self.assertLess(len(self.page.noted(began)), 70)
        self.assertLess(self.browser.js("return document.querySelectorAll('*').length"), 3000)
        self.browser.press("Next")
        self.browser.see("26–50 of 1,024", "team1.dag0025")

    def test_a_dag_is_found_by_name(self):
        self.browser.sign_in("any", "#/dags")
        self.browser.see("of 1,024")
        self.browser.fill("input[type=search]", "dag0777")
        self.browser.wait(lambda: [it[1].split("\n")[0] for it in self.browser.rows("DAGs")] == ["team1.dag0777"], "the DAG", 20)
        self.assertEqual(self.browser.js("return document.activeElement.type"), "search")

    def test_the_newest_runs_of_many(self):
        began = time.monotonic()
        self.browser.sign_in("any", "#/dags/team3.dag0003")
        self.browser.see("runs 65,512–65,536 of 65,536")
        self.browser.wait(lambda: self.browser.js("return document.querySelectorAll('td.cell.is-success').length") == 25 * 20, "the grid", 30)
        self.assertLess(len(self.page.noted(began)), 45)
        self.browser.press("Older")
        self.browser.see("runs 65,487–65,511 of 65,536")
        self.browser.press("Newest")
        self.browser.see("runs 65,512–65,536 of 65,536")

    def test_a_dag_of_512_tasks(self):
        """As many as a DAG may have: a hundred at a time in the grid, all of them in the graph."""
        self.browser.sign_in("any", "#/dags/team0.dag0512?runs=10")
        self.browser.see("1–100 of 512")
        self.assertEqual(self.browser.js("return document.querySelectorAll('table.grid tbody tr').length"), 100)
        self.browser.press("Tasks after")
        self.browser.see("101–200 of 512", "t100")
        self.browser.press("Graph")
        self.browser.wait(lambda: self.browser.js("return document.querySelectorAll('.node').length") == 512, "the graph", 60)
        places = self.browser.js("return [...document.querySelectorAll('.node')].map((it) => it.getAttribute('transform'))")
        self.assertEqual(len(set(places)), 512, "no two tasks have one place")

    def test_a_server_that_begins_anew(self):
        """Smaller numbers than before: what was read of the server before is not shown as if it were of this one."""
        def anew(path, query):
            row = {"dag_id": None, "event": "delete_pool", "owner": "adam", "policy_version": 0, "run_id": None, "task_id": None, "when": WHEN.format(1, 1)}
            return page_of(lambda at: {**row, "event_log_id": at + 1}, "event_logs", query, 3) if path == ["eventLogs"] else many(path, query)
        self.made.seq = 1000000
        self.browser.sign_in("any", "#/events?kind=all")
        self.browser.see("newest 100 entries of 1,000,000")
        self.browser.press("Older entries")
        self.browser.see("newest 200 entries of 1,000,000")
        try:
            self.made.answer, self.made.seq = anew, 3
            self.browser.see("The server was started again. Runs, entries and changes from before are gone.", "newest 3 entries of 3")
            self.assertEqual([it[:3:2] for it in self.browser.rows("Entries of the event log")], [["3", "adam"], ["2", "adam"], ["1", "adam"]])
        finally:
            self.made.answer, self.made.seq = many, 1000001

    def test_failed_ones_of_many_and_an_entry_far_back(self):
        self.browser.sign_in("any", "#/runs?state=failed")
        self.browser.wait(lambda: [it[2] for it in self.browser.rows("Runs")] == ["run65007"], "the newest that failed", 30)
        self.browser.press("Look further back")
        self.browser.wait(lambda: [it[2] for it in self.browser.rows("Runs")] == ["run65007", "run64007"], "the next that failed", 30)
        self.browser.go("#/events")
        self.browser.see("in the newest 1,000 entries of 1,000,000.", seconds=30)
        self.assertLess(self.browser.js("return document.querySelectorAll('*').length"), 3000)


if __name__ == "__main__":
    unittest.main()
