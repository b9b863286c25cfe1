#!/usr/bin/env python3
"""Tests of blindness.py over the reference model: the model passes, and each model that leaks something, made here of that one, fails.

  python3 conformance/blindness_test.py
"""
import contextlib
import io
import itertools
import json
import os
import shlex
import sys
import unittest
from dataclasses import replace
from unittest import mock

import with_model  # noqa: F401
import blind_cases
import blindness
import oracle
import oracle_ops
import oracle_state as states
import oracle_table
import oracle_verdict
from oracle_names import instant_of
from oracle_policy import meets
from worked_rows import answer, request

SEED, PAIRS = 7, 120


# ---- Models that leak ------------------------------------------------------------------------------------------


def operations(needs=None, **acts):
    """The table of operations with others in place of some, or with other requirements; `all_runs` is the listing of the runs of all DAGs."""

    def changed(it):
        name = "all_runs" if "{~}" in it.path else it.name
        return replace(it, act=acts.get(name, it.act), needs=(needs or {}).get(name, it.needs))

    return mock.patch.object(oracle_table, "OPERATIONS", [changed(it) for it in oracle_table.OPERATIONS])


def dags_counted_whole(call):
    state, told = oracle_ops.list_dags(call)
    return state, {**told, "total_entries": len(state.dags)}


def runs_counted_whole(call):
    state, told = oracle_ops.list_all_runs(call)
    return state, {**told, "total_entries": len(state.runs)}


def runs_cut_after_the_page(call):
    state, told = oracle_ops.list_all_runs(call)
    page = [it for it in state.runs[call.offset : call.offset + call.limit] if call.reads(it.dag_id)]
    return state, {**told, "dag_runs": [states.show_run(it) for it in page]}


def runs_of_dags_counted(call):
    state, told = oracle_ops.list_all_runs(call)
    return state, {**told, "total_entries": sum(call.reads(it.dag_id) for it in state.runs)}


def runs_shown_by_dags(call):
    return call.state, call.page("dag_runs", [it for it in call.state.runs if call.reads(it.dag_id)], states.show_run)


def runs_cut_by_runs_after_the_page(call):
    rows = [it for it in call.state.runs if call.reads(it.dag_id)]
    state, told = oracle_ops.list_all_runs(call)
    page = [it for it in rows[call.offset : call.offset + call.limit] if call.reads_runs(it.dag_id)]
    return state, {**told, "dag_runs": [states.show_run(it) for it in page]}


def dag_with_a_count(call):
    """A DAG of which is told how many more runs it may have at a time."""
    state, told = oracle_ops.show_dag(call)
    return state, {**told, "max_active_runs": told["max_active_runs"] - len(states.runs_of(state, *call.names))}


def run_of_any_dag(call):
    """The run is looked up by its id alone, across DAGs."""
    states.the_dag(call.state, call.names[0])
    found = [it for it in call.state.runs if it.run_id == call.names[1]]
    return (call.state, states.show_run(found[0])) if found else oracle_ops.show_run(call)


def run_by_number(call):
    """The run is looked up by its place among all runs, as if numbers were those of one DAG."""
    wanted = states.the_run(call.state, *call.names)
    place = states.runs_of(call.state, call.names[0]).index(wanted)
    return call.state, states.show_run(call.state.runs[place])


def absence_first(*names):
    """A DAG that is not there is told before a denial; of some operations, or of all."""
    permitted = oracle_verdict.permitted

    def leaky(plane, operation, parts, token):
        user, granted, denied = permitted(plane, operation, parts, token)
        if denied and user and operation.name in (names or [operation.name]) and "{dag_id}" in operation.path and parts[0] not in plane.state.dags:
            denied = oracle_verdict.told(404, f"no such dag: {parts[0]}")
        return user, granted, denied

    return mock.patch.object(oracle_verdict, "permitted", leaky)


def absence_of_a_run_first():
    """A run that is not there is told before a denial that names runs."""
    permitted = oracle_verdict.permitted

    def leaky(plane, operation, parts, token):
        user, granted, denied = permitted(plane, operation, parts, token)
        if denied and user and "DAG Runs" in denied[1]["detail"] and len(parts) > 1:
            if not any((it.dag_id, it.run_id) == tuple(parts[:2]) for it in plane.state.runs):
                denied = oracle_verdict.told(404, f"no such run: {parts[1]}")
        return user, granted, denied

    return mock.patch.object(oracle_verdict, "permitted", leaky)


def met_by_runs_of_any_dag():
    """Who reads the runs of some DAG that is there may list all runs, whether or not that DAG is read."""

    def leaky(granted, action, resource, dag_id, dags):
        some = resource == "DAG Runs" and dag_id is None and any((action, f"DAG Run:{it}") in granted for it in dags)
        return some or meets(granted, action, resource, dag_id, dags)

    return mock.patch.object(oracle_verdict, "meets", leaky)


def met_by_any_action():
    """Who may do anything at all on some DAG that is there may list DAGs."""

    def leaky(granted, action, resource, dag_id, dags):
        some = resource == "DAGs" and dag_id is None and any(it[1] == f"DAG:{dag}" for dag in dags for it in granted)
        return some or meets(granted, action, resource, dag_id, dags)

    return mock.patch.object(oracle_verdict, "meets", leaky)


def length_of_the_uncut_list():
    """A second length is told of a listing of DAGs, that of all of them."""
    decide = oracle.decide

    def leaky(plane, method, target, token, body):
        status, shown, fields = decide(plane, method, target, token, body)
        if shown and "dags" in shown:
            fields.append(f"Content-Length: {len(json.dumps([states.show_dag(it) for it in plane.state.dags.values()]))}")
        return status, shown, fields

    return mock.patch.object(oracle, "decide", leaky)


READ_DAG, READ_INSTANCES = ("can_read", "DAGs"), ("can_read", "Task Instances")
# Of runs of DAGs that are read, whose runs are not.
RUN_LEAKS = {
    "a total of runs that counts those of all DAGs that are read": operations(all_runs=runs_of_dags_counted),
    "all runs of DAGs that are read": operations(all_runs=runs_shown_by_dags),
    "runs that are cut by the runs that are read, after the page": operations(all_runs=runs_cut_by_runs_after_the_page),
    "a run without a requirement on runs": operations({"show_run": [READ_DAG]}),
    "runs of one DAG without a requirement on runs": operations({"list_runs": [READ_DAG]}),
    "instances without a requirement on runs": operations({it: [READ_DAG, READ_INSTANCES] for it in ("list_instances", "show_instance")}),
    "a DAG that tells how many runs it has": operations(show_dag=dag_with_a_count),
    "absence of a run before a denial": absence_of_a_run_first(),
    "all runs that the runs of a hidden DAG meet": met_by_runs_of_any_dag(),
}
LEAKS = {
    "a total of DAGs that counts hidden ones": operations(list_dags=dags_counted_whole),
    "a total of runs that counts hidden ones": operations(all_runs=runs_counted_whole),
    "runs that are cut by DAGs after the page": operations(all_runs=runs_cut_after_the_page),
    "a run that is looked up across DAGs": operations(show_run=run_of_any_dag),
    "a run that is looked up by its number": operations(show_run=run_by_number),
    "absence before a denial": absence_first(),
    "absence before a denial, of a backfill": absence_first("backfill"),
    "a requirement on some DAG that any action meets": met_by_any_action(),
    "a length of the uncut list": length_of_the_uncut_list(),
    **RUN_LEAKS,
}


class Leaks(unittest.TestCase):
    def test_the_model_passes(self):
        passed, failed, differ = blindness.play(blindness.by_model, PAIRS, SEED)
        self.assertEqual((passed, failed), (PAIRS + blindness.FIXED, 0))
        self.assertGreater(differ, PAIRS * 0.9)

    def test_each_leak_is_caught(self):
        """By two of the random pairs at least."""
        for title, leak in LEAKS.items():
            with self.subTest(title), leak:
                random_ones = itertools.islice(blindness.pairs(PAIRS, SEED), blindness.FIXED, None)
                caught = (it for it in random_ones if isinstance(verdict_on(it), blindness.Failed))
                self.assertEqual(len(list(itertools.islice(caught, 2))), 2)

    def test_the_fixed_pairs_catch_most(self):
        """And what is caught is counted and told."""
        for title, leak in LEAKS.items():
            said = []
            with self.subTest(title), leak:
                passed, failed, _ = blindness.play(blindness.by_model, 0, SEED, said.append)
                self.assertEqual(passed + failed, blindness.FIXED)
                self.assertGreater(failed, 0)
                self.assertIn("on the other", said[0])


def verdict_on(pair, run=blindness.by_model):
    try:
        return blindness.check(run, pair)
    except blindness.Failed as why:
        return why


# ---- The fixed pairs, and what makes a pair worth nothing ------------------------------------------------------


class Fixed(unittest.TestCase):
    def test_answers_that_were_worked_out(self):
        """Those to bob, whole, with two DAGs more and without them."""
        for side in blind_cases.of_base().sides:
            plane = oracle.Plane(json.dumps(side.config).encode(), instant_of(blind_cases.NOW))
            for asked, status, told in blind_cases.OF_BOB:
                wanted = answer(asked, status, told, 0, 0)
                self.assertEqual(oracle.answers(plane, request("bob", asked)), (wanted, True))

    def test_each_kind_of_reader_sees_the_same(self):
        for pairs in (list(blind_cases.with_and_without()), list(blind_cases.with_and_without_runs())):
            self.assertGreaterEqual(len(pairs), 4)
            for it in pairs:
                with self.subTest(it.title):
                    self.assertIs(verdict_on(it), True)

    def test_what_a_reader_of_runs_meets(self):
        """Of the DAG whose runs are read rows of each kind, of the other DAGs the DAG alone; both sides have more runs than are shown."""
        (pair,) = (it for it in blind_cases.with_and_without_runs() if it.title == "who reads all DAGs, and the runs of one")
        told, _ = blindness.answers_on(blindness.by_model, pair, pair.sides[0])
        found = dict(zip(pair.asked, told))
        for asked, status in (("GET /dags/a", b"200"), ("GET /dags/a/tasks", b"200"), ("GET /dags/a/dagRuns", b"403"), ("GET /dags/a/dagRuns/r1", b"403"),
                ("GET /dags/a/dagRuns/gone", b"403"), ("GET /dags/a/dagRuns/r1/taskInstances", b"403"), ("GET /dags/d/dagRuns/r1", b"200"),
                ("GET /dags/d/dagRuns/r1/taskInstances/u", b"200"), ("GET /dags/d/dagRuns/gone", b"404"), ("GET /dags/gone/dagRuns", b"403")):
            self.assertEqual(found[asked][9:12], status, asked)
        rows = json.loads(found["GET /dags/~/dagRuns"].partition(b"\r\n\r\n")[2])
        self.assertEqual((rows["total_entries"], {it["dag_id"] for it in rows["dag_runs"]}), (3, {"d"}))

    def test_what_the_readers_meet(self):
        """Pages and single rows of each operation, denials and absences: who reads some DAGs is answered 200, 400, 403 and 404."""
        (pair,) = (it for it in blind_cases.with_and_without() if it.title == "who reads some DAGs")
        told, _ = blindness.answers_on(blindness.by_model, pair, pair.sides[0])
        statuses = {(asked.count("/"), it[9:12]) for asked, it in zip(pair.asked, told)}
        for depth in range(1, 7):
            self.assertIn((depth, b"200"), statuses)
        self.assertEqual({it for _, it in statuses}, {b"200", b"400", b"403", b"404"})


class Called(unittest.TestCase):
    def called(self, *words):
        """What the command prints last, and its status; no pair is kept."""
        said = io.StringIO()
        with mock.patch.object(sys, "argv", ["blindness.py", *words]), mock.patch.object(blindness, "keep"), contextlib.redirect_stdout(said):
            with contextlib.redirect_stderr(io.StringIO()), self.assertRaises(SystemExit) as end:
                blindness.main()
        return said.getvalue().split("\n")[-2], end.exception.code

    def test_over_a_program(self):
        """The model called as a program passes; a program that answers nothing fails."""
        model = shlex.join([sys.executable, os.path.join(blind_cases.TOP, "model", "oracle.py")])
        self.assertEqual(self.called("--pairs", "2", "--seed", "3", "--program", model), (f"{2 + blindness.FIXED} passed, 0 failed", 0))
        self.assertEqual(self.called("--pairs", "2", "--seed", "3", "--program", "true"), (f"0 passed, {2 + blindness.FIXED} failed", 1))

    def test_over_the_model(self):
        self.assertEqual(self.called("--pairs", "3", "--model"), (f"{3 + blindness.FIXED} passed, 0 failed", 0))


class Worthless(unittest.TestCase):
    def pair(self, *changes):
        (one, _), asked = blind_cases.of_base().sides, ["GET /dags"]
        sides = (blind_cases.Side(one.config, list(changes)), one)
        return blind_cases.Pair("", "bob", sides, asked)

    def test_changes_that_are_not_done(self):
        """One that is denied, one that is refused, and one that leaves all as it is and so is not counted."""
        for change in (("PATCH /dags/gone", '{"is_paused":true}'), ("DELETE /dags/a/dagRuns/r1", ""), ("PATCH /dags/a", '{"is_paused":true}')):
            self.assertIn("a change of the admin is", str(verdict_on(self.pair(change))).replace("was", "is"))
        self.assertIs(verdict_on(self.pair(("PATCH /dags/a", '{"is_paused":false}'))), True)
        self.assertIs(verdict_on(self.pair()), False)

    def test_pairs_that_the_admin_does_not_tell_apart(self):
        with mock.patch.object(blindness, "pairs", lambda count, seed: [self.pair()] * count):
            self.assertEqual(blindness.play(blindness.by_model, 3, 1, lambda _: None), (3, 1, 0))

    def test_answers_that_are_not_whole(self):
        whole = b"HTTP/1.1 204 No Content\r\nX-Policy-Version: 0\r\nX-Plane-Seq: 1\r\n\r\n"
        self.assertEqual(blindness.answers_of(whole + whole), [whole, whole])
        for out in (whole[:-1], b"x" + whole, whole.replace(b"X-Plane-Seq", b"Content-Length")):
            with self.assertRaises(blindness.Failed):
                blindness.answers_of(out)

    def test_what_may_differ(self):
        """The two numbers in the head, and nothing else: neither their fields nor a body that has such a line."""
        head, body = b"HTTP/1.1 200 OK\r\nX-Policy-Version: %d\r\nX-Plane-Seq: %d\r\n\r\n", b"\r\nX-Plane-Seq: %d\r\n"
        same = blindness.without_numbers(head % (1, 2) + body % 3)
        self.assertEqual(same, blindness.without_numbers(head % (44, 0) + body % 3))
        for other in (head % (1, 2) + body % 4, (head % (1, 2)).replace(b"X-Plane-Seq: 2\r\n", b"") + body % 3):
            self.assertNotEqual(same, blindness.without_numbers(other))


if __name__ == "__main__":
    unittest.main()
