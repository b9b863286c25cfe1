#!/usr/bin/env python3
"""Whether worked_run_pairs.py tells a right program from a wrong one: models that are each wrong in one thing about permissions on the runs of one DAG, made
here of the right one. Each is to answer some step of a worked connection otherwise than was worked out.

  python3 conformance/worked_wrong_test.py
"""
import json
import unittest
from dataclasses import replace
from unittest import mock

import with_model  # noqa: F401
import oracle
import oracle_bodies
import oracle_ops
import oracle_policy
import oracle_state
import oracle_table
import oracle_verdict
from blind_cases import BASE
from oracle_names import instant_of
from oracle_policy import ACTIONS, OF_ONE_DAG, meets, reads, sync_dag
from worked_policies import CONNECTIONS
from worked_rows import exchanges
from worked_run_pairs import RUN_PAIRS

RUNS = "DAG Runs"


# ---- Wrong models ----------------------------------------------------------------------------------------------


def several(*patches):
    def start():
        for it in patches:
            it.start()
        return lambda: [it.stop() for it in patches]

    return start


def met(wrong):
    """Requirements on runs are met by another rule; the others by the right one."""

    def leaky(granted, action, resource, dag_id, dags):
        right = meets(granted, action, resource, dag_id, dags)
        return right if resource != RUNS else wrong(right, granted, action, dag_id, dags)

    return several(mock.patch.object(oracle_verdict, "meets", leaky), mock.patch.object(oracle_policy, "meets", leaky))


def operation(needs=None, **acts):
    """Operations with other requirements, or that answer otherwise; `all_runs` is the listing of the runs of all DAGs."""

    def changed(it):
        name = "all_runs" if "{~}" in it.path else it.name
        return replace(it, act=acts.get(name, it.act), needs=(needs or {}).get(name, it.needs))

    return several(mock.patch.object(oracle_table, "OPERATIONS", [changed(it) for it in oracle_table.OPERATIONS]))


def runs_where(shows, counts=None):
    """The list of the runs of all DAGs, of runs that are shown by another rule, or counted by another."""

    def act(call):
        shown = [it for it in call.state.runs if shows(call, it.dag_id)]
        told = call.page("dag_runs", shown, oracle_state.show_run)
        total = sum(counts(call, it.dag_id) for it in call.state.runs) if counts else len(shown)
        return call.state, {**told, "total_entries": total}

    return operation(all_runs=act)


def right_rows(call, dag_id):
    return call.reads_runs(dag_id)


def runs_alone(call, dag_id):
    return meets(call.granted, "can_read", RUNS, dag_id, [])


def synced(wrong):
    """Another policy after a sync; of the policy before, the DAG, what is listed, and the right policy after."""

    def leaky(policy, dag_id, access):
        after = sync_dag(policy, dag_id, access)
        return after if access is None else replace(after, roles=wrong(policy.roles, dag_id, access, after.roles))

    return several(mock.patch.object(oracle_policy, "sync_dag", leaky))


def own(dag_id, *kinds):
    return [OF_ONE_DAG[it] + dag_id for it in kinds]


def leaves(kind, is_left):
    """A sync that leaves pairs of one kind, for values of some form."""

    def wrong(before, dag_id, access, after):
        kept = {name: {it for it in pairs if it[1] in own(dag_id, kind)} for name, pairs in before.items() if is_left(access.get(name, []))}
        return {name: pairs | kept.get(name, set()) for name, pairs in after.items()}

    return synced(wrong)


def admin_loses(before, dag_id, access, after):
    lists = oracle_policy.lists_of(access.get("Admin", {}))
    got = {(it, OF_ONE_DAG[kind] + dag_id) for kind, actions in lists.items() for it in actions}
    return {**after, "Admin": frozenset({it for it in before["Admin"] if it[1] not in own(dag_id, *OF_ONE_DAG)} | got)}


def takes_by_the_beginning(before, dag_id, access, after):
    begins = tuple(own(dag_id, RUNS))
    return {name: frozenset(it for it in pairs if it[1] in begins or not it[1].startswith(begins)) for name, pairs in after.items()}


def adds_nothing_to_runs(before, dag_id, access, after):
    return {name: frozenset(it for it in pairs if name == "Admin" or it[1] not in own(dag_id, RUNS)) for name, pairs in after.items()}


def dags_first(policy, dag_id, access):
    for _, value in sorted((access or {}).items()):
        for kind, actions in sorted(oracle_policy.lists_of(value).items(), reverse=True):
            for it in actions:
                if it not in oracle_policy.ONE_DAG_ACTIONS[kind]:
                    raise oracle_policy.Fault("bad action", it)
    return sync_dag(policy, dag_id, access)


def entries_by_runs(call):
    shown = [it for it in call.entries if it["dag_id"] is None or call.reads_runs(it["dag_id"])]
    return call.state, call.page("event_logs", shown, lambda it: {**it, "when": oracle_ops.isoformat(it["when"])})


def some(granted, actions, dags):
    return any((it, f"DAG Run:{dag}") in granted for it in actions for dag in dags)


is_listed, is_allowed, permission_text, pair_order = oracle_bodies.is_listed, oracle_policy.is_allowed, oracle_policy.permission_text, oracle_policy.pair_order
READ_DAG, READ_INSTANCES = ("can_read", "DAGs"), ("can_read", "Task Instances")
NEEDS_NO_RUNS = {"list_instances": [READ_DAG, READ_INSTANCES], "show_instance": [READ_DAG, READ_INSTANCES]}

WRONG = {
    "all runs are met by the runs of a DAG that is not read": met(lambda right, granted, action, dag_id, dags: right or not dag_id and some(granted, [action], dags)),
    "all runs are met by the runs of a DAG that is not there": met(
        lambda right, granted, action, dag_id, dags: right or not dag_id and some(granted, [action], [it for it in ("gone", *dags) if reads(granted, it)])),
    "all runs are met by all runs alone": met(lambda right, granted, action, dag_id, dags: right and (dag_id is not None or (action, RUNS) in granted)),
    "all runs are met by any action on the runs of a DAG that is read": met(
        lambda right, granted, action, dag_id, dags: right or not dag_id and some(granted, ACTIONS, [it for it in dags if reads(granted, it)])),
    "create is met by edit": met(lambda right, granted, action, dag_id, dags: right or action == "can_create" and some(granted, ["can_edit"], [dag_id])),
    "edit is met by create": met(lambda right, granted, action, dag_id, dags: right or action == "can_edit" and some(granted, ["can_create"], [dag_id])),
    "delete is met by edit": met(lambda right, granted, action, dag_id, dags: right or action == "can_delete" and some(granted, ["can_edit"], [dag_id])),
    "read is met by any action": met(lambda right, granted, action, dag_id, dags: right or action == "can_read" and some(granted, ACTIONS, [dag_id])),
    "the runs of one DAG are met by those of another": met(lambda right, granted, action, dag_id, dags: right or dag_id is not None and some(granted, [action], ["a", "b"])),
    "the runs of one DAG are met by the DAG": met(lambda right, granted, action, dag_id, dags: right or (action, f"DAG:{dag_id}") in granted),
    "the runs of one DAG are met by all runs alone": met(lambda right, granted, action, dag_id, dags: (action, RUNS) in granted),
    "instances are shown where the run is not": operation(needs=NEEDS_NO_RUNS),
    "the total counts runs of DAGs that are read": runs_where(right_rows, oracle_ops.Call.reads),
    "the total counts all runs": runs_where(right_rows, lambda call, dag_id: True),
    "runs are shown where the DAG is read": runs_where(oracle_ops.Call.reads),
    "runs are shown where the runs are read": runs_where(runs_alone),
    "event logs are cut by the runs that are read": operation(list_entries=entries_by_runs),
    "a denial names the runs of the DAG": several(mock.patch.object(
        oracle_verdict, "permission_text", lambda action, resource, dag_id: f"DAG Run:{dag_id}.{action}" if dag_id and resource == RUNS else permission_text(action, resource, dag_id))),
    "pairs on runs stand before those on DAGs": several(mock.patch.object(oracle_policy, "pair_order", lambda it: (pair_order(it)[0] % 9 + it[1].startswith("DAG:") * 9, it[1], pair_order(it)[2]))),
    "pairs on DAGs and on runs stand together by id": several(mock.patch.object(oracle_policy, "pair_order", lambda it: (min(pair_order(it)[0], 8), it[1].partition(":")[2], pair_order(it)))),
    "no role may create the runs of one DAG": several(mock.patch.object(oracle_policy, "is_allowed", lambda action, resource: is_allowed(action, resource) and (action, resource[:8]) != ("can_create", "DAG Run:"))),
    "any text may follow": several(mock.patch.object(oracle_policy, "is_allowed", lambda action, resource: is_allowed(action, resource) or resource.startswith("DAG Run:"))),
    "there are no pairs on runs": several(mock.patch.object(oracle_policy, "is_allowed", lambda action, resource: is_allowed(action, resource) and not resource.startswith("DAG Run:"))),
    "the list form leaves the pairs on runs": leaves(RUNS, lambda value: type(value) is list),
    "the object form leaves the pairs on the DAG that it does not list": leaves("DAGs", lambda value: type(value) is dict and value.get("DAGs") is None),
    "the object form leaves the pairs on runs that it does not list": leaves(RUNS, lambda value: type(value) is dict and value.get(RUNS) is None),
    "an empty object leaves what there is": leaves("DAGs", lambda value: value == {}),
    "the object form adds to what there is": leaves(RUNS, lambda value: type(value) is dict),
    "the object form takes from Admin": synced(lambda before, dag_id, access, after: admin_loses(before, dag_id, access, after) if type(access.get("Admin")) is dict else after),
    "a sync takes from an Admin that it does not list": synced(lambda before, dag_id, access, after: after if "Admin" in access else admin_loses(before, dag_id, access, after)),
    "a sync takes the runs of DAGs whose ids begin so": synced(takes_by_the_beginning),
    "the object form adds no pairs on runs": synced(adds_nothing_to_runs),
    "actions on the DAG are tested before those on runs": several(mock.patch.object(oracle_policy, "sync_dag", dags_first)),
    "another member is not looked at": several(mock.patch.object(oracle_bodies, "is_listed", lambda value: is_listed({it: of for it, of in value.items() if it in OF_ONE_DAG} if type(value) is dict else value)),
        mock.patch.object(oracle_policy, "lists_of", lambda value: {"DAGs": value} if type(value) is list else {it: of for it, of in value.items() if of is not None and it in OF_ONE_DAG})),
    "a null among the members is refused": several(mock.patch.object(oracle_bodies, "is_listed", lambda value: is_listed(value) and (type(value) is list or None not in value.values()))),
    "there is no object form": several(mock.patch.object(oracle_bodies, "is_listed", lambda value: type(value) is list and is_listed(value))),
}  # fmt: skip


def first_wrong(connections):
    """The first step of the connections of which the model does not answer what was worked out; none where there is no such."""
    for title, _, now, members, steps in connections:
        plane = oracle.Plane(json.dumps({**BASE, **members}).encode(), instant_of(now))
        for step, (asked, wanted) in zip(steps, exchanges(steps)):
            if oracle.answers(plane, asked) != (wanted, True):
                return title, step
    return None


class Wrong(unittest.TestCase):
    def test_the_model_is_right(self):
        self.assertIsNone(first_wrong(CONNECTIONS))

    def test_each_wrong_one_is_told(self):
        for title, start in WRONG.items():
            stop = start()
            try:
                found = first_wrong(RUN_PAIRS)
            finally:
                stop()
            with self.subTest(title):
                self.assertIsNotNone(found)
        self.assertIsNone(first_wrong(RUN_PAIRS))


if __name__ == "__main__":
    unittest.main()
