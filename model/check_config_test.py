"""What `afplane check` says of configurations: lines that are written out by hand.

  python3 model/check_config_test.py
"""
import json
import os
import tempfile
import unittest

import check_config

USER = {"username": "root", "roles": [{"name": "Admin"}], "token_sha256": "0" * 64}
PAIR = {"action": {"name": "can_read"}, "resource": {"name": "DAGs"}}
ID = "1 to 250 of A-Z, a-z, 0-9, '_', '-' and '.'"


def dag(*tasks, **members):
    return {"dags": [{"dag_id": "a", "tasks": [{"task_id": "t"}]}, {"dag_id": "b", "tasks": [*tasks] or [{"task_id": "t"}], **members}]}


class Check(unittest.TestCase):
    def said(self, data):
        with tempfile.TemporaryDirectory() as folder:
            path = os.path.join(folder, "config.json")
            with open(path, "wb") as file:
                file.write(data)
            return check_config.check(path)

    def refused(self, members, reason, line):
        with self.subTest(line):
            config = json.dumps({"users": [USER], **members}).encode()
            self.assertEqual(self.said(config), (3, f"afplane: configuration refused: {reason}: {line}"))

    def test_accepted(self):
        self.assertEqual(self.said(json.dumps({"users": [USER], **dag()}).encode()), (0, "accepted"))

    def test_ignored(self):
        user = {**USER, "email": "root@example.com", "roles": [{"name": "Admin", "id": 1}]}
        members = dag({"task_id": "x", "downstream": [], "retrys": None}, schedule_interval="@daily")
        config = json.dumps({"users": [user], "pools": None, "dag": [], "a\nb": 1, **members})
        known = "dag_id, schedule, start_date, catchup, max_active_runs, is_paused, access_control, tasks"
        of_task = "task_id, upstream, pool, pool_slots, priority_weight, retries, retry_delay, trigger_rule, script"
        of_file = "a configuration has only roles, users, pools, variables, dags, history_limit, version_limit"
        lines = [
            f"dag: ignored, since {of_file}",
            f'"a\\nb": ignored, since {of_file}',
            'users[0].email (user "root"): ignored, since a user has only username, roles, token_sha256',
            f'dags[1].schedule_interval (DAG "b"): ignored, since a DAG has only {known}',
            f'dags[1].tasks[0].downstream (DAG "b", task "x"): ignored, since a task has only {of_task}',
            f'dags[1].tasks[0].retrys (DAG "b", task "x"): ignored, since a task has only {of_task}',
        ]
        self.assertEqual(check_config.ignored(config.encode()), lines)
        self.assertEqual(self.said(config.encode()), (0, "accepted"))
        many = check_config.ignored(json.dumps({"users": [USER], **{f"x{n}": 0 for n in range(23)}}).encode())
        self.assertEqual((len(many), many[-1]), (21, "3 more members are ignored"))

    def test_members_are_those_of_the_page(self):
        with open(os.path.join(os.path.dirname(os.path.abspath(__file__)), "..", "docs", "CONFIGURATION.md"), encoding="utf-8") as file:
            page = file.read()
        for members in check_config.MEMBERS.values():
            for it in members.split():
                self.assertRegex(page, rf"`(?:\w+\[\]\.)?{it}`")

    def test_text(self):
        line = "afplane: configuration refused: syntax: the file: expected JSON (Expecting value at line 2, column 2)"
        self.assertEqual(self.said(b"{\n]"), (3, line.replace("Expecting value", "Expecting property name enclosed in double quotes").replace("column 2", "column 1")))
        self.assertEqual(self.said(b"[\n ,]"), (3, line))
        self.assertEqual(self.said(b"[]"), (3, "afplane: configuration refused: shape: the file: expected an object, found a list"))
        status, line = check_config.check(os.path.join("none", "none"))
        self.assertEqual((status, line), (3, "afplane: configuration refused: unreadable: the file: expected one that can be read (No such file or directory)"))

    def test_roles_and_users(self):
        role = {"name": "r", "actions": [PAIR, {"action": {"name": "can_fly"}, "resource": {"name": "DAGs"}}]}
        actions = "one of can_create, can_read, can_edit, can_delete"
        self.refused({"roles": 5}, "shape", "roles: expected a list, found an integer")
        self.refused({"roles": [role]}, "action", f'roles[0].actions[1].action.name (role "r"): expected {actions}, found "can_fly"')
        kinds = "DAGs, DAG Runs, Task Instances, Pools, Variables, Audit Logs, Roles, Users"
        resources = f"one of {kinds}, or 'DAG:' (not for can_create) or 'DAG Run:' and the id of a DAG"
        for resource in ("dags", "DAG Run:a b"):
            pair = {**PAIR, "resource": {"name": resource}}
            self.refused({"roles": [{"name": "r", "actions": [pair]}]}, "pair", f'roles[0].actions[0].resource.name (role "r"): expected {resources}, found "{resource}"')
        self.refused({"roles": [{"name": "r", "actions": [{"action": {}}]}]}, "shape", 'roles[0].actions[0].action.name (role "r"): expected a string, found nothing')
        twice = [USER, {**USER, "username": "x"}]
        self.refused({"users": twice}, "duplicate", 'users[1].token_sha256 (user "x"): expected a token that no earlier user has')
        self.refused({"users": [{**USER, "roles": [{"name": "Boss"}]}]}, "role", 'users[0].roles[0].name (user "root"): expected a role of this file or a default one, found "Boss"')
        self.refused({"users": [{**USER, "token_sha256": "root"}]}, "shape", 'users[0].token_sha256 (user "root"): expected 64 hexadecimal digits, the SHA-256 of the token')
        self.refused({"users": [{**USER, "roles": []}]}, "admin", "users: expected a user with the role Admin")

    def test_rows(self):
        self.refused({"pools": [{"name": "p", "slots": -1}]}, "limit", 'pools[0].slots (pool "p"): expected an integer from 0 to 1,000,000, found -1')
        self.refused({"pools": [{"slots": 1}]}, "shape", "pools[0].name: expected a string, found nothing")
        self.refused({"variables": ["k"]}, "shape", "variables[0]: expected an object, found a string")
        self.refused({"history_limit": 0}, "limit", "history_limit: expected an integer from 1 to 4,294,967,294, found 0")

    def test_dags(self):
        self.refused(dag(max_active_runs=1001), "limit", 'dags[1].max_active_runs (DAG "b"): expected an integer from 1 to 1,000, found 1001')
        self.refused(dag(is_paused="no"), "shape", 'dags[1].is_paused (DAG "b"): expected true or false, found a string')
        self.refused(dag(retries=1.0, dag_id="a b"), "name", f'dags[1].dag_id (DAG "a b"): expected {ID}, found "a b"')
        form = "a timestamp with its offset, as 2024-01-01T00:00:00Z, from 1970 to 9998"
        self.refused(dag(schedule="@daily"), "schedule", f'dags[1].start_date (DAG "b"): expected {form}, found nothing')
        self.refused(dag(access_control={"Boss": []}), "role", 'dags[1].access_control (DAG "b"): expected roles of this file or default ones, found "Boss"')

    def test_access_control(self):
        place = 'dags[1].access_control["Viewer"]'
        self.refused(dag(access_control={"Viewer": "x"}), "shape", f'{place} (DAG "b"): expected a list of strings, or an object of DAGs and DAG Runs')
        self.refused(dag(access_control={"Viewer": {"Pools": []}}), "shape", f'{place} (DAG "b"): expected no members but DAGs and DAG Runs, found "Pools"')
        self.refused(dag(access_control={"Viewer": {"DAG Runs": [1]}}), "shape", f'{place}.DAG Runs (DAG "b"): expected a list of strings')
        actions = "only can_read, can_edit, can_delete, and can_create for DAG Runs"
        for value in (["can_create"], {"DAGs": ["can_create"], "DAG Runs": ["can_create"]}):
            self.refused(dag(access_control={"Viewer": value}), "action", f'dags[1].access_control (DAG "b"): expected {actions}, found "can_create"')

    def test_tasks(self):
        self.refused(dag({"task_id": "x", "pool": "p"}), "pool", 'dags[1].tasks[0].pool (DAG "b", task "x"): expected a pool of this file or default_pool, found "p"')
        self.refused(dag({"task_id": "x", "retries": 1.0}), "shape", 'dags[1].tasks[0].retries (DAG "b", task "x"): expected an integer, found a number that is not a 64-bit integer')
        self.refused(dag({"task_id": "x", "upstream": ["y"]}), "graph", 'dags[1].tasks[0].upstream (DAG "b"): expected ids of tasks of this DAG, found "y"')
        cycle = [{"task_id": "x", "upstream": ["y"]}, {"task_id": "y", "upstream": ["x"]}]
        self.refused(dag(*cycle), "graph", 'dags[1].tasks (DAG "b"): expected no cycle, found one at or upstream of "x"')
        self.refused(dag({"task_id": "x"}, {"task_id": "x"}), "graph", 'dags[1].tasks[1].task_id (DAG "b"): expected an id that no earlier task has, found "x"')


if __name__ == "__main__":
    unittest.main()
