#!/usr/bin/env python3
"""Tests of from_airflow.py on what it refuses, and of what becomes of the tokens.

    python3 tools/test_airflow_refusals.py
"""
import contextlib
import json
import os
import stat
import subprocess
import sys
import unittest

sys.dont_write_bytecode = True
from airflow_case import ADMIN, TOOL, Case, flat  # noqa: E402


class Refusals(Case):
    def test_what_is_no_export(self):
        rows = [
            ("roles", b"", "is no JSON"),
            ("roles", "name  | resource\n======\n", "ask Airflow for JSON"),
            ("users", "[" * 100_000, "nested too deep"),
            ("users", b'[{"username": "\xff"}]', "is no UTF-8 at byte 15"),
            ("roles", {"name": "R"}, "is no list of roles"),
            ("roles", [5], "row 1 has no text 'name'"),
            ("roles", [flat("R", "DAGs", "can_read"), {"name": "R", "resource": "DAGs"}], "row 2 has no text 'action'"),
            ("roles", [{"name": "R", "actions": ["can_read"]}], "row 1 has no text 'name'"),
            ("roles", [{"name": "R", "actions": 5}], "row 1 has no text 'resource'"),
            ("users", [{"roles": []}], "row 1 has no text 'username'"),
            ("users", [{"username": "a", "roles": "Admin"}], "row 1 has no list 'roles'"),
            ("users", [{"username": "a", "roles": [5]}], "row 1 has no text 'name'"),
            ("users", [ADMIN, ADMIN], "row 2: the user 'root' is there twice"),
            ("dags", [{"paused": "True"}], "row 1 has no text 'dag_id'"),
            ("dags", [{"dag_id": "a", "paused": "maybe"}], "neither paused nor not"),
            ("dags", [{"dag_id": "a", "paused": 1}], "neither paused nor not"),
            ("dags", [{"dag_id": "a"}, {"dag_id": "a"}], "row 2: the DAG 'a' is there twice"),
        ]
        for kind, value, reason in rows:
            with self.subTest(kind=kind, reason=reason):
                self.assertIn(reason, self.refused("--admin", "new", **{kind: value}))

    def test_no_administrator(self):
        self.assertIn("--admin NAME gives it", self.refused(users=[{"username": "u", "roles": ["Viewer"]}]))
        self.assertIn("--admin NAME gives it", self.refused(users=[{"username": "ü", "roles": ["Admin"]}]))
        self.assertIn("--admin NAME gives it", self.refused(dags=[]))

    def test_numbers_of_rows(self):
        roles = [flat(f"r{n}", "DAGs", "can_read") for n in range(4092)]
        users = [{"username": f"u{n}", "roles": ["Admin"]} for n in range(65537)]
        dags = [{"dag_id": f"d{n}", "paused": "True"} for n in range(1025)]
        self.assertIn("4092 roles are too many: at most 4091", self.refused(roles=roles, users=[ADMIN]))
        self.assertIn("65537 users are too many", self.refused(users=users))
        self.assertIn("1025 DAGs are too many", self.refused(users=[ADMIN], dags=dags))
        config, _, _ = self.convert(roles=roles[1:], users=users[1:], dags=dags[1:])
        self.assertEqual([len(config[it]) for it in ("roles", "users", "dags")], [4091, 65536, 1024])

    def test_length(self):
        roles = [flat(f"r{n}", f"DAG:{pair:0250}", "can_read") for n in range(60) for pair in range(1000)]
        self.assertIn("bytes, and at most 16777216 are read", self.refused(roles=roles, users=[ADMIN]))

    def test_strict(self):
        self.assertIn("1 left out", self.refused("--strict", users=[ADMIN, {"username": "ü", "roles": []}]))
        config, _, _ = self.convert("--strict", users=[ADMIN], roles=[flat("R", "Website", "can_read")])
        self.assertEqual(config["roles"], [{"name": "R", "actions": []}])

    def test_files(self):
        status, _, err = self.call("--users", self.folder / "nosuch", self.config)
        self.assertEqual(status, 1)
        self.assertIn("nosuch: can not be read: No such file", err)
        self.config.write_text("kept")
        status, out, err = self.call("--users", self.file("users", [ADMIN]), self.config)
        self.assertEqual((status, out, self.config.read_text()), (1, "", "kept"))
        self.assertIn("already exists; --force replaces it", err)
        status, out, err = self.call("--users", self.file("users", [ADMIN]), self.folder / "nosuch" / "afplane.json")
        self.assertEqual((status, out), (1, ""))
        self.assertIn("can not be written", err)

    def test_usage(self):
        users = self.file("users", [ADMIN])
        rows = [
            [],
            [self.config],
            ["--users", users],
            ["--nosuch", self.config],
            ["--users", "-", "--roles", "-", self.config],
            ["--users", users, "--admin", "ü", self.config],
            ["--users", users, "--tokens", self.config, self.config],
        ]
        for words in rows:
            with self.subTest(words=words):
                status, out, err = self.call(*words)
                self.assertEqual((status, out), (2, ""))
                self.assertTrue(err.startswith("usage: from_airflow.py"), err)
        status, out, err = self.call("--help")
        self.assertEqual((status, err), (0, ""))
        self.assertIn("airflow roles export roles.json", out)


class Tokens(Case):
    def test_a_file_for_its_owner_alone(self):
        tokens = self.folder / "tokens"
        with contextlib.ExitStack() as kept:
            kept.callback(os.umask, os.umask(0))
            _, out, err = self.convert("--tokens", tokens, users=[ADMIN])
        self.assertEqual(out, {})
        self.assertEqual(stat.S_IMODE(tokens.stat().st_mode), 0o600)
        (name, token), = (line.split("\t") for line in tokens.read_text().splitlines())
        self.assertEqual(name, "root")
        self.assertNotIn(token, self.config.read_text() + err)
        status, _, err = self.call("--users", self.file("users", [ADMIN]), "--tokens", tokens, self.folder / "other")
        self.assertEqual(status, 1)
        self.assertIn("tokens: already exists", err)
        os.chmod(tokens, 0o644)
        self.convert("--force", "--tokens", tokens, users=[ADMIN])
        self.assertEqual(stat.S_IMODE(tokens.stat().st_mode), 0o600)

    def test_a_closed_output_leaves_no_configuration(self):
        for ending in (">/dev/full", ">&-"):
            with self.subTest(ending=ending):
                words = ["--users", self.file("users", [ADMIN]), str(self.config)]
                ran = subprocess.run(["sh", "-c", f'"$@" {ending}', "sh", sys.executable, str(TOOL), *words], capture_output=True)
                self.assertEqual(ran.returncode, 1, ran.stderr)
                self.assertEqual([*self.folder.glob("afplane*")], [])
                self.assertNotIn(b"Traceback", ran.stderr)

    def test_standard_input(self):
        words = [sys.executable, str(TOOL), "--users", "-", str(self.config)]
        ran = subprocess.run(words, input=json.dumps([ADMIN]).encode(), capture_output=True)
        self.assertEqual(ran.returncode, 0, ran.stderr)
        self.assertEqual(json.loads(self.config.read_text())["users"][0]["username"], "root")


if __name__ == "__main__":
    unittest.main()
