#!/usr/bin/env python3
"""Tests of from_airflow.py on samples in Airflow's own formats (examples/airflow/).

    python3 tools/test_from_airflow.py

The last tests hand what is written to the program; they need it built, in crates/afplane/out/afplane or where the
variable AFPLANE_PROGRAM says, and are skipped where it is not. Bad samples are test_airflow_refusals.py's.
"""
import hashlib
import json
import subprocess
import sys
import unittest

sys.dont_write_bytecode = True
import airflow_permissions  # noqa: E402
from airflow_case import ADMIN, PROGRAM, README, SAMPLES, TOP, Case, flat, granted  # noqa: E402


class Samples(Case):
    def read(self, *words, **names):
        return self.convert(*words, **{kind: (SAMPLES / name).read_bytes() for kind, name in names.items()})

    def test_roles(self):
        config, _, _ = self.read(roles="roles.json", users="users.json", dags="dags.json")
        self.assertEqual([it["name"] for it in config["roles"]], ["Auditor", "Data Engineer", "Newcomer", "Sales Analyst"])
        self.assertEqual(granted(config, "Auditor"), ["Audit Logs.can_read"])
        self.assertEqual(granted(config, "Newcomer"), [])
        self.assertEqual(
            granted(config, "Sales Analyst"),
            [
                *["DAG Runs.can_create", "DAG Runs.can_read", "Task Instances.can_read"],
                *["DAG:sales.forecast.can_read", "DAG:sales_daily_orders.can_read", "DAG:sales_daily_orders.can_edit"],
                "DAG Run:sales_daily_orders.can_delete",
            ],
        )
        self.assertIn("DAGs.can_edit", granted(config, "Data Engineer"))

    def test_users_and_dags(self):
        config, tokens, _ = self.read(roles="roles.json", users="users.json", dags="dags.json")
        users = {it["username"]: [role["name"] for role in it["roles"]] for it in config["users"]}
        self.assertEqual(
            users,
            {
                "admin": ["Admin"],
                "audrey": ["Auditor"],
                "guest": ["Public"],
                "jane.doe@example.com": ["Data Engineer", "Viewer"],
                "sam": ["Sales Analyst"],
            },
        )
        paused = {it["dag_id"]: it["is_paused"] for it in config["dags"]}
        self.assertEqual(
            paused, {"logistics_stock": True, "sales.forecast": False, "sales_daily_orders": False, "sales_new": True}
        )
        self.assertTrue(all(it["tasks"] == [{"task_id": "placeholder"}] for it in config["dags"]))
        digests = {it["username"]: it["token_sha256"] for it in config["users"]}
        self.assertEqual(digests, {name: hashlib.sha256(it.encode()).hexdigest() for name, it in tokens.items()})
        self.assertTrue(all(len(it) >= 43 for it in tokens.values()))

    def test_what_is_told(self):
        _, _, err = self.read(roles="roles.json", users="users.json", dags="dags.json")
        for line in (
            "role 'Data Engineer': no place for DAGs.menu_access, Browse.menu_access, Website.can_read: there are no web pages",
            "role 'Retired Role' of user 'audrey': left out: no such role is written",
            "user 'zoë': left out: a name is 1 to 64 characters",
            "DAG 'übersicht': left out: an id is 1 to 250",
            "DAG 'sales_new': Airflow does not say whether it is paused; it is paused here",
            "4 roles, 5 users, 4 DAGs; left out: 3",
        ):
            self.assertIn(line, err)

    def test_what_the_page_shows_is_told(self):
        _, _, err = self.read(roles="roles.json", users="users.json", dags="dags.json")
        told = [it.strip() for it in README.splitlines() if it.startswith("    from_airflow: ")]
        # (by the page, both files are below /tmp)
        here = [it.replace("/tmp/afplane.json", str(self.config)).replace("/tmp/tokens.txt", "standard output") for it in told]
        self.assertEqual(here, err.splitlines())

    def test_one_token(self):
        _, _, err = self.convert(users=[ADMIN])
        self.assertEqual(err.splitlines()[-1], "from_airflow: Wrote 1 token to standard output. This is the only copy; the configuration has their SHA-256.")

    def test_help(self):
        status, out, err = self.call("--help")
        self.assertEqual((status, err), (0, ""))
        for it in ("Every user gets a new token", "2 usage error", "remove such users from the file", "--tokens FILE", "(mode 600)", "--strict"):
            self.assertIn(it, out)
        self.assertNotRegex(out, r"\btold\b")

    def test_older_roles_are_names(self):
        config, _, err = self.read(roles="roles-names.json", users="users.json")
        self.assertEqual([it["actions"] for it in config["roles"]], [[]] * 4)
        self.assertIn("permissions of role 'Auditor': left out: this export names roles alone", err)

    def test_listed_roles_have_the_default_ones(self):
        config, _, err = self.read(roles="roles-list.json", users="users.json")
        self.assertEqual([it["name"] for it in config["roles"]], ["Auditor", "Data Engineer", "Sales Analyst"])
        self.assertIn("role 'Public': is built in, and lacks here: DAGs.can_read;", err)
        self.assertIn("role 'Viewer': is built in, and lacks here: Audit Logs.can_read, DAG:sales.forecast.can_edit;", err)
        self.assertNotIn("grants more", err)

    def test_newer_list_of_dags(self):
        config, _, _ = self.read(users="users.json", dags="dags-columns.json")
        paused = {it["dag_id"]: it["is_paused"] for it in config["dags"]}
        self.assertEqual(
            paused, {"logistics_stock": True, "sales.forecast": False, "sales_daily_orders": False, "sales_new": True}
        )

    def test_pretty_or_not(self):
        rows = json.loads((SAMPLES / "roles.json").read_text())
        one, _, _ = self.convert(roles=json.dumps(rows), users=[ADMIN])
        other, _, _ = self.convert("--force", roles=json.dumps(rows, indent=4, sort_keys=True), users=[ADMIN])
        self.assertEqual(one["roles"], other["roles"])


class Formats(Case):
    def test_a_role_as_the_api_shows_it(self):
        row = {"name": "R", "actions": [{"action": {"name": "can_read"}, "resource": {"name": "DAG:b"}}]}
        for roles in ([row], {"roles": [row], "total_entries": 1}):
            config, _, _ = self.convert("--force", roles=roles, users=[{"username": "u", "roles": [{"name": "Admin"}]}])
            self.assertEqual(config["roles"], [row])

    def test_reasons(self):
        rows = [
            ("DAG:b", "can_create", "a single DAG has can_read, can_edit and can_delete alone"),
            ("DAG:b", "menu_access", "there are no web pages"),
            ("DAG:a b", "can_read", "no DAG has this id here"),
            ("DAG Run:b", "menu_access", "there are no web pages"),
            ("DAG Run:b", "can_list", "there is no such action"),
            ("DAG Run:a b", "can_create", "no DAG has this id here"),
            ("DAG Run:", "can_read", "no DAG has this id here"),
            ("DAG Run", "can_read", "there is no such resource"),
            ("all_dags", "can_dag_read", "a spelling of Airflow 1, which grants nothing in Airflow 2: grant can_read"),
            ("DAG:b", "can_dag_edit", "a spelling of Airflow 1, which grants nothing in Airflow 2: grant can_edit"),
            ("DAGs", "can_list", "there is no such action"),
            ("dags", "can_read", "there is no such resource"),
            ("XComs", "can_read", "tasks leave no logs and no values"),
            ("Passwords", "can_read", "users have no passwords"),
        ]
        for resource, action, reason in rows:
            with self.subTest(resource=resource, action=action):
                config, _, err = self.convert("--force", roles=[flat("R", resource, action)], users=[ADMIN])
                self.assertEqual(config["roles"], [{"name": "R", "actions": []}])
                self.assertIn(f"role 'R': no place for {resource}.{action}: {reason}", err)

    def test_each_permission_with_a_place(self):
        roles = [flat("R", it, ",".join(airflow_permissions.ACTIONS)) for it in reversed(airflow_permissions.RESOURCES)]
        roles += [flat("R", "DAG Run:b", "can_edit,can_delete,can_read,can_create"), flat("R", "DAG Run:B", "can_create")]
        roles += [flat("R", "DAG:b", "can_delete, can_edit,can_read"), flat("R", "DAG:a", "can_read")]
        config, _, err = self.convert(roles=roles, users=[ADMIN])
        wanted = [f"{it}.{action}" for it in airflow_permissions.RESOURCES for action in airflow_permissions.ACTIONS]
        wanted += ["DAG:a.can_read", "DAG:b.can_read", "DAG:b.can_edit", "DAG:b.can_delete"]
        wanted += ["DAG Run:B.can_create", *(f"DAG Run:b.{action}" for action in airflow_permissions.ACTIONS)]
        self.assertEqual(granted(config, "R"), wanted)
        self.assertNotIn("no place", err)

    def test_a_default_role_that_grants_less_in_airflow(self):
        rows = [flat("Viewer", it, "can_read") for it in ("DAGs", "DAG Runs")] + [flat("Admin", "DAG:b", "can_edit"), flat("Admin", "DAG Run:b", "can_create")]
        config, _, err = self.convert(roles=rows, users=[ADMIN])
        self.assertNotIn("roles", config)
        self.assertIn("role 'Viewer': is built in, and grants more here: Task Instances.can_read;", err)
        self.assertNotIn("lacks here", err)

    def test_a_default_role_that_grants_more_in_airflow(self):
        """Of the runs of one DAG as of the DAG, where the role has not the action on all of them."""
        rows = [flat("Viewer", it, "can_read") for it in ("DAGs", "DAG Runs", "Task Instances")]
        rows += [flat("Viewer", "DAG Run:b", "can_read,can_edit"), flat("Viewer", "DAG:b", "can_read,can_edit")]
        _, _, err = self.convert(roles=rows, users=[ADMIN])
        self.assertIn("role 'Viewer': is built in, and lacks here: DAG:b.can_edit, DAG Run:b.can_edit;", err)

    def test_a_configuration_with_the_runs_of_a_dag_is_accepted(self):
        self.convert(roles=[flat("R", "DAG Run:b", "can_create,can_read"), flat("R", "DAG:b", "can_read")], users=[ADMIN, {"username": "u", "roles": ["R"]}])
        ran = subprocess.run([sys.executable, str(TOP / "model" / "check_config.py"), str(self.config)], capture_output=True, text=True)
        self.assertEqual((ran.returncode, ran.stdout, ran.stderr), (0, "accepted\n", ""))

    def test_log_lines_before_a_list(self):
        log = "[2024-01-01T00:00:00.000+0000] {dagbag.py:500} INFO - Filling up the DagBag\nloading\n"
        config, _, err = self.convert(users=[ADMIN], dags=log + '[{"dag_id": "a", "paused": "False"}]   \n')
        self.assertEqual([it["dag_id"] for it in config["dags"]], ["a"])
        self.assertIn("the first 2 lines are no part of the list", err)

    def test_what_paused_may_be(self):
        rows = [("True", True), ("False", False), (True, True), (False, False), (None, True), ("None", True)]
        for said, is_paused in rows:
            with self.subTest(said=said):
                config, _, _ = self.convert("--force", users=[ADMIN], dags=[{"dag_id": "a", "paused": said}])
                self.assertIs(config["dags"][0]["is_paused"], is_paused)

    def test_an_administrator_is_made(self):
        config, tokens, _ = self.convert("--admin", "new", dags=[{"dag_id": "a", "paused": "False"}])
        self.assertEqual([(it["username"], it["roles"]) for it in config["users"]], [("new", [{"name": "Admin"}])])
        self.assertEqual([*tokens], ["new"])
        config, _, _ = self.convert("--force", "--admin", "u", users=[{"username": "u", "roles": ["Viewer"]}])
        self.assertEqual(config["users"][0]["roles"], [{"name": "Admin"}, {"name": "Viewer"}])

    def test_limits_of_names(self):
        roles = [flat("r" * 64, "DAGs", "can_read"), flat("r" * 65, "DAGs", "can_read"), flat("", "DAGs", "can_read")]
        users = [ADMIN, {"username": "u" * 65, "roles": []}, {"username": "u" * 64, "roles": ["r" * 64, "r" * 65]}]
        dags = [{"dag_id": it, "paused": "True"} for it in ("d" * 250, "d" * 251, "", "a b")]
        config, _, err = self.convert(roles=roles, users=users, dags=dags)
        self.assertEqual([it["name"] for it in config["roles"]], ["r" * 64])
        self.assertEqual([it["username"] for it in config["users"]], ["root", "u" * 64])
        self.assertEqual(config["users"][1]["roles"], [{"name": "r" * 64}])
        self.assertEqual([it["dag_id"] for it in config["dags"]], ["d" * 250])
        self.assertIn("left out: 7", err)

    def test_what_is_told_can_be_printed(self):
        _, _, err = self.convert(roles=[flat("R\x1b[2J", "X\n\x07", "can_read"), flat("S", "X\n\x07", "can_read")], users=[ADMIN])
        self.assertTrue(all(it.isprintable() for it in err.splitlines()), err)


@unittest.skipUnless(PROGRAM.exists(), f"{PROGRAM} is not built")
class Program(Case):
    """What is written is a configuration that the program takes, and answers under."""

    def ask(self, token, target):
        """The status line and the body that the program answers."""
        request = f"GET /api/v1{target} HTTP/1.1\r\nHost: h\r\nAuthorization: Bearer {token}\r\n\r\n"
        words = [str(PROGRAM), "once", str(self.config), "2024-01-01T00:00:00Z"]
        ran = subprocess.run(words, input=request.encode(), capture_output=True)
        self.assertEqual((ran.returncode, ran.stderr), (0, b""))
        head, body = ran.stdout.decode().split("\r\n\r\n", 1)
        self.answer = ran.stdout.decode().replace("\r\n", "\n")
        return head.split("\r\n")[0], json.loads(body)

    def test_samples(self):
        files = {it: (SAMPLES / f"{it}.json").read_bytes() for it in ("roles", "users", "dags")}
        _, tokens, _ = self.convert(**files)
        for name, wanted in (
            ("admin", ["logistics_stock", "sales.forecast", "sales_daily_orders", "sales_new"]),
            ("jane.doe@example.com", ["logistics_stock", "sales.forecast", "sales_daily_orders", "sales_new"]),
            ("sam", ["sales.forecast", "sales_daily_orders"]),
        ):
            status, body = self.ask(tokens[name], "/dags")
            self.assertEqual((status, [it["dag_id"] for it in body["dags"]]), ("HTTP/1.1 200 OK", wanted))
        self.assertIn(self.answer, README.replace("\n    ", "\n"))
        for name in ("audrey", "guest"):
            status, body = self.ask(tokens[name], "/dags")
            self.assertEqual((status, body["detail"]), ("HTTP/1.1 403 Forbidden", "missing permission DAGs.can_read"))
        self.assertEqual(self.ask("nobody", "/dags")[0], "HTTP/1.1 401 Unauthorized")

    def test_at_each_limit(self):
        blank, tilde = " " * 64, "~" * 64
        roles = [flat(f"r{n}", "DAG:" + "d" * 250, "can_delete") for n in range(4089)]
        roles += [flat(it, "DAGs", "can_read") for it in (blank, tilde)]
        users = [{"username": f"u{n}", "roles": ["Admin"]} for n in range(65534)]
        users += [{"username": it, "roles": [it, "Admin", it]} for it in (blank, tilde)]
        dags = [{"dag_id": f"d{n}", "paused": None} for n in range(1021)]
        dags += [{"dag_id": it, "paused": None} for it in ("-" * 250, "..", "_")]
        _, tokens, _ = self.convert(roles=roles, users=users, dags=dags)
        self.assertEqual(self.ask(tokens[tilde], "/dags")[1]["total_entries"], 1024)


if __name__ == "__main__":
    unittest.main()
