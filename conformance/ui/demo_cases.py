"""The page over a server with examples/demo.json: who sees what, what is done by it, what is denied, and what changes before one's eyes."""
import hashlib
import json
from datetime import datetime, timedelta, timezone

from case import DemoCase
from selenium.webdriver.common.keys import Keys
from servers import DEMO

PAYMENTS = ["payments.charge", "payments.refund", "payments.report", "payments.settle"]
SEARCH = ["search.backfill", "search.crawl", "search.purge"]
# Of each user: the views that are offered, the DAGs, how many of them can be paused and triggered.
USERS = {
    "ada": (["DAGs", "Runs", "Pools", "Variables", "Event log", "Access"], PAYMENTS + SEARCH, 7, 7),
    "pia": (["DAGs", "Runs"], PAYMENTS, 4, 4),
    "nora": (["DAGs", "Runs"], ["payments.refund"], 1, 1),
    "pete": (["DAGs", "Runs"], PAYMENTS, 0, 0),
    "sid": (["DAGs", "Runs"], SEARCH, 3, 3),
    "otto": (["DAGs", "Runs", "Pools", "Variables", "Event log"], PAYMENTS + SEARCH, 7, 7),
    "audrey": (["DAGs", "Runs", "Event log"], PAYMENTS + SEARCH, 0, 0),
}
READER = {"roles": [{"name": "Payments Reader"}]}


class Demo(DemoCase):
    def first(self, dag, state=None):
        """The id of a run, once there is one (in a state)."""
        def found():
            rows = self.ask("ada", "GET", f"/api/v1/dags/{dag}/dagRuns")[1]["dag_runs"]
            return next((it["dag_run_id"] for it in rows if state in (None, it["state"])), None)
        return self.browser.wait(found, f"a run of {dag}", 40)

    # ---- Who ----

    def test_each_user_sees_what_may_be_seen(self):
        for who, (places, dags, switches, triggers) in USERS.items():
            with self.subTest(who):
                self.sign_in(who)
                self.browser.wait(lambda: [it[1].split("\n")[0] for it in self.browser.rows("DAGs")] == dags, f"the DAGs of {who}: {dags}")
                self.assertEqual(self.browser.texts(".places a"), places)
                self.assertEqual(len(self.browser.all("button[role=switch]")), switches)
                self.assertEqual(len([it for it in self.browser.buttons() if it.startswith("Trigger ")]), triggers)

    def test_what_one_may_do(self):
        """The page lists exactly the permissions of GET /own/me."""
        for who in ("pete", "otto"):
            me = self.ask(who, "GET", "/own/me")[1]
            self.sign_in(who, "#/me")
            rows = self.browser.wait(lambda: self.browser.rows("Permissions by resource"), "the permissions")
            for words, resource in (("DAG runs", "DAG Runs"), ("task instances", "Task Instances"), ("pools", "Pools"), ("the event log", "Audit Logs"),
                ("users", "Users")):
                cells = next(it for it in rows if it[0] == words)[1:]
                self.assertEqual(cells, ["yes" if f"{resource}.can_{it}" in me["permissions"] else "no" for it in ("create", "read", "edit", "delete")],
                    (who, resource))
            self.assertEqual(self.browser.texts(".chips li"), me["roles"])

    def test_a_token_that_nobody_has(self):
        self.browser.sign_in("no such token", "#/pools")
        self.browser.see("No user has this token.")
        self.browser.sign_in("otto-demo-token")
        # the address led to pools, and it still does
        self.browser.see("gateway", "default_pool")

    def test_the_token_is_nowhere_but_in_memory(self):
        self.sign_in("ada", "#/pools")
        self.browser.see("gateway")
        self.assertEqual(self.browser.storage(), [[], [], "", f"{self.page.base}/#/pools", None])
        self.assertNotIn("ada-demo-token",
            self.browser.js("return document.documentElement.outerHTML + [...document.querySelectorAll('input')].map((it) => it.value)"))
        self.assertNotIn("ada-demo-token", " ".join(it[2] for it in self.page.noted()))
        self.browser.sign_out()
        self.assertEqual(self.browser.js("return document.querySelector('#token').value"), "")
        self.browser.open("#/pools")
        self.assertNotIn("gateway", self.browser.text())

    def test_a_token_that_is_replaced(self):
        """Who is signed in learns that the token is no good any more, in words, and is asked again."""
        digest = "ab" * 32
        self.assertEqual(self.ask("ada", "POST", "/api/v1/users",
            {"username": "temp", "roles": [{"name": "Viewer"}], "token_sha256": self.sha("temp-demo-token")})[0], 200)
        self.sign_in("temp")
        self.assertEqual(self.ask("ada", "PATCH", "/api/v1/users/temp", {"token_sha256": digest})[0], 200)
        self.browser.see("The server does not know this token any more. Sign in again.")
        self.assertEqual(self.browser.all(".frame"), [])
        self.assertEqual(self.ask("ada", "DELETE", "/api/v1/users/temp")[0], 204)

    @staticmethod
    def sha(token):
        return hashlib.sha256(token.encode()).hexdigest()

    # ---- What is done ----

    def test_trigger_to_success(self):
        self.sign_in("pia", "#/dags")
        self.browser.press("Trigger payments.refund")
        self.browser.fill("dialog input[name=name]", "by-the-page")
        self.browser.press("Trigger", "dialog")
        self.browser.see("payments.refund: the run by-the-page is queued")
        self.browser.go("#/dags/payments.refund/runs/by-the-page")
        self.browser.see("up for retry", "It is tried again after the delay")
        self.browser.wait(lambda: self.browser.texts(".run-view > .panel .facts dd")[:1] == ["success"], "the success of the run", 40)
        # (run and instances are read in turn)
        wanted = [["check", "success", "1"], ["pay", "success", "3"], ["notify", "success", "1"]]
        self.browser.wait(lambda: [it[:3] for it in self.browser.rows("Task instances")] == wanted, "the success of each task, of pay at the third try")

    def test_a_backfill(self):
        """Seven days before the one of which the scheduler has made the run: all of them, then none, and a range that ends before it begins."""
        today = datetime.now(timezone.utc).replace(hour=0, minute=0, second=0, microsecond=0)
        days = [f"{(today - timedelta(days=n)).isoformat()}" for n in range(9, 2, -1)]
        path = "/api/v1/dags/payments.report/dagRuns"
        def backfill(start, end):
            self.browser.press("Backfill …")
            self.browser.fill("dialog input[name=start]", start)
            self.browser.fill("dialog input[name=end]", end)
            self.browser.press("Backfill", "dialog")
        self.sign_in("pia", "#/dags/payments.refund")
        self.browser.see("by trigger only")
        self.assertNotIn("Backfill …", self.browser.buttons(), "there is no schedule")
        self.browser.go("#/dags/payments.report")
        backfill(days[0], days[-1])
        self.browser.see("payments.report: 7 runs are queued (entry ", f"backfill__{days[-1]}")
        self.assertEqual(self.browser.texts("aside .facts dd")[1], "backfill")
        made = [it for it in self.ask("pia", "GET", path)[1]["dag_runs"] if it["run_type"] == "backfill"]
        self.assertEqual([it["logical_date"] for it in made], days)
        self.browser.wait(lambda: [it["state"] for it in self.ask("pia", "GET", path)[1]["dag_runs"]] == ["success"] * 8, "the success of all runs", 60)
        backfill(days[0], days[-1])
        self.browser.see("payments.report: no run is missing between these dates.")
        backfill(days[-1], days[0])
        self.browser.see("The server does not accept what was given as end date (bad member: end_date).")
        self.browser.press("Cancel", "dialog")
        self.assertEqual(self.ask("pia", "GET", path)[1]["total_entries"], 8)
        self.sign_in("audrey", "#/events?find=payments.report&kind=runs")
        rows = self.browser.wait(lambda: self.browser.rows("Entries of the event log"), "the entry")
        self.assertEqual([(it[2], it[3], it[5]) for it in rows], [("pia", "backfill backfilled a DAG", "")])

    def test_what_a_viewer_is_not_offered(self):
        run = self.first("payments.settle", "failed")
        self.sign_in("pete", f"#/dags/payments.settle/runs/{run.replace('+', '%2B')}")
        self.browser.see("transfer", "It failed at try 1", "Failed upstream: transfer (failed).")
        self.assertFalse([it for it in self.browser.buttons() if any(word in it for word in ("Clear", "Mark", "Queue", "Delete", "Trigger", "Backfill"))])

    def test_denials_in_words(self):
        self.sign_in("pia")
        for route, words in (("#/events", "You may not read the event log. None of your roles (Payments Editor) has the permission Audit Logs.can_read."),
                             ("#/pools", "You may not read pools."), ("#/variables", "You may not read variables."), ("#/access", "You may not read roles."),
                             ("#/dags/search.crawl",
                                 "You may not read the DAG search.crawl. None of your roles (Payments Editor) has the permission DAG:search.crawl.can_read."),
                             ("#/dags/no.such", "You may not read the DAG no.such."), ("#/dags/search.crawl/runs/x", "You may not read the DAG search.crawl.")):
            with self.subTest(route):
                self.browser.go(route)
                self.browser.see("Not permitted", words)

    def test_a_denial_of_what_was_offered(self):
        """The role goes while the question is open: the answer names the missing permission, and what is offered changes."""
        self.sign_in("pia", "#/dags/payments.refund")
        self.browser.press("Trigger …")
        self.browser.one("dialog input[name=name]")
        try:
            self.assertEqual(self.ask("ada", "PATCH", "/api/v1/users/pia", READER)[0], 200)
            self.browser.press("Trigger", "dialog")
            self.browser.see("You may not edit the DAG payments.refund. None of your roles", "has the permission DAG:payments.refund.can_edit.")
            self.browser.press("Cancel", "dialog")
            self.browser.wait(lambda: "Trigger …" not in self.browser.buttons(), "the end of the offer")
        finally:
            self.ask("ada", "PATCH", "/api/v1/users/pia", {"roles": [{"name": "Payments Editor"}]})

    def test_pause_and_resume(self):
        self.sign_in("sid", "#/dags")
        switch = self.browser.one("button[role=switch][aria-label='search.backfill is active']")
        self.assertEqual(switch.get_attribute("aria-checked"), "true")
        switch.click()
        self.browser.see("search.backfill is paused")
        self.assertTrue(self.ask("ada", "GET", "/api/v1/dags/search.backfill")[1]["is_paused"])
        self.browser.wait(lambda: switch.get_attribute("aria-checked") == "false", "the switch")
        switch.click()
        self.browser.see("search.backfill is active")
        self.assertFalse(self.ask("ada", "GET", "/api/v1/dags/search.backfill")[1]["is_paused"])

    def test_clear_with_its_dry_run_first(self):
        run = self.first("payments.settle", "failed")
        route = f"#/dags/payments.settle/runs/{run.replace('+', '%2B')}"
        self.sign_in("pia", route)
        self.browser.press("Clear …", ".run-view > .panel")
        began = self.page.noted()[-1][0]
        self.browser.press("Show what would be cleared", "dialog")
        self.browser.see("4 task instances would lose their state and run again:")
        self.assertEqual(self.browser.texts(".dry li strong"), ["export", "transfer", "alert", "close"])
        state = self.ask("pia", "GET", f"/api/v1/dags/payments.settle/dagRuns/{run.replace('+', '%2B')}")[1]["state"]
        self.assertEqual(state, "failed", "a dry run changes nothing")
        self.browser.press("Clear 4 task instances", "dialog")
        self.browser.see("4 task instances cleared.")
        posts = [it[2] for it in self.page.noted(began) if it[1] == "POST"]
        self.assertEqual(len(posts), 2)
        def again():
            rows = self.browser.rows("Task instances")
            return [it[:3] for it in rows] == [["export", "success", "2"], ["transfer", "success", "2"], ["alert", "skipped", "1"], ["close", "success", "1"]]
        self.browser.wait(again, "the second try, which the script lets succeed", 30)
        self.browser.see("Its rule is one_failed: it may run when one task upstream has failed. Upstream: transfer (success).")

    def test_clear_one_task_and_what_is_below(self):
        run = self.first("payments.charge", "success")
        self.sign_in("ada", f"#/dags/payments.charge?run={run.replace('+', '%2B')}&task=capture&runs=100")
        self.browser.press("Clear this task …")
        self.browser.press("Show what would be cleared", "dialog")
        self.browser.wait(lambda: self.browser.texts(".dry li strong") == ["capture", "receipt"], "the dry run")
        self.browser.press("Choose again", "dialog")
        self.browser.one("dialog input[name=below]").click()
        self.browser.press("Show what would be cleared", "dialog")
        self.browser.wait(lambda: self.browser.texts(".dry li strong") == ["capture"], "the dry run")
        self.browser.press("Clear 1 task instance", "dialog")
        self.browser.see("1 task instance cleared.")

    def test_mark_and_delete_with_a_question(self):
        self.assertEqual(self.ask("ada", "POST", "/api/v1/dags/search.purge/dagRuns", {"dag_run_id": "to-go"})[0], 200)
        self.sign_in("ada", "#/dags/search.purge/runs/to-go")
        self.browser.see("The DAG is paused: none of its tasks is queued until it is resumed.")
        self.browser.press("Mark success …")
        self.browser.press("Mark success", "dialog")
        self.browser.see("to-go is success.")
        self.browser.wait(lambda: [it[:2] for it in self.browser.rows("Task instances")] == [["purge", "success"]], "the success")
        self.browser.press("Delete …")
        self.browser.see("Delete the run to-go of search.purge, with its task instances?")
        self.browser.keys(Keys.ESCAPE)
        self.browser.wait(lambda: not self.browser.all("dialog[open]"), "the end of the question")
        self.assertEqual(self.ask("ada", "GET", "/api/v1/dags/search.purge/dagRuns/to-go")[0], 200)
        self.browser.press("Delete …")
        self.browser.press("Delete the run", "dialog")
        self.browser.see("to-go is deleted.", "There is no run yet.")
        self.assertEqual(self.ask("ada", "GET", "/api/v1/dags/search.purge/dagRuns/to-go")[0], 404)

    # ---- Pools, variables, event log ----

    def test_pools_and_who_changed_one(self):
        self.sign_in("otto", "#/pools")
        self.browser.press("Change the slots of crawler")
        self.browser.fill("dialog input[name=slots]", "3")
        self.browser.press("Change", "dialog")
        self.browser.see("crawler has 3 slots.")
        self.browser.wait(lambda: [it[:3:2] for it in self.browser.rows("Pools")][:1] == [["crawler", "3"]], "the slots")
        self.browser.press("event log")
        found = self.browser.wait(lambda: self.browser.rows("Entries of the event log"), "the entry")
        self.assertEqual((found[0][2], found[0][3].split()[0]), ("otto", "patch_pool"))
        self.browser.go("#/pools")
        self.browser.press("Delete gateway")
        self.browser.press("Delete the pool", "dialog")
        self.browser.see("The server refused this: pool in use: gateway.")
        self.browser.press("Cancel", "dialog")
        self.ask("otto", "PATCH", "/api/v1/pools/crawler", {"slots": 2})

    def test_why_a_task_waits(self):
        self.assertEqual(self.ask("otto", "PATCH", "/api/v1/pools/gateway", {"slots": 0})[0], 200)
        try:
            def waiting():
                # (a list has a hundred rows at most, the oldest first)
                path = "/api/v1/dags/payments.charge/dagRuns"
                count = self.ask("ada", "GET", f"{path}?limit=1")[1]["total_entries"]
                rows = self.ask("ada", "GET", f"{path}?offset={max(0, count - 50)}")[1]["dag_runs"]
                for run in [it["dag_run_id"] for it in rows if it["state"] == "running"]:
                    path = f"/api/v1/dags/payments.charge/dagRuns/{run.replace('+', '%2B')}/taskInstances/capture"
                    if self.ask("ada", "GET", path)[1].get("state") == "scheduled":
                        return run
                return None
            run = self.browser.wait(waiting, "a task that waits", 60)
            for who, words in (("otto", "It needs 1 slot of the pool gateway, of whose 0 slots 0 are open (0 running, 0 queued)."),
                ("pia", "You may not read pools, so this page cannot tell how many are open.")):
                self.sign_in(who, f"#/dags/payments.charge?run={run.replace('+', '%2B')}&task=capture")
                self.browser.see("Why it waits", words)
        finally:
            self.ask("otto", "PATCH", "/api/v1/pools/gateway", {"slots": 1})

    def test_variables(self):
        self.sign_in("otto", "#/variables")
        self.browser.see('["north","south","east","west"]')
        self.browser.press("Add a variable …")
        self.browser.fill("dialog input[name=key]", "limit")
        self.browser.fill("dialog textarea", "1\n2")
        self.browser.press("Add", "dialog")
        self.browser.see("The variable limit is added.")
        self.assertEqual(self.ask("otto", "GET", "/api/v1/variables/limit")[1], {"key": "limit", "value": "1\n2"})
        self.browser.press("Edit limit")
        self.browser.fill("dialog textarea", "7")
        self.browser.press("Change", "dialog")
        self.browser.wait(lambda: ["limit", "7"] in [it[:2] for it in self.browser.rows("Variables")], "the value")
        self.browser.press("Delete limit")
        self.browser.press("Delete the variable", "dialog")
        self.browser.wait(lambda: [it[0] for it in self.browser.rows("Variables")] == ["currency", "regions"], "the end of the variable")

    def test_event_log_filters(self):
        self.assertEqual(self.ask("pia", "PATCH", "/api/v1/dags/payments.refund", {"is_paused": True})[0], 200)
        self.assertEqual(self.ask("pia", "PATCH", "/api/v1/dags/payments.refund", {"is_paused": False})[0], 200)
        self.sign_in("audrey", "#/events?find=pia&kind=dags")
        rows = self.browser.wait(lambda: self.browser.rows("Entries of the event log"), "the entries")
        self.assertEqual({(it[2], it[3].split()[0], it[4]) for it in rows}, {("pia", "patch_dag", "payments.refund")})
        self.browser.go("#/events?kind=machine")
        self.browser.wait(lambda: {it[2] for it in self.browser.rows("Entries of the event log")} == {"scheduler", "executor"}, "the machine's entries")
        numbers = [int(it[0]) for it in self.browser.rows("Entries of the event log")]
        self.assertEqual(numbers, sorted(numbers, reverse=True))

    def test_failed_runs_are_found(self):
        self.first("payments.settle", "failed")
        self.sign_in("pete", "#/runs")
        self.browser.one("select[aria-label='Runs in which state']").send_keys("failed")
        rows = self.browser.wait(lambda: [it for it in self.browser.rows("Runs")] if {it[0] for it in self.browser.rows("Runs")} == {"failed"} else None,
            "the failed runs")
        self.assertEqual({it[1] for it in rows}, {"payments.settle"})

    # ---- Access ----

    def test_a_role_change_is_seen_by_its_user(self):
        self.sign_in("pete", "#/dags")
        self.browser.see("payments.charge")
        try:
            self.assertEqual(self.ask("ada", "PATCH", "/api/v1/users/pete", {"roles": []})[0], 200)
            self.browser.see("What you may do has changed", "You may not read DAGs. You have no role that has the permission DAGs.can_read.")
            self.assertEqual(self.browser.texts(".places a"), [])
            self.assertEqual(self.ask("ada", "PATCH", "/api/v1/users/pete", READER)[0], 200)
            self.browser.wait(lambda: [it[1].split("\n")[0] for it in self.browser.rows("DAGs")] == PAYMENTS, "the DAGs again")
            self.browser.go("#/access?tab=versions")
            self.browser.see("you lost DAG Runs.can_read", "you gained DAG Runs.can_read")
        finally:
            self.ask("ada", "PATCH", "/api/v1/users/pete", READER)

    def test_an_administrator_gives_a_role(self):
        config = json.loads(DEMO)
        self.sign_in("ada", "#/access")
        rows = self.browser.wait(lambda: self.browser.rows("Roles by resources"), "the roles")
        self.assertEqual(sorted(it[0] for it in rows), sorted(["Admin", "Op", "Public", "User", "Viewer", *(it["name"] for it in config["roles"])]))
        self.assertEqual(self.browser.js("return [...document.querySelectorAll('tr')].find((it) => it.cells[0].innerText === 'Payments Editor').cells[2].firstChild.getAttribute('aria-label')"), "create, read and edit")
        self.browser.press("Users")
        before = self.ask("ada", "GET", "/own/me")[1]["policy_version"]
        try:
            self.browser.press("Roles of pete")
            self.browser.one("dialog input[value='Search Editor']").click()
            self.browser.press("Set the roles", "dialog")
            self.browser.see(f"roles of pete set to Payments Reader and Search Editor: policy version {before + 1}.")
            self.browser.wait(lambda: ["pete", "Payments Reader\nSearch Editor"] in [it[:2] for it in self.browser.rows("Users")], "the roles")
            self.browser.press("Versions")
            row = self.browser.wait(lambda: [it for it in self.browser.rows("Versions") if it[0] == str(before + 1) and "gained" in it[2]], "the version")
            self.assertEqual(row[0][2], "by you: roles of pete set to Payments Reader and Search Editor\nuser pete gained Search Editor")
        finally:
            self.ask("ada", "PATCH", "/api/v1/users/pete", READER)

    def test_a_role_and_a_user_come_and_go(self):
        self.sign_in("ada", "#/access")
        self.browser.press("Add a role …")
        self.browser.fill("dialog input[name=name]", "Refunds")
        self.browser.one("dialog input[aria-label='read Pools']").click()
        self.browser.fill("dialog input[name=dag]", "payments.refund")
        self.browser.press("Add a row", "dialog")
        self.browser.one("dialog input[aria-label='edit DAG:payments.refund']").click()
        self.browser.press("Add", "dialog")
        self.browser.see("role Refunds added")
        actions = self.ask("ada", "GET", "/api/v1/roles/Refunds")[1]["actions"]
        self.assertEqual([(it["resource"]["name"], it["action"]["name"]) for it in actions],
            [("Pools", "can_read"), ("DAG:payments.refund", "can_read"), ("DAG:payments.refund", "can_edit")])
        self.browser.press("Users")
        self.browser.press("Add a user …")
        self.browser.fill("dialog input[name=name]", "rita")
        self.browser.one("dialog input[value=Refunds]").click()
        self.browser.press("Make one", "dialog")
        token = self.browser.wait(lambda: self.browser.js("return document.querySelector('dialog input[name=token]').value"), "the token")
        self.browser.press("Add", "dialog")
        self.browser.see("user rita added")
        self.browser.sign_out()
        self.browser.sign_in(token, "#/dags")
        self.browser.wait(lambda: [it[1].split("\n")[0] for it in self.browser.rows("DAGs")] == ["payments.refund"], "the DAG of rita")
        self.sign_in("ada", "#/access?tab=users")
        for name, button in (("Delete rita", "Delete the user"), ("Delete Refunds", "Delete the role")):
            self.browser.press(name)
            self.browser.press(button, "dialog")
            self.browser.see("deleted: policy version")
            self.browser.go("#/access?tab=roles")

    def test_access_to_one_dag(self):
        self.sign_in("ada", "#/dags/search.purge")
        self.browser.press("Access …")
        box = self.browser.one("dialog input[aria-label='Payments Reader may read']")
        self.assertFalse(box.is_selected())
        self.assertTrue(self.browser.one("dialog input[aria-label='Search Editor may edit']").is_selected())
        box.click()
        self.browser.press("Set the access", "dialog")
        self.browser.see("access to search.purge set")
        try:
            self.assertEqual([it["dag_id"] for it in self.ask("pete", "GET", "/api/v1/dags")[1]["dags"]], [*PAYMENTS, "search.purge"])
            self.assertEqual([it["dag_id"] for it in self.ask("sid", "GET", "/api/v1/dags")[1]["dags"]], SEARCH)
        finally:
            self.ask("ada", "POST", "/own/dags/search.purge/sync", {"access_control": {"Search Editor": ["can_read", "can_edit"]}})

    def test_access_keeps_what_roles_may_do_on_the_runs(self):
        """A sync takes both kinds away, so the page sends both: nora keeps the runs of the DAG where another role gets something on them."""
        given = self.ask("nora", "GET", "/own/me")[1]["permissions"]
        access = next(it["access_control"] for it in json.loads(DEMO)["dags"] if it["dag_id"] == "payments.refund")
        self.sign_in("ada", "#/dags/payments.refund")
        self.browser.press("Access …")
        self.assertTrue(self.browser.one("dialog input[aria-label='Payments On-call may create runs']").is_selected())
        self.browser.one("dialog input[aria-label='Payments Reader may create runs']").click()
        self.browser.press("Set the access", "dialog")
        self.browser.see("access to payments.refund set")
        try:
            self.assertEqual(self.ask("nora", "GET", "/own/me")[1]["permissions"], given)
            self.assertIn("DAG Run:payments.refund.can_create", self.ask("pete", "GET", "/own/me")[1]["permissions"])
        finally:
            self.ask("ada", "POST", "/own/dags/payments.refund/sync", {"access_control": access})
