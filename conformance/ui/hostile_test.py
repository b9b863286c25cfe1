#!/usr/bin/env python3
"""Names that are markup, quotes, or as long as they may be, are text in every field of every view. What the server itself refuses as a name comes from a server
of made-up rows."""
import hashlib
import json
import unittest
from urllib.parse import quote

from case import Case, DemoCase
from servers import DEMO, MODEL, MadeUp, page_of

IMG = "<img src=x onerror=\"window.hit='img'\">"
SCRIPT = "</script><script>window.hit='script'</script>"
QUOTES = "'\"><svg onload=window.hit=1> `${window.hit=2}` {{7*7}} &lt;b&gt;"
LINK = "javascript:window.hit='link'"
LONG = "x" * 250
SPREAD = "‮<b>gnp.\u0000\t"
NAMES = [IMG, SCRIPT, QUOTES, LINK, LONG, SPREAD]
WHEN = "2026-11-30T06:00:00+00:00"
RESOURCES = ["DAGs", "DAG Runs", "Task Instances", "Pools", "Variables", "Audit Logs", "Roles", "Users"]


def name(field, at):
    """A hostile name that says in which field it is."""
    text = NAMES[at % len(NAMES)]
    return f"{field}{at}{text}"[:250]


def rows(path, query):
    """The made-up server: each string of each row is hostile, but those that say a state, a rule or a time; of these some are unknown words."""
    dag = lambda at: {"dag_id": name("dag", at), "is_paused": at % 2 == 0, "max_active_runs": 16, "next_dagrun": WHEN,
        "schedule_interval": [name("schedule", at), 5][at % 2]}
    run = lambda at: {"dag_id": name("dag", at), "dag_run_id": name("run", at), "data_interval_start": WHEN, "data_interval_end": name("end", at),
        "logical_date": name("date", at), "run_type": name("type", at),
                      "start_date": WHEN, "end_date": None, "state": ["running", "failed", name("state", at)][at % 3]}
    states = ["scheduled", None, "failed", "upstream_failed", "skipped", name("state", 5)]
    task = lambda at: {"task_id": name("task", at), "downstream_task_ids": [name("task", at + 1)] if at < 5 else [], "pool": name("pool", at), "pool_slots": 1,
        "priority_weight": 1, "retries": 0, "trigger_rule": name("rule", at)}
    instance = lambda at: {"dag_id": name("dag", at), "dag_run_id": name("run", at), "task_id": name("task", at), "start_date": WHEN, "end_date": WHEN,
        "pool": name("pool", at), "pool_slots": 1, "priority_weight": 1,
                           "state": states[at % 6], "try_number": 1}
    pool = lambda at: {"name": name("pool", at), "slots": 2, "occupied_slots": 1, "open_slots": 1, "queued_slots": 0, "running_slots": 1}
    role = lambda at: {"name": name("role", at), "actions": [{"action": {"name": "can_read"}, "resource": {"name": f"DAG:{name('dag', at)}"}},
        {"action": {"name": name("action", at)}, "resource": {"name": name("resource", at)}}]}
    user = lambda at: {"username": name("user", at), "roles": [{"name": name("role", at)}]}
    variable = lambda at: {"key": name("key", at), "value": name("value", at) + NAMES[at % len(NAMES)]}
    entry = lambda at: {"dag_id": name("dag", at), "event": name("event", at), "event_log_id": at, "owner": name("owner", at), "policy_version": 0,
        "run_id": name("run", at), "task_id": name("task", at), "when": name("when", at)}
    many = lambda row: [row(at) for at in range(6)]
    if path == ["me"]:
        return {"username": name("me", 0), "policy_version": 0, "roles": many(lambda at: name("role", at)),
            "permissions": [f"{it}.can_{action}" for it in RESOURCES for action in ("create", "read", "edit", "delete")] + [f"DAG:{name('dag', at)}.can_edit"
            for at in range(6)]}
    lists = {"pools": pool, "variables": variable, "roles": role, "users": user, "dags": dag}
    if len(path) == 1 and path[0] in lists:
        return page_of(many(lists[path[0]]), path[0], query)
    if path == ["eventLogs"]:
        return page_of(many(entry), "event_logs", query)
    if path[0] == "pools":
        return pool(0)
    if len(path) == 2 and path[0] == "dags":
        return {**dag(1), "dag_id": path[1]}
    if path[-1] == "dagRuns":
        return page_of([{**it, **({} if path[1] == "~" else {"dag_id": path[1]})} for it in many(run)], "dag_runs", query)
    if path[-1] == "tasks":
        return {"tasks": many(task), "total_entries": 6}
    if path[-1] == "taskInstances":
        return page_of([{**it, "dag_run_id": path[3]} for it in many(instance)], "task_instances", query)
    return {**run(0), "dag_id": path[1], "dag_run_id": path[3]} if len(path) == 4 and path[2] == "dagRuns" else None


def at(*segments, **query):
    return "#/" + "/".join(quote(it, safe="") for it in segments) + ("?" + "&".join(f"{key}={quote(value, safe='')}" for key, value in query.items()) if query
        else "")


DAG, RUN, TASK = name("dag", 0), name("run", 0), name("task", 0)
# Of each view: where it is, and the fields of which it shows each row.
VIEWS = [
    (at("dags"), ["dag", "schedule0", "schedule2", "schedule4"]),
    (at("dags", DAG, run=RUN), ["task", "run0", "type0", "end0", "date0"]),
    (at("dags", DAG, run=RUN, task=TASK), ["task0", "rule0", "pool0"]),
    (at("dags", DAG, "graph"), []),
    (at("dags", DAG, "gantt"), ["task"]),
    (at("dags", DAG, "runs", RUN), ["task", "pool", "run0", "type0"]),
    (at("dags", DAG, "runs", RUN, task=name("task", 3)), ["rule3", "task2", "task4"]),
    (at("runs"), ["dag", "run", "type", "date"]),
    (at("pools"), ["pool"]),
    (at("variables"), ["key", "value"]),
    (at("events", kind="all"), ["owner", "event", "dag", "run", "task", "when"]),
    (at("access"), ["role", "dag"]),
    (at("access", tab="users"), ["user", "role"]),
    (at("me"), ["me0", "role", "dag"]),
]


class Checks:
    def nothing_happened(self):
        """No name became an element, a handler or a link out of the page, and nothing of one ran."""
        found = self.browser.js("""return [typeof window.hit, document.querySelectorAll('img, iframe, object, embed, script:not([src="main.js"]), svg[onload], b').length,
            [...document.querySelectorAll('*')].filter((it) => [...it.attributes].some((one) => one.name.startsWith('on') || one.name === 'style' && !it.style.length)).length,
            [...document.querySelectorAll('a')].filter((it) => !(it.getAttribute('href') || '').startsWith('#')).length]""")
        self.assertEqual(found, ["undefined", 0, 0, 0])

    def nothing_overflows(self):
        wide, room = self.browser.js("return [document.documentElement.scrollWidth, document.documentElement.clientWidth]")
        self.assertLessEqual(wide, room)


class MadeUpRows(Case, Checks, unittest.TestCase):
    @classmethod
    def opens(cls, keep):
        cls.made = keep(MadeUp(rows))
        return cls.made.port

    def test_every_field_of_every_view(self):
        self.browser.sign_in("any", "#/me")
        for route, fields in VIEWS:
            for size in ((1280, 860), (360, 740)):
                with self.subTest(route=route[:40], size=size):
                    self.browser.size(*size)
                    self.browser.go(route)
                    whole = lambda: self.browser.js("return document.body.textContent")
                    for it in fields:
                        wanted = [name(it, n) for n in range(6)] if it.isalpha() else [name(it[:-1], int(it[-1]))]
                        for one in wanted:
                            self.browser.wait(lambda: one in whole(), f"{one[:60]!r} as text")
                    self.nothing_happened()
                    self.nothing_overflows()

    def test_the_graph_cuts_names_and_has_them_whole(self):
        self.browser.sign_in("any", at("dags", DAG, "graph"))
        self.browser.wait(lambda: len(self.browser.all(".node")) == 6, "the nodes")
        self.assertEqual(self.browser.js("return [...document.querySelectorAll('.node title')].map((it) => it.textContent.split(':')[0].slice(0, 5))"),
            [f"task{n}" for n in range(6)])
        self.nothing_happened()

    def test_dialogs_and_notices(self):
        self.browser.sign_in("any", at("pools"))
        for opening, field in ((f"Delete {name('pool', 0)}", name("pool", 0)), (f"Change the slots of {name('pool', 2)}", name("pool", 2))):
            self.browser.press(opening)
            self.browser.wait(lambda: field in self.browser.js("return document.querySelector('dialog').textContent"), "the name in the question")
            self.nothing_happened()
            self.browser.press("Cancel", "dialog")
        self.browser.go(at("access", tab="users"))
        self.browser.press(f"Roles of {name('user', 1)}")
        self.browser.wait(lambda: len(self.browser.all("dialog input[name=role]")) == 6, "the roles")
        self.browser.press("Set the roles", "dialog")
        self.browser.see("made up: nothing changes here")
        method, path, body = self.made.asked[-1]
        self.assertEqual((method, path, body), ("PATCH", "/api/v1/users/" + quote(name("user", 1), safe="!'()*-._~"), {"roles": [{"name": name("role", 1)}]}))
        self.browser.press("Cancel", "dialog")
        self.browser.go(at("dags", DAG, "runs", RUN))
        self.browser.press("Delete …")
        self.browser.wait(lambda: RUN in self.browser.js("return document.querySelector('dialog').textContent"), "the run in the question")
        self.browser.press("Delete the run", "dialog")
        self.browser.see("made up: nothing changes here")
        self.assertEqual(self.made.asked[-1][:2], ("DELETE", f"/api/v1/dags/{quote(DAG, safe=SAFE)}/dagRuns/{quote(RUN, safe=SAFE)}"))
        self.nothing_happened()
        self.browser.press("Cancel", "dialog")

    def test_names_that_no_browser_can_ask_for(self):
        self.browser.sign_in("any", at("dags", ".."))
        self.browser.see('A browser cannot ask for something that is named "..".')


SAFE = "!'()*-._~"
HARD = "<img src=x onerror=window.hit=1>'\"&lt; %2F..?#"
VALUE = HARD + "\n</textarea>‮" + "y" * 2000


class RealRows(DemoCase, Checks, unittest.TestCase):
    """What the configuration itself lets through: names of pools, variables, roles and users, and any text as a value."""

    words = MODEL

    @classmethod
    def config(cls):
        config = json.loads(DEMO)
        config["pools"].append({"name": HARD + "p" * (250 - len(HARD)), "slots": 1})
        config["variables"].append({"key": HARD + "k" * (250 - len(HARD)), "value": VALUE})
        config["roles"].append({"name": HARD[:64], "actions": [{"action": {"name": "can_read"}, "resource": {"name": "DAG:" + "d" * 250}}]})
        config["users"].append({"username": HARD[:64], "roles": [{"name": HARD[:64]}, {"name": "Admin"}],
            "token_sha256": hashlib.sha256(b"hard-demo-token").hexdigest()})
        return json.dumps(config).encode()

    def test_they_are_shown_and_changed(self):
        self.browser.sign_in("hard-demo-token", at("variables"))
        self.assertEqual(self.browser.wait(lambda: self.browser.texts(".user"), "the user"), [HARD[:64]])
        key = HARD + "k" * (250 - len(HARD))
        self.browser.press(f"Edit {key}")
        self.assertEqual(self.browser.wait(lambda: self.browser.js("return document.querySelector('dialog textarea').value"), "the value"), VALUE)
        self.browser.fill("dialog textarea", "a new <value>")
        self.browser.press("Change", "dialog")
        self.browser.wait(lambda: [key, "a new <value>"] in [it[:2] for it in self.browser.rows("Variables")], "the new value")
        for route, words in ((at("pools"), HARD + "p"), (at("access"), HARD[:64]), (at("access"), "d" * 250), (at("access", tab="users"), HARD[:64]),
            (at("me"), HARD[:64])):
            self.browser.go(route)
            self.browser.wait(lambda: words in self.browser.js("return document.querySelector('main').textContent"), f"{words[:70]} in {route}")
            self.nothing_happened()
            self.nothing_overflows()
        pool = HARD + "p" * (250 - len(HARD))
        self.browser.go(at("pools"))
        self.browser.press(f"Delete {pool}")
        self.browser.press("Delete the pool", "dialog")
        self.browser.wait(lambda: pool not in [it[0] for it in self.browser.rows("Pools")], "the end of the pool")


if __name__ == "__main__":
    unittest.main()
