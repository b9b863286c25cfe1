"""Long connections for differential.py in which users, roles, tokens and runs come and go, made request by request beside a plane of the oracle's own.

So most of what is asked for is there, or was, most of those who ask may do it, or could before, and a body has no fault, one, or two. What a
request should be answered is not taken from here: differential.py asks the oracle for the whole connection again.
"""
import hashlib
import json

import oracle
import policy_cases
import replay
import state_cases
from body_cases import BAD_BODIES, OTHERS, part
from config_cases import RESOURCES, role_row
from oracle import MOST_REQUESTS
from oracle_names import isoformat
from oracle_policy import DEFAULT_ROLES
from oracle_table import OPERATIONS
from oracle_verdict import decide, permitted
from request_cases import ended, head, with_body

FRESH = [b"fresh", b"later", b"a token", "\u00e9".encode(), b"\x80\xff", b"x" * 200, b"again", b"Bearer fresh"]
NEW_ROLES = ["new", "A b", "~", "%zz", '"\\', "a/b", "r" * 64]
NEW_USERS = ["ann", "A b", '"', "%41", "ann2", "u" * 64, "{role_name}"]
ACTIONS = ["can_create", "can_read", "can_edit", "can_delete"]
BAD_ACTIONS = ["can_fly", "", "Can_read", "can_read ", "\u00e9\n"]
BAD_RESOURCES = ["dags", "DAG:", "DAG:a b", "DAG Run:", "DAG Run:a b", "DAG run:a", "", "Connections", 'x"']
BAD_LABELS = ["", "\u00e9", "n" * 65, "\x7f", *OTHERS]
BAD_PAIRS = [*OTHERS[1:], [{"action": {"name": "can_fly"}}], [{"action": {"name": "can_read"}, "resource": {"name": None}}], [["can_read", "DAGs"]]]
BAD_NAMES = [*OTHERS[1:], ["Viewer"], [{"name": "Viewer"}, {"name": ""}], [{"name": "nobody"}, {"name": "\u00e9"}], {"name": "Viewer"}]
BAD_DIGESTS = ["0" * 63, "0" * 65, "g" * 64, *OTHERS]
BAD_ACCESS = [[], "x", 1, False, {"Viewer": None}, {"Viewer": "can_read"}, {"Viewer": {"Pools": []}}, {"": ["can_read"]}, {"\u00e9": []}, {"Viewer": [1]}, {"n" * 65: ["x"]}]
BAD_ACCESS += [{"Viewer": {"DAG Runs": it}} for it in ("can_read", [1], {}, False)] + [{"": {}}, {"Viewer": {"DAGs": ["x"], "runs": []}}]
# How often each operation is asked for; once where nothing is said.
WEIGHTS = {
    **{"add_role": 4, "set_role": 4, "drop_role": 4, "add_user": 5, "set_user": 8, "drop_user": 3, "sync": 6, "me": 6, "list_entries": 6},
    **{"list_roles": 2, "show_role": 3, "list_users": 2, "show_user": 3, "list_dags": 5, "show_dag": 3, "patch_dag": 5, "trigger_run": 4, "backfill": 2, "list_runs": 2, "mark_run": 2},
}


def sha256(token):
    return hashlib.sha256(token).hexdigest()


class Mixer:
    """Makes one connection over a configuration; `wild` is how likely a part of a request is an odd one."""

    def __init__(self, rng, config, tokens, now, has):
        self.rng, self.now, self.has = rng, now, has
        self.plane = oracle.Plane(json.dumps(config).encode(), now, has)
        self.tokens = {hashlib.sha256(it).digest(): it for it in [*tokens, *FRESH]}
        self.bodies = {name: lambda make=body: make(rng, self.wild, self.focus()) for name, _, body in state_cases.MAKERS if body}
        self.bodies.update({"add_role": self.new_role, "set_role": self.role, "add_user": self.new_user, "set_user": self.user, "sync": self.access})
        self.operations = [it for it in OPERATIONS if it.name in has]
        self.weights = [WEIGHTS.get(it.name, 1) for it in self.operations]
        self.wild, self.asked = rng.choice([0, 0.02, 0.05, 0.1, 0.3]), 0

    def policy(self):
        return self.plane.versions[-1]

    def chance(self, of):
        return self.rng.random() < of

    # ---- Names, mostly of what stands ----

    def names(self, form, dag):
        """For a part of a path what stands, and then what does not, or is no name; a run and a task are of the DAG that stands before them."""
        state, policy = self.plane.state, self.policy()
        if form == "{dag_id}":
            return [self.rng.choice(state.runs).dag_id if state.runs and self.chance(0.7) else self.rng.choice(sorted(state.dags))], ["gone", "~", "a b"]
        if form == "{dag_run_id}":
            return [it.run_id for it in state.runs if it.dag_id == dag] or ["r1"], ["r1", "gone", "~"]
        if form == "{task_id}":
            return [it.task_id for it in state.dags[dag].tasks] if dag in state.dags else ["t"], ["gone"]
        if form == "{pool_name}":
            return sorted(state.pools), ["p", "gone", ""]
        if form == "{variable_key}":
            return sorted(state.variables) or ["k"], ["k", "gone", ""]
        if form == "{role_name}":
            return [it for it in policy.roles if it not in DEFAULT_ROLES] * 3 + list(DEFAULT_ROLES), [*NEW_ROLES, "n" * 65, "\u00e9"]
        if form == "{username}":
            admins = [it for it, user in policy.users.items() if "Admin" in user.roles]
            return sorted(policy.users) + admins * 3, [*NEW_USERS, "n" * 65, ""]
        return ["~"], ["~"]

    def some_roles(self, most):
        """Names of roles that are there, Admin not often."""
        roles = [it for it in sorted(self.policy().roles) if it != "Admin"] + ["Admin"] * self.chance(0.15)
        return [self.rng.choice(roles) for _ in range(self.rng.randint(0, most))]

    # ---- Bodies ----

    def focus(self):
        """What the bodies of operations on the state name."""
        rng, dags = self.rng, self.plane.state.dags.values()
        schedules = [(it.schedule, isoformat(it.start)) for it in dags if it.schedule is not None] or [None]
        return {"R": rng.choice(state_cases.RUN_IDS), "P": rng.choice(state_cases.POOLS), "K": rng.choice(state_cases.KEYS), "S": rng.choice(schedules)}

    def spoiled(self, body, bad):
        """The body; now and then with a member, or two, of a wrong kind or value, or gone."""
        rng = self.rng
        if self.chance(0.08 + self.wild / 2):
            for name in rng.sample(sorted(bad), min(len(bad), rng.choice([1, 1, 2]))):
                body[name] = rng.choice(bad[name])
                if self.chance(0.2):
                    del body[name]
        if self.chance(0.05):
            body[rng.choice(["note", "Name", "access", "role"])] = rng.choice(OTHERS)
        return dict(rng.sample(sorted(body.items()), len(body)))

    def pairs(self):
        """Pairs of a role; now and then with an action, a pair, or both that no role may have."""
        rng, dags = self.rng, [*sorted(self.plane.state.dags), "gone"]
        found = []
        for _ in range(rng.choice([0, 1, 2, 4, 8])):
            kind = rng.choice(["DAG:", "DAG Run:", "", ""])
            found.append((rng.choice(ACTIONS[kind == "DAG:" :]), kind + rng.choice(dags) if kind else rng.choice(RESOURCES)))
        if self.chance(0.1):
            found.insert(rng.randint(0, len(found)), (rng.choice(BAD_ACTIONS), rng.choice(RESOURCES + BAD_RESOURCES)))
        if self.chance(0.1):
            bad = rng.choice([("can_create", "DAG:" + rng.choice(dags)), (rng.choice(ACTIONS), rng.choice(BAD_RESOURCES))])
            found.insert(rng.randint(0, len(found)), bad)
        return role_row("", *found)["actions"]

    def role_list(self):
        """Names of roles; now and then with one that is not there, or two."""
        names = self.some_roles(4)
        for _ in range(self.rng.choice([0] * 8 + [1, 2])):
            names.insert(self.rng.randint(0, len(names)), self.rng.choice([*NEW_ROLES, "nobody"]))
        return [{"name": it} for it in names]

    def digest(self):
        """A digest: of a token that is nobody's, of somebody's, or of none."""
        rng, taken = self.rng, {it.digest for it in self.policy().users.values()}
        free = [it for key, it in self.tokens.items() if key not in taken]
        token = rng.choice(free if free and self.chance(0.7) else list(self.tokens.values()))
        text = sha256(b"none's %d" % rng.randrange(100)) if self.chance(0.03) else sha256(token)
        return text.upper() if self.chance(0.2) else text

    def role(self):
        return self.spoiled({"actions": self.pairs()}, {"actions": BAD_PAIRS})

    def new_role(self):
        name = self.rng.choice(NEW_ROLES if self.chance(0.8) else sorted(self.policy().roles))
        return self.spoiled({"name": name, "actions": self.pairs()}, {"name": BAD_LABELS, "actions": BAD_PAIRS})

    def user(self):
        body = {"roles": self.role_list()} if self.chance(0.8) else {}
        if self.chance(0.3):
            body["token_sha256"] = self.digest()
        return self.spoiled(body, {"roles": BAD_NAMES, "token_sha256": BAD_DIGESTS})

    def new_user(self):
        name = self.rng.choice(NEW_USERS if self.chance(0.85) else sorted(self.policy().users))
        body = {"username": name, "roles": self.role_list(), "token_sha256": self.digest()}
        return self.spoiled(body, {"username": BAD_LABELS, "roles": BAD_NAMES, "token_sha256": BAD_DIGESTS})

    def access(self):
        """What roles may do on a DAG and its runs; now and then with an action or a role that is not there, or both."""
        rng = self.rng
        found = {it: policy_cases.listed(rng) for it in self.some_roles(3)}
        if self.chance(0.1):
            found[rng.choice(["Abe", "Zed", "nobody"])] = rng.choice([[], ["can_read"], ["can_create"], ["x", "can_edit"], {}, {"DAG Runs": ["can_create"]}])
        if found and self.chance(0.1):
            lists = found[rng.choice(sorted(found))]
            lists = lists if type(lists) is list else lists.setdefault(rng.choice(["DAGs", "DAG Runs"]), [])
            if lists is not None:
                lists.insert(0, rng.choice(["can_create", *BAD_ACTIONS]))
        shuffled = dict(rng.sample(sorted(found.items()), len(found)))
        return self.spoiled({"access_control": shuffled} if self.chance(0.9) else {}, {"access_control": BAD_ACCESS})

    def body(self, name):
        if self.chance(self.wild / 3):
            return self.rng.choice(BAD_BODIES)
        return json.dumps(self.bodies[name](), ensure_ascii=self.chance(0.5)).encode()

    # ---- Requests ----

    def path(self, operation):
        """The path of an operation, and its parts as they are meant."""
        pieces, meant = [], []
        for it in operation.path:
            if it[:1] == "{":
                there, other = self.names(it, meant[0] if meant else None)
                meant.append(self.rng.choice(there if self.chance(0.9 - self.wild / 2) else other))
                it = part(self.rng, meant[-1], self.wild / 4)
            pieces.append(it if isinstance(it, bytes) else it.encode())
        return b"/" + b"/".join(pieces), meant

    def query(self, operation):
        """Nothing, a page of what there is, or something odd."""
        rng = self.rng
        if not operation.is_listing or self.chance(0.4):
            return rng.choice(state_cases.QUERIES) if self.chance(0.03 + self.wild / 4) else b""
        rows = len(self.plane.entries) if operation.name == "list_entries" else 20
        page = [b"limit=%d" % rng.choice([0, 1, 2, 5, 100]), b"offset=%d" % rng.choice([0, 1, rng.randint(0, rows + 2), rows])]
        return b"?" + b"&".join(rng.sample(page, rng.randint(1, 2)))

    def token(self, operation, meant):
        """The token of one who may do it, now and then by as few permissions on whole kinds as may be; of anyone, or of nobody."""
        rng, users = self.rng, self.policy().users
        if self.chance(0.06 + self.wild / 4):
            held = {it.digest for it in users.values()}
            return rng.choice([None, b"nope", *(it for key, it in self.tokens.items() if key not in held)])
        known = self.known()
        able = {it: granted for it in known for _, granted, denied in [permitted(self.plane, operation, meant, it)] if denied is None}
        if able and self.chance(0.25):
            return min(able, key=lambda it: sum(resource in RESOURCES for _, resource in able[it]))
        able = list(able)
        return rng.choice(able if able and self.chance(0.75) else known or [b"nope"])

    def ask(self, method, target, token, body):
        """The bytes of a request, which the plane beside is asked too."""
        decide(self.plane, method, target, token, body or b"")
        self.asked += 1
        first = method + b" " + target + b" HTTP/1.1"
        if token is None:
            length = b"" if body is None else b"Content-Length: %d" % len(body)
            return head(first, [b"Host: h", length] if length else [b"Host: h"]) + (body or b"")
        return head(first, [b"Host: h", b"Authorization: Bearer " + token]) if body is None else with_body(first, token, body)

    def request(self):
        rng = self.rng
        operation = rng.choices(self.operations, self.weights)[0]
        path, meant = self.path(operation)
        body = self.body(operation.name) if operation.body else b"{}" if self.chance(0.02) else None
        method = rng.choice(state_cases.METHODS) if self.chance(self.wild / 4) else operation.method.encode()
        text = self.ask(method, path + self.query(operation), self.token(operation, meant), body)
        if operation.method != "GET" and self.chance(0.5):
            text += self.look(operation, path)
        return text

    def known(self, role=""):
        """The tokens of the users, or of those who have the role, as far as there are such."""
        return sorted(self.tokens[it.digest] for it in self.policy().users.values() if it.digest in self.tokens and (not role or role in it.roles))

    def look(self, operation, path):
        """What was changed, or the event logs' end, or what somebody may do then."""
        rng = self.rng
        last = b"/api/v1/eventLogs?offset=%d" % max(0, len(self.plane.entries) - rng.randint(0, 3))
        above = path.rpartition(b"/")[0]
        shown = {"sync": b"/api/v1/roles", "clear_run": above, "clear_instances": above + b"/dagRuns"}
        shown = {**shown, "backfill": b"/api/v1" + above[len(b"/own") :] + b"/dagRuns"}.get(operation.name, path)
        target = rng.choice([shown, shown, shown, last, b"/own/me", b"/api/v1/dags", b"/api/v1/roles", b"/api/v1/users"])
        return self.ask(b"GET", target, rng.choice(self.known("Admin") * 2 + self.known() or [b"nope"]), None)

    def with_looks(self):
        """A connection of many changes of the state, which ends in looks at all that stands, and how many looks these are; without any where no
        token of an Admin is known then."""
        rng = self.rng
        self.weights = [it * (6 if of.event else 1) for it, of in zip(self.weights, self.operations)]
        self.wild, few = rng.choice([0, 0, 0.02, 0.1]), self.bodies["trigger_run"]
        self.bodies["trigger_run"] = lambda: {"logical_date": f"2024-03-01T00:00:00.{self.asked:06}Z"} if self.chance(0.6) else few()
        data = b"".join(self.request() for _ in range(rng.choice([20, 100, 250, 400])))
        state, tokens = self.plane.state, self.known("Admin")
        targets = replay.looks(state, len(self.plane.entries), rng.sample(state.runs, min(len(state.runs), 60)))[: MOST_REQUESTS - self.asked]
        if not tokens:
            return data, 0
        return data + b"".join(self.ask(b"GET", it.encode(), rng.choice(tokens), None) for it in targets), len(targets)

    def connection(self):
        rng = self.rng
        count = rng.choice([15, 40, 100, 250, 600])
        data = b"".join(self.request() for _ in range(count))
        return ended(rng, data) if rng.random() < 0.1 else data
