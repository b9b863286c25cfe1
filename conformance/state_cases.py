"""Connections full of operations for differential.py: runs, marks, clears, pools, variables, roles, users; good ones and bad ones.

Names, ids and dates come from few, so that what is asked for is often there, often taken, and often gone again.
"""
import config_cases
import policy_cases
import request_cases
from body_cases import members, needed, part, spelled
from config_cases import KEYS, SCHEDULES, STARTS, VALUES
from oracle_names import DAY, HOUR, LAST, MICROS, instant_of, isoformat
from request_cases import odd

NOWS = [
    *["2024-01-01T00:00:00Z"] * 3,
    *["2024-01-01T00:00:00.000001Z", "2024-02-29T12:34:56.7894561+01:00", "1970-01-01T00:00:00Z", "9998-12-31T23:59:59.999999Z"],
]
DATES = [
    *["2024-01-01T00:00:00Z", "2024-01-01T00:00:00+00:00", "2024-01-01T01:00:00+01:00", "2024-01-02T00:00:00Z", "2024-01-03T00:00:00.5Z"],
    *["2024-01-01T00:00:00.000001Z", "2024-01-01T00:00:00.0000019Z", "1970-01-01T00:00:00Z", "9998-12-31T23:59:59.9999999Z", "2024-02-29T00:00Z"],
    *["20240104T000000Z", "2024-01-05 00:00:00z", "2024-12-31T23:59:60Z"],
]
BAD_DATES = ["", "2024-01-01", "2024-01-01T00:00:00", "2024-13-01T00:00:00Z", "1969-12-31T23:59:59Z", "9999-01-01T00:00:00Z", "2023-02-29T00:00:00Z", "now", 0, True, [], {}, 1704067200]
RUN_IDS = ["r1", "r2", "r3", "x", "a~b", "R:1+2", "-", "u" * 250, *(f"{it}__2024-01-01T00:00:00+00:00" for it in ("manual", "scheduled", "backfill"))]
BAD_RUN_IDS = ["", "~", "a b", "a/b", "\u00e9", "u" * 251, 1, True, [], {}, "r%31", "\x7f"]
TASK_IDS = ["t", "x", "y", "z", "w", "t.1", "A-b_c", "gone"]
POOLS = ["p", "default_pool", "q r", "~", "new", "a/b", 'q"\\', "%zz", "P" * 250]
STATES = ["success", "failed", "queued"]
QUERIES = [b"?", b"?x=1", b"?limit=2", b"?limit=1&offset=1", b"?offset=2", b"?limit=0", b"?limit=-1", b"?limit=", b"?limit", b"?offset=x&limit=y", b"?limit=1000"]
QUERIES += [b"?%6cimit=1", b"?LIMIT=1", b"?limit=1&limit=x", b"?limit=" + b"9" * 30, b"?offset=" + b"9" * 30, b"?limit=+1", b"?limit=%31", b"?limit=1%", b"?&&limit=3&", b"?limit=000", b"?offset=1?limit=2"]


def trigger_body(rng, wild, focus):
    dates = (DATES, BAD_DATES)
    found = members(rng, wild, dag_run_id=([focus["R"], rng.choice(RUN_IDS)], BAD_RUN_IDS), conf=([{}], [{"a": 1}, "{}", []]), logical_date=dates, execution_date=dates)
    if rng.random() < 0.5:
        found.pop("execution_date", None)
    return found


# The lengths of intervals, in seconds, and how many of them a backfill may span: few, or about as many as it has points at most.
INTERVALS, SPANS = {"@hourly": HOUR, "@daily": DAY, "@weekly": 7 * DAY, "@monthly": 31 * DAY}, [0, 0, 1, 1, 2, 3, 5, 98, 99, 100, 101]
BEGINS = [it for it in STARTS if instant_of(it) is not None]


def backfill_body(rng, wild, focus):
    """A range that begins about where a schedule of the configuration does, or another one; by the schedule it has no point, some, or too many."""
    schedule, begin = focus["S"] if focus["S"] and rng.random() < 0.75 else (rng.choice(SCHEDULES), rng.choice(BEGINS))
    unit, inside = INTERVALS.get(schedule, schedule) * MICROS, lambda at: isoformat(max(0, min(LAST, at)))
    start = instant_of(begin) + rng.choice([0, 0, 0, -1, 1, 2, 50]) * unit + rng.choice([0, 0, 0, -1, 1])
    end = start + rng.choice(SPANS) * unit + rng.choice([0, 0, 0, 1, unit - 1])
    return needed(rng, wild, start_date=([inside(start)], BAD_DATES), end_date=([inside(end)], [*BAD_DATES, inside(start - 1)]))


def clear_body(rng, wild, focus):
    truths, dates = ([True, False, False, False], ["false", 0]), (DATES, BAD_DATES)
    ids = [rng.choices(TASK_IDS, k=rng.randint(0, 3)) for _ in range(3)]
    found = members(rng, wild, dry_run=truths, only_failed=truths, task_ids=(ids, [["a b"], [""], "t", [1], [None]]), dag_run_id=([focus["R"], rng.choice(RUN_IDS)], BAD_RUN_IDS), start_date=dates, end_date=dates)
    for name in ("task_ids", "dag_run_id", "start_date", "end_date"):
        if rng.random() < 0.6:
            found.pop(name, None)
    return found


# Names whose first eight bytes are one, or that begin one another: where a row stands among others turns on each byte.
CLOSE = ["n" * 8, "n" * 9, "n" * 7, "n" * 8 + " ", "n" * 8 + "~", "n" * 7 + "m~", "n" * 8 + "N", "n " * 8, "n"]
SLOTS = ([0, 1, 2, 128, 1_000_000], [1_000_001, -1, 1.0, "1", 2**63, 2**64])
# name, method and path, what its body is made of; how often it is taken stands in `weights`
MAKERS = [
    ("list_dags", "GET /dags", None),
    ("show_dag", "GET /dags/D", None),
    ("patch_dag", "PATCH /dags/D", lambda rng, wild, focus: needed(rng, wild, is_paused=([True, False], [1, "true"]))),
    ("list_tasks", "GET /dags/D/tasks", None),
    ("list_runs", "GET /dags/D/dagRuns", None),
    ("list_runs", "GET /dags/~/dagRuns", None),
    ("trigger_run", "POST /dags/D/dagRuns", trigger_body),
    ("backfill", "POST /own/dags/D/backfills", backfill_body),
    ("show_run", "GET /dags/D/dagRuns/R", None),
    ("list_instances", "GET /dags/D/dagRuns/R/taskInstances", None),
    ("show_instance", "GET /dags/D/dagRuns/R/taskInstances/T", None),
    ("mark_run", "PATCH /dags/D/dagRuns/R", lambda rng, wild, focus: needed(rng, wild, state=(STATES, ["running", "Success", ""]))),
    ("delete_run", "DELETE /dags/D/dagRuns/R", None),
    ("clear_run", "POST /dags/D/dagRuns/R/clear", lambda rng, wild, focus: members(rng, wild, dry_run=([True, False, False], ["no", 0]))),
    ("clear_instances", "POST /dags/D/clearTaskInstances", clear_body),
    ("list_pools", "GET /pools", None),
    ("add_pool", "POST /pools", lambda rng, wild, focus: needed(rng, wild, name=([focus["P"], *POOLS, *CLOSE], ["", "\u00e9", "P" * 251, "a\tb", 1]), slots=SLOTS)),
    ("show_pool", "GET /pools/P", None),
    ("set_pool", "PATCH /pools/P", lambda rng, wild, focus: needed(rng, wild, slots=SLOTS)),
    ("delete_pool", "DELETE /pools/P", None),
    ("list_variables", "GET /variables", None),
    ("add_variable", "POST /variables", lambda rng, wild, focus: needed(rng, wild, key=([focus["K"], *KEYS, *CLOSE], ["", "\u00e9", "k" * 251, "a\nb", 1]), value=(VALUES, [1, [], True]))),
    ("show_variable", "GET /variables/K", None),
    ("set_variable", "PATCH /variables/K", lambda rng, wild, focus: needed(rng, wild, value=(VALUES, [1, [], True]))),
    ("delete_variable", "DELETE /variables/K", None),
    ("list_entries", "GET /eventLogs", None),
    *policy_cases.MAKERS,
]
HEAVY = {"trigger_run": 6, "mark_run": 3, "show_run": 2, "clear_instances": 2, "patch_dag": 2, "backfill": 2, "add_pool": 3, "add_variable": 3, "set_pool": 2, "set_variable": 2}
METHODS = [b"GET", b"POST", b"PATCH", b"DELETE", b"PUT", b"HEAD", b"post"]


class Asker:
    """Makes requests on a configuration's DAGs, by its tokens."""

    def __init__(self, rng, config, tokens, has):
        self.rng, self.tokens = rng, tokens
        self.dags = [it["dag_id"] for it in config["dags"]] or ["a"]
        self.schedules = {it["dag_id"]: (it["schedule"], it["start_date"]) for it in config["dags"] if it.get("schedule") is not None}
        self.makers = [it for it in MAKERS if it[0] in has]
        self.others = [it for it in MAKERS if it[0] not in has]
        self.focus = self.look_elsewhere()
        rows = 20 if rng.random() < 0.3 else 1  # how much of it is of pools and variables
        self.weights = [HEAVY.get(it[0], 1) * (rows if "/pools" in it[1] or "/variables" in it[1] else 1) for it in self.makers]

    def look_elsewhere(self):
        """What is asked for next, mostly: one DAG, run, task, pool, variable, role and user."""
        rng = self.rng
        names = {"D": [*self.dags[:2] * 4, *self.dags, "gone"], "R": RUN_IDS[:3] * 5 + RUN_IDS, "T": TASK_IDS, "P": POOLS + CLOSE, "K": KEYS + CLOSE}
        names.update({"O": policy_cases.ROLE_NAMES, "U": policy_cases.USER_NAMES * 4 + ["root"]})
        return {it: rng.choice(of) for it, of in names.items()}

    def path(self, form, wild):
        rng = self.rng
        other = self.look_elsewhere()
        choices = {it: [self.focus[it]] * 3 + [other[it]] for it in other}
        pieces = [part(rng, rng.choice(choices[it]), wild) if it in choices else it.encode() for it in form.split("/")]
        if "~" in form and rng.random() < 0.5:
            pieces = [rng.choice([b"%7E", b"%7e"]) if it == b"~" else it for it in pieces]
        prefix = b"" if form.startswith("/own/") else b"/api/v1"
        return prefix + b"/".join(pieces) + (rng.choice(QUERIES) if rng.random() < 0.15 else b"")

    def request(self, wild, among=()):
        rng = self.rng
        self.focus = self.look_elsewhere() if rng.random() < 0.08 else self.focus
        wanted = [it for it in self.makers if it[0] in among]
        if wanted:
            _, form, body = rng.choice(wanted)
        elif self.others and rng.random() < 0.05:
            _, form, body = rng.choice(self.others)
        else:
            _, form, body = rng.choices(self.makers, self.weights)[0]
        method, form = form.split(" ")
        method = odd(METHODS, rng, wild / 2, method.encode())
        first = method + b" " + self.path(form, wild) + odd([b" HTTP/1.0"], rng, wild / 50, b" HTTP/1.1")
        token = odd([b"nope", b"", b"x"], rng, wild / 2, rng.choice(self.tokens))
        if body or rng.random() < 0.03:
            focus = {**self.focus, "S": self.schedules.get(self.focus["D"])}
            value = spelled(rng, body(rng, wild, focus) if body else {"x": 1}, wild)
            return request_cases.with_body(first, token, value)
        return request_cases.head(first, [b"Host: h", b"Authorization: Bearer " + token])

    def look(self):
        """What stands now, by one who may see it."""
        rng = self.rng
        makers = [it for it in self.makers if it[1].startswith("GET ")]
        form = rng.choice(makers)[1].split(" ")[1]
        letters = {it: of.encode() if it not in "PK" else part(rng, of, 0) for it, of in self.focus.items()}
        path = b"/".join(letters.get(it, it.encode()) for it in form.split("/")).replace(b" ", b"%20").replace(b'"', b"%22")
        first = b"GET " + (b"" if form.startswith("/own/") else b"/api/v1") + path + b" HTTP/1.1"
        return request_cases.head(first, [b"Host: h", b"Authorization: Bearer root-token"])

    def many_runs(self):
        """About as many runs of one DAG as a page holds, and their lists."""
        first = b"POST /api/v1/dags/" + self.dags[0].encode() + b"/dagRuns HTTP/1.1"
        count = self.rng.randint(95, 130)
        bodies = [b'{"dag_run_id":"m%d","logical_date":"2024-03-01T00:00:%02d.%06dZ"}' % (n, n % 60, n) for n in range(count)]
        lists = [request_cases.head(b"GET /api/v1/dags/" + it + b"/dagRuns HTTP/1.1", [b"Host: h", b"Authorization: Bearer root-token"]) for it in (self.dags[0].encode(), b"~")]
        return b"".join([*(request_cases.with_body(first, self.tokens[0], it) for it in bodies), *lists])

    def many_rows(self):
        """About as many pools or variables as a page holds, in no order of names, then some of them gone, and their lists before and after."""
        rng = self.rng
        path, body = rng.choice([(b"/api/v1/pools", b'{"name":"%s","slots":3}'), (b"/api/v1/variables", b'{"key":"%s","value":"%s"}')])
        names = [b"%s%d" % (rng.choice([b"m", b"n" * 8]), n) for n in rng.sample(range(1000), rng.randint(95, 130))]
        fields = [b"Host: h", b"Authorization: Bearer root-token"]
        added = [request_cases.with_body(b"POST " + path + b" HTTP/1.1", b"root-token", body.replace(b"%s", it)) for it in names]
        gone = [request_cases.head(b"DELETE " + path + b"/" + it + b" HTTP/1.1", fields) for it in rng.choices(names, k=rng.randint(1, 60))]
        listing = request_cases.head(b"GET " + path + b" HTTP/1.1", fields)
        return b"".join([*added, listing, *gone, listing])

    def connection(self):
        rng = self.rng
        wild = rng.choice([0.01, 0.05, 0.05, 0.2, 0.5])
        chance = rng.random()
        data = self.many_runs() if chance < 0.03 else self.many_rows() if chance < 0.07 else b""
        count = rng.choice([3, 10, 40, 100, 200, 400])
        pieces = [self.request(0, ["trigger_run"]) for _ in range(rng.choice([0, 0, 3, 8]))]
        for _ in range(count):
            pieces.append(self.request(wild) + (self.look() if rng.random() < 0.3 else b""))
        if rng.random() < 0.1:
            pieces.insert(rng.randrange(count), request_cases.request(rng, self.tokens, 0.1))
        return request_cases.ended(rng, data + b"".join(pieces)) if rng.random() < 0.2 else data + b"".join(pieces)


def config(rng, has):
    """A configuration with a user of each default role, and users who may do something on some DAGs; and the tokens."""
    made, tokens = config_cases.good(rng, has)
    if not made["dags"] or rng.random() < 0.7:
        ids = rng.sample(config_cases.DAG_IDS, rng.randint(1, 5))
        made["dags"] = [{"dag_id": it, "tasks": config_cases.task_rows(rng, ["default_pool"])} for it in ids]
        for it in made["dags"]:
            daily = {"schedule": "@daily", "start_date": "2024-01-01T00:00:00Z"}
            other = {**daily, "schedule": rng.choice(["@hourly", "@weekly", 60]), "is_paused": rng.random() < 0.5}
            it.update(rng.choice([{}, {"is_paused": True}, daily, other]))
        made["pools"] = [{"name": it, "slots": rng.randint(0, 3)} for it in rng.sample(["p", "q r", "~"], rng.randint(0, 2))]
        if made["pools"]:
            rng.choice(made["dags"])["tasks"][0]["pool"] = made["pools"][0]["name"]
    if rng.random() < 0.03:
        made["dags"][0]["tasks"] = [{"task_id": f"t{n}", "upstream": [f"t{n // 2}"] if n else []} for n in range(rng.choice([100, 101, 512]))]
    ids = [it["dag_id"] for it in made["dags"]]
    own = [policy_cases.own_role(rng, f"own{n}", ids, has) for n in range(3)]
    made["roles"] = (made["roles"] or []) + own
    names = {"root": "Admin", "op": "Op", "uma": "User", "vi": "Viewer", "o0": "own0", "o1": "own1", "o2": "own2"}
    made["users"] += [config_cases.user_row(name, name.encode() + b"-token", role) for name, role in names.items()]
    for name in ("variables", "history_limit", "version_limit"):
        made.pop(name, None)
    policy_cases.add_members(rng, made, has)
    strong = [b"root-token"] * 12 + [b"op-token", b"uma-token"] * 2
    return made, strong + [name.encode() + b"-token" for name in names] + tokens


def by_adam(asked, body=b""):
    """A request over examples/base.json, by one who may do everything."""
    method, path = asked.split(b" ")
    return request_cases.with_body(method + b" /api/v1" + path + b" HTTP/1.1", b"admin", body)


def fixed_rows():
    """Pools and variables at their limits, over examples/base.json: numbers as they may be spelled, texts of each length, and long lists."""
    numbers = b"0 1 -1 1000000 1000001 1.0 1e2 -0 00 18446744073709551615 18446744073709551616 9223372036854775808 null true [] {} 1e400".split()
    numbers += [b'"1"', b" 7\n", b"3,\"slots\":4", b'4,"slots":"x"', b"+1", b"0x1", b""]
    for number in numbers:
        added = by_adam(b"POST /pools", b'{"name":"p","slots":' + number + b"}")
        yield added + by_adam(b"PATCH /pools/default_pool", b'{"slots":' + number + b"}") + added + by_adam(b"GET /pools")
    for text in [it.encode() for it in ["", "\u00e9", "\u2028", "\x7f", "\U0001f600", "\\ud83d\\ude00", "\\ud83d", "\\u0000", "\\/", "\t", '\\"', "\\\\", "\\x", "a" * 250, "a" * 251, "\\u0061" * 250]] + [b"\xff", b"\xc3"]:
        yield by_adam(b"POST /pools", b'{"name":"' + text + b'","slots":1}') + by_adam(b"POST /variables", b'{"key":"' + text + b'","value":"v"}') + by_adam(
            b"POST /variables", b'{"key":"k","value":"' + text + b'"}') + by_adam(b"PATCH /variables/k", b'{"value":"w' + text + b'"}') + by_adam(b"GET /variables") + by_adam(b"GET /pools")
    for length in (65535, 65536, 65537):
        body = b'{"key":"k","value":""}'
        yield by_adam(b"POST /variables", body[:-2] + b"v" * (length - len(body)) + body[-2:]) + by_adam(b"GET /variables/k") + by_adam(b"DELETE /variables/k") + by_adam(b"GET /variables")
    for count, size in ((30, 60_000), (110, 10)):
        added = [by_adam(b"POST /variables", b'{"key":"%d","value":"%s"}' % (n * 7919 % count, b"v\\n" * (size // 3))) for n in range(count)]
        changed = [by_adam(b"PATCH /variables/%d" % n, b'{"value":"%d"}' % n) for n in range(0, count, 2)]
        yield b"".join([*added, by_adam(b"GET /variables"), *changed, by_adam(b"GET /variables"), *(by_adam(b"DELETE /variables/%d" % n) for n in range(0, count, 3)), by_adam(b"GET /variables")])


def fixed():
    """For each operation one connection over examples/base.json: each user, body, and name that is there or not."""
    begin = request_cases.with_body(b"POST /api/v1/dags/b/dagRuns HTTP/1.1", b"abc", b'{"dag_run_id":"r1"}')
    begin += by_adam(b"POST /pools", b'{"name":"p","slots":2}') + by_adam(b"POST /variables", b'{"key":"k","value":"v"}')
    tokens = [b"admin", b"test", b"foo", b"bar", b"hello", b"abc", b"secret", b"nope"]
    names = {"D": ["b", "gone", "~", "a b"], "R": ["r1", "gone", "~"], "T": ["t", "gone"], "P": ["default_pool", "p", "gone", ""], "K": ["k", "gone", ""]}
    names.update({"O": ["OnlyB", "Viewer", "gone"], "U": ["bob", "gone"]})
    good = b'{"is_paused":true,"name":"n","slots":1,"key":"k","value":"v","state":"success","actions":[],"username":"n","roles":[],"token_sha256":"%s",' % (b"0" * 64)
    good += b'"start_date":"2024-01-01T00:00:00Z","end_date":"2024-01-02T00:00:00Z"}'
    for _, form, _ in MAKERS:
        method, path = form.split(" ")
        paths = [("" if path.startswith("/own/") else "/api/v1") + path]
        for letter, values in names.items():
            paths = [it.replace("/" + letter, "/" + value, 1) if ("/" + letter + "/") in it + "/" else it for it in paths for value in values]
        for token in tokens:
            data = begin
            for it in sorted({*paths}):
                first = f"{method} {it} HTTP/1.1".replace("a b", "a%20b").encode()
                for body in (b"{}", b"{", good):
                    data += request_cases.with_body(first, token, body)
            yield data
