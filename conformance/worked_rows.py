"""Texts for the connections that were worked out by hand: requests, rows as they are told, and whole answers."""
import hashlib
import json

TOKENS = {"adam": "admin", "zoe": "password", "vera": "test", "bob": "foo", "pat": "bar", "edna": "hello", "uma": "abc", "ron": "secret"}
# Tokens that are nobody's until a change of the policy makes them somebody's.
TOKENS.update({"ann": "ann's token", "ann again": "ann's other token", "nobody": "nope"})
NOW, T1, MIDNIGHT = "2024-01-01T00:00:00Z", "2024-01-01T00:00:00.000001+00:00", "2024-01-01T00:00:00+00:00"
ENDED = f'"{MIDNIGHT}"'
REASONS = {
    200: "OK",
    204: "No Content",
    400: "Bad Request",
    401: "Unauthorized",
    403: "Forbidden",
    404: "Not Found",
    405: "Method Not Allowed",
    409: "Conflict",
    507: "Insufficient Storage",
}


def request(name, asked, body=""):
    """The bytes of a request by the user of this name; by nobody where there is none."""
    method, path = asked.split(" ")
    path = path if path.startswith("/own/") else "/api/v1" + path
    head = f"{method} {path} HTTP/1.1\r\nHost: h\r\n"
    head += f"Authorization: Bearer {TOKENS[name]}\r\n" if name else ""
    return (head + (f"Content-Length: {len(body.encode())}\r\n" if body else "") + "\r\n" + body).encode()


def problem(status, detail):
    """The body of a fault."""
    return f'{{"detail":{json.dumps(detail, ensure_ascii=False)},"status":{status},"title":"{REASONS[status]}","type":"about:blank"}}'


def answer(asked, status, told, version, seq):
    """The bytes of an answer: a body, or the detail of a fault; of a 405 the methods that the path has. No version or number where that is none."""
    body = (told if status < 300 else problem(status, "method not allowed" if status == 405 else told)).encode()
    kind = "application/json" if status < 300 else "application/problem+json"
    fields = [] if status == 204 else [f"Content-Type: {kind}", f"Content-Length: {len(body)}"]
    fields += [f"Allow: {told}"] if status == 405 else ["WWW-Authenticate: Bearer"] if status == 401 else []
    fields += [f"X-Policy-Version: {version}"] if version is not None else []
    fields += [f"X-Plane-Seq: {seq}"] if seq is not None else []
    head = "\r\n".join([f"HTTP/1.1 {status} {REASONS[status]}", *fields, "", ""]).encode()
    return head if asked.startswith("HEAD ") else head + body


def exchanges(steps):
    """For each step the bytes of its request and those of its answer.

    A step is who asks for what with which body; then the status, what is told, and the number of entries (none where none is told); from the first
    change of the policy on, the version stands behind it, and it stays for the steps that name none. A step whose version is none is told none.
    """
    version = 0
    for name, asked, body, status, told, seq, *more in steps:
        version = more[0] if more and more[0] is not None else version
        yield request(name, asked, body), answer(asked, status, told, None if more == [None] else version, seq)


def listed(name, total, *rows):
    if name == "users" or name == "variables":
        return f'{{"total_entries":{total},"{name}":[{",".join(rows)}]}}'
    return f'{{"{name}":[{",".join(rows)}],"total_entries":{total}}}'


def dag_row(dag, paused="false"):
    return f'{{"dag_id":"{dag}","is_paused":{paused},"max_active_runs":16,"next_dagrun":null,"schedule_interval":null}}'


def run_row(dag, run_id, date, state="queued", end="null"):
    return (
        f'{{"dag_id":"{dag}","dag_run_id":"{run_id}","data_interval_end":"{date}","data_interval_start":"{date}","end_date":{end},'
        f'"logical_date":"{date}","run_type":"manual","start_date":null,"state":"{state}"}}'
    )


def backfill_row(dag, date, end, state="queued", ended="null"):
    """A run that a backfill made, of the interval from a date to the next point."""
    return (
        f'{{"dag_id":"{dag}","dag_run_id":"backfill__{date}","data_interval_end":"{end}","data_interval_start":"{date}","end_date":{ended},'
        f'"logical_date":"{date}","run_type":"backfill","start_date":null,"state":"{state}"}}'
    )


def instance_row(state="null", end="null", dag="b", run="r2"):
    return (
        f'{{"dag_id":"{dag}","dag_run_id":"{run}","end_date":{end},"pool":"default_pool","pool_slots":1,"priority_weight":1,'
        f'"start_date":null,"state":{state},"task_id":"t","try_number":0}}'
    )


def pool_row(name, slots):
    return f'{{"name":"{name}","occupied_slots":0,"open_slots":{slots},"queued_slots":0,"running_slots":0,"slots":{slots}}}'


def variable_row(key, value):
    return f'{{"key":"{key}","value":"{value}"}}'


def entry_row(number, event, owner, dag="null", run="null", version=0, when=MIDNIGHT):
    dag, run = (it if it == "null" else f'"{it}"' for it in (dag, run))
    return (
        f'{{"dag_id":{dag},"event":"{event}","event_log_id":{number},"owner":"{owner}","policy_version":{version},'
        f'"run_id":{run},"task_id":null,"when":"{when}"}}'
    )


def pairs_text(permissions):
    """Permissions, written `RESOURCE.ACTION` with commas between them, as a role has them."""
    parts = [it.rpartition(".") for it in permissions.split(",") if it]
    return "[" + ",".join(f'{{"action":{{"name":"{action}"}},"resource":{{"name":"{resource}"}}}}' for resource, _, action in parts) + "]"


def role_row(name, permissions):
    return f'{{"actions":{pairs_text(permissions)},"name":"{name}"}}'


def user_row(name, *roles):
    return f'{{"roles":{names_text(*roles)},"username":"{name}"}}'


def names_text(*roles):
    return "[" + ",".join(f'{{"name":"{it}"}}' for it in roles) + "]"


def me_row(name, version, permissions, *roles):
    texts = ",".join(f'"{it}"' for it in permissions.split(",") if it)
    return f'{{"permissions":[{texts}],"policy_version":{version},"roles":[{",".join(f"{chr(34)}{it}{chr(34)}" for it in roles)}],"username":"{name}"}}'


VIEWER = "DAGs.can_read,DAG Runs.can_read,Task Instances.can_read"
USER = (
    "DAGs.can_read,DAGs.can_edit,DAGs.can_delete,DAG Runs.can_create,DAG Runs.can_read,DAG Runs.can_edit,DAG Runs.can_delete,"
    "Task Instances.can_create,Task Instances.can_read,Task Instances.can_edit,Task Instances.can_delete"
)
OP = USER + (
    ",Pools.can_create,Pools.can_read,Pools.can_edit,Pools.can_delete,Variables.can_create,Variables.can_read,Variables.can_edit,Variables.can_delete"
    ",Audit Logs.can_read"
)
ADMIN = OP + ",Roles.can_create,Roles.can_read,Roles.can_edit,Roles.can_delete,Users.can_create,Users.can_read,Users.can_edit,Users.can_delete"


def digest(name):
    return hashlib.sha256(TOKENS[name].encode()).hexdigest()


def new_role(name, permissions):
    return f'{{"name":"{name}","actions":{pairs_text(permissions)}}}'


def new_user(name, roles, token):
    return f'{{"username":"{name}","roles":{names_text(*roles)},"token_sha256":"{digest(token)}"}}'


def roles_alone(*roles):
    return f'{{"roles":{names_text(*roles)}}}'


def synced(version, dag="b"):
    return f'{{"dag_id":"{dag}","policy_version":{version}}}'
