"""The table of operations, and which of them a request names: part of oracle.py.

Which operations there are is a set of names, so that a program can be compared that has not all of them yet: a path that
none of them has is not found, and `Allow` leaves the others out.
"""
from dataclasses import dataclass
from urllib.parse import unquote_to_bytes

import oracle_bodies as bodies
import oracle_names as names
import oracle_ops as ops
from oracle_ops import CREATE, DAGS, DELETE, EDIT, INSTANCES, LOGS, POOLS, READ, ROLES, RUNS, USERS, VARIABLES

KINDS = {
    "{dag_id}": names.is_dag_id,
    "{~}": lambda text: text == "~",
    "{dag_run_id}": names.is_run_id,
    "{task_id}": names.is_task_id,
    "{pool_name}": names.is_pool_name,
    "{variable_key}": names.is_variable_key,
    "{role_name}": names.is_label,
    "{username}": names.is_label,
}
METHODS = ["GET", "POST", "PATCH", "DELETE"]
READ_DAG, EDIT_DAG, READ_RUNS, READ_INSTANCES = (READ, DAGS), (EDIT, DAGS), (READ, RUNS), (READ, INSTANCES)


@dataclass(frozen=True)
class Operation:
    name: str
    method: str
    path: list
    needs: list
    act: object
    body: object = None  # what reads its body, where it has one
    event: object = None  # what the event logs call it, where it changes the state
    is_listing: bool = False  # whether `limit` and `offset` are read
    on_policy: bool = False  # whether it is of the policy, and not of the state


def row(name, request, needs, act, body=None, event=None, **more):
    method, path = request.split(" ")
    return Operation(name, method, path.split("/")[1:], needs, act, body, event, **more)


def rows_of(one, many, path, part, resource, body, new_body):
    """The five operations on rows of one kind, which the state holds."""
    of, one_path = getattr, f"{path}/{part}"
    yield row(f"list_{many}", f"GET {path}", [(READ, resource)], of(ops, f"list_{many}"), is_listing=True)
    yield row(f"add_{one}", f"POST {path}", [(CREATE, resource)], of(ops, f"add_{one}"), new_body, f"post_{one}")
    yield row(f"show_{one}", f"GET {one_path}", [(READ, resource)], of(ops, f"show_{one}"))
    yield row(f"set_{one}", f"PATCH {one_path}", [(EDIT, resource)], of(ops, f"set_{one}"), body, f"patch_{one}")
    yield row(f"delete_{one}", f"DELETE {one_path}", [(DELETE, resource)], of(ops, f"delete_{one}"), None, f"delete_{one}")


def policy_rows(one, many, path, part, resource, body, new_body):
    """The five operations on rows of one kind, which the policy holds."""
    of, one_path = getattr, f"{path}/{part}"
    yield row(f"list_{many}", f"GET {path}", [(READ, resource)], of(ops, f"list_{many}"), is_listing=True, on_policy=True)
    yield row(f"add_{one}", f"POST {path}", [(CREATE, resource)], of(ops, f"add_{one}"), new_body, on_policy=True)
    yield row(f"show_{one}", f"GET {one_path}", [(READ, resource)], of(ops, f"show_{one}"), on_policy=True)
    yield row(f"set_{one}", f"PATCH {one_path}", [(EDIT, resource)], of(ops, f"set_{one}"), body, on_policy=True)
    yield row(f"drop_{one}", f"DELETE {one_path}", [(DELETE, resource)], of(ops, f"drop_{one}"), on_policy=True)


def table():
    dag, runs = "/api/v1/dags/{dag_id}", "/api/v1/dags/{dag_id}/dagRuns"
    run = runs + "/{dag_run_id}"
    return [
        row("list_dags", "GET /api/v1/dags", [READ_DAG], ops.list_dags, is_listing=True),
        row("show_dag", f"GET {dag}", [READ_DAG], ops.show_dag),
        row("patch_dag", f"PATCH {dag}", [EDIT_DAG], ops.patch_dag, bodies.pause_body, "patch_dag"),
        row("list_tasks", f"GET {dag}/tasks", [READ_DAG, READ_INSTANCES], ops.list_tasks),
        row("list_runs", f"GET {runs}", [READ_DAG, READ_RUNS], ops.list_runs, is_listing=True),
        row("list_runs", "GET /api/v1/dags/{~}/dagRuns", [READ_DAG, READ_RUNS], ops.list_all_runs, is_listing=True),
        row("trigger_run", f"POST {runs}", [EDIT_DAG, (CREATE, RUNS)], ops.trigger_run, bodies.trigger_body, "trigger_dag_run"),
        row("show_run", f"GET {run}", [READ_DAG, READ_RUNS], ops.show_run),
        row("mark_run", f"PATCH {run}", [EDIT_DAG, (EDIT, RUNS)], ops.mark_run, bodies.mark_body, "patch_dag_run"),
        row("delete_run", f"DELETE {run}", [EDIT_DAG, (DELETE, RUNS)], ops.delete_run, None, "delete_dag_run"),
        row("clear_run", f"POST {run}/clear", [EDIT_DAG, (EDIT, RUNS)], ops.clear_run, bodies.clear_run_body, "clear_dag_run"),
        row("list_instances", f"GET {run}/taskInstances", [READ_DAG, READ_RUNS, READ_INSTANCES], ops.list_instances, is_listing=True),
        row("show_instance", f"GET {run}/taskInstances/{{task_id}}", [READ_DAG, READ_RUNS, READ_INSTANCES], ops.show_instance),
        row("clear_instances", f"POST {dag}/clearTaskInstances", [EDIT_DAG, READ_RUNS, (EDIT, INSTANCES)], ops.clear_instances, bodies.clear_body, "clear_task_instances"),
        row("backfill", "POST /own/dags/{dag_id}/backfills", [EDIT_DAG, (CREATE, RUNS)], ops.backfill, bodies.backfill_body, "backfill"),
        *rows_of("pool", "pools", "/api/v1/pools", "{pool_name}", POOLS, bodies.pool_body, bodies.new_pool_body),
        *rows_of("variable", "variables", "/api/v1/variables", "{variable_key}", VARIABLES, bodies.variable_body, bodies.new_variable_body),
        row("list_entries", "GET /api/v1/eventLogs", [(READ, LOGS)], ops.list_entries, is_listing=True),
        *policy_rows("role", "roles", "/api/v1/roles", "{role_name}", ROLES, bodies.pairs_of, bodies.new_role_body),
        *policy_rows("user", "users", "/api/v1/users", "{username}", USERS, bodies.user_body, bodies.new_user_body),
        row("me", "GET /own/me", [], ops.me, on_policy=True),
        row("sync", "POST /own/dags/{dag_id}/sync", [(EDIT, ROLES)], ops.sync, bodies.sync_body, on_policy=True),
    ]


OPERATIONS = table()


def required_on(resource):
    """The operations whose first requirement is on this resource."""
    return {it.name for it in OPERATIONS if it.needs and it.needs[0][1] == resource}


# Names for sets of names: operations, members of the configuration that are read, and what else a program may have: `pages`, the reading of `limit`
# and `offset`; `full_history` and `full_versions`, that the limits of the configuration are obeyed; `run_pairs`, that a role of the configuration may have
# pairs on the runs of single DAGs; `verify`, that traces are verified; `serve`, that the words of a server are known.
GROUPS = {
    "dags": required_on(DAGS) - {"backfill"},
    "backfill": {"backfill"},
    "pools": required_on(POOLS),
    "variables": required_on(VARIABLES) | {"variables"},
    "limits": {"history_limit", "version_limit"},
    "pages": {"pages"},
    "audit": {"list_entries", "full_history"},
    "policy": {it.name for it in OPERATIONS if it.on_policy} | {"access_control", "full_versions", "run_pairs"},
}
GROUPS["baseline"] = set().union(*(GROUPS[it] for it in GROUPS if it not in ("backfill", "policy")))
GROUPS.update({it: {it} for it in ("verify", "serve")})
GROUPS["all"] = set().union(*GROUPS.values())
LANDED = GROUPS["landed"] = GROUPS["all"]


def having(text):
    """The set that names of sets and of their members stand for, between commas; a ValueError where one is none."""
    found = set()
    for name in text.split(","):
        if name not in GROUPS and name not in GROUPS["all"]:
            raise ValueError(f"there is no {name!r}: there are {', '.join(GROUPS)}, and {', '.join(sorted(GROUPS['all']))}")
        found |= GROUPS.get(name, {name})
    return frozenset(found)


# ---- Which operation a request names -------------------------------------------------------------------------


def parts_of(pieces, pattern):
    """The decoded parts of a path of so many pieces where it has the form of the pattern; none where it has not, or where a part is no name of its kind."""
    found = []
    for piece, form in zip(pieces[1:], pattern):
        if form not in KINDS:
            if piece != form.encode():
                return None
            continue
        try:
            text = unquote_to_bytes(piece).decode("utf-8")
        except UnicodeDecodeError:
            return None
        if not KINDS[form](text):
            return None
        if form != "{~}":
            found.append(text)
    return found


def route(path, method, has):
    """The operation and the parts of its path; where there is none, the methods that the path has, if it has any."""
    pieces = path.split(b"/")
    kept = [it for it in OPERATIONS if len(it.path) + 1 == len(pieces) and pieces[0] == b"" and it.name in has]
    found = [(it, parts) for it in kept if (parts := parts_of(pieces, it.path)) is not None]
    for it, parts in found:
        if it.method.encode() == method:
            return it, parts
    if any("{~}" in it.path for it, _ in found):
        return None, []
    return None, sorted({it.method for it, _ in found}, key=METHODS.index)
