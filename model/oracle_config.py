"""The configuration of afplane, read plainly: part of oracle.py."""
import re

from oracle_json import json_fault, read_json
from oracle_members import KINDS, FOUND, Refused, at, each, listed, member, name_of, need, number, quoted, read_texts
from oracle_names import PRESETS, instant_of, is_dag_id, is_label, is_pool_name, is_task_id, is_variable_key, point_from
from oracle_policy import ACTIONS, DEFAULT_ROLES, MOST_ROLES, MOST_USERS, OF_ONE_DAG, ONE_DAG_ACTIONS, RESOURCES, Fault, Policy, User, is_allowed, sync_dag
from oracle_rows import MOST_POOLS, MOST_VARIABLES
from oracle_state import Dag, State, Task

MOST_DAGS, MOST_RUNS = 1024, 1000
MOST_SLOTS, MOST_TASKS, MOST_SECONDS, MOST_RETRIES = 1_000_000, 512, 31_536_000, 1000
MOST_ENTRIES, MOST_VERSIONS = 2**32 - 2, 2**32 - 1
MOST_BYTES = 16 * 1024 * 1024
RULES = [
    *["all_success", "all_failed", "all_done", "one_success", "one_failed", "one_done", "none_failed"],
    *["none_failed_min_one_success", "none_skipped", "all_skipped", "always"],
]
OUTCOMES = ["success", "failed", "skipped"]
PRINTABLE = "1 to {} printable ASCII characters"
DAG_ID = "1 to 250 of A-Z, a-z, 0-9, '_', '-' and '.'"
RESOURCE = f"one of {', '.join(RESOURCES)}, or 'DAG:' (not for can_create) or 'DAG Run:' and the id of a DAG"


# ---- Roles and users -----------------------------------------------------------------------------------------


def pair_of(row):
    return at("action", name_of, member(row, "action", dict)), at("resource", name_of, member(row, "resource", dict))


def read_role(roles, row, having):
    name = member(row, "name", str)
    need(is_label(name), "name", "name", PRINTABLE.format(64), quoted(name))
    pairs = listed(row, "actions", pair_of)
    for n, (action, _) in enumerate(pairs):
        need(action in ACTIONS, "action", f"actions[{n}].action.name", f"one of {', '.join(ACTIONS)}", quoted(action))
    for n, (action, resource) in enumerate(pairs):
        is_there = "run_pairs" in having or not resource.startswith("DAG Run:")
        need(is_there and is_allowed(action, resource), "pair", f"actions[{n}].resource.name", RESOURCE, quoted(resource))
    need(name not in roles, "duplicate", "name", "a name that no default role and no earlier role has", quoted(name))
    need(len(roles) < MOST_ROLES, "limit", "", f"at most {MOST_ROLES:,} roles, the default ones counted")
    roles[name] = frozenset(pairs)


def read_roles(config, having):
    roles = {name: frozenset(pairs) for name, pairs in DEFAULT_ROLES.items()}
    each(config, "roles", "name", lambda row: read_role(roles, row, having))
    return roles


def read_user(users, digests, roles, row):
    name = member(row, "username", str)
    need(is_label(name), "name", "username", PRINTABLE.format(64), quoted(name))
    of = listed(row, "roles", name_of)
    for n, it in enumerate(of):
        need(is_label(it), "name", f"roles[{n}].name", PRINTABLE.format(64), quoted(it))
    digest = member(row, "token_sha256", str)
    need(re.fullmatch(r"[0-9A-Fa-f]{64}", digest) is not None, "shape", "token_sha256", "64 hexadecimal digits, the SHA-256 of the token")
    digest = bytes.fromhex(digest)
    for n, it in enumerate(of):
        need(it in roles, "role", f"roles[{n}].name", "a role of this file or a default one", quoted(it))
    need(name not in users, "duplicate", "username", "a name that no earlier user has", quoted(name))
    need(digest not in digests, "duplicate", "token_sha256", "a token that no earlier user has")
    need(len(users) < MOST_USERS, "limit", "", f"at most {MOST_USERS:,} users")
    digests.add(digest)
    users[name] = User(digest, tuple(of))


def read_users(config, roles):
    users, digests = {}, set()
    each(config, "users", "username", lambda row: read_user(users, digests, roles, row))
    need(any("Admin" in it.roles for it in users.values()), "admin", "users", "a user with the role Admin")
    return users


def check_listed(name, value):
    """What is listed for a role: a list of texts, or an object of two kinds, each a list of texts, null or absent."""
    lists = {"": value}
    if type(value) is dict:
        for kind in value:
            need(kind in OF_ONE_DAG, "shape", f"access_control[{quoted(name)}]", f"no members but {' and '.join(OF_ONE_DAG)}", quoted(kind))
        lists = {f".{kind}": actions for kind, actions in value.items() if actions is not None}
    for kind, actions in lists.items():
        expected = "a list of strings" if kind else f"a list of strings, or an object of {' and '.join(OF_ONE_DAG)}"
        need(type(actions) is list and all(type(it) is str for it in actions), "shape", f"access_control[{quoted(name)}]{kind}", expected)


def sync_row(policy, row):
    """The policy after the `access_control` of a DAG."""
    access = member(row, "access_control", dict, required=False)
    for name, value in (access or {}).items():
        check_listed(name, value)
    for it in access or {}:
        need(is_label(it), "name", "access_control", f"names of roles, {PRINTABLE.format(64)} each", quoted(it))
    try:
        return sync_dag(policy, row["dag_id"], access)
    except Fault as why:
        fault, it = why.args
        if fault == "bad action":
            raise Refused("action", "access_control", f"only {', '.join(ONE_DAG_ACTIONS['DAGs'])}, and can_create for DAG Runs", quoted(it)) from why
        raise Refused("role", "access_control", "roles of this file or default ones", quoted(it)) from why


def read_access(config, policy):
    """The policy after the `access_control` of each DAG, which is version 0.

    It is read after all DAGs, and they are taken in the order of the file, each as if it were synced: of one, that it is an object, and each of its
    members a list of texts or an object of such lists (`shape`), comes before the names of its roles (`name`), these before the actions (`action`), and
    these before the roles that are not there (`role`). The roles are those of the policy, so a default one may stand here too.
    """
    after = [policy]
    each(config, "dags", "dag_id", lambda row: after.append(sync_row(after[-1], row)))
    return after[-1]


# ---- Pools and variables -------------------------------------------------------------------------------------


def read_pool(pools, named, row):
    name = member(row, "name", str)
    need(is_pool_name(name), "name", "name", PRINTABLE.format(250), quoted(name))
    slots = number(row, "slots", 0, MOST_SLOTS, None)
    need(name not in named, "duplicate", "name", "a name that no earlier pool has", quoted(name))
    need(name in pools or len(pools) < MOST_POOLS, "limit", "", f"at most {MOST_POOLS:,} pools, default_pool counted")
    named.add(name)
    pools[name] = slots


def read_pools(config):
    pools, named = {"default_pool": 128}, set()
    each(config, "pools", "name", lambda row: read_pool(pools, named, row))
    return pools


def read_variable(variables, row):
    key = member(row, "key", str)
    need(is_variable_key(key), "name", "key", PRINTABLE.format(250), quoted(key))
    value = member(row, "value", str)
    need(key not in variables, "duplicate", "key", "a key that no earlier variable has", quoted(key))
    need(len(variables) < MOST_VARIABLES, "limit", "", f"at most {MOST_VARIABLES:,} variables")
    variables[key] = value


def read_variables(config):
    variables = {}
    each(config, "variables", "key", lambda row: read_variable(variables, row))
    return variables


# ---- DAGs ----------------------------------------------------------------------------------------------------


def read_task(row, pools):
    name = member(row, "task_id", str)
    need(is_task_id(name), "name", "task_id", DAG_ID, quoted(name))
    upstream = read_texts(row, "upstream")
    for n, it in enumerate(upstream):
        need(is_task_id(it), "name", f"upstream[{n}]", f"the id of a task, {DAG_ID}", quoted(it))
    pool = member(row, "pool", str, required=False)
    pool = "default_pool" if pool is None else pool
    need(is_pool_name(pool), "name", "pool", f"the name of a pool, {PRINTABLE.format(250)}", quoted(pool))
    need(pool in pools, "pool", "pool", "a pool of this file or default_pool", quoted(pool))
    slots = member(row, "pool_slots", int, required=False)
    slots = 1 if slots is None else slots
    weight = number(row, "priority_weight", -(2**31), 2**31 - 1, 1)
    retries = number(row, "retries", 0, MOST_RETRIES, 0)
    delay = number(row, "retry_delay", 0, MOST_SECONDS, 300)
    rule = member(row, "trigger_rule", str, required=False)
    need(rule is None or rule in RULES, "shape", "trigger_rule", f"one of {', '.join(RULES)}", quoted(rule))
    for n, it in enumerate(member(row, "script", list, required=False) or []):
        need(type(it) is str and it in OUTCOMES, "shape", f"script[{n}]", f"one of {', '.join(OUTCOMES)}", quoted(it) if type(it) is str else FOUND[type(it)])
    return Task(name, frozenset(upstream), pool, slots, weight, retries, delay, rule or "all_success")


def check_graph(tasks):
    need(1 <= len(tasks) <= MOST_TASKS, "graph", "tasks", f"1 to {MOST_TASKS} tasks", len(tasks))
    names = set()
    for n, it in enumerate(tasks):
        need(it.task_id not in names, "graph", f"tasks[{n}].task_id", "an id that no earlier task has", quoted(it.task_id))
        names.add(it.task_id)
    for n, it in enumerate(tasks):
        need(it.upstream <= names, "graph", f"tasks[{n}].upstream", "ids of tasks of this DAG", quoted(min(it.upstream - names, default="")))
    taken, grew = set(), True
    while grew:
        ready = {it.task_id for it in tasks if it.task_id not in taken and it.upstream <= taken}
        taken, grew = taken | ready, bool(ready)
    need(len(taken) == len(tasks), "graph", "tasks", "no cycle", f"one at or upstream of {quoted(min(names - taken, default=''))}")
    for n, it in enumerate(tasks):
        need(1 <= it.pool_slots <= MOST_SLOTS, "graph", f"tasks[{n}].pool_slots", f"an integer from 1 to {MOST_SLOTS:,}", it.pool_slots)


def read_schedule(row):
    """The schedule, where its points begin, and the first of them; none where there is no schedule."""
    value = row.get("schedule")
    if value is None:
        return None, None, None
    need(type(value) in (str, int), "shape", "schedule", "a string or an integer", FOUND[type(value)])
    need(type(value) is int or value in PRESETS, "schedule", "schedule", f"one of {', '.join(PRESETS)}, or a number of seconds", quoted(value))
    need(type(value) is str or 1 <= value <= MOST_SECONDS, "limit", "schedule", f"an integer from 1 to {MOST_SECONDS:,}", value)
    start = row.get("start_date")
    known = type(start) is str and instant_of(start) is not None
    form = "a timestamp with its offset, as 2024-01-01T00:00:00Z, from 1970 to 9998"
    need(known, "schedule", "start_date", form, quoted(start) if type(start) is str else FOUND[type(start)])
    start = instant_of(start)
    return value, start, point_from(value, start, start)


def read_dag(dags, pools, row):
    name = member(row, "dag_id", str)
    need(is_dag_id(name), "name", "dag_id", DAG_ID, quoted(name))
    schedule, start, cursor = read_schedule(row)
    catchup = member(row, "catchup", bool, required=False) is not False
    most_runs = number(row, "max_active_runs", 1, MOST_RUNS, 16)
    paused = member(row, "is_paused", bool, required=False) is True
    tasks = []
    each(row, "tasks", "task_id", lambda it: tasks.append(read_task(it, pools)))
    check_graph(tasks)
    need(name not in dags, "duplicate", "dag_id", "an id that no earlier DAG has", quoted(name))
    need(len(dags) < MOST_DAGS, "limit", "", f"at most {MOST_DAGS:,} DAGs")
    dags[name] = Dag(name, paused, most_runs, schedule, start, catchup, cursor, tuple(tasks))


def read_dags(config, pools):
    dags = {}
    each(config, "dags", "dag_id", lambda row: read_dag(dags, pools, row))
    return dags


def limit_of(config, name, most, default, obeyed, having):
    """What a limit comes to, an integer from 1: it is judged where it is read, and counts where it is obeyed. The two come last of all."""
    given = number(config, name, 1, most, default) if name in having else default
    return given if obeyed in having else default


def read_config(data, having):
    """The opening policy and state, and the limits of history and versions; members not brought yet are not looked at."""
    need(len(data) <= MOST_BYTES, "unreadable", "", "one of at most 16 MiB")
    try:
        config = read_json(data)
    except ValueError as why:
        raise Refused("syntax", "", f"JSON ({json_fault(why)})") from why
    return read_value(config, having)


def read_value(config, having):
    """The same of a value that was read already."""
    need(type(config) is dict, "shape", "", KINDS[dict], FOUND[type(config)])
    roles = read_roles(config, having)
    policy = Policy(roles, read_users(config, roles))
    pools = read_pools(config)
    variables = read_variables(config) if "variables" in having else {}
    state = State(read_dags(config, pools), (), pools, variables, 1)
    if "access_control" in having:
        policy = read_access(config, policy)
    entries = limit_of(config, "history_limit", MOST_ENTRIES, 1_000_000, "full_history", having)
    versions = limit_of(config, "version_limit", MOST_VERSIONS, MOST_VERSIONS, "full_versions", having)
    return policy, state, entries, versions
