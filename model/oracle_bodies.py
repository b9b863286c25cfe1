"""What is read of a body, member by member: part of oracle.py.

A body is read whole before anything else is asked of it: that it is a JSON object, and then each member, in the order in which the functions below take
them. The first that is missing though needed, or of a wrong kind or value, is told. Members that the operation does not name are not looked at.
"""
from oracle_config import MOST_SLOTS
from oracle_json import read_json
from oracle_names import instant_of, is_label, is_pool_name, is_run_id, is_task_id, is_variable_key
from oracle_policy import OF_ONE_DAG


class BadInput(Exception):
    """A parameter or a body that can not be read, and what is told of it."""


NEEDED = object()


def take(members, name, is_good, default=NEEDED):
    """A member that is good; null counts as absent."""
    value = members.get(name)
    if value is None and default is not NEEDED:
        return default
    if value is None or not is_good(value):
        raise BadInput(f"bad member: {name}")
    return value


def is_truth(value):
    return type(value) is bool


def text_that(is_good):
    return lambda value: type(value) is str and is_good(value)


is_text = text_that(lambda it: True)
is_instant = text_that(lambda it: instant_of(it) is not None)
is_digest = text_that(lambda it: len(it) == 64 and all(digit in "0123456789abcdefABCDEF" for digit in it))


def list_of(is_good):
    return lambda value: type(value) is list and all(is_good(it) for it in value)


def is_slots(value):
    return type(value) is int and 0 <= value <= MOST_SLOTS


def is_named(is_good):
    return lambda value: type(value) is dict and text_that(is_good)(value.get("name"))


def is_pair(value):
    """An action and a resource by any names: whether there are such is asked later."""
    return type(value) is dict and all(is_named(lambda it: True)(value.get(it)) for it in ("action", "resource"))


def is_listed(value):
    """What is listed for a role: a list of texts; or an object of the two kinds and no other member, each a list of texts, null or absent."""
    if type(value) is dict:
        return all(kind in OF_ONE_DAG and (actions is None or list_of(is_text)(actions)) for kind, actions in value.items())
    return list_of(is_text)(value)


def is_access(value):
    """An object with, for names of roles, what is listed for them: neither null nor anything else stands in its place."""
    return type(value) is dict and all(is_label(it) for it in value) and all(is_listed(it) for it in value.values())


def instant_or_none(members, name):
    value = take(members, name, is_instant, None)
    return None if value is None else instant_of(value)


def pause_body(members):
    return take(members, "is_paused", is_truth)


def trigger_body(members):
    run_id = take(members, "dag_run_id", text_that(is_run_id), None)
    date = instant_or_none(members, "execution_date" if members.get("logical_date") is None else "logical_date")
    take(members, "conf", lambda it: it == {}, None)
    return run_id, date


def backfill_body(members):
    start, end = (instant_of(take(members, it, is_instant)) for it in ("start_date", "end_date"))
    if end < start:
        raise BadInput("bad member: end_date")
    return start, end


def mark_body(members):
    return take(members, "state", lambda it: it in ("success", "failed", "queued"))


def clear_run_body(members):
    return {"dry_run": take(members, "dry_run", is_truth, True)}


def clear_body(members):
    return {
        "dry_run": take(members, "dry_run", is_truth, True),
        "only_failed": take(members, "only_failed", is_truth, True),
        "task_ids": take(members, "task_ids", list_of(text_that(is_task_id)), None),
        "run_id": take(members, "dag_run_id", text_that(is_run_id), None),
        "start": instant_or_none(members, "start_date"),
        "end": instant_or_none(members, "end_date"),
    }


def new_pool_body(members):
    return take(members, "name", text_that(is_pool_name)), take(members, "slots", is_slots)


def pool_body(members):
    return take(members, "slots", is_slots)


def new_variable_body(members):
    return take(members, "key", text_that(is_variable_key)), take(members, "value", is_text)


def variable_body(members):
    return take(members, "value", is_text)


def pairs_of(members):
    return [(it["action"]["name"], it["resource"]["name"]) for it in take(members, "actions", list_of(is_pair))]


def new_role_body(members):
    return take(members, "name", text_that(is_label)), pairs_of(members)


def role_names(members, default):
    """A list of names that may be a role's; whether they are is asked later."""
    found = take(members, "roles", list_of(is_named(is_label)), default)
    return None if found is None else [it["name"] for it in found]


def digest_of(members, default):
    found = take(members, "token_sha256", is_digest, default)
    return None if found is None else bytes.fromhex(found)


def new_user_body(members):
    return take(members, "username", text_that(is_label)), role_names(members, NEEDED), digest_of(members, NEEDED)


def user_body(members):
    return role_names(members, None), digest_of(members, None)


def sync_body(members):
    return take(members, "access_control", is_access, None)


def read_body(body, reader):
    try:
        members = read_json(body)
    except ValueError:
        members = None
    if type(members) is not dict:
        raise BadInput("bad body")
    return reader(members)
