"""What Airflow exports: roles, users and DAGs, in the formats of its commands and of its REST API. Part of from_airflow.py."""
import json
import re
import sys


class Unusable(Exception):
    """Nothing is written; the text says why, and what to do."""


def read_text(path):
    try:
        with sys.stdin.buffer if path == "-" else open(path, "rb") as file:
            return file.read().decode("utf-8-sig")
    except OSError as fault:
        raise Unusable(f"{path}: can not be read: {fault.strerror}") from fault
    except UnicodeDecodeError as fault:
        raise Unusable(f"{path}: is no UTF-8 at byte {fault.start}") from fault


def list_below(text):
    """The list that some line begins and that is all of the rest, with the number of lines before it; none where there is none."""
    for passed, line in enumerate(re.finditer("^", text, re.MULTILINE)):
        if text.startswith("[", line.start()):
            try:
                value, end = json.JSONDecoder().raw_decode(text, line.start())
            except ValueError:
                continue
            if not text[end:].strip():
                return value, passed
    return None


def read_json(path):
    """What the file holds as JSON, and the number of lines before it: Airflow logs to standard output too."""
    text = read_text(path)
    try:
        try:
            return json.loads(text), 0
        except ValueError:
            found = list_below(text)
            if found is None:
                raise
            return found
    except RecursionError as fault:
        raise Unusable(f"{path}: is nested too deep") from fault
    except json.JSONDecodeError as fault:
        where = f"line {fault.lineno}, column {fault.colno}"
        raise Unusable(f"{path}: is no JSON ({fault.msg} at {where}); ask Airflow for JSON, not a table") from fault
    except ValueError as fault:
        raise Unusable(f"{path}: is no JSON that can be read: {fault}") from fault


def read_rows(path, name, tell):
    """The rows of a list; of an object, as the REST API answers, those of its member of that name."""
    value, passed = read_json(path)
    if passed:
        tell(f"{path}: the first {passed} lines are no part of the list, and are passed over")
    rows = value.get(name) if type(value) is dict else value
    if type(rows) is not list:
        raise Unusable(f"{path}: is no list of {name}, as Airflow exports it")
    return rows


def text_of(path, number, row, name):
    if type(row) is dict and type(row.get(name)) is str:
        return row[name]
    raise Unusable(f"{path}: row {number} has no text {name!r}: it is not as Airflow exports it")


def permissions_of(path, number, row):
    """The pairs of resource and action that a row gives its role, or none where the row tells of no permissions."""
    if type(row) is str or type(row) is dict and not row.keys() & {"resource", "action", "actions"}:
        return None
    if type(row.get("actions")) is list:
        names = [(it.get("resource"), it.get("action")) if type(it) is dict else (0, 0) for it in row["actions"]]
        return [(text_of(path, number, it, "name"), text_of(path, number, action, "name")) for it, action in names]
    resource, actions = text_of(path, number, row, "resource"), text_of(path, number, row, "action")
    return [(resource, it.strip()) for it in actions.split(",") if resource.strip() or it.strip()]


def read_roles(path, tell):
    """The pairs of each role by its name, and the names of those whose permissions the file doesn't tell."""
    roles, untold = {}, set()
    for number, row in enumerate(read_rows(path, "roles", tell), 1):
        name = row if type(row) is str else text_of(path, number, row, "name")
        pairs = permissions_of(path, number, row)
        untold.update({name} if pairs is None else ())
        roles.setdefault(name, []).extend(pairs or ())
    return roles, untold


def read_users(path, tell):
    """The role names of each user by the user's name."""
    users = {}
    for number, row in enumerate(read_rows(path, "users", tell), 1):
        name = text_of(path, number, row, "username")
        if type(row.get("roles")) is not list:
            raise Unusable(f"{path}: row {number} has no list 'roles': it is not as Airflow exports it")
        if name in users:
            raise Unusable(f"{path}: row {number}: the user {name!r} is there twice; keep one")
        users[name] = [it if type(it) is str else text_of(path, number, it, "name") for it in row["roles"]]
    return users


def read_dags(path, tell):
    """Whether each DAG is paused, by its id; None where Airflow doesn't say."""
    said = {"true": True, "false": False, "none": None, "": None}
    dags = {}
    for number, row in enumerate(read_rows(path, "dags", tell), 1):
        name = text_of(path, number, row, "dag_id")
        value = row.get("is_paused", row.get("paused"))
        word = str("" if value is None else value).strip().lower()
        if type(value) not in (str, bool, type(None)) or word not in said:
            raise Unusable(f"{path}: row {number}: {name!r} is neither paused nor not: {str(value)[:40]!r}")
        if name in dags:
            raise Unusable(f"{path}: row {number}: the DAG {name!r} is there twice; keep one")
        dags[name] = said[word]
    return dags
