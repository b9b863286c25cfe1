"""Who may do what, and how that changes, put plainly: part of oracle.py.

A policy is replaced whole by each change, and never altered: roles are sets of pairs by name, users a digest and a list
of role names by name. No two users have one digest, every role that a user names is there, and some user has Admin.

The faults of a change are tested in this order, whatever the order of the body's members, and the first that applies is told:

1. an action that there is not, the first in the body (of a sync by name of role, then by name of kind, and then in the list);
2. a pair that no role may have, the first in the body;
3. a role that is named and is not there, the first in the body (of a sync by name);
4. the role or the user that is changed or deleted is not there;
5. it is a default role, which no one changes or deletes;
6. the name is taken, or the digest is another user's: the name of the user that is added or changed is told;
7. the role that is deleted is some user's;
8. no user would have Admin;
9. there would be more than 4,096 roles, the five default ones counted, or more than 65,536 users.
"""
from dataclasses import dataclass, replace
from functools import cached_property

from oracle_names import is_dag_id

ACTIONS = ["can_create", "can_read", "can_edit", "can_delete"]
RESOURCES = ["DAGs", "DAG Runs", "Task Instances", "Pools", "Variables", "Audit Logs", "Roles", "Users"]
# What may be permitted on one DAG alone: the kind, how the resource begins that ends in the DAG's id, and the actions there are on it.
OF_ONE_DAG = {"DAGs": "DAG:", "DAG Runs": "DAG Run:"}
ONE_DAG_ACTIONS = {"DAGs": ACTIONS[1:], "DAG Runs": ACTIONS}
# Public may do nothing; Viewer reads DAGs, their runs and instances; User also edits and deletes these, and creates runs and instances; Op also has
# all of pools and variables, and reads the event logs; Admin also has all of roles and users.
VIEWER = {("can_read", it) for it in ("DAGs", "DAG Runs", "Task Instances")}
USER = VIEWER | {(action, it) for action in ("can_edit", "can_delete") for it in ("DAGs", "DAG Runs", "Task Instances")}
USER |= {("can_create", it) for it in ("DAG Runs", "Task Instances")}
OP = USER | {(action, it) for action in ACTIONS for it in ("Pools", "Variables")} | {("can_read", "Audit Logs")}
ADMIN = OP | {(action, it) for action in ACTIONS for it in ("Roles", "Users")}
DEFAULT_ROLES = {"Public": set(), "Viewer": VIEWER, "User": USER, "Op": OP, "Admin": ADMIN}
MOST_ROLES, MOST_USERS = 4096, 65536


class Fault(Exception):
    """An operation that is permitted and refused: which fault it is, and what it names, or none."""


@dataclass(frozen=True)
class User:
    digest: bytes
    roles: tuple  # of names, in the order given; one may stand twice


@dataclass(frozen=True)
class Policy:
    roles: dict
    users: dict

    @cached_property
    def by_digest(self):
        """The users' names by the digests of their tokens."""
        return {user.digest: name for name, user in self.users.items()}

    def grants(self, user):
        """All pairs of all roles of the user."""
        return set().union(*(self.roles[it] for it in self.users[user].roles))


def reads(granted, dag_id):
    return meets(granted, "can_read", "DAGs", dag_id, [])


def meets(granted, action, resource, dag_id, dags):
    """Whether a requirement is met.

    Each is met by that action on that resource as a whole. One on DAGs, or on the runs of DAGs, that is at one DAG is met also by the action on that DAG, or
    on its runs. One on DAGs that names none is met also by the action on some DAG that is there; one on runs that names none also by the action on the runs
    of some DAG that is there and that the user reads.
    """
    if (action, resource) in granted:
        return True
    if resource not in OF_ONE_DAG:
        return False
    if dag_id:
        dags = [dag_id]
    elif resource == "DAG Runs":
        dags = [it for it in dags if reads(granted, it)]
    return any((action, OF_ONE_DAG[resource] + it) in granted for it in dags)


def permission_text(action, resource, dag_id):
    """A denial on runs names `DAG Runs`, also where it is at one DAG."""
    return f"DAG:{dag_id}.{action}" if resource == "DAGs" and dag_id else f"{resource}.{action}"


# ---- Rows as they are shown ----------------------------------------------------------------------------------


def pair_order(pair):
    """Pairs are shown in the order of resources, then those of single DAGs by id, then those of the runs of single DAGs by id; of one resource in the order
    of actions."""
    action, resource = pair
    place = RESOURCES.index(resource) if resource in RESOURCES else len(RESOURCES) + resource.startswith("DAG Run:")
    return place, resource, ACTIONS.index(action)


def show_role(policy, name):
    pairs = sorted(policy.roles[name], key=pair_order)
    return {"actions": [{"action": {"name": a}, "resource": {"name": r}} for a, r in pairs], "name": name}


def show_user(policy, name):
    """A user with the roles in order of name; one that the user has twice is shown twice. The digest is told to nobody."""
    return {"roles": [{"name": it} for it in sorted(policy.users[name].roles)], "username": name}


def show_me(policy, version, name):
    """A user's own permissions: those of all the user's roles, each once, in the order in which a role's are shown."""
    texts = [f"{resource}.{action}" for action, resource in sorted(policy.grants(name), key=pair_order)]
    return {"permissions": texts, "policy_version": version, "roles": sorted(policy.users[name].roles), "username": name}


# ---- Faults and changes --------------------------------------------------------------------------------------


def is_allowed(action, resource):
    """Whether a role may have the pair: on one of the eight resources, or on one DAG or its runs, there or not; a single DAG is not created."""
    for kind, begin in OF_ONE_DAG.items():
        if resource.startswith(begin) and is_dag_id(resource[len(begin) :]):
            return action in ONE_DAG_ACTIONS[kind]
    return resource in RESOURCES


def check_pairs(pairs):
    """Every action is tested before any pair is."""
    for action, _ in pairs:
        if action not in ACTIONS:
            raise Fault("bad action", action)
    for action, resource in pairs:
        if not is_allowed(action, resource):
            raise Fault("pair not allowed", f"{resource}.{action}")


def check_roles_there(policy, names):
    for it in names:
        if it not in policy.roles:
            raise Fault("unknown role", it)


def check_admin(users):
    if not any("Admin" in it.roles for it in users.values()):
        raise Fault("last admin", None)


def check_digest(policy, name, digest):
    """A user may be given the digest that the user has."""
    if policy.by_digest.get(digest, name) != name:
        raise Fault("exists", name)


def check_own_role(policy, name):
    """The role is there, and is no default one."""
    if name not in policy.roles:
        raise Fault("no such role", name)
    if name in DEFAULT_ROLES:
        raise Fault("default role", name)


def check_user_there(policy, name):
    if name not in policy.users:
        raise Fault("no such user", name)


def add_role(policy, name, pairs):
    check_pairs(pairs)
    if name in policy.roles:
        raise Fault("exists", name)
    if len(policy.roles) >= MOST_ROLES:
        raise Fault("too many", None)
    return replace(policy, roles={**policy.roles, name: frozenset(pairs)})


def set_role(policy, name, pairs):
    """The pairs take the place of all that the role had, those on single DAGs too."""
    check_pairs(pairs)
    check_own_role(policy, name)
    return replace(policy, roles={**policy.roles, name: frozenset(pairs)})


def drop_role(policy, name):
    check_own_role(policy, name)
    if any(name in it.roles for it in policy.users.values()):
        raise Fault("role in use", name)
    return replace(policy, roles={it: pairs for it, pairs in policy.roles.items() if it != name})


def add_user(policy, name, roles, digest):
    check_roles_there(policy, roles)
    if name in policy.users:
        raise Fault("exists", name)
    check_digest(policy, name, digest)
    if len(policy.users) >= MOST_USERS:
        raise Fault("too many", None)
    return replace(policy, users={**policy.users, name: User(digest, tuple(roles))})


def set_user(policy, name, roles, digest):
    """Roles and digest that are none stay as they are; roles that are given take the place of all that the user had."""
    check_roles_there(policy, roles or [])
    check_user_there(policy, name)
    if digest is not None:
        check_digest(policy, name, digest)
    old = policy.users[name]
    new = User(old.digest if digest is None else digest, old.roles if roles is None else tuple(roles))
    users = {**policy.users, name: new}
    check_admin(users)
    return replace(policy, users=users)


def drop_user(policy, name):
    check_user_there(policy, name)
    users = {it: user for it, user in policy.users.items() if it != name}
    check_admin(users)
    return replace(policy, users=users)


def lists_of(value):
    """What is listed for a role: of each kind its actions. A list alone is one of actions on the DAG; in an object a kind that is null is not listed."""
    return {"DAGs": value} if type(value) is list else {kind: actions for kind, actions in value.items() if actions is not None}


def sync_dag(policy, dag_id, access):
    """What each role may do on one DAG and on its runs; the DAG need not be there.

    Where nothing is listed (none), all stays as it is. Else each role but Admin loses the pairs on this DAG and those on its runs, whatever the kinds that are
    listed, and then each role, Admin too, gets those that are listed for it: an empty list or no list takes away. The actions on `DAGs` and on `DAG Runs` as
    a whole are left to the roles that have them.
    """
    if access is None:
        return policy
    listed = {name: lists_of(value) for name, value in sorted(access.items())}
    for lists in listed.values():
        for kind, actions in sorted(lists.items()):
            for it in actions:
                if it not in ONE_DAG_ACTIONS[kind]:
                    raise Fault("bad action", it)
    check_roles_there(policy, listed)
    own = {kind: begin + dag_id for kind, begin in OF_ONE_DAG.items()}
    roles = {}
    for name, pairs in policy.roles.items():
        kept = {it for it in pairs if name == "Admin" or it[1] not in own.values()}
        roles[name] = frozenset(kept | {(it, own[kind]) for kind, actions in listed.get(name, {}).items() for it in actions})
    return replace(policy, roles=roles)
