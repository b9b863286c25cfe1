"""Which of Airflow's permissions and names there are in afplane, and why not the others. Part of from_airflow.py."""
import re

ACTIONS = ["can_create", "can_read", "can_edit", "can_delete"]
RESOURCES = ["DAGs", "DAG Runs", "Task Instances", "Pools", "Variables", "Audit Logs", "Roles", "Users"]

# What one DAG, and the runs of one DAG, carry: how the resource begins, the resource of them all, the actions, and why no others.
ONE_DAG = [
    ("DAG:", "DAGs", ACTIONS[1:], "a single DAG has can_read, can_edit and can_delete alone"),
    ("DAG Run:", "DAG Runs", ACTIONS, "there is no such action"),
]

VIEWER = {(it, "can_read") for it in RESOURCES[:3]}
USER = VIEWER | {(it, action) for it in RESOURCES[:3] for action in ACTIONS} - {("DAGs", "can_create")}
OP = USER | {(it, action) for it in ("Pools", "Variables") for action in ACTIONS} | {("Audit Logs", "can_read")}
ADMIN = OP | {(it, action) for it in ("Roles", "Users") for action in ACTIONS}
DEFAULT_ROLES = {"Public": set(), "Viewer": VIEWER, "User": USER, "Op": OP, "Admin": ADMIN}

# Airflow's resources that have no place here, by the reason.
WITHOUT_PLACE = {
    "there are no web pages": ["Website", "Browse", "Admin", "Docs", "Documentation", "Security", "Cluster Activity"],
    "users have no passwords or profiles, and bring a token": ["My Password", "My Profile", "Passwords", "User Stats Chart"],
    "which permissions there are is fixed": ["Permissions", "Permission Views", "View Menus", "Actions", "Resources"],
    "there are no connections": ["Connections"],
    "the server's own settings are not shown": ["Configurations", "Plugins", "Providers"],
    "DAGs are rows of the configuration, and not files of code": ["DAG Code", "DAG Warnings", "ImportError"],
    "there are no datasets": ["DAG Dependencies", "Datasets"],
    "tasks leave no logs and no values": ["Task Logs", "XComs"],
    "there are no deferred or rescheduled tasks and no SLAs": ["Jobs", "SLA Misses", "Task Reschedules", "Triggers"],
}
REASONS = {resource: reason for reason, resources in WITHOUT_PLACE.items() for resource in resources}
OLD_ACTIONS = {"can_dag_read": "can_read", "can_dag_edit": "can_edit"}

LABEL = "a name is 1 to 64 characters from the blank to ~ of ASCII"
DAG_ID = "an id is 1 to 250 letters, digits, _, - and . of ASCII"


def is_label(text):
    """Whether the text may name a user or a role."""
    return re.fullmatch(r"[ -~]{1,64}", text) is not None


def is_dag_id(text):
    return re.fullmatch(r"[A-Za-z0-9_.-]{1,250}", text) is not None


def why_not(resource, action):
    """Why the permission has no place here, or none where it has one."""
    if action == "menu_access":
        return "there are no web pages"
    if resource in REASONS:
        return REASONS[resource]
    if action in OLD_ACTIONS:
        return f"a spelling of Airflow 1, which grants nothing in Airflow 2: grant {OLD_ACTIONS[action]} there, and export again"
    for begin, _, actions, reason in ONE_DAG:
        if resource.startswith(begin):
            if not is_dag_id(resource[len(begin) :]):
                return f"no DAG has this id here: {DAG_ID}"
            return None if action in actions else reason
    if resource not in RESOURCES:
        return "there is no such resource"
    return None if action in ACTIONS else "there is no such action"


def whole_of(resource):
    """The resource of all DAGs, or of all runs, of one that is of a single DAG; else none."""
    return next((whole for begin, whole, _, _ in ONE_DAG if resource.startswith(begin)), None)


def in_order(pair):
    """Where a pair is shown: resources in their order, then single DAGs by id, then their runs by id; of each its actions in theirs."""
    resource, action = pair
    known = RESOURCES.index(resource) if resource in RESOURCES else len(RESOURCES) + resource.startswith("DAG Run:")
    return known, resource, ACTIONS.index(action) if action in ACTIONS else len(ACTIONS), action


def listed(pairs):
    return ", ".join(f"{resource}.{action}" for resource, action in sorted(pairs, key=in_order))


def shown(text):
    """The text, with what is not to be printed as Python spells it."""
    return repr(text)[1:-1] if not text.isprintable() else text
