#!/usr/bin/env python3
"""Says whether afplane accepts a configuration, and if not, what is wrong and where.

  python3 model/check_config.py CONFIG

The reason is the program's own (docs/CONFIGURATION.md). After it come the row and the member, what was expected there and what was found, on one line.
Of one that is accepted, the members that are ignored are named on standard error: most are misspelled, or of Airflow and not of afplane.
Status: 0 it is accepted, 2 usage error, 3 it is refused.
"""
import re
import sys

sys.dont_write_bytecode = True
from oracle import file_of  # noqa: E402
from oracle_config import Refused, read_config  # noqa: E402
from oracle_json import read_json  # noqa: E402
from oracle_members import quoted  # noqa: E402
from oracle_table import LANDED  # noqa: E402

ROWS = {"roles": "role", "users": "user", "pools": "pool", "variables": "variable", "dags": "DAG", "tasks": "task"}

# The members of a configuration and of the rows of each list, as docs/CONFIGURATION.md has them. The first of a row names it.
MEMBERS = {
    "": "roles users pools variables dags history_limit version_limit",
    "roles": "name actions",
    "users": "username roles token_sha256",
    "pools": "name slots",
    "variables": "key value",
    "dags": "dag_id schedule start_date catchup max_active_runs is_paused access_control tasks",
    "tasks": "task_id upstream pool pool_slots priority_weight retries retry_delay trigger_rule script",
}
MOST_IGNORED = 20


def named(places, names):
    """A place in the file, with the names of the rows around it."""
    names = ", ".join(f"{ROWS[rows]} {quoted(name)}" for rows, name in names)
    return f"{'.'.join(places) or 'the file'}{f' ({names})' if names else ''}"


def fault_of(why):
    """Where a configuration is wrong, what was expected there, and what was found."""
    found = f", found {why.found}" if why.found != "" else ""
    return f"{named(why.places, why.names)}: expected {why.expected}{found}"


def ignored_in(row, rows="", places=(), names=()):
    """A line for each member that is ignored: where it is, and which members there are. The row is one of a configuration that is accepted."""
    known = MEMBERS[rows].split()
    for it in row:
        if it not in known:
            member = it if re.fullmatch(r"[\w-]+", it, re.ASCII) else quoted(it)
            yield f"{named([*places, member], names)}: ignored, since a {ROWS.get(rows, 'configuration')} has only {', '.join(known)}"
    for below in (it for it in known if it in MEMBERS):
        # the roles of a user are not rows of roles
        for n, it in enumerate((row.get(below) or []) if rows != "users" else []):
            yield from ignored_in(it, below, [*places, f"{below}[{n}]"], [*names, (below, it[MEMBERS[below].split()[0]])])


def ignored(data):
    """What is ignored in the configuration, which is accepted."""
    lines = list(ignored_in(read_json(data)))
    more = [f"{len(lines) - MOST_IGNORED:,} more members are ignored"] if len(lines) > MOST_IGNORED else []
    return lines[:MOST_IGNORED] + more


def judged(path):
    """The status, what is said of the configuration, and what is ignored in it."""
    try:
        data = file_of(path)
        read_config(data, LANDED)
    except Refused as why:
        return 3, f"afplane: configuration refused: {why}: {fault_of(why)}", []
    return 0, "accepted", ignored(data)


def check(path):
    """The status, and what is said of the configuration."""
    return judged(path)[:2]


def main():
    if len(sys.argv) != 2:
        print("usage: afplane check CONFIG", file=sys.stderr)
        return 2
    status, said, unused = judged(sys.argv[1])
    print(said, file=sys.stderr if status else sys.stdout)
    for it in unused:
        print(f"afplane: {it}", file=sys.stderr)
    return status


if __name__ == "__main__":
    sys.exit(main())
