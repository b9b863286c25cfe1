"""Connections over examples/base.json whose answers were worked out by hand: which paths there are, and with which methods. Their form is that of
worked_cases.py.

Nobody brings a token, so a path with its method that names an operation is answered by 401. A part of a path is decoded once; it is UTF-8, and a name of its
kind. Only then the methods of the path count. `~` stands for all DAGs in the listing of runs alone.
"""
from worked_rows import NOW

# Methods and paths that name an operation on the state, whose answers name the number of entries.
ON_THE_STATE = [
    *["GET /dags/b", "GET /dags/%62", "PATCH /dags/b", "GET /dags/%7E/dagRuns", "GET /dags/b/dagRuns/r%3A1", "GET /eventLogs", "GET /eventLogs?limit=x"],
    *["POST /own/dags/b/backfills", "POST /own/dags/%62/backfills?limit=x"],
    *["GET /pools", "POST /pools", "GET /pools/a%20b", "PATCH /pools/a%2Fb", "DELETE /pools/~"],
    *["GET /variables", "POST /variables", "GET /variables/%20", "PATCH /variables/k%3Dv", "DELETE /variables/%25"],
]
# Those that name an operation on the policy.
ON_THE_POLICY = [
    *["GET /roles", "POST /roles", "GET /roles/a%20b", "PATCH /roles/a%2Fb", "DELETE /roles/~", "GET /users", "POST /users", "GET /users/%61dam"],
    *["PATCH /users/adam", "DELETE /users/adam", "GET /users/%2525?", "GET /own/me", "POST /own/dags/b/sync", "POST /own/dags/%62/sync"],
]
NOWHERE = [
    *["GET /dags/%20", "GET /dags/%FF", "GET /dags/b%6", "GET /dags/%2562", "GET /dags/a%2Fb", "PATCH /dags/%20", "PUT /dags/%20"],
    *["POST /dags/~/dagRuns", "PUT /dags/~/dagRuns", "GET /dags/b/dagRuns/~", "GET /dags/~/dagRuns/r", "GET /dags/b/dagRuns/%FF"],
    *["GET /dags/a%20b", "GET /dags/a:b", "GET /dags/~"],
    *["GET /pools/", "GET /pools/a/b", "GET /pools/%7F", "PATCH /pools/%C3%A9", "POST /pools/%7F"],
    *["GET /variables/%0A", "DELETE /variables/%FF", "PUT /variables/%0A"],
    *["GET /roles/", "GET /roles/a/b", "GET /roles/%7F", "PATCH /roles/%C3%A9", "POST /roles/%7F", "DELETE /users/%0A", "GET /users/%FF", "PUT /users/%0A"],
    *["GET /eventlogs", "GET /eventLogs/1", "GET /own/m%65", "GET /own/me/", "POST /own/dags/~/sync", "GET /own/dags/%7E/sync", "POST /own/dags//sync"],
    *["POST /own/dags/a%20b/sync", "POST /own/dags/b", "POST /own/dags/~/backfills", "GET /own/dags/%7E/backfills", "POST /own/dags//backfills"],
    *["POST /own/dags/%FF/backfills", "POST /own/dags/b/backfill", "POST /dags/b/backfills"],
]
# The methods of a path, and requests for it by another one.
OTHER_METHODS = [
    ("GET, PATCH", ["PUT /dags/b", "PUT /dags/%62"]),
    ("GET, POST", ["DELETE /pools", "PATCH /variables", "PATCH /roles", "DELETE /users"]),
    ("GET, PATCH, DELETE", ["POST /pools/p", "PUT /variables/k", "POST /roles/Op", "PUT /users/adam"]),
    ("GET", ["POST /eventLogs", "POST /own/me"]),
    ("POST", ["GET /own/dags/b/sync", "PUT /own/dags/%62/backfills"]),
]
# The paths of names of up to 250 bytes, and of up to 64: of the text, however long its encoding is.
LONG = ["GET /dags/%s", "GET /dags/%s/dagRuns", "GET /dags/b/dagRuns/%s", "GET /pools/%s", "GET /variables/%s", "POST /own/dags/%s/sync"]
LONG += ["POST /own/dags/%s/backfills"]
LONG_OF_ACCOUNTS = ["GET /roles/%s", "GET /users/%s"]
MOST, MOST_OF_ACCOUNTS = 250, 64


def known(asked):
    """An operation that wants a token."""
    on_policy = asked in ON_THE_POLICY or asked.endswith("/sync") or any(asked.split(" ")[1].startswith(it) for it in ("/roles/", "/users/"))
    return ("", asked, "", 401, "authentication required", None if on_policy else 0)


def nowhere(asked):
    return ("", asked, "", 404, "no such path", None, None)


PATHS = [
    ("paths that name an operation", "landed", NOW, {}, [known(it) for it in ON_THE_STATE + ON_THE_POLICY]),
    ("paths that name none", "landed", NOW, {}, [nowhere(it) for it in NOWHERE]),
    ("paths with other methods", "landed", NOW, {}, [("", it, "", 405, methods, None, None) for methods, asked in OTHER_METHODS for it in asked]),
    ("the longest names", "landed", NOW, {}, [
        *(known(it % ("x" * size)) for it in LONG for size in (MOST - 1, MOST)),
        *(known(it % ("%78" * MOST)) for it in LONG),
        *(known(it % ("x" * size)) for it in LONG_OF_ACCOUNTS for size in (MOST_OF_ACCOUNTS - 1, MOST_OF_ACCOUNTS)),
        *(known(it % ("%78" * MOST_OF_ACCOUNTS)) for it in LONG_OF_ACCOUNTS),
    ]),
    ("names that are too long", "landed", NOW, {}, [
        *(nowhere(it % ("x" * size)) for it in LONG for size in (MOST + 1, 5000)),
        *(nowhere(it % ("%78" * (MOST + 1))) for it in LONG),
        *(nowhere(it % ("x" * size)) for it in LONG_OF_ACCOUNTS for size in (MOST_OF_ACCOUNTS + 1, 251)),
        *(nowhere(it % ("%78" * (MOST_OF_ACCOUNTS + 1))) for it in LONG_OF_ACCOUNTS),
    ]),
]  # fmt: skip
