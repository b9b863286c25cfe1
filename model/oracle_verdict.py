"""The verdict on a request, the entries and the versions: part of oracle.py.

A request whose path and method name an operation is decided by these rules, in this order, and the first that applies decides:

1. Who asks is the user whose digest is the token's SHA-256; where there is no token, or it is nobody's: 401.
2. The requirements of the operation are tested in their order; the first that the user's permissions do not meet is named: 403.
3. Of a listing, `limit` and then `offset` are to be numbers; of an operation with a body, that is read whole, each of its members: 400.
4. The operation's own faults, in their order (oracle_state.py, oracle_policy.py): 400, 404, 409.
5. Where something would change and the history, or the list of versions, is as long as it may be: 507.

After each of these all is as it was. Else an act on the state that leaves another state than it found adds one entry to the event logs, and no other act
adds one; a change of the policy adds one version, also where it leaves the policy as it was, and no entry. Each answer names the version of the policy
under which it was decided, or that it made; of an operation on the state also how many entries there are, its own included.
"""
import hashlib
from urllib.parse import unquote_to_bytes

import oracle_bodies as bodies
import oracle_ops as ops
from oracle_policy import Fault, meets, permission_text
from oracle_table import KINDS, LANDED, route

TITLES = {
    400: "Bad Request",
    401: "Unauthorized",
    403: "Forbidden",
    404: "Not Found",
    405: "Method Not Allowed",
    409: "Conflict",
    413: "Content Too Large",
    431: "Request Header Fields Too Large",
    501: "Not Implemented",
    507: "Insufficient Storage",
}


class Plane:
    """The opening and what came of it: policies by version, the state, the entries; and which operations there are."""

    def __init__(self, opening, now=0, has=frozenset(LANDED)):
        policy, self.state, self.most_entries, self.last_version = opening
        self.versions, self.entries, self.now, self.has = [policy], [], now, has

    def version(self):
        """The version of the policy that is in force. That of the configuration is 0."""
        return len(self.versions) - 1

    def add_entry(self, event, owner, now, dag_id=None, run_id=None, task_id=None):
        """An entry has a number, from 1 and without a gap; the moment; who did it, under which version; what it was, and the names that apply."""
        told_of = {"dag_id": dag_id, "event": event, "event_log_id": len(self.entries) + 1, "owner": owner}
        told_of.update({"policy_version": self.version(), "run_id": run_id, "task_id": task_id, "when": now})
        self.entries.append(told_of)

    def record(self, operation, call):
        """The entry of a change that a user has made, and that stands in the state already.

        It names the DAG and the run of the path; of a trigger, the run that was added, which is the last one. A clear of a DAG's instances names the
        run of its body, if there is one, and no task. What is done to pools and variables names no DAG.
        """
        named = dict(zip([it for it in operation.path if it in KINDS], call.names))
        run_id = named.get("{dag_run_id}")
        if operation.name == "clear_instances":
            run_id = call.input["run_id"]
        if operation.name == "trigger_run":
            run_id = self.state.runs[-1].run_id
        self.add_entry(operation.event, call.user, self.now, named.get("{dag_id}"), run_id)


def told(status, detail, *fields):
    """A fault: its status line's end, its body and its fields."""
    body = {"detail": detail, "status": status, "title": TITLES[status], "type": "about:blank"}
    return f"{status} {TITLES[status]}", body, list(fields)


def status_of(fault):
    """The status of a permitted operation's fault."""
    kind, _ = fault.args
    if kind in ("bad action", "pair not allowed", "unknown role"):
        return 400
    if kind.startswith("no such "):
        return 404
    return 507 if kind.endswith(" full") else 409


def parameters(query):
    """`limit` and `offset`: each the first of its name, ASCII digits, any number of them; a limit above that of a page is a page's."""
    given = {}
    for piece in query.split(b"&"):
        name, _, value = piece.partition(b"=")
        given.setdefault(unquote_to_bytes(name.replace(b"+", b" ")), unquote_to_bytes(value.replace(b"+", b" ")))
    found = []
    for name, default in (("limit", ops.PAGE), ("offset", 0)):
        digits = given.get(name.encode())
        if digits is not None and not (digits and all(it in b"0123456789" for it in digits)):
            raise bodies.BadInput(f"bad parameter: {name}")
        short = None if digits is None else digits.lstrip(b"0") or b"0"
        found.append(default if short is None else int(short) if len(short) < 18 else 10**18)
    return {"limit": min(found[0], ops.PAGE), "offset": found[1]}


def permitted(plane, operation, parts, token):
    """Who brings the token and what it grants; a fault where that is nobody, or a permission is missing."""
    policy = plane.versions[-1]
    user = None if token is None else policy.by_digest.get(hashlib.sha256(token).digest())
    if user is None:
        return None, None, told(401, "authentication required", "WWW-Authenticate: Bearer")
    granted, dag_id = policy.grants(user), parts[0] if "{dag_id}" in operation.path else None
    for action, resource in operation.needs:
        if not meets(granted, action, resource, dag_id, plane.state.dags):
            return user, granted, told(403, f"missing permission {permission_text(action, resource, dag_id)}")
    return user, granted, None


def done_on_state(plane, operation, call):
    """What is answered, and one entry more where the state has changed.

    Where an entry is needed and there are as many as `history_limit` allows, nothing is done. What changes nothing needs none, so it is answered still.
    """
    state, answer = operation.act(call)
    if state != plane.state:
        if len(plane.entries) >= plane.most_entries:
            raise Fault("history full", None)
        plane.state = state
        plane.record(operation, call)
    return answer


def done_on_policy(plane, operation, call):
    """What is answered, and one version more where the policy was to change.

    A change whose faults are tested and that has none makes the next version, unless `version_limit` is the version in force: then nothing is done. A reading
    gives no policy.
    """
    policy, answer = operation.act(call)
    if policy is not None:
        if plane.version() >= plane.last_version:
            raise Fault("versions full", None)
        plane.versions.append(policy)
    return answer(plane.version())


def verdict(plane, operation, parts, query, token, body):
    """Status and reason, the body or none, and the first fields of the answer to an operation."""
    user, granted, denied = permitted(plane, operation, parts, token)
    if denied is not None:
        return denied
    call = ops.Call(plane.versions[-1], plane.state, plane.entries, user, granted, plane.now, parts)
    try:
        if operation.is_listing and "pages" in plane.has:
            call.limit, call.offset = parameters(query).values()
        if operation.body:
            call.input = bodies.read_body(body, operation.body)
        answer = (done_on_policy if operation.on_policy else done_on_state)(plane, operation, call)
        return ("200 OK" if answer is not None else "204 No Content", answer, [])
    except bodies.BadInput as why:
        return told(400, why.args[0])
    except Fault as why:
        return told(status_of(why), ": ".join(it for it in why.args if it is not None))


def decide(plane, method, target, token, body):
    """Status and reason, the body or none, and the fields of the answer to a request."""
    path, _, query = target.partition(b"?")
    if path == b"/api/v1/version":
        if method != b"GET":
            return told(405, "method not allowed", "Allow: GET")
        return "200 OK", {"git_version": None, "version": "afplane 1"}, []
    operation, parts = route(path, method, plane.has)
    if operation is None:
        return told(405, "method not allowed", "Allow: " + ", ".join(parts)) if parts else told(404, "no such path")
    status, answer, fields = verdict(plane, operation, parts, query, token, body)
    fields.append(f"X-Policy-Version: {plane.version()}")
    if not operation.on_policy:
        fields.append(f"X-Plane-Seq: {len(plane.entries)}")
    return status, answer, fields
