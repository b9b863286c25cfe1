#!/usr/bin/env python3
"""Writes the trace of a connection: what was asked, and what came back.

    ./afplane once CONFIG NOW < REQUESTS > ANSWERS
    tools/trace_of.py CONFIG NOW REQUESTS ANSWERS > TRACE

A trace is a JSON text by which the answers can be checked without the bytes of the messages:

    {"config":CONFIG,"sessions":1,"steps":[[STEP,ANSWER],..]}

CONFIG is the configuration as it stands in its file. The connection is session 0, and each request is one step or two, in order:

    a reading or a change of DAGs, runs,       {"look":0}, which gives no answer: the last version of the policy is looked up; then
    instances, pools, variables, event logs    {"act":0,"token":T,"method":M,"target":P,"body":B,"now":NOW}
    a reading of roles, of users, of who asks  {"me":0,"token":T,"target":P}
    a change of the policy                     {"publish":0,"at":K,"token":T,"method":M,"target":P,"body":B}, decided under version K

T is a text, or null where the request has no token. K is the number of changes of the policy that were done before, since nobody else makes
any beside one connection. ANSWER is null where the step gives none, and else {"status":S,"version":V,"seq":N,"body":TEXT}: V and N are those
of X-Policy-Version and X-Plane-Seq, null where there is no such field, and TEXT is empty where there is no body. A request whose path or
method is no operation's, that of the version, and one that was refused as a message are no steps.

Status: 0 the trace is written, 1 a file can not be read or does not fit the others, 2 usage error. Standard error says what is left out.
"""
import json
import re
import sys
from urllib.parse import unquote_to_bytes

MOST_BYTES = 16 * 1024 * 1024
NAMES = {
    "{dag_id}": "[A-Za-z0-9_.-]{1,250}",
    "{~}": "~",
    "{dag_run_id}": "(?!~$)[A-Za-z0-9_.~:+-]{1,250}",
    "{task_id}": "[A-Za-z0-9_.-]{1,250}",
    "{pool_name}": "[ -~]{1,250}",
    "{variable_key}": "[ -~]{1,250}",
    "{role_name}": "[ -~]{1,64}",
    "{username}": "[ -~]{1,64}",
}
# The paths, and the methods of each: first those of the state, then those of the policy.
STATE = {
    "/api/v1/dags": "GET",
    "/api/v1/dags/{dag_id}": "GET PATCH",
    "/api/v1/dags/{dag_id}/tasks": "GET",
    "/api/v1/dags/{~}/dagRuns": "GET",
    "/api/v1/dags/{dag_id}/dagRuns": "GET POST",
    "/api/v1/dags/{dag_id}/dagRuns/{dag_run_id}": "GET PATCH DELETE",
    "/api/v1/dags/{dag_id}/dagRuns/{dag_run_id}/clear": "POST",
    "/api/v1/dags/{dag_id}/dagRuns/{dag_run_id}/taskInstances": "GET",
    "/api/v1/dags/{dag_id}/dagRuns/{dag_run_id}/taskInstances/{task_id}": "GET",
    "/api/v1/dags/{dag_id}/clearTaskInstances": "POST",
    "/api/v1/pools": "GET POST",
    "/api/v1/pools/{pool_name}": "GET PATCH DELETE",
    "/api/v1/variables": "GET POST",
    "/api/v1/variables/{variable_key}": "GET PATCH DELETE",
    "/api/v1/eventLogs": "GET",
    "/own/dags/{dag_id}/backfills": "POST",
}
POLICY = {
    "/api/v1/roles": "GET POST",
    "/api/v1/roles/{role_name}": "GET PATCH DELETE",
    "/api/v1/users": "GET POST",
    "/api/v1/users/{username}": "GET PATCH DELETE",
    "/own/me": "GET",
    "/own/dags/{dag_id}/sync": "POST",
}
OUT_OF_MEMORY = "out of memory"


class Unusable(Exception):
    """Nothing is written; the text says why."""


# ---- Messages -----------------------------------------------------------------------------------------------


def head_of(data, at):
    """The lines of the head that begins there, and where it ends; none where it does not end."""
    end = re.compile(rb"\n\r?\n").search(data, at)
    if end is None:
        return None, len(data)
    return re.split(rb"\r?\n", data[at : end.end()])[:-2], end.end()


def fields_of(lines):
    """The values of each field, by its name in small letters."""
    fields = {}
    for line in lines:
        name, _, value = line.partition(b":")
        fields.setdefault(name.lower(), []).append(value.strip(b" \t"))
    return fields


def text_of(data, what):
    try:
        return data.decode("utf-8")
    except UnicodeDecodeError as fault:
        raise Unusable(f"{what} is no UTF-8, so a trace has no place for it") from fault


class Request:
    """A request that begins there: method, target, token and body, as bytes; method is none where there is no head to be read."""

    def __init__(self, data, at):
        at = re.compile(rb"(\r?\n)*").match(data, at).end()
        self.is_end = at == len(data)
        lines, end = head_of(data, at)
        first = re.fullmatch(rb"([^ ]+) ([^ ]+) HTTP/1\.[01]", lines[0]) if lines else None
        self.method, self.target = first.groups() if first else (None, None)
        fields = fields_of(lines[1:]) if lines else {}
        length = (fields.get(b"content-length") or [b"0"])[0]
        self.end = end + int(length) if re.fullmatch(rb"[0-9]{1,9}", length) else end
        self.body = data[end : self.end]
        given = fields.get(b"authorization", [])
        bearer = re.fullmatch(rb"(?i:bearer) +([^ ].*)", given[0], re.DOTALL) if len(given) == 1 else None
        self.token = bearer and bearer[1]


class Answer:
    """An answer that begins there; `bare` says that it is one to HEAD, which has no body whatever its length says."""

    def __init__(self, data, at, bare):
        lines, end = head_of(data, at)
        first = re.fullmatch(rb"HTTP/1\.1 ([0-9]{3}) [ -~]+", lines[0]) if lines else None
        fields = fields_of(lines[1:]) if lines else {}
        length = (fields.get(b"content-length") or [b"0"])[0]
        if first is None or re.fullmatch(rb"[0-9]{1,9}", length) is None:
            raise Unusable(f"the answers: no answer begins at byte {at}")
        self.status, self.length = int(first[1]), int(length)
        self.end = end + (0 if bare else self.length)
        if self.end > len(data):
            raise Unusable(f"the answers: that which begins at byte {at} is cut off")
        self.body = text_of(data[end : self.end], f"the answer at byte {at}")
        self.closes = b"close" in fields.get(b"connection", [])
        self.version, self.seq = (self.number(fields, name, at) for name in (b"x-policy-version", b"x-plane-seq"))

    def number(self, fields, name, at):
        value = fields.get(name, [None])[0]
        if value is not None and re.fullmatch(rb"[0-9]{1,10}", value) is None:
            raise Unusable(f"the answers: in that which begins at byte {at}, {name.decode()} is no number")
        return value and int(value)

    def shown(self):
        return {"status": self.status, "version": self.version, "seq": self.seq, "body": self.body}

    def says(self, detail):
        """Whether it is the fixed answer that says so, where memory was refused."""
        return self.status in (500, 503) and self.version is None and f'"detail":"{detail}"' in self.body


# ---- Steps --------------------------------------------------------------------------------------------------


def has_form(path, form):
    """Whether the path is of this form, each of its parts a name of its kind, once it is percent-decoded."""
    pieces, forms = path.split(b"/"), form.split("/")
    if len(pieces) != len(forms):
        return False
    for piece, it in zip(pieces, forms):
        if it not in NAMES and piece != it.encode():
            return False
        if it in NAMES and re.fullmatch(NAMES[it].encode(), unquote_to_bytes(piece)) is None:
            return False
    return True


def has_operation(paths, request):
    path, method = request.target.partition(b"?")[0], request.method.decode("latin-1")
    return any(has_form(path, form) and method in methods.split(" ") for form, methods in paths.items())


def steps_of(request, number, now, done):
    """The steps of a request, where so many changes of the policy were done before; the last of them is the one that is answered."""
    of_state, of_policy = has_operation(STATE, request), has_operation(POLICY, request)
    if not of_state and not of_policy:
        return []
    token = None if request.token is None else text_of(request.token, f"the token of request {number}")
    method, target = request.method.decode(), text_of(request.target, f"the target of request {number}")
    if of_policy and method == "GET":
        return [{"me": 0, "token": token, "target": target}]
    whole = {"token": token, "method": method, "target": target, "body": text_of(request.body, f"the body of request {number}")}
    return [{"publish": 0, "at": done, **whole}] if of_policy else [{"look": 0}, {"act": 0, **whole, "now": now}]


def trace_of(now, requests, answers, tell):
    """The steps of the connection, each with its answer."""
    steps, done, number, at, read = [], 0, 0, 0, 0
    while read < len(answers):
        number += 1
        request = Request(requests, at)
        if request.is_end:
            raise Unusable(f"there are more answers than requests: no request stands for that at byte {read}")
        answer = Answer(answers, read, request.method == b"HEAD")
        at, read = request.end, answer.end
        if answer.says(OUT_OF_MEMORY):
            tell(f"request {number} found no memory: nothing was done, and the connection ended")
            break
        if answer.closes and answer.version is None and answer.status in (400, 413, 431, 501):
            # A head that was not read whole has no method, so what looks like a HEAD is answered with a body then.
            read = len(answers) if len(answers) - read == answer.length and request.method == b"HEAD" else read
            tell(f"request {number} was refused as a message, and the connection ended")
            break
        if request.method is None or request.end > len(requests):
            raise Unusable(f"request {number} can not be read, and its answer is no refusal of a message")
        found = steps_of(request, number, now, done)
        steps += [[it, answer.shown() if it is found[-1] else None] for it in found]
        done += bool(found) and "publish" in found[-1] and answer.status in (200, 204)
        if answer.closes:
            break
    else:
        if not Request(requests, at).is_end:
            tell(f"there is no answer to request {number + 1}, and to what stands behind it")
    if read < len(answers):
        raise Unusable(f"there are answers behind the one that closes the connection, at byte {read}")
    return steps


def read_file(path):
    try:
        with open(path, "rb") as file:
            return file.read()
    except OSError as fault:
        raise Unusable(f"{path}: can not be read: {fault.strerror}") from fault


def written(config, steps):
    """The trace: the configuration as it stands, and a step on each line."""
    text = text_of(config, "the configuration").strip(" \t\r\n")
    try:
        is_object = type(json.loads(text)) is dict
    except (ValueError, RecursionError):
        is_object = False
    if not is_object:
        raise Unusable("the configuration is no JSON object")
    lines = ",\n".join(json.dumps(it, ensure_ascii=False, separators=(",", ":")) for it in steps)
    trace = f'{{"config":{text},"sessions":1,"steps":[\n{lines}\n]}}\n'.encode()
    if len(trace) > MOST_BYTES:
        raise Unusable("the trace would be longer than 16 MiB, and is not written")
    return trace


def main(words):
    def tell(text):
        print(f"trace_of.py: {text}", file=sys.stderr)

    if words in (["-h"], ["--help"]):
        print(__doc__.strip())
        return 0
    if len(words) != 4:
        print("usage: trace_of.py CONFIG NOW REQUESTS ANSWERS > TRACE", file=sys.stderr)
        return 2
    try:
        config, requests, answers = (read_file(it) for it in (words[0], words[2], words[3]))
        trace = written(config, trace_of(words[1], requests, answers, tell))
    except Unusable as why:
        tell(why)
        return 1
    sys.stdout.buffer.write(trace)
    return 0


if __name__ == "__main__":
    sys.exit(main(sys.argv[1:]))
