#!/usr/bin/env python3
"""Asks the built server by clients that others wrote, and compares every answer with the model's.

  python3 conformance/clients.py
  python3 conformance/clients.py --program 'PATH/PROGRAM' --only curl,nginx

- `curl`: 200 requests in one call, all on one connection.
- `requests` (Python): a session whose pool has ten connections, and ten threads.
- `h11` (Python): one connection, whose messages the state machine of h11 writes and reads.
- `wrk`: four connections for three seconds, opened anew after each 1,000th request.
- `nginx`: a reverse proxy that keeps its connections to the server open, and eight clients in front of it.

A client that is not installed is left out, and a line says so. The requests are those of many_clients.py, as each client spells them. What came back is compared
as bytes of status line, fields and body; of an answer through nginx, the fields that nginx adds or takes for its own connections are left out. The last line is
`N passed, M failed`, N the answers that were compared. The status is 0 only where M is 0 and a client was there.
"""
import argparse
import json
import os
import shlex
import shutil
import socket
import subprocess
import sys
import tempfile
import threading
import time
from concurrent.futures import ThreadPoolExecutor

import with_model  # noqa: F401
import crowd_cases
import oracle
from blind_cases import BASE
from exchanges import Exchange
from history import fault
from many_clients import Player, all_rows
from serving import EMPTY, PROGRAM, ROOM, Broken, Client, Serving
from worked_rows import request as worked

WORKERS, COUNT, THREADS, EACH = 12, 200, 10, 90
SECONDS = 60
OWN_FIELDS = (b"server:", b"date:", b"connection:")


class Absent(Exception):
    """A client that is not installed."""


def need(name):
    path = shutil.which(name) or shutil.which(name, path="/usr/sbin:/sbin")
    if path is None:
        raise Absent(f"{name} is not installed")
    return path


class Wanted:
    """What a request asks for, apart from how a client spells it."""

    def __init__(self, data):
        end = oracle.head_end(data, 0)
        head, self.body = oracle.Request(data[:end]), data[end:]
        self.method, self.target, self.token = head.method.decode(), head.target.decode("latin-1"), head.token.decode("latin-1")


def wanted(guests, count):
    """So many requests of these guests, in turn. No one of them is odd."""
    found = []
    while len(found) < count:
        found += guests[len(found) % len(guests)].requests()
    return [Wanted(it) for it in found[:count]]


def plain(config, seed, count):
    """Guests whose requests are all as they should be."""
    guests = crowd_cases.guests(seed, config, count)
    for it in guests:
        it.wild = 0
    return guests


def spelled(it, port):
    """The bytes of a request: what counts of it for the model."""
    fields = f"Host: 127.0.0.1:{port}\r\nAuthorization: Bearer {it.token}\r\nContent-Length: {len(it.body)}\r\n"
    return f"{it.method} {it.target} HTTP/1.1\r\n{fields}\r\n".encode("latin-1") + it.body


def text_of(status, reason, fields, body):
    """The bytes of an answer."""
    return b"\r\n".join([b"HTTP/1.1 %d %s" % (status, reason), *(b"%s: %s" % it for it in fields), b"", b""]) + body


# ---- curl ------------------------------------------------------------------------------------------------------


def curl(config, port, room):
    """One call with many URLs, which takes one connection for all."""
    program, asked, lines = need("curl"), wanted(plain(config, "curl", 10), COUNT), []
    quoted = lambda text: '"' + text.replace("\\", "\\\\").replace('"', '\\"') + '"'
    for number, it in enumerate(asked):
        body = os.path.join(room, f"{number}.body")
        with open(body, "wb") as file:
            file.write(it.body)
        lines += ["next"] * bool(number) + ["include", "globoff", "path-as-is", "silent", "show-error", f"max-time = {SECONDS}", f"request = {it.method}"]
        lines += [f"url = {quoted(f'http://127.0.0.1:{port}{it.target}')}", f"header = {quoted(f'Authorization: Bearer {it.token}')}"]
        lines += [f"data-binary = {quoted('@' + body)}"] if it.body else []
        lines += [f"output = {quoted(os.path.join(room, str(number)))}", 'write-out = "%{num_connects}\\n"']
    with open(os.path.join(room, "calls"), "w", encoding="latin-1") as file:
        file.write("\n".join(lines) + "\n")
    ran = subprocess.run([program, "--disable", "--config", os.path.join(room, "calls")], stdout=subprocess.PIPE, stderr=subprocess.STDOUT, timeout=SECONDS)
    if ran.returncode or ran.stdout.split() != [b"1", *[b"0"] * (COUNT - 1)]:
        told = b" ".join(ran.stdout.split())[-600:].decode(errors="replace")
        raise Broken(f"curl, status {ran.returncode}: it made another connection than the first, or none: {told}")
    session = []
    for number, it in enumerate(asked):
        with open(os.path.join(room, str(number)), "rb") as file:
            session.append(Exchange(spelled(it, port), file.read()))
    return [session]


# ---- requests --------------------------------------------------------------------------------------------------


def pooled(config, port, room):
    """Ten threads with one session, whose pool has ten connections. What a connection was asked, and by whom, is told by its port."""
    try:
        import requests
    except ImportError as why:
        raise Absent("the Python package requests is not installed") from why
    found, lock = {}, threading.Lock()

    def ask(session, it):
        sent = time.monotonic()
        asked = requests.Request(it.method, f"http://127.0.0.1:{port}{it.target}", headers={"Authorization": f"Bearer {it.token}"}, data=it.body or None).prepare()
        came = session.send(asked, stream=True, timeout=SECONDS)
        connection, held = came.raw.connection, time.monotonic()  # (the connection is this thread's until the body is read)
        local = connection.sock.getsockname()[1] if connection and connection.sock else f"not told {sent}"
        fields = [(name.encode("latin-1"), value.encode("latin-1")) for name, value in came.raw.headers.items()]
        answer = text_of(came.status_code, came.reason.encode("latin-1"), fields, came.content)
        it.target = asked.path_url
        exchange = Exchange(spelled(it, port), answer, sent, time.monotonic())
        with lock:
            found.setdefault(local, []).append((held, exchange))

    def play(guest):
        for it in wanted([guest], EACH):
            ask(session, it)

    with requests.Session() as session:
        session.trust_env = False
        session.mount("http://", requests.adapters.HTTPAdapter(pool_connections=1, pool_maxsize=THREADS, pool_block=True))
        with ThreadPoolExecutor(THREADS) as threads:
            list(threads.map(play, plain(config, "requests", THREADS)))
    named = [it for it in found if isinstance(it, int)]
    if not 1 < len(named) <= THREADS:
        raise Broken(f"requests: {len(named)} connections for {THREADS} threads")
    return [[exchange for _, exchange in sorted(it, key=lambda pair: pair[0])] for it in found.values()]


# ---- h11 -------------------------------------------------------------------------------------------------------


def machine(config, port, room):
    """One connection that goes from one request to the next by the rules of h11."""
    try:
        import h11
    except ImportError as why:
        raise Absent("the Python package h11 is not installed") from why
    session, peer = [], h11.Connection(h11.CLIENT)
    with socket.create_connection(("127.0.0.1", port), SECONDS) as stream:
        for it in wanted(plain(config, "h11", 10), COUNT):
            sent = time.monotonic()
            fields = [("Host", f"127.0.0.1:{port}"), ("Authorization", f"Bearer {it.token}"), ("Content-Length", str(len(it.body)))]
            message = [h11.Request(method=it.method, target=it.target, headers=fields), h11.Data(data=it.body), h11.EndOfMessage()]
            stream.sendall(b"".join(peer.send(event) for event in message))
            first, body = None, b""
            while True:
                event = peer.next_event()
                if event is h11.NEED_DATA:
                    peer.receive_data(stream.recv(ROOM))
                elif type(event) is h11.Response:
                    first = event
                elif type(event) is h11.Data:
                    body += bytes(event.data)
                elif type(event) is h11.EndOfMessage:
                    break
                else:
                    raise Broken(f"h11: {event!r}")
            answer = text_of(first.status_code, first.reason, first.headers.raw_items(), body)
            session.append(Exchange(spelled(it, port), answer, sent, time.monotonic()))
            if (peer.our_state, peer.their_state) != (h11.DONE, h11.DONE):
                raise Broken(f"h11: after {it.method} {it.target} the connection is not to be kept: {peer.states}")
            peer.start_next_cycle()
    return [session]


# ---- wrk -------------------------------------------------------------------------------------------------------

SCRIPT = """
local pairs_of, last, count, wrong, first, at = %s, 0, 0, 0, "", 0
local threads = {}
function setup(thread) table.insert(threads, thread) end
function request() at = at %% #pairs_of + 1; last = at; return pairs_of[at][1] end
function response(status, headers, body)
   local told = pairs_of[last]
   count = count + 1
   local good = status == told[2] and (body or "") == told[3] and (headers["Connection"] == "close") == (count %% 1000 == 0)
   local fields = count %% 1000 == 0 and 1 or 0
   for name, value in pairs(told[4]) do good = good and headers[name] == value; fields = fields + 1 end
   for _ in pairs(headers) do fields = fields - 1 end
   if not good or fields ~= 0 then
      wrong = wrong + 1
      if first == "" then first = pairs_of[last][1] .. " was answered " .. status .. " " .. (body or "") end
   end
   answers, faults, example = count, wrong, first
end
function done(summary, latency, requests)
   local all, bad, example = 0, 0, ""
   for _, it in ipairs(threads) do
      all, bad = all + (it:get("answers") or 0), bad + (it:get("faults") or 0)
      if example == "" then example = it:get("example") or "" end
   end
   local errors = summary.errors
   print("counted " .. all .. " " .. bad .. " " .. errors.connect + errors.read + errors.write + errors.timeout .. " " .. example)
end
"""
# What does not change while nothing runs: each user, readings, denials, and faults.
FOR_WRK = [
    *((name, "GET /dags") for name in ("vera", "bob", "pat", "adam", "nobody")),
    *[("vera", "GET /dags/b"), ("vera", "GET /dags/gone"), ("bob", "GET /dags/a"), ("adam", "GET /pools"), ("adam", "GET /eventLogs"), ("adam", "GET /roles")],
    *[("uma", "GET /own/me"), ("", "GET /version"), ("vera", "GET /nosuch"), ("vera", "DELETE /dags"), ("vera", "GET /dags/~/dagRuns?limit=x")],
]


def load(port, room):
    """How many answers wrk took, and what was wrong with them. Four threads with one connection each, so that each answer is known by the request before it."""
    program = need("wrk")
    lua, rows, plane = lambda data: '"' + "".join(f"\\{it:03d}" for it in data) + '"', [], oracle.Plane(json.dumps(BASE).encode())
    for name, asked in FOR_WRK:
        data = worked(name, asked)
        head, _, body = oracle.answers(plane, data)[0].partition(EMPTY)
        first, *fields = head.split(b"\r\n")
        told = ", ".join("[%s] = %s" % tuple(map(lua, it.split(b": ", 1))) for it in fields)
        rows.append(f"{{{lua(data)}, {first.split()[1].decode()}, {lua(body)}, {{{told}}}}}")
    path = os.path.join(room, "wrk.lua")
    with open(path, "w", encoding="ascii") as file:
        file.write(SCRIPT % ("{" + ",\n".join(rows) + "}"))
    words = [program, "-t", "4", "-c", "4", "-d", "3s", "--timeout", "5s", "-s", path, f"http://127.0.0.1:{port}/"]
    ran = subprocess.run(words, stdout=subprocess.PIPE, stderr=subprocess.STDOUT, timeout=SECONDS)
    counted = [it.split(b" ", 4) for it in ran.stdout.split(b"\n") if it.startswith(b"counted ")]
    if ran.returncode or not counted:
        raise Broken(f"wrk, status {ran.returncode}: {ran.stdout[-600:].decode(errors='replace')}")
    answers, wrong, errors = map(int, counted[0][1:4])
    if wrong or errors or not answers:
        raise Broken(f"wrk: of {answers} answers {wrong} are wrong, and {errors} connections failed: {counted[0][4][:600].decode(errors='replace')}")
    return answers


# ---- nginx -----------------------------------------------------------------------------------------------------

PROXY = """
worker_processes 2;
%(user)s
pid %(room)s/pid;
error_log %(room)s/errors;
events { worker_connections 256; }
http {
    access_log off;
    client_body_temp_path %(room)s/bodies;
    proxy_temp_path %(room)s/proxied;
    fastcgi_temp_path %(room)s/f;
    uwsgi_temp_path %(room)s/u;
    scgi_temp_path %(room)s/s;
    upstream afplane { server 127.0.0.1:%(port)d; keepalive 8; keepalive_timeout 5s; }
    server {
        listen 127.0.0.1:%(front)d;
        location / {
            proxy_pass http://afplane;
            proxy_http_version 1.1;
            proxy_set_header Connection "";
            proxy_next_upstream off;
        }
    }
}
"""


def free_port():
    with socket.create_server(("127.0.0.1", 0)) as listener:
        return listener.getsockname()[1]


def unproxied(answer):
    """An answer without the fields that a proxy adds, or that are of its own connection."""
    head, _, body = answer.partition(EMPTY)
    return b"\r\n".join(it for it in head.split(b"\r\n") if not it.lower().startswith(OWN_FIELDS)) + EMPTY + body


def proxied(config, port, room):
    """Clients at once in front of nginx. Which connection it took for a request does not show, so each exchange is a session of its own."""
    program, front = need("nginx"), free_port()
    path = os.path.join(room, "nginx.conf")
    with open(path, "w", encoding="utf-8") as file:
        file.write(PROXY % {"room": room, "port": port, "front": front, "user": "user root;" if os.geteuid() == 0 else ""})
    server = subprocess.Popen([program, "-p", room, "-e", f"{room}/errors", "-c", path, "-g", "daemon off;"], stderr=subprocess.PIPE)
    try:
        until = time.monotonic() + 10
        while True:
            try:
                Client(front).close()
                break
            except OSError as why:
                if server.poll() is not None or time.monotonic() > until:
                    raise Broken(f"nginx does not take connections: {server.stderr.read(600)!r}") from why
                time.sleep(0.05)
        threads = [Player(it, front, time.monotonic() + 6) for it in plain(config, "nginx", 8)]
        for it in threads:
            it.start()
        for it in threads:
            it.join()
    finally:
        server.terminate()
        server.wait(SECONDS)
        server.stderr.close()
    broken = [it.broken for it in threads if it.broken]
    if broken:
        with open(os.path.join(room, "errors"), encoding="utf-8", errors="replace") as file:
            raise Broken(f"through nginx: {broken[0]}; {file.read()[-600:]}")
    exchanges = [it for thread in threads for session in thread.sessions for it in session]
    return [[Exchange(it.request, unproxied(it.answer), it.sent, it.received)] for it in exchanges]


# ---- All of them -----------------------------------------------------------------------------------------------

CLIENTS = {"curl": curl, "requests": pooled, "h11": machine, "nginx": proxied, "wrk": load}


def tried(name, program):
    """How many answers were compared, and what is wrong, or None. Absent where the client is not there."""
    config = json.dumps(BASE).encode() if name == "wrk" else crowd_cases.config(time.time_ns() // 1000)
    with tempfile.TemporaryDirectory(prefix="afplane-clients-") as room, Serving(program, config, WORKERS) as server:
        try:
            if name == "wrk":
                return load(server.port, room), None if server.runs() else "the server has ended"
            sessions = CLIENTS[name](config, server.port, room)
            rows, last = all_rows(server.port, crowd_cases.token("adam"))
        except (Broken, OSError, subprocess.TimeoutExpired) as why:
            return 0, str(why)
    count = sum(map(len, sessions))
    return count, fault(config, [*sessions, *last], rows) or server.fault()


def main():
    parser = argparse.ArgumentParser(description=__doc__, formatter_class=argparse.RawDescriptionHelpFormatter)
    parser.add_argument("--program", default=PROGRAM, help="the program and its first words, as a shell would read them")
    parser.add_argument("--only", default=",".join(CLIENTS), metavar="CLIENT,..")
    asked = parser.parse_args()
    program, passed, failed = shlex.split(asked.program), 0, 0
    if shutil.which(program[0]) is None:
        sys.exit(f"clients.py: there is no program {program[0]}; ./afplane build makes it")
    for name in CLIENTS:
        if name not in asked.only.split(","):
            continue
        try:
            count, wrong = tried(name, program)
        except Absent as why:
            print(f"{name}: left out: {why}", flush=True)
            continue
        except Broken as why:
            count, wrong = 0, str(why)
        passed, failed = passed + (0 if wrong else count), failed + bool(wrong)
        print(f"{name}: {wrong[:3000]}" if wrong else f"{name}: {count} answers", flush=True)
    print(f"{passed} passed, {failed} failed")
    return 1 if failed or not passed else 0


if __name__ == "__main__":
    sys.exit(main())
