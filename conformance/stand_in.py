#!/usr/bin/env python3
"""A server over the reference model, to try the programs that ask a server: `afplane serve` once more, plain and slow.

  python3 conformance/stand_in.py serve CONFIG PORT WORKERS

It has the same workers, sockets and limits of time. A request is decided under one lock; a change of the policy under the version that was found before it,
and so it can meet that the policy moved. `StandIn` is the same inside a process; its tests make it answer wrongly.
"""
import contextlib
import copy
import errno
import re
import socket
import sys
import threading
import time

import with_model  # noqa: F401
import oracle
import oracle_sched
from exchanges import operation_of
from history import scripts_in
from oracle_policy import Fault
from oracle_table import LANDED
from oracle_verdict import decide, told

ALL = frozenset(LANDED)
PATIENCE, PERIOD, BACKLOG, MOST_WAITING = 10, 1, 128, 65536
WHY = {errno.EADDRINUSE: "the port is in use", errno.EADDRNOTAVAIL: "the address is not available", errno.EACCES: "permission denied"}
ROOM, MOST_READS, LINGER = 65536, 100, 0.1


def moment():
    """Now, in microseconds since 1970."""
    return time.time_ns() // 1000


class Incoming:
    """The bytes of a connection, request by request."""

    def __init__(self, stream, patience):
        self.stream, self.data, self.has_ended, self.until = stream, b"", False, time.monotonic() + patience

    def read(self):
        """Takes what comes within the time that is left; a TimeoutError if nothing does."""
        left = self.until - time.monotonic()
        if left <= 0:
            raise TimeoutError
        self.stream.settimeout(left)
        piece = self.stream.recv(ROOM)
        self.data, self.has_ended = self.data + piece, not piece

    def next(self):
        """The next request and its body, or None if there is no whole one yet, or none any more. Turned where it is refused."""
        self.data = self.data[re.match(rb"(?:\r?\n)*", self.data).end() :]
        if not self.data:
            return None
        try:
            end = oracle.head_end(self.data, 0)
            request = oracle.Request(self.data[:end])
        except oracle.Turned as why:
            if why.args[0] is not oracle.INCOMPLETE or self.has_ended:
                raise
            return None
        if end + request.length > len(self.data):
            if self.has_ended:
                raise oracle.Turned(oracle.INCOMPLETE, request.bare)
            return None
        body, self.data = self.data[end : end + request.length], self.data[end + request.length :]
        return request, body


class StandIn:
    """The plane behind its lock, and what scheduler and executor do to it."""

    def __init__(self, config, patience=PATIENCE, period=PERIOD):
        self.plane, self.lock = oracle.Plane(config), threading.Lock()
        self.scripts, self.looked, self.patience, self.period, self.reads = scripts_in(config), 0, patience, period, Incoming
        self.ended = threading.Event()

    # ---- Answers ----

    def answer(self, request, body, closes):
        """The bytes of the answer to a request that was read whole."""
        operation, _ = operation_of(request.target.partition(b"?")[0], request.method, ALL)
        if operation is None:
            decided = self.decided(self.plane, request, body)
        elif operation.on_policy:
            decided = self.on_policy(request, body)
        else:
            with self.lock:
                decided = self.on_state(request, body)
        return oracle.answer_text(decided, closes, request.bare)

    def on_state(self, request, body):
        self.plane.now = moment()
        decided = self.decided(self.plane, request, body)
        self.looked = self.plane.version()
        return decided

    def on_policy(self, request, body):
        """Decided on a copy, without the lock; a change counts only if nobody else has made a version meanwhile."""
        plane = copy.copy(self.plane)
        plane.versions = list(plane.versions)
        version = plane.version()
        decided = self.decided(plane, request, body)
        if plane.version() == version:
            return decided
        with self.lock:
            last = self.plane.version()
            if last == version:
                self.plane.versions = plane.versions
                return decided
        status, body, _ = told(409, f"policy moved to version {last}")
        return status, body, [f"X-Policy-Version: {last}"]

    def decided(self, plane, request, body):
        return decide(plane, request.method, request.target, request.token, body)

    # ---- Scheduler and executor ----

    def enter(self, state, now, event, owner, *names):
        if state != self.plane.state:
            under = copy.copy(self.plane)
            under.versions = self.plane.versions[: self.looked + 1]
            self.plane.state = state
            under.add_entry(event, owner, now, *names)

    def tick(self):
        with self.lock:
            now = moment()
            self.enter(oracle_sched.tick(self.plane.state, now), now, "tick", "scheduler")
        while (claimed := self.claim()) is not None:
            self.report(*claimed)

    def claim(self):
        with self.lock:
            now = moment()
            state, claim = oracle_sched.claim(self.plane.state, now)
            if claim is None:
                return None
            run = next(it for it in state.runs if it.number == claim[0])
            names = run.dag_id, run.run_id, claim[1]
            self.enter(state, now, "claim", "executor", *names)
            return claim, names

    def report(self, claim, names):
        script, tries = self.scripts[names[0], names[2]], claim[2]
        outcome = script[tries - 1] if tries <= len(script) else "success"
        with self.lock:
            now = moment()
            try:
                self.enter(oracle_sched.report(self.plane.state, claim, outcome, now), now, "report", "executor", *names)
            except Fault:
                pass

    # ---- Connections ----

    @contextlib.contextmanager
    def listens(self, workers, port=0):
        """Starts the workers and the ticks, as threads, and ends them."""
        with socket.create_server(("127.0.0.1", port), backlog=BACKLOG) as listener:
            for _ in range(workers):
                threading.Thread(target=self.work, args=[listener], daemon=True).start()
            threading.Thread(target=self.tick_until_the_end, daemon=True).start()
            try:
                yield listener.getsockname()[1]
            finally:
                self.ended.set()
                listener.shutdown(socket.SHUT_RDWR)

    def tick_until_the_end(self):
        while not self.ended.wait(self.period):
            self.tick()

    def work(self, listener):
        while True:
            try:
                stream, _ = listener.accept()
            except OSError:
                return
            with stream:
                try:
                    self.converse(stream)
                except OSError:
                    pass

    def converse(self, stream):
        """One connection, up to its end."""
        stream.setsockopt(socket.IPPROTO_TCP, socket.TCP_NODELAY, 1)
        incoming, waiting = self.reads(stream, self.patience), b""
        for turn in range(1, oracle.MOST_REQUESTS + 1):
            incoming.until = time.monotonic() + self.patience
            try:
                while (asked := incoming.next()) is None and not incoming.has_ended:
                    if waiting:
                        self.write(stream, waiting)
                        waiting, incoming.until = b"", time.monotonic() + self.patience
                    incoming.read()
            except oracle.Turned as why:
                self.write(stream, waiting + oracle.answer_text(why.args[0], closes=True, without_body=why.args[1]))
                return self.part(stream)
            if asked is None:
                return self.write(stream, waiting)
            request, body = asked
            closes = request.closes or turn == oracle.MOST_REQUESTS
            waiting += self.answer(request, body, closes)
            if closes or len(waiting) >= MOST_WAITING:
                self.write(stream, waiting)
                waiting = b""
            if closes:
                return self.part(stream)

    def write(self, stream, data):
        while data:
            stream.settimeout(self.patience)
            data = data[stream.send(data) :]

    def part(self, stream):
        """The end where the server closes first: what still comes is read out, or the last answers would be thrown away with it."""
        stream.shutdown(socket.SHUT_WR)
        stream.settimeout(LINGER)
        for _ in range(MOST_READS):
            if not stream.recv(ROOM):
                return


def main(words):
    if len(words) != 4 or words[0] != "serve" or not (words[2].isdigit() and words[3].isdigit() and 1 <= int(words[3]) <= 16):
        sys.exit(2)
    with open(words[1], "rb") as file:
        server = StandIn(file.read())
    with contextlib.ExitStack() as stack:
        try:
            port = stack.enter_context(server.listens(int(words[3]), int(words[2])))
        except OSError as why:
            sys.exit(f"afplane: cannot listen on 127.0.0.1:{words[2]}: {WHY.get(why.errno, 'the system gives no listener')}")
        sys.stdout.write(f"listening on 127.0.0.1:{port}\n")
        sys.stdout.flush()
        server.ended.wait()


if __name__ == "__main__":
    main(sys.argv[1:])
