#!/usr/bin/env python3
"""Plays many clients at once on the built server, and checks all that they were answered.

  python3 conformance/many_clients.py                       two minutes of ten clients
  python3 conformance/many_clients.py --seconds 20 --seed 7 --workers 4 --clients 12
  python3 conformance/many_clients.py --seconds 600 --clients 16 --workers 12
  python3 conformance/many_clients.py --program 'PATH/PROGRAM'

The clients (crowd_cases.py) list, show, pause, trigger, backfill, mark, clear and delete, change pools and variables, and read event logs. Two of them change
roles and users. Three more connections send many changes of the policy at the same moment, until one of them is told that the policy has moved.
Meanwhile the server ticks each second, claims and reports. At the end all event logs are read, and history.py says whether every answer is the model's under
the version and at the number that it names, each change of the policy in order of version, and each of the state in order of number. The server
has to listen at 127.0.0.1 alone. Ten times the memory of the server is looked at, and how many entries and versions there are: it may grow by what
these take, and by little else.

Last, two clients race for the last entry: on a server whose history has room for half of what they change at once, until both are told that it is full.

The exchanges are kept until they are checked: some 3 KB of memory each, all in all; sixteen clients make some 400,000 in ten minutes. The last line is
`N passed, M failed`, N the answers that were compared. The status is 0 only where M is 0. The seed fixes what a client asks for, but not when. A run of 30
seconds or more also has to bring entries of each kind, a version, and an answer that the policy has moved.
"""
import argparse
import collections
import contextlib
import resource
import shlex
import shutil
import sys
import threading
import time

import with_model  # noqa: F401
import crowd_cases
import growth
from exchanges import number_in, rows_of_pages
from history import fault
from request_cases import head, with_body
from serving import EMPTY, PROGRAM, Broken, Client, Serving

SECONDS, PAUSE = 120, 0.045  # the mean pause of a client between two writes, in seconds
LENGTHS = [1, 4, 25, 100, 400, 1000]  # after how many requests a client opens another connection
NEEDED = ["tick", "claim", "report", "trigger_dag_run", "backfill", "clear_dag_run", "patch_pool"]  # entries without which so many seconds show little
LONG = 30
MOVED = b'"policy moved to version '
VERSION, MOVE = "a version", "an answer that the policy has moved"  # what it has to bring besides
# Who changes the policy at the same moment. A change is tried once more after another one overtook it, so that it takes three to overtake one twice.
# How many changes each sends at once, how often, and how long the first may wait for the others.
RUSHING, AT_ONCE, EVERY, WAITS = ("adam", "zoe", "adam"), 600, 3, 5
FULL = b'"detail":"history full"'
# Who races for the last entry; the DAG of each has its name. What each sends by turns, how often, which is also how many entries there is room for, and how
# many servers may be tried.
RIVALS, TURNS, ROOM, RACES = ("kim", "uma"), (b'{"is_paused":true}', b'{"is_paused":false}'), 300, 10


class Player(threading.Thread):
    """Plays one client until a moment, and keeps its connections: each the exchanges of one session."""

    def __init__(self, guest, port, until):
        super().__init__(daemon=True)
        self.guest, self.port, self.until, self.sessions, self.broken = guest, port, until, [], None

    def run(self):
        try:
            while time.monotonic() < self.until:
                self.connection()
        except (Broken, OSError, LookupError, ValueError) as why:
            self.broken = f"{why!r} (request {len(self.sessions[-1]) + 1} of a connection)" if self.sessions else repr(why)

    def connection(self):
        rng, session = self.guest.rng, []
        most = rng.choice(LENGTHS)
        with Client(self.port) as client:
            self.sessions.append(session)
            while time.monotonic() < self.until and len(session) < most and not client.is_closed:
                found = client.ask_all(self.guest.requests())
                session += found
                self.guest.learn(found)
                time.sleep(max(0, min(rng.choice([0, 0, rng.expovariate(1 / (2.5 * PAUSE))]), self.until - time.monotonic())))
            if not client.is_closed and rng.random() < 0.5:
                client.finish()


def who_am_i(token):
    return head(b"GET /api/v1/own/me HTTP/1.1", [b"Host: h", b"Authorization: Bearer " + token])


def meet(port, first, changes, sessions):
    """Clients that each send a first request and, once all have a worker, all changes at the same moment. Adds the session of each to these. Where one had to
    wait long, the first is idle for too long, and none sends its changes."""
    with contextlib.ExitStack() as kept:
        clients = [kept.enter_context(Client(port)) for _ in first]
        found = [clients[0].ask_all([first[0]])]
        answered = time.monotonic()
        found += [client.ask_all([it]) for client, it in zip(clients[1:], first[1:])]
        sessions += found
        sent = time.monotonic()
        if sent - answered < WAITS:
            for client, own in zip(clients, changes):
                client.send(b"".join(own))
            for client, own, session in zip(clients, changes, found):
                session += client.answers_to(own, sent)
        for it in clients:
            it.finish()


class Rush(threading.Thread):
    """Administrators who send many changes of the policy at the same moment, and again, until one is told that the policy has moved."""

    def __init__(self, port, until):
        super().__init__(daemon=True)
        self.port, self.until, self.sessions, self.broken = port, until, [], None
        tokens = [crowd_cases.token(it) for it in RUSHING]
        self.first = [who_am_i(it) for it in tokens]
        self.changes = [[with_body(b"PATCH /api/v1/users/ida HTTP/1.1", it, b'{"roles":[{"name":"Auditor"}]}')] * AT_ONCE for it in tokens]

    def run(self):
        try:
            while time.monotonic() < self.until and not self.has_met():
                self.meet()
                time.sleep(max(0, min(EVERY, self.until - time.monotonic())))
        except (Broken, OSError) as why:
            self.broken = f"{why!r} (changes of the policy at once)"

    def has_met(self):
        return any(MOVED in it.answer for session in self.sessions for it in session)

    def meet(self):
        meet(self.port, self.first, self.changes, self.sessions)


def all_rows(port, token):
    """The rows of the event logs, and the sessions that read them page by page: a further one where a connection has had its requests."""
    sessions, bodies, count = [], [], 0
    while True:
        sessions.append([])
        with Client(port) as client:
            while not client.is_closed:
                asked = head(b"GET /api/v1/eventLogs?limit=100&offset=%d HTTP/1.1" % count, [b"Host: h", b"Authorization: Bearer " + token])
                sessions[-1].append(client.ask(asked))
                first, _, body = sessions[-1][-1].answer.partition(EMPTY)
                if not first.startswith(b"HTTP/1.1 200 "):
                    raise Broken(f"the event logs cannot be read: {sessions[-1][-1].answer[:300]!r}")
                before, count = count, count + body.count(b'"event_log_id":')
                bodies.append(body)
                if count == before or body.endswith(b'"total_entries":%d}' % count):
                    return rows_of_pages(bodies), sessions


class LastEntry:
    """Two clients that each pause a DAG and let it go on, many times, both at the same moment, where the history has room for half of their changes. One of
    them has the last entry, and both are told from then on that the history is full."""

    def __init__(self, config, port):
        self.config, self.sessions = config, []
        tokens = [crowd_cases.token(it) for it in RIVALS]
        turns = [[with_body(b"PATCH /api/v1/dags/%s HTTP/1.1" % dag.encode(), own, body) for body in TURNS] for dag, own in zip(RIVALS, tokens)]
        meet(port, [who_am_i(it) for it in tokens], [it * (ROOM // len(TURNS)) for it in turns], self.sessions)
        self.rivals = list(self.sessions)
        self.rows, last = all_rows(port, crowd_cases.token("adam"))
        self.sessions += last

    def check(self):
        """The first thing that is wrong, or None."""
        return fault(self.config, self.sessions, self.rows)

    def is_raced(self):
        """Whether both have made a change, and both were told that the history is full."""
        owners = {row["owner"] for row in self.rows}
        return owners == set(RIVALS) and all(any(FULL in it.answer for it in session) for session in self.rivals)

    def count(self):
        return sum(map(len, self.sessions))


def last_entry(program):
    """How many answers two clients got that race for the last entry of a server, and what is wrong with them, or None. Where a server decided all that one of
    them asked before the other came, both ask another server."""
    count, config = 0, crowd_cases.config_of_rivals(ROOM, RIVALS)
    for _ in range(RACES):
        with Serving(program, config, len(RIVALS)) as server:
            it = LastEntry(config, server.port)
        count, wrong = count + it.count(), it.check() or server.fault()
        if wrong or it.is_raced():
            return count, wrong
    return count, f"in {RACES} races for the last entry no two clients met"


class Played:
    """What was played: the sessions, the rows of the event logs, and what is wrong as far as that shows without the model."""

    def __init__(self, config, port, guests, seconds):
        until = time.monotonic() + seconds
        threads = [Player(it, port, until) for it in guests]
        if seconds >= LONG:
            threads.append(Rush(port, until))
        for it in threads:
            it.start()
        for it in threads:
            it.join()
        self.config, self.sessions = config, [session for it in threads for session in it.sessions if session]
        self.faults = [f"client {place}: {it.broken}" for place, it in enumerate(threads) if it.broken]
        self.rows = []
        try:
            self.rows, last = all_rows(port, crowd_cases.token("adam"))
            self.sessions += last
        except (Broken, OSError) as why:
            self.faults.append(str(why))

    def count(self):
        return sum(map(len, self.sessions))

    def check(self):
        """The first thing that is wrong, or None."""
        return self.faults[0] if self.faults else fault(self.config, self.sessions, self.rows)

    def said(self):
        """What the clients met, in lines."""
        events = collections.Counter(it["event"] for it in self.rows)
        exchanges = self.exchanges()
        statuses = collections.Counter(it.answer[9:12].decode() for it in exchanges)
        listed = lambda counts: ", ".join(f"{name} {counts[name]}" for name in sorted(counts))
        yield f"{len(exchanges)} answers on {len(self.sessions)} connections: {listed(statuses)}; {self.moved()} of them that the policy moved"
        yield f"{self.versions()} versions"
        yield f"{len(self.rows)} entries: {listed(events)}"

    def exchanges(self):
        return [it for session in self.sessions for it in session]

    def moved(self):
        return sum(MOVED in it.answer for it in self.exchanges())

    def versions(self):
        return max((number_in(it.answer.partition(EMPTY)[0], b"X-Policy-Version") or 0 for it in self.exchanges()), default=0)

    def lacks(self, seconds):
        """What so long a time has to have brought, and has not."""
        if seconds < LONG:
            return []
        came = {row["event"] for row in self.rows}
        missing = [f"an entry {it}" for it in NEEDED if it not in came]
        return missing + [VERSION] * (not self.versions()) + [MOVE] * (not self.moved())


def main():
    parser = argparse.ArgumentParser(description=__doc__, formatter_class=argparse.RawDescriptionHelpFormatter)
    parser.add_argument("--program", default=PROGRAM, help="the program and its first words, as a shell would read them")
    parser.add_argument("--seconds", type=float, default=SECONDS)
    parser.add_argument("--seed", default="1")
    parser.add_argument("--workers", type=int, default=8, help=f"three at least where it lasts {LONG} seconds, or no change is overtaken twice")
    parser.add_argument("--clients", type=int, default=10)
    asked = parser.parse_args()
    program = shlex.split(asked.program)
    if shutil.which(program[0]) is None:
        sys.exit(f"many_clients.py: there is no program {program[0]}; ./afplane build makes it")
    config = crowd_cases.config(time.time_ns() // 1000)
    try:
        with Serving(program, config, asked.workers) as server:
            elsewhere = server.elsewhere()
            with growth.Watch(server, crowd_cases.token("adam"), asked.seconds) as watch:
                played = Played(config, server.port, crowd_cases.guests(asked.seed, config, asked.clients), asked.seconds)
            played.sessions += watch.sessions
        raced, lost = last_entry(program)
    except Broken as why:
        print(f"{why}\n0 passed, 1 failed")
        return 1
    for line in [*played.said(), *watch.said(), f"{raced} answers to two clients that race for the last entry"]:
        print(line, flush=True)
    began = time.monotonic()
    wrong = [it for it in (elsewhere, played.check(), watch.fault(), server.fault(), lost) if it]
    wrong += [f"there was none of these: {', '.join(it)}" for it in [played.lacks(asked.seconds)] if it]
    print(f"checked in {time.monotonic() - began:.0f} s, with {resource.getrusage(resource.RUSAGE_SELF).ru_maxrss / 1024:.0f} MiB of memory at most")
    for it in wrong:
        print(it[:4000])
    print(f"{0 if wrong else played.count() + raced} passed, {len(wrong)} failed")
    return 1 if wrong else 0


if __name__ == "__main__":
    sys.exit(main())
