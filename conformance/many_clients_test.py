#!/usr/bin/env python3
"""Tests of many_clients.py: a right server passes, and each of some wrong ones is found within a second of many clients.

  python3 conformance/many_clients_test.py
"""
import copy
import random
import re
import subprocess
import sys
import time
import unittest
from unittest import mock

import with_model  # noqa: F401
import crowd_cases
import many_clients
import oracle
from exchanges import Exchange
from many_clients import MOVE, NEEDED, RIVALS, VERSION, LastEntry, Played, all_rows, last_entry
from oracle_names import isoformat
from oracle_verdict import told
from serving_test import STAND_IN
from stand_in import StandIn, moment

SECONDS, PERIOD, CLIENTS = 0.7, 0.2, 10
ROOM = 20  # how many entries a race is for


def played(kind, seconds=None, seed="1"):
    """A round of many clients. Each next seed takes longer, so that a busy machine meets in time what an idle one does."""
    seconds = SECONDS * int(seed) if seconds is None else seconds
    config = crowd_cases.config(moment())
    with kind(config, period=PERIOD).listens(CLIENTS) as port:
        return Played(config, port, crowd_cases.guests(seed, config, CLIENTS), seconds)


class Slow(StandIn):
    """Right, and slow in changes of the policy, so that two meet."""

    def decided(self, plane, request, body):
        found = super().decided(plane, request, body)
        if plane.version() > self.plane.version():
            time.sleep(0.02)
        return found


class OneByOne(StandIn):
    """Right, and no change of the policy begins before the one before it is made."""

    def on_policy(self, request, body):
        with self.lock:
            return self.decided(self.plane, request, body)


class LosesUpdates(StandIn):
    """Each third change of the state is gone with the next one."""

    def on_state(self, request, body):
        before, count = self.plane.state, len(self.plane.entries)
        found = super().on_state(request, body)
        if count < len(self.plane.entries) and count % 3 == 0:
            self.plane.state = before
        return found


class ReadsOldStates(StandIn):
    """Each twentieth reading shows the state as it was two changes before."""

    def __init__(self, config, **more):
        super().__init__(config, **more)
        self.states, self.count = [self.plane.state], 0

    def on_state(self, request, body):
        self.states, self.count = [*self.states, self.plane.state][-20:], self.count + 1
        if request.method != b"GET" or self.count % 20:
            return super().on_state(request, body)
        plane = copy.copy(self.plane)
        plane.state = self.states[0]
        return self.decided(plane, request, body)


class DecidesUnderOldPolicies(StandIn):
    """What users may do is what they could under the version before the one that is named."""

    def on_state(self, request, body):
        versions = self.plane.versions
        self.plane.versions = [*versions[:-1], versions[max(0, len(versions) - 2)]]
        found = super().on_state(request, body)
        self.plane.versions = versions
        return found


class OverwritesPolicies(StandIn):
    """A change of the policy does not look whether another one came before it."""

    def on_policy(self, request, body):
        plane = copy.copy(self.plane)
        plane.versions = list(plane.versions)
        found = self.decided(plane, request, body)
        if plane.version() > self.plane.version():
            time.sleep(0.02)
        self.plane.versions = max(plane.versions, self.plane.versions, key=len)
        return found


class ConfusesClients(StandIn):
    """Now and then a request is decided with the token of the request before, whosever it was."""

    token = b"nope"

    def answer(self, request, body, closes):
        own, request.token = request.token, self.token if random.random() < 0.05 else request.token
        self.token = own
        return super().answer(request, body, closes)


class KeepsEntriesBack(StandIn):
    """A change of a variable has no entry."""

    def on_state(self, request, body):
        count = len(self.plane.entries)
        found = super().on_state(request, body)
        if b"/variables" in request.target:
            del self.plane.entries[count:]
        return found


class EndsInAnswers(StandIn):
    """A fiftieth of the writes is cut off."""

    def write(self, stream, data):
        if random.random() < 0.02:
            super().write(stream, data[:-1])
            raise OSError
        super().write(stream, data)


class ByTurns(StandIn):
    """Right, and slow before each request, so that two clients who send many at once are answered by turns."""

    def answer(self, request, body, closes):
        time.sleep(0.001)
        return super().answer(request, body, closes)


class GivesTheLastTwice(ByTurns):
    """Who comes next after the last entry still finds room."""

    def on_state(self, request, body):
        self.plane.most_entries += len(self.plane.entries) == ROOM
        return super().on_state(request, body)


class KeepsTheLast(ByTurns):
    """The last entry is refused to all."""

    def on_state(self, request, body):
        self.plane.most_entries = ROOM - 1
        return super().on_state(request, body)


def race(kind):
    """Two clients that race for the last entry."""
    config = crowd_cases.config_of_rivals(ROOM, RIVALS)
    with mock.patch.object(many_clients, "ROOM", ROOM), kind(config).listens(len(RIVALS)) as port:
        return LastEntry(config, port)


class Races(unittest.TestCase):
    def test_a_right_server(self):
        it = race(ByTurns)
        self.assertEqual((it.check(), it.is_raced(), len(it.rows)), (None, True, ROOM))
        self.assertEqual([len(session) for session in it.rivals], [1 + ROOM] * 2)
        rows = it.rows
        for owner in RIVALS:  # one alone made changes
            it.rows = [row for row in rows if row["owner"] == owner]
            self.assertFalse(it.is_raced())
        it.rows, it.rivals[0] = rows, it.rivals[0][:1]  # one was not told that the history is full
        self.assertFalse(it.is_raced())

    def test_wrong_servers(self):
        for kind in (GivesTheLastTwice, KeepsTheLast):
            self.assertRegex(race(kind).check() or "", "session|entry", kind.__name__)

    def test_servers_until_two_meet(self):
        program = list(STAND_IN)
        with mock.patch.object(many_clients, "ROOM", ROOM), mock.patch.object(LastEntry, "is_raced", side_effect=[False, True]):
            self.assertEqual(last_entry(program), (2 * (2 * (1 + ROOM) + 1), None))
        with mock.patch.multiple(many_clients, ROOM=ROOM, RACES=1), mock.patch.object(LastEntry, "is_raced", return_value=False):
            self.assertEqual(last_entry(program)[1], "in 1 races for the last entry no two clients met")
        with mock.patch.object(LastEntry, "check", return_value="this"), mock.patch.object(many_clients, "ROOM", ROOM):
            self.assertEqual(last_entry(program), (2 * (1 + ROOM) + 1, "this"))


class Crowds(unittest.TestCase):
    def test_right_servers(self):
        """Nothing is found, and in a few rounds they meet ticks, claims, reports, denials, and that the policy moved."""
        for kind, words in ((StandIn, ["tick", "claim", "report", "trigger_dag_run", "200 ", "403 ", "401 ", "409 "]), (Slow, ["moved"])):
            met = ""
            for seed in "123456789":
                it = played(kind, seed=seed)
                self.assertIsNone(it.check())
                self.assertEqual(it.lacks(1), [])
                met += "\n".join(it.said()).replace("; 0 of them that the policy moved", "")
                if all(word in met for word in words):
                    break
            else:
                self.fail(met)

    def test_wrong_servers(self):
        for kind in (LosesUpdates, ReadsOldStates, DecidesUnderOldPolicies, OverwritesPolicies, ConfusesClients, KeepsEntriesBack, EndsInAnswers):
            said = next((said for seed in "123456789" if (said := played(kind, seed=seed).check())), None)
            self.assertIsNotNone(said, kind.__name__)
            self.assertRegex(said, "session|client|event logs|entry", kind.__name__)

    def test_what_is_missing(self):
        """Entries of each kind, a version, and that the policy moved: a long run has to bring all of them, a short one none."""
        it = played(StandIn, seconds=0)
        it.rows = [{"event": "tick"}]
        answer = lambda version, text: Exchange(b"", oracle.answer_text((*told(409, text)[:2], [f"X-Policy-Version: {version}"])))
        entries = [f"an entry {name}" for name in NEEDED]
        for sessions, missing in (
            ([[answer(0, "exists: x")]], [VERSION, MOVE]),
            ([[answer(0, "exists: x")], [answer(3, "exists: policy moved to version 3")]], [MOVE]),
            ([[answer(3, "policy moved to version 3")]], []),
        ):
            it.sessions = sessions
            self.assertEqual((it.lacks(1), it.lacks(29.9)), ([], []))
            self.assertEqual(it.lacks(30), entries[1:] + missing)
            it.rows = [{"event": name} for name in NEEDED]
            self.assertEqual(it.lacks(120), missing)
            it.rows = it.rows[:1]

    def test_changes_at_once(self):
        """Administrators who send many changes at the same moment are told that the policy moved; by a server that makes one after another never."""
        with mock.patch.multiple(many_clients, LONG=0, AT_ONCE=20, EVERY=0.1):
            for kind, moves in ((Slow, True), (OneByOne, False)):
                it = played(kind, seconds=1.5)
                self.assertIsNone(it.check())
                self.assertGreater(it.versions(), 20)
                self.assertEqual((it.moved() > 0, MOVE not in it.lacks(1)), (moves, moves))
        with StandIn(crowd_cases.config(moment()), patience=0.5).listens(1) as port, mock.patch.object(many_clients, "WAITS", 0.1):
            rush = many_clients.Rush(port, time.monotonic() + 0.1)
            rush.run()
            self.assertEqual(([len(it) for it in rush.sessions], rush.broken), ([1, 1, 1], None))
        rush.until = time.monotonic() + 1
        rush.run()
        self.assertRegex(rush.broken, "changes of the policy at once")

    def test_the_rows_of_all_pages(self):
        """More entries than a page has, read while more come."""
        server = StandIn(crowd_cases.config(moment()))
        for n in range(250):
            server.plane.add_entry("patch_dag", "adam", 0, "a")
        with server.listens(1) as port:
            rows, sessions = all_rows(port, b"adam-token")
            # more pages than a connection has requests
            with mock.patch.object(oracle, "MOST_REQUESTS", 2):
                again, parts = all_rows(port, b"adam-token")
        self.assertGreaterEqual(len(rows), 250)
        for found in (rows, again):
            self.assertEqual(found, [{**it, "when": isoformat(it["when"])} for it in server.plane.entries[: len(found)]])
        self.assertEqual([[it.answer[9:12] for it in session] for session in sessions], [[b"200"] * 3])
        self.assertEqual([[it.answer[9:12] for it in session] for session in parts], [[b"200"] * 2, [b"200"]])


class Program(unittest.TestCase):
    def call(self, *words):
        ran = subprocess.run([sys.executable, "many_clients.py", *words], cwd=STAND_IN[1].rpartition("/")[0], capture_output=True, text=True)
        return ran.returncode, ran.stdout.rstrip("\n").split("\n")

    def test_counts(self):
        status, lines = self.call("--program", " ".join(STAND_IN), "--seconds", "1", "--clients", "3", "--workers", "2")
        self.assertEqual(status, 0, lines)
        self.assertRegex(lines[-1], "^[1-9][0-9]+ passed, 0 failed$")
        said = "\n".join(lines)
        self.assertEqual(len(re.findall(r"(?m)^after [0-9]+ s: [0-9.]+ MB, [0-9]+ entries, [0-9]+ versions$", said)), 11)
        self.assertRegex(said, r"(?m)^[1-9][0-9]+ answers to two clients that race for the last entry$")
        self.assertRegex(said, r"(?m)^from [0-9]+ s on, memory grew by -?[0-9.]+ MB with [0-9]+ entries and [0-9]+ versions$")
        status, lines = self.call("--program", "true")
        self.assertEqual((status, lines[-1]), (1, "0 passed, 1 failed"))


if __name__ == "__main__":
    unittest.main()
