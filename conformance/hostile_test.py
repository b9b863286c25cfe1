#!/usr/bin/env python3
"""Tests of hostile.py: what a right server answers to each attack passes, and what wrong ones answer is found.

  python3 conformance/hostile_test.py
"""
import re
import socket
import sys
import tempfile
import time
import unittest
from unittest import mock

import with_model  # noqa: F401
import attacks
import hostile
import limit_cases
import oracle
from crowd_cases import guests
from growth import Sample
from history import fault
from many_clients import all_rows
from serving_test import STAND_IN
from stand_in import Incoming, StandIn, moment

CONFIG, PATIENCE = attacks.config_of(moment()), 0.3  # (schedules that began long ago would keep the model busy)
SILENT = [attacks.silent, attacks.silent_from_the_start]
SLOW = [attacks.never_reads, attacks.ten_thousand_requests, *SILENT]


class CallsLongHeadsBad(StandIn):
    """A head that is too long is refused in other words."""

    def __init__(self, config, **more):
        super().__init__(config, **more)
        self.reads = Mistaken


class Mistaken(Incoming):
    def next(self):
        try:
            return super().next()
        except oracle.Turned as why:
            raise oracle.Turned(oracle.BAD_HEAD, why.args[1]) from None


class SpeaksToTheSilent(StandIn):
    """A peer whose time is over is told so."""

    def converse(self, stream):
        try:
            super().converse(stream)
        except TimeoutError:
            stream.sendall(b"HTTP/1.1 408 Request Timeout\r\n\r\n")


class EndsTheSilent(StandIn):
    """A peer has all its time until something comes. Then what follows has to be there at once."""

    def __init__(self, config, **more):
        super().__init__(config, **more)
        self.reads = Hasty


class Hasty(Incoming):
    has_read = False

    def read(self):
        if self.has_read:
            self.until = min(self.until, time.monotonic() + 0.01)
        super().read()
        self.has_read = True


class EndsReaders(StandIn):
    """What is not taken at once is not waited for."""

    def write(self, stream, data):
        stream.settimeout(0.01)
        while data:
            data = data[stream.send(data) :]


class TakesLate(StandIn):
    """The first connection has no answer."""

    is_first = True

    def converse(self, stream):
        if self.is_first:
            self.is_first = False
            time.sleep(PATIENCE)
        else:
            super().converse(stream)


# A stand-in as a program, which keeps so many bytes of each connection.
KEEPS = """
import sys
sys.path.insert(0, %r)
import stand_in
class Keeps(stand_in.StandIn):
    def __init__(self, config):
        super().__init__(config, patience=%r)
        self.kept = []
    def converse(self, stream):
        self.kept.append(b"x" * %r)
        super().converse(stream)
stand_in.StandIn = Keeps
stand_in.main(sys.argv[1:])
"""


class WaitsForTheEnd(StandIn):
    """It does not end a connection before its peer does."""

    def part(self, stream):
        stream.settimeout(self.patience)
        while stream.recv(65536):
            pass


class LosesAWorker(StandIn):
    """A worker ends with a connection that fails."""

    def work(self, listener):
        try:
            while True:
                stream, _ = listener.accept()
                with stream:
                    self.converse(stream)
        except OSError:
            pass


def timed(within=40, patience=PATIENCE):
    """With the times of so short a patience. Those of a right server have a wide margin: the machine may be busy."""
    return mock.patch.multiple(attacks, ENDED_AFTER=patience * 0.9, ENDED_WITHIN=within)


def play(kind, kinds, patience=PATIENCE, workers=4, within=40):
    """The attacks on a server, and what is wrong with its workers at the end."""
    with kind(CONFIG, patience=patience).listens(workers) as port, timed(within, patience):
        found = hostile.Attacks(port, "1", kinds)
        found.play("first")
        found.close()
        with mock.patch.object(hostile, "SERVES", 1):
            return found, hostile.every_worker(port, workers)


class Limits(unittest.TestCase):
    def test_the_model_and_the_rules(self):
        """The statuses that were written out by hand are those of the model, and no name stands twice for one message."""
        for name, data, statuses in limit_cases.CASES:
            found = [int(it) for it in re.findall(rb"HTTP/1\.1 ([0-9]{3}) ", attacks.model(data))]
            self.assertEqual(found, statuses, name)
        self.assertEqual(len({it[1] for it in limit_cases.CASES}), len(limit_cases.CASES))
        for data in attacks.BODIES:
            self.assertEqual(len(data.partition(b"\r\n\r\n")[2]), 65536)
            self.assertIn(b"HTTP/1.1 400 Bad Request", attacks.model(data))


class Attacks(unittest.TestCase):
    def test_a_right_server(self):
        """A few connections of each attack; the changes of which parts came were not made, and those that came whole were."""
        server, few = StandIn(CONFIG, period=3600), [it for it in attacks.ATTACKS if it[0] not in SLOW]
        kinds = [(attack, min(count, 12), threads) for attack, count, threads in few]
        with server.listens(4) as port:
            found = hostile.Attacks(port, "1", kinds)
            found.play("first")
            self.assertEqual((found.faults, found.count, len(found.kept)), ([], len(few) * 12, 12))
            self.assertIsNone(hostile.every_worker(port, 4))
            found.close()
            rows, last = all_rows(port, attacks.TOKEN)
        self.assertIsNone(fault(CONFIG, [*found.sessions, *last], rows))
        self.assertEqual(server.plane.version(), 0)
        self.assertEqual([it["event"] for it in server.plane.entries if it["owner"] == "adam"], ["post_variable"] * 12)
        self.assertEqual(set(server.plane.state.variables), {"k", *(f"whole {n}" for n in range(12))})

    def test_each_limit(self):
        self.assertEqual(play(StandIn, [(attacks.at_each_limit, 3 * len(limit_cases.CASES), 4)], patience=10)[0].faults, [])

    def test_peers_that_are_ended(self):
        self.assertEqual(play(StandIn, [(attacks.never_reads, 2, 2), *((it, 6, 6) for it in SILENT)])[0].faults, [])
        self.assertEqual(play(StandIn, [(attacks.ten_thousand_requests, 1, 1)], patience=60)[0].faults, [])

    def test_peers_that_are_ended_too_early_or_too_late(self):
        """Each is found, with the wait for a worker left out, and none of these is tried again."""
        for kind, attack, more, ended in (
            (EndsTheSilent, attacks.silent, {"patience": 60, "workers": 1}, "a silent peer was ended [0-9.]+ s after its turn"),
            (EndsReaders, attacks.never_reads, {"patience": 60, "workers": 1}, "a reader that never reads was ended [0-9.]+ s after its turn"),
            (StandIn, attacks.silent, {"within": PATIENCE / 2, "workers": 1}, "a silent peer was ended [0-9.]+ s after its turn"),
            (StandIn, attacks.never_reads, {"within": PATIENCE / 2}, "a reader that never reads was ended [0-9.]+ s after its turn"),
        ):
            with mock.patch.object(hostile, "GIVEN", 0):
                found, _ = play(kind, [(attack, 3, 3)], **more)
            self.assertEqual((len(found.faults), found.again), (3, 0), found.faults)
            for it in found.faults:
                self.assertRegex(it, ended)
        found, _ = play(EndsTheSilent, [(attacks.silent_from_the_start, 12, 12)], patience=3)
        self.assertRegex(found.faults[0], "a silent peer was ended [0-2].[0-9] s after it came")

    def test_the_turn_of_a_peer(self):
        """It is when the answer came, however late that is seen."""

        def send(stream, data):
            stream.sendall(data)
            time.sleep(0.6)

        with StandIn(CONFIG).listens(1) as port, attacks.opened(port) as stream, mock.patch.object(attacks, "send", send):
            before = time.monotonic()
            began = attacks.is_taken(stream)
        self.assertGreater(began, before - 0.02)
        self.assertGreater(time.monotonic() - began, 0.2)

    def held(self, kind=StandIn, patience=PATIENCE, workers=4, within=40, given=PATIENCE):
        with kind(CONFIG, patience=patience).listens(workers) as port, timed(within, given):
            return attacks.each_held(port, 4)

    def test_each_worker_is_held(self):
        """The next client is answered once a peer is ended, and not before; each peer is ended in its time."""
        took, wrong = self.held()
        self.assertIsNone(wrong)
        self.assertGreater(took, PATIENCE / 2)
        for more, said in (
            ({"patience": 0.02, "given": 2}, "the next client was answered after [01].[0-9] s"),
            ({"workers": 5, "patience": 3, "given": 3}, "the next client was answered after [0-2].[0-9] s"),
            ({"patience": 1, "within": 0.5}, "the next client was answered after [0-9.]+ s"),
            ({"workers": 3, "patience": 1, "within": 1.9}, "a silent peer was ended [2-9].[0-9] s after its turn"),
            ({"kind": SpeaksToTheSilent}, "a silent peer was told b'HTTP/1.1 408 "),
        ):
            self.assertRegex(self.held(**more)[1], f"^with each of 4 workers held by a silent peer: {said}")

    def test_wrong_servers(self):
        rows = [(CallsLongHeadsBad, attacks.past_a_limit, 40), (CallsLongHeadsBad, attacks.at_each_limit, 24), (SpeaksToTheSilent, attacks.silent, 2)]
        for kind, attack, count in rows:
            self.assertNotEqual(play(kind, [(attack, count, 1)])[0].faults, [], kind.__name__)
        with mock.patch.object(attacks, "SLEEP", 0.5):
            found, _ = play(WaitsForTheEnd, [(attacks.at_each_limit, 30, 1)], patience=2)
        self.assertIn("timed out", found.faults[0])

    def test_a_worker_that_is_lost(self):
        with socket.socket() as stream, LosesAWorker(CONFIG).listens(2) as port:
            stream.connect(("127.0.0.1", port))
            self.assertIsNone(hostile.every_worker(port, 1))
            attacks.reset(stream)
            with mock.patch.object(hostile, "SERVES", 0.5):
                self.assertRegex(hostile.every_worker(port, 2), "of 2 connections at once, 1 were served: .*timed out")

    def test_attacks_that_take_too_long(self):
        with mock.patch.object(hostile, "MOST_SECONDS", 0), StandIn(CONFIG).listens(1) as port:
            found = hostile.Attacks(port, "1", [(attacks.a_byte_a_write, 3, 1)])
            found.play("first")
        self.assertEqual(found.faults, [f"a_byte_a_write {it}: the attacks were to end within 0 s" for it in range(3)])

    def test_what_is_tried_again(self):
        """What had no answer for a long time is tried again, and is a fault if that goes on; a quick fault is one at once."""
        for given, fails, count, faults in ((0, 2, 3, []), (0, 3, 3, ["attack 0: gone"]), (10, 1, 1, ["attack 0: gone"])):
            asked = []

            def attack(port, turn):
                asked.append(turn.number)
                if len(asked) <= fails:
                    raise attacks.Wrong("gone")

            with mock.patch.object(hostile, "GIVEN", given):
                found = hostile.Attacks(0, "1", [(attack, 1, 1)])
                found.play("first")
            self.assertEqual((len(asked), found.again, found.faults, found.count), (count, count - 1, faults, 1))

    def test_a_guest_that_asks_again(self):
        """A connection without an answer is forgiven a client only if it lasted long, and is counted."""
        for given, again in ((PATIENCE / 2, 1), (60, 0)):
            with TakesLate(CONFIG).listens(1) as port, mock.patch.object(hostile, "GIVEN", given):
                (guest,) = [hostile.Guest(it, port, time.monotonic() + 2 * PATIENCE) for it in guests("1", CONFIG, 1)]
                guest.run()
            self.assertEqual((guest.again, guest.broken is None), (again, bool(again)), guest.broken)

    def test_too_many_that_are_tried_again(self):
        found, more = hostile.Attacks(0, "1", []), mock.Mock(again=hostile.MOST_AGAIN - 3)
        for count, is_fault in ((3, False), (4, True)):
            found.again = count
            self.assertEqual(hostile.again_fault(found, [more]) is not None, is_fault)
        self.assertIn(f"{hostile.MOST_AGAIN + 1} connections had no answer in their time", hostile.again_fault(found, [more]))

    def test_growth_alone(self):
        """A few MB, however many versions there are."""
        first = Sample(0, 50_000_000, 100, 100)
        for more, is_fault in ((hostile.ALONE_BYTES, False), (hostile.ALONE_BYTES + 1, True), (-1, False)):
            self.assertEqual(hostile.growth_fault(first, Sample(9, 50_000_000 + more, 1000, 1000)) is not None, is_fault)


class Program(unittest.TestCase):
    """Whole runs, with few attacks and workers."""

    def played(self, keeps):
        patience = 3
        with tempfile.NamedTemporaryFile("w", suffix=".py") as file:
            file.write(KEEPS % (STAND_IN[1].rpartition("/")[0], patience, keeps))
            file.flush()
            # (the model keeps much of what it used, as Python does)
            with mock.patch.multiple(hostile, GUESTS=2, WORKERS=4, ALONE_BYTES=25_000_000), timed(patience=patience):
                return hostile.played([sys.executable, file.name], "1", [(attacks.cut_or_random, 40, 2), (attacks.silent, 1, 1)])

    def test_counts(self):
        count, wrong = self.played(0)
        self.assertEqual(wrong, [])
        self.assertGreater(count, 100)

    def test_a_server_that_keeps_memory(self):
        """By each connection, also by those of the attacks alone."""
        _, wrong = self.played(1_000_000)
        self.assertEqual(len(wrong), 1)
        self.assertRegex(wrong[0], r"in attacks alone memory grew by [3-9][0-9]\.[0-9] MB with [0-9]+ entries and 0 versions, and may by 25.0 MB")


if __name__ == "__main__":
    unittest.main()
