#!/usr/bin/env python3
"""Tests of slow_peers.py over servers with a short patience: a right one passes, and wrong ones are found.

  python3 conformance/slow_peers_test.py
"""
import time
import unittest
from types import SimpleNamespace
from unittest import mock

import with_model  # noqa: F401
import slow_peers
from slow_peers import CHANGE, CLOSING, CONFIG, LIST, LONG, Wrong, bytes_of, interrupted_reads, interrupted_writes, peer_that_never_reads, pipeline
from slow_peers import silent_peers, trickling_peer
from stand_in import Incoming, StandIn

PATIENCE = 0.5


class WaitsForEach(StandIn):
    """Each byte is given the whole time again."""

    def __init__(self, config, **more):
        super().__init__(config, **more)
        self.reads = Patient


class Patient(Incoming):
    def read(self):
        self.until = time.monotonic() + PATIENCE
        super().read()


class ClosesAtOnce(StandIn):
    """What still comes is not read out where the server closes first."""

    def part(self, stream):
        pass


class Drops(StandIn):
    """A peer that has ended its side gets no further answer."""

    def write(self, stream, data):
        stream.setblocking(False)
        try:
            gone = stream.recv(1) == b""
        except BlockingIOError:
            gone = False
        if not gone:
            super().write(stream, data)


class Cases(unittest.TestCase):
    """The times of a right server have a wide margin: the machine may be busy."""

    def play(self, case, kind=StandIn, workers=1, within=40, **more):
        with mock.patch.multiple(slow_peers, PATIENCE=PATIENCE, ENDED_AFTER=PATIENCE * 0.9, SERVED_WITHIN=within, TIMES=2):
            with kind(CONFIG, **{"patience": PATIENCE, **more}).listens(workers) as port:
                return case(SimpleNamespace(port=port, tell=lambda it: None), workers)

    def test_a_right_server(self):
        self.assertIn("answered after", self.play(silent_peers, workers=4))
        self.assertIn("ended", self.play(trickling_peer(bytes_of(LIST[:8]), 0.15)))
        self.assertIn("bytes had arrived", self.play(peer_that_never_reads))
        for case in (interrupted_reads, interrupted_writes):
            self.assertIn("answer", self.play(case, patience=60))
        for case in (pipeline(LIST * 1500), pipeline(LIST * 30, half=True), pipeline(LIST * 9 + CHANGE[:-1], half=True), pipeline(LIST + CLOSING + LIST * 3000)):
            self.assertIn("answers, 2 times", self.play(case, patience=60))

    def is_found(self, *words, **more):
        try:
            self.play(*words, **more)
        except Wrong:
            return True
        return False

    def test_wrong_servers(self):
        self.assertTrue(self.is_found(silent_peers, patience=PATIENCE * 3, within=PATIENCE * 2))
        self.assertTrue(self.is_found(pipeline(LONG * 40, half=True), Drops, patience=60))
        # (where the machine is busy, a byte can be so late that even these servers end the peer, or all has come before they close)
        for case, kind, more in (
            (silent_peers, StandIn, {"patience": PATIENCE / 8}),
            (trickling_peer(bytes_of(LIST[:12]), 0.12), WaitsForEach, {"within": PATIENCE * 2}),
            (pipeline(LIST + CLOSING + LIST * 3000), ClosesAtOnce, {"patience": 60}),
        ):
            self.assertTrue(any(self.is_found(case, kind, **more) for _ in range(5)))


if __name__ == "__main__":
    unittest.main()
