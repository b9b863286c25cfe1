#!/usr/bin/env python3
"""Tests of growth.py: what is told of a server's memory, and when that is too much.

  python3 conformance/growth_test.py
"""
import unittest

import with_model  # noqa: F401
import growth
import history
from growth import Sample, Watch
from serving_test import BASE, STAND_IN
from serving import Serving
from worked_rows import TOKENS


class Growth(unittest.TestCase):
    def test_what_is_too_much(self):
        """What entries and versions take is allowed, a few MB beside it, and no more."""
        first = Sample(60, 10_000_000, 5, 7)
        most = 10 * growth.ENTRY_BYTES + 20 * growth.VERSION_BYTES + growth.SPARE_BYTES
        for more, entries, versions, is_good in ((most, 10, 20, True), (most + 1, 10, 20, False), (most, 9, 20, False), (most, 10, 19, False), (-1, 0, 0, True)):
            last = Sample(600, 10_000_000 + more, 5 + entries, 7 + versions)
            self.assertEqual(growth.fault_of(first, last) is None, is_good, last)
        last = Sample(600, 60_000_000, 15, 8)
        self.assertEqual(growth.fault_of(first, last), "memory grew by 50.0 MB with 10 entries and 1 versions, which take 4.2 MB at most")
        self.assertEqual(str(last), "after 600 s: 60.0 MB, 15 entries, 8 versions")

    def test_watch(self):
        """Its samples are even, its exchanges are a history, and a server that is gone is a fault."""
        token = TOKENS["adam"].encode()
        with Serving(STAND_IN, BASE, 2) as server:
            with Watch(server, token, 0.5, samples=5) as watch:
                pass
            rows, ended = [], Watch(server, token, 0.2, samples=2)
            self.assertEqual((len(watch.samples), len(watch.sessions), watch.fault()), (6, 6, None))
            self.assertTrue(all(it.memory > 1_000_000 and (it.entries, it.versions) == (0, 0) for it in watch.samples))
            self.assertEqual(len(list(watch.said())), 7)
            self.assertIsNone(history.fault(BASE, watch.sessions, rows))
        with ended:
            pass
        self.assertIn("its memory and counts cannot be read", ended.fault())


if __name__ == "__main__":
    unittest.main()
