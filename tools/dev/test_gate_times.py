#!/usr/bin/env python3
"""Tests of gate-times: which crate the seconds of a process are counted for.

    python3 tools/dev/test_gate_times.py
"""
import importlib.machinery
import importlib.util
import os
import sys
import unittest

sys.dont_write_bytecode = True
HERE = os.path.dirname(os.path.realpath(__file__))
LOADER = importlib.machinery.SourceFileLoader("gate_times", os.path.join(HERE, "gate-times"))
GATE_TIMES = importlib.util.module_from_spec(importlib.util.spec_from_loader("gate_times", LOADER))
LOADER.exec_module(GATE_TIMES)

POOLS, WORDS = ("af_pool", "tests"), ("af_word", "mutants")


class Seconds(unittest.TestCase):
    def spent(self, kinds, *looks):
        """The seconds of each kind after these looks. A process is its number, its parent's, when it began, its seconds; 10 is the gate."""
        at = {}
        watch = GATE_TIMES.Watch(10, lambda pid: at.get(pid))
        for which, rows in zip(kinds, looks):
            at.clear()
            at.update(which)
            watch.look({pid: (parent, start, seconds) for pid, parent, start, seconds in rows})
        found = {}
        for key, seconds in watch.own.items():
            found[watch.kinds[key]] = found.get(watch.kinds[key], 0) + seconds
        return found

    def test_a_check_counts_with_those_below_it(self):
        rows = [(10, 1, 5, 1.0), (11, 10, 6, 20.0), (12, 11, 7, 3.0)]
        self.assertEqual(self.spent([{11: POOLS}], rows), {None: 1.0, POOLS: 23.0})

    def test_a_number_that_is_given_again_is_another_process(self):
        first = [(10, 1, 5, 1.0), (11, 10, 6, 20.0)]
        then = [(10, 1, 5, 1.0), (11, 10, 90, 7.0)]
        self.assertEqual(self.spent([{11: WORDS}, {11: POOLS}], first, then), {None: 1.0, WORDS: 20.0, POOLS: 7.0})

    def test_a_number_that_another_program_is_given_counts_for_nothing(self):
        first = [(10, 1, 5, 1.0), (11, 10, 6, 20.0)]
        then = [(10, 1, 5, 1.0), (11, 1, 90, 700.0)]
        self.assertEqual(self.spent([{11: WORDS}, {11: POOLS}], first, then), {None: 1.0, WORDS: 20.0})

    def test_a_process_that_becomes_a_check_counts_for_its_crate(self):
        rows = [(10, 1, 5, 1.0), (11, 10, 6, 0.5)]
        self.assertEqual(self.spent([{}, {11: POOLS}], rows, [(10, 1, 5, 1.0), (11, 10, 6, 9.0)]), {None: 1.0, POOLS: 9.0})

    def test_who_outlives_its_parent_still_counts(self):
        rows = [(10, 1, 5, 1.0), (11, 10, 6, 2.0), (12, 11, 7, 3.0)]
        self.assertEqual(self.spent([{11: POOLS}, {}], rows, [(10, 1, 5, 1.0), (12, 1, 7, 4.0)]), {None: 1.0, POOLS: 6.0})


if __name__ == "__main__":
    unittest.main()
