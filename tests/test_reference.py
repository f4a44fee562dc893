#!/usr/bin/env python3
"""Tests of tests/reference.py. Run: python3 tests/test_reference.py"""
import os
import sys
import unittest

sys.path.insert(0, os.path.dirname(os.path.abspath(__file__)))
import reference
from chance import ring, some_lists
from make_roster import Lists, parse_text


class Known(unittest.TestCase):
    def test_two_crews_one_left_out(self):
        lists = parse_text("crew 0: 0 1\ncrew 1: 0\nsite 0: 0 1\nsite 1: 0")
        self.assertEqual(reference.stable_plans(lists), [(1, 0)])

    def test_a_refused_crew_asks_on(self):
        lists = parse_text("crew 0: 0 2\ncrew 1: 0 1\ncrew 2: 0\nsite 0: 1 0 2\nsite 1: 1\nsite 2: 0")
        self.assertEqual(reference.crew_best(lists), (3, 1, 0))

    def test_ring_of_three(self):
        lists = ring(3, 0, 1)
        self.assertEqual(reference.crew_best(lists), (1, 2, 3))
        self.assertEqual(reference.crew_best(reference.flip(lists)), (2, 3, 1))

    def test_nobody(self):
        self.assertEqual(reference.stable_plans(Lists([], [])), [()])


class Alike(unittest.TestCase):
    def test_proposals_give_the_best(self):
        for seed in range(300):
            lists = some_lists(seed, 0, 5, 0.7)
            self.assertEqual(reference.deferred_acceptance(lists), reference.crew_best(lists))


if __name__ == "__main__":
    unittest.main()
