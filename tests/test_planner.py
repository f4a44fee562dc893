#!/usr/bin/env python3
"""Runs the built planner on rosters, rings and nonsense. Run tools/build_planner first, then: python3 tests/test_planner.py"""
import os
import subprocess
import sys
import unittest

HERE = os.path.dirname(os.path.abspath(__file__))
ROOT = os.path.join(HERE, "..")
PLANNER = os.path.join(ROOT, "crates", "planner", "out", "planner")
sys.path.insert(0, HERE)
from chance import ring, some_lists
from make_roster import Lists, lay_down
from test_planner_output import expected


def run(*words, given=b""):
    done = subprocess.run([PLANNER, *words], input=given, capture_output=True, cwd=os.path.join(ROOT, "samples"))
    return done.returncode, done.stdout.decode(), done.stderr.decode()


class Planner(unittest.TestCase):
    def refused(self, reason, *words, given=b""):
        self.assertEqual(run(*words, given=given), (1, "", f"planner: {reason}\n"))

    def test_pairs_as_the_reference_does(self):
        for seed in range(150):
            lists = some_lists(seed, 0, 8, 0.6)
            self.assertEqual(run(given=lay_down(lists)), (0, expected(lists), ""), f"seed {seed}")

    def test_pairs_rings_as_the_reference_does(self):
        for size, crews, sites in ((0, 3, 4), (1, 0, 0), (3, 0, 1), (4, 3, 2), (5, 65535, 7)):
            printed = run("--ring", str(size), str(crews), str(sites))
            self.assertEqual(printed, (0, expected(ring(size, crews, sites)), ""))
        self.assertEqual(run("--ring", "+3", "0", "01"), run("--ring", "3", "0", "1"))

    def test_largest(self):
        everyone = list(range(250))
        status, printed, said = run(given=lay_down(Lists([everyone] * 250, [everyone] * 250)))
        self.assertEqual((status, said), (0, ""))
        self.assertIn("crew 249    site 249, choice 250 of 250", printed)
        self.assertEqual(run("--ring", "500", "0", "499")[0], 0)

    def test_help(self):
        status, printed, said = run("--help")
        self.assertEqual((status, said), (0, ""))
        self.assertIn("planner --ring N U W", printed)

    def test_damaged_samples(self):
        self.refused("fault 1 (file) at block 0, byte 0: the length is not that of a roster with these counts", "short.roster")
        self.refused("fault 2 (file) at block 3, byte 508: the check does not fit the block", "wrong-check.roster")
        self.refused("fault 3 (file) at block 4, byte 1: a field has a value that it may not have", "wrong-field.roster")
        self.refused("fault 4 (lists) at block 3, byte 6: an entry names a party that does not exist", "too-high.roster")
        self.refused(
            "fault 5 (lists) at block 3, byte 8: an entry names a party for the second time in its list", "repeated.roster"
        )
        self.refused("fault 6 (lists) at block 2, byte 8: an entry names a party that does not name it back", "unreturned.roster")

    def test_too_long_and_empty(self):
        length = "fault 1 (file) at block 0, byte 0: the length is not that of a roster with these counts"
        self.refused(length, given=bytes(502 * 512))
        self.refused(length, given=b"")

    def test_ring_too_large(self):
        self.refused("fault 17 (lists): a ring has at most 500 parties a side", "--ring", "501", "0", "0")

    def test_unknown_words(self):
        reason = "unknown words; planner --help says which there are"
        for words in (("--no",), ("--ring", "3", "0"), ("--ring", "3", "0", "65536"), ("--ring", "x", "0", "0"), ("a", "b")):
            self.refused(reason, *words)

    def test_no_such_file(self):
        self.assertEqual(run("absent.roster")[:2], (1, ""))


if __name__ == "__main__":
    unittest.main()
