#!/usr/bin/env python3
"""Tests of tools/make_roster.py. Run: python3 tests/test_make_roster.py"""
import os
import subprocess
import sys
import tempfile
import unittest

HERE = os.path.dirname(os.path.abspath(__file__))
TOOLS = os.path.join(HERE, "..", "tools")
SAMPLES = os.path.join(HERE, "..", "samples")
SCRIPT = os.path.join(TOOLS, "make_roster.py")
sys.path[:0] = [HERE, TOOLS]
from chance import some_lists
from make_roster import Lists, Unfit, check_lawful, lay_down, parse_text, pick_up, show_text


def run(text, *arguments):
    """What the script does with a text on standard input."""
    return subprocess.run([sys.executable, SCRIPT, *arguments], input=text, capture_output=True)


def checks(roster):
    return [int.from_bytes(roster[at + 508 : at + 512], "big") for at in range(0, len(roster), 512)]


class Layout(unittest.TestCase):
    def test_smallest(self):
        roster = lay_down(parse_text("crew 0: 0\nsite 0: 0\n"))
        self.assertEqual(len(roster), 3 * 512)
        self.assertEqual(checks(roster), [15, 8, 9])
        self.assertEqual(roster[:8], bytes([1, 0, 0, 0, 0, 1, 0, 1]))
        self.assertEqual(roster[512:520], bytes([2, 0, 0, 0, 0, 1, 0, 0]))
        self.assertEqual(roster[1024:1032], bytes([3, 0, 0, 0, 0, 1, 0, 0]))

    def test_empty(self):
        roster = lay_down(parse_text(""))
        self.assertEqual(roster, bytes([1]) + bytes(510) + bytes([1]))

    def test_check_wraps(self):
        entries = list(range(250))
        roster = lay_down(Lists([entries] * 250, [entries] * 250))
        self.assertEqual(len(roster), 501 * 512)
        total = sum((i + 1) * byte for i, byte in enumerate(roster[512:1020]))
        self.assertGreater(total, 131071)
        self.assertEqual(checks(roster)[1], total % 131071)

    def test_there_and_back(self):
        for seed in range(200):
            lists = some_lists(seed, 0, 8, 0.6)
            check_lawful(lists)
            text = show_text(lists)
            self.assertEqual(parse_text(text), lists)
            self.assertEqual(show_text(pick_up(lay_down(parse_text(text)))), text)


class Text(unittest.TestCase):
    def refused(self, text, reason):
        with self.assertRaisesRegex(Unfit, reason):
            check_lawful(parse_text(text))

    def test_counts(self):
        self.assertEqual(parse_text("crews 2\nsites 1"), Lists([[], []], [[]]))
        self.assertEqual(parse_text("crew 1: 0 # first\n\nsite 0: 1"), Lists([[], [0]], [[1]]))

    def test_unfit(self):
        self.refused("crew 0 1", "line 1: expected")
        self.refused("crew 0: x", "line 1: 'x' is not a number")
        self.refused("crew 0: 70000", "does not fit into two bytes")
        self.refused("crew 0:\ncrew 0:", "line 2: crew 0 has a second list")
        self.refused("crews 1\ncrews 2", "stated twice")
        self.refused("crews 1\ncrew 1: 0", "only 1 crews")
        self.refused("crews 251", "at most 250")
        self.refused("sites 1\ncrew 0: 1", "names site 1, which does not exist")
        self.refused("crew 0: 0 0\nsite 0: 0", "names site 0 twice")
        self.refused("crew 0: 0\nsite 0:", "does not name it back")


class Command(unittest.TestCase):
    def test_refuses_and_says_why(self):
        done = run(b"crew 0: 0\nsite 0:\n")
        self.assertEqual((done.returncode, done.stdout), (1, b""))
        self.assertIn(b"does not name it back", done.stderr)

    def test_unchecked(self):
        done = run(b"crew 0: 0\nsite 0:\n", "--unchecked")
        self.assertEqual((done.returncode, len(done.stdout)), (0, 1536))

    def test_show(self):
        roster = run(b"crew 0: 0\nsite 0: 0\n").stdout
        self.assertEqual(run(roster, "--show").stdout, b"crews 1\nsites 1\ncrew 0: 0\nsite 0: 0\n")
        self.assertEqual(run(roster[:-1], "--show").returncode, 1)
        self.assertIn(b"block 0, byte 511 is 14", run(roster[:511] + b"\x0e" + roster[512:], "--show").stderr)

    def test_damage(self):
        text = b"crew 0: 0\nsite 0: 0\n"
        roster = run(text).stdout
        changed = run(text, "--set", "1:7=3").stdout
        self.assertEqual([i for i in range(1536) if roster[i] != changed[i]], [519])
        self.assertEqual(checks(changed), [15, 8, 9])
        self.assertEqual(checks(run(text, "--set", "1:7=3", "--reseal").stdout), [15, 32, 9])
        self.assertEqual(run(text, "--keep", "700").stdout, roster[:700])

    def test_samples_are_as_made(self):
        with tempfile.TemporaryDirectory() as folder:
            os.mkdir(os.path.join(folder, "samples"))
            os.symlink(os.path.abspath(TOOLS), os.path.join(folder, "tools"))
            for name in ("make", "trial.txt"):
                with open(os.path.join(SAMPLES, name), "rb") as file:
                    content = file.read()
                with open(os.path.join(folder, "samples", name), "wb") as file:
                    file.write(content)
            subprocess.run(["sh", os.path.join(folder, "samples", "make")], check=True)
            made = sorted(name for name in os.listdir(os.path.join(folder, "samples")) if name.endswith(".roster"))
            self.assertEqual(made, sorted(name for name in os.listdir(SAMPLES) if name.endswith(".roster")))
            for name in made:
                with open(os.path.join(folder, "samples", name), "rb") as new, open(os.path.join(SAMPLES, name), "rb") as old:
                    self.assertEqual(new.read(), old.read(), name)


if __name__ == "__main__":
    unittest.main()
