#!/usr/bin/env python3
"""What the planner must print on the sample trial, worked out by the plain reference.

    test_planner_output.py            compare it with crates/planner/stdout, to which the gate holds the planner
    test_planner_output.py --write    write that file
"""
import os
import sys
import unittest

HERE = os.path.dirname(os.path.abspath(__file__))
ROOT = os.path.join(HERE, "..")
EXPECTED = os.path.join(ROOT, "crates", "planner", "stdout")
sys.path.insert(0, HERE)
import reference
from make_roster import lay_down, parse_text


def read(*path):
    with open(os.path.join(ROOT, *path), "rb") as file:
        return file.read()


def choice(entries, other, partner):
    """With whom a party works, and which of its choices that is."""
    if not partner:
        return "left out"
    return f"{other} {partner - 1}, choice {entries.index(partner - 1) + 1} of {len(entries)}"


def table(word, other, own, crew_best, site_best):
    return "".join(
        f"{word} {number:<5}  {choice(entries, other, crew_best[number]):<29}  {choice(entries, other, site_best[number])}\n"
        for number, entries in enumerate(own)
    )


def left_out(name, crews, sites):
    crews, sites = (
        " ".join(str(number) for number, partner in enumerate(plan) if not partner) or "none" for plan in (crews, sites)
    )
    return f"left out, {name}: crews {crews}; sites {sites}\n"


def expected(lists):
    crews = [reference.crew_best(lists), reference.site_best(lists)]
    sites = [reference.flipped_plan(plan, len(lists.sites)) for plan in crews]
    return (
        f"crews: {len(lists.crews)}\nsites: {len(lists.sites)}\n\n"
        + f"{'':12}{'crew-best':<29}  site-best\n"
        + table("crew", "site", lists.crews, *crews)
        + "\n"
        + table("site", "crew", lists.sites, *sites)
        + "\n"
        + left_out("crew-best", crews[0], sites[0])
        + left_out("site-best", crews[1], sites[1])
    )


class SampleTrial(unittest.TestCase):
    def setUp(self):
        self.lists = parse_text(read("samples", "trial.txt").decode())

    def test_the_planner_runs_on_it(self):
        self.assertEqual(read("crates", "planner", "args"), b"trial.roster\n")
        self.assertEqual(read("crates", "planner", "data", "trial.roster"), lay_down(self.lists))

    def test_what_it_must_print(self):
        self.assertEqual(read("crates", "planner", "stdout").decode(), expected(self.lists))

    def test_the_two_ends_differ_and_leave_someone_out(self):
        self.assertNotEqual(reference.crew_best(self.lists), reference.site_best(self.lists))
        self.assertIn(0, reference.crew_best(self.lists))


if __name__ == "__main__":
    if sys.argv[1:] == ["--write"]:
        with open(EXPECTED, "w", encoding="utf-8") as out:
            out.write(expected(parse_text(read("samples", "trial.txt").decode())))
    else:
        unittest.main()
