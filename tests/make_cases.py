#!/usr/bin/env python3
"""The rosters of crates/cases, with what must come of each by the Python reading of the format.

    make_cases.py           write crates/cases/data, args and stdout
    make_cases.py --check   say whether they are what would be written
"""
import os
import sys

HERE = os.path.dirname(os.path.abspath(__file__))
CASES = os.path.join(HERE, "..", "crates", "cases")
sys.path[:0] = [HERE, os.path.join(HERE, "..", "tools")]
import faults
import make_roster
import reference
from chance import some_lists
from make_roster import Lists

# Two crews, two sites; the stable plan leaves one of each out.
SMALL = Lists([[0, 1], [0]], [[0, 1], [0]])
# Three crews and three sites in a row of shrinking lists.
STEPS = Lists([[0, 1, 2], [0, 1], [0]], [[0, 1, 2], [0, 1], [0]])
# Three crews that all want site 0 first.
WANTED = Lists([[0, 2], [0, 1], [0]], [[1, 0, 2], [1], [0]])
# Everybody names everybody.
FULL = Lists([[0, 1, 2], [1, 2, 0], [2, 0, 1]], [[1, 2, 0], [2, 0, 1], [0, 1, 2]])
# More crews than sites, a crew without wishes and a site without wishes.
UNEVEN = Lists([[1, 0], [1], [], [0, 1]], [[3, 0], [0, 1, 3], []])


def unchecked(crews, sites):
    return make_roster.lay_down(Lists(crews, sites))


def changed(lists, *changes, reseal=True):
    """A roster of lists with some bytes (block, byte, value) changed, and its checks made to fit again."""
    return make_roster.damaged(make_roster.lay_down(lists), list(changes), reseal, None)


def with_check(roster, block, value):
    at = 512 * block + 508
    return roster[:at] + value.to_bytes(4, "big") + roster[at + 4 :]


def good():
    yield "empty", make_roster.lay_down(Lists([], []))
    yield "one-pair", make_roster.lay_down(Lists([[0]], [[0]]))
    yield "crews-alone", make_roster.lay_down(Lists([[], []], []))
    yield "sites-alone", make_roster.lay_down(Lists([], [[], []]))
    yield "small", make_roster.lay_down(SMALL)
    yield "steps", make_roster.lay_down(STEPS)
    yield "wanted", make_roster.lay_down(WANTED)
    yield "full", make_roster.lay_down(FULL)
    yield "uneven", make_roster.lay_down(UNEVEN)
    for seed in range(12):
        yield f"some-{seed}", make_roster.lay_down(some_lists(seed, 1, 6, 0.7))


def wrong_lengths():
    small = make_roster.lay_down(SMALL)
    yield "no-bytes", b""
    yield "a-byte-short", small[:-1]
    yield "a-byte-long", small + b"\0"
    yield "too-many-blocks", bytes(502 * 512)
    yield "a-block-short", small[:-512]
    yield "a-block-long", small + bytes(512)
    yield "length-before-check", changed(SMALL, (0, 0, 9), reseal=False)[:-1]
    yield "head-before-block-count", changed(SMALL, (0, 507, 1)) + bytes(512)
    yield "block-count-before-blocks", changed(SMALL, (1, 0, 9), reseal=False) + bytes(512)
    yield "count-is-a-field", changed(SMALL, (0, 5, 251))


def wrong_checks():
    small = make_roster.lay_down(SMALL)
    yield "check-of-head", changed(SMALL, (0, 0, 9), reseal=False)
    yield "check-of-crew", with_check(small, 1, 1)
    yield "check-of-site", with_check(small, 4, 1)
    yield "check-plus-modulus", with_check(small, 0, make_roster.check_of(small[:512]) + 131071)
    yield "check-before-kind", changed(SMALL, (2, 0, 9), reseal=False)
    yield "entry-before-next-check", with_check(changed(SMALL, (1, 7, 9)), 2, 1)
    yield "first-of-two-checks", with_check(with_check(small, 3, 1), 2, 1)


def wrong_fields():
    for byte in (0, 1, 2, 3, 8, 300, 507):
        yield f"head-byte-{byte}", changed(SMALL, (0, byte, 7))
    yield "crew-count-high", changed(SMALL, (0, 4, 1))
    yield "site-count-high", changed(SMALL, (0, 6, 1))
    yield "site-count-251", changed(SMALL, (0, 7, 251))
    yield "crew-count-before-site-count", changed(SMALL, (0, 5, 251), (0, 7, 251))
    yield "zero-before-count", changed(SMALL, (0, 3, 1), (0, 4, 1))
    yield "crew-of-kind-site", changed(SMALL, (1, 0, 3))
    yield "site-of-kind-crew", changed(SMALL, (3, 0, 2))
    yield "party-byte-1", changed(SMALL, (2, 1, 1))
    yield "number-low-byte", changed(SMALL, (2, 3, 0))
    yield "number-high-byte", changed(SMALL, (2, 2, 1))
    yield "list-too-long", changed(SMALL, (1, 5, 3), (1, 9, 9), (1, 507, 9))
    yield "list-far-too-long", changed(SMALL, (1, 4, 255), (1, 5, 255))
    yield "kind-before-number", changed(SMALL, (2, 0, 3), (2, 3, 0))
    yield "stray-after-entries", changed(SMALL, (2, 8, 1))
    yield "stray-byte-507", changed(SMALL, (2, 507, 1))
    yield "stray-before-entries", changed(SMALL, (1, 507, 1), (1, 7, 9))
    yield "first-of-two-strays", changed(SMALL, (2, 100, 1), (2, 9, 1))
    yield "field-before-next-block", changed(SMALL, (1, 507, 1), (2, 0, 9))


def wrong_entries():
    yield "too-high", changed(SMALL, (1, 9, 2))
    yield "too-high-by-high-byte", changed(SMALL, (2, 6, 1))
    yield "too-high-in-site", changed(SMALL, (4, 7, 2))
    yield "repeated", unchecked([[0, 0], [0]], [[0, 1], []])
    yield "repeated-in-site", unchecked([[0], [0]], [[1, 1], []])
    yield "too-high-before-repeated", unchecked([[0, 3, 0], [], []], [[0], [], []])
    yield "repeated-before-too-high", unchecked([[0, 0, 3], [], []], [[0], [], []])
    yield "third-repeats-first", unchecked([[1, 0, 1], [], []], [[0], [0], []])
    yield "crew-entry-before-site-field", changed(Lists([[1, 1], []], [[], []]), (3, 1, 1))


def unreturned():
    yield "crew-not-returned", unchecked([[0, 1], [0]], [[0, 1], []])
    yield "site-not-returned", unchecked([[0], [0]], [[0, 1], [1]])
    yield "crews-before-sites", unchecked([[0], [1, 0]], [[0], [0, 1]])
    yield "first-place-of-two", unchecked([[1, 0], []], [[], []])
    yield "repeated-before-unreturned", unchecked([[1], [0, 0]], [[1], []])
    yield "site-field-before-unreturned", changed(Lists([[1], []], [[], []]), (4, 1, 1))


def cases():
    for kind in (good, wrong_lengths, wrong_checks, wrong_fields, wrong_entries, unreturned):
        yield from kind()


def line(name, roster):
    fault = faults.first_fault(roster)
    if fault:
        number, layer, block, byte = fault
        return f"{name}.roster: fault {number}, {layer}, block {block}, byte {byte}"
    lists = make_roster.pick_up(roster)
    words = lambda plan: "".join(f" {number}" for number in plan)
    return f"{name}.roster: crew-best{words(reference.crew_best(lists))}, site-best{words(reference.crew_best(reference.flip(lists)))}"


def files():
    all_cases = list(cases())
    assert len({name for name, _ in all_cases}) == len(all_cases)
    for name, roster in all_cases:
        yield os.path.join("data", f"{name}.roster"), bytes(roster)
    yield "args", "".join(f"{name}.roster\n" for name, _ in all_cases).encode()
    yield "stdout", "".join(f"{line(name, roster)}\n" for name, roster in all_cases).encode()


def held(path):
    try:
        with open(path, "rb") as file:
            return file.read()
    except FileNotFoundError:
        return None


def main():
    stale = False
    for name, content in files():
        path = os.path.join(CASES, name)
        if sys.argv[1:] == ["--check"]:
            if held(path) != content:
                print(f"crates/cases/{name} is not what tests/make_cases.py writes")
                stale = True
        else:
            os.makedirs(os.path.dirname(path), exist_ok=True)
            with open(path, "wb") as file:
                file.write(content)
    sys.exit(1 if stale else 0)


main()
