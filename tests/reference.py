#!/usr/bin/env python3
"""Stable plans of small lists, found by trying every plan.

    reference.py LISTS.txt      print all stable plans, the crew-best one and the site-best one

A plan is a tuple with a number for every crew in order: 1 more than its site's, or 0 where it has none.
Nothing here is shared with the proved code; it is the plain definition, run.
"""
import itertools
import os
import sys

sys.path.insert(0, os.path.join(os.path.dirname(os.path.abspath(__file__)), "..", "tools"))
import make_roster


def plans(crews):
    """Every plan: each crew has nobody or a site of its list, and no site is had twice."""

    def from_crew(crew, taken):
        if crew == len(crews):
            yield ()
            return
        for site in [None, *crews[crew]]:
            if site is not None and site in taken:
                continue
            for rest in from_crew(crew + 1, taken | {site} if site is not None else taken):
                yield (0 if site is None else site + 1, *rest)

    yield from from_crew(0, frozenset())


def flipped_plan(plan, count):
    """The same pairs, written as one number for each party of the other side."""
    turned = [0] * count
    for number, partner in enumerate(plan):
        if partner:
            turned[partner - 1] = number + 1
    return tuple(turned)


def rather(entries, other, partner):
    """Whether a party with this list and partner would rather have the other."""
    return partner == 0 or entries.index(other) < entries.index(partner - 1)


def blocks(lists, plan):
    """The listed pairs outside a plan that both would rather have."""
    turned = flipped_plan(plan, len(lists.sites))
    return [
        (crew, site)
        for crew, entries in enumerate(lists.crews)
        for site in entries
        if plan[crew] != site + 1
        and rather(entries, site, plan[crew])
        and rather(lists.sites[site], crew, turned[site])
    ]


def stable_plans(lists):
    return [plan for plan in plans(lists.crews) if not blocks(lists, plan)]


def place(entries, partner):
    """Where a party's partner stands in its list, and the end for none."""
    return entries.index(partner - 1) if partner else len(entries)


def best_of(stable, own):
    """The one plan among some that gives every party of a side the best it has in any of them."""
    best = [
        plan
        for plan in stable
        if all(
            place(entries, plan[party]) <= place(entries, other[party])
            for party, entries in enumerate(own)
            for other in stable
        )
    ]
    assert len(best) == 1, f"{len(best)} plans are best for everyone"
    return best[0]


def crew_best(lists):
    return best_of(stable_plans(lists), lists.crews)


def flip(lists):
    return make_roster.Lists(lists.sites, lists.crews)


def site_best(lists):
    return flipped_plan(crew_best(flip(lists)), len(lists.crews))


def deferred_acceptance(lists):
    """The crew-best plan by proposals, for lists too large to try every plan."""
    held = {}
    asked = [0] * len(lists.crews)
    free = list(range(len(lists.crews)))
    while free:
        crew = free.pop()
        if asked[crew] == len(lists.crews[crew]):
            continue
        site = lists.crews[crew][asked[crew]]
        asked[crew] += 1
        rival = held.get(site)
        ranking = lists.sites[site]
        if rival is None or ranking.index(crew) < ranking.index(rival):
            held[site] = crew
            crew = rival
        if crew is not None:
            free.append(crew)
    return flipped_plan([held.get(site, -1) + 1 for site in range(len(lists.sites))], len(lists.crews))


def main():
    if len(sys.argv) != 2:
        sys.exit(__doc__)
    with open(sys.argv[1], encoding="utf-8") as file:
        lists = make_roster.parse_text(file.read())
    make_roster.check_lawful(lists)
    for plan in stable_plans(lists):
        print("stable   ", *plan)
    print("crew-best", *crew_best(lists))
    print("site-best", *site_best(lists))


if __name__ == "__main__":
    main()
