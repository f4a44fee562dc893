"""Lists and rings for the tests."""
import os
import random
import sys

sys.path.insert(0, os.path.join(os.path.dirname(os.path.abspath(__file__)), "..", "tools"))
from make_roster import Lists


def some_lists(seed, least, most, share):
    """Lawful lists with least to most parties a side, each pair listed with a chance of share."""
    chance = random.Random(seed)
    crews, sites = chance.randint(least, most), chance.randint(least, most)
    pairs = [(i, j) for i in range(crews) for j in range(sites) if chance.random() < share]
    own = [[j for i, j in pairs if i == crew] for crew in range(crews)]
    back = [[i for i, j in pairs if j == site] for site in range(sites)]
    for entries in own + back:
        chance.shuffle(entries)
    return Lists(own, back)


def ring(count, crews, sites):
    own, back = ([[(i + shift + k) % count for k in range(count)] for i in range(count)] for shift in (crews, sites))
    return Lists(own, back)
