#!/usr/bin/env python3
"""Make a roster of ranked lists, and read one back.

    make_roster.py LISTS.txt -o TRIAL.roster     lay text lists down as a roster
    make_roster.py --show TRIAL.roster           print a roster as text lists
    make_roster.py LISTS.txt --set 2:6=9 ..      lay down, then change single bytes

The text lists, one statement to a line:

    crews 3                 how many crews there are
    sites 2                 how many sites there are
    crew 0: 1 0             crew 0 ranks site 1 first and then site 0
    site 1: 0 2             site 1 ranks crew 0 first and then crew 2
    # a comment             up to the end of the line

Numbers start at 0. A party without a line has an empty list. A count that is
left out is one more than the highest number that the lines of its side have,
or that the other side's lists name.

The lists must be lawful: an entry is a party that exists, no list names a
party twice, and whoever is named names back. Each side has at most 250
parties. With --unchecked the lists are laid down as they stand, to make
rosters that a reader must refuse.

A roster has blocks of 512 bytes: one for the counts, one for each crew and one
for each site. The last four bytes of a block are its check. --set BLOCK:BYTE=VALUE
changes a byte afterwards and leaves the check as it was; --reseal then writes
the checks of all blocks again, so that only the change itself is wrong.
--keep N keeps the first N bytes only.
"""
import argparse
import sys

BLOCK = 512
CHECK_AT = 508
CHECK_MODULUS = 131071
MOST_PARTIES = 250
FIRST_ENTRY = 6
COUNTS_KIND, CREW_KIND, SITE_KIND = 1, 2, 3


class Unfit(Exception):
    """A text or a roster that cannot be used, with the reason."""


class Lists:
    """A list of site numbers for every crew and of crew numbers for every site."""

    def __init__(self, crews, sites):
        self.crews = crews
        self.sites = sites

    def __eq__(self, other):
        return (self.crews, self.sites) == (other.crews, other.sites)

    def sides(self):
        return (("crew", self.crews, "site", self.sites), ("site", self.sites, "crew", self.crews))


# Text


def parse_number(word, line_number, what):
    if not (word.isascii() and word.isdigit()):
        raise Unfit(f"line {line_number}: '{word}' is not a number, where {what} should stand")
    number = int(word)
    if number > 65535:
        raise Unfit(f"line {line_number}: {number} does not fit into two bytes")
    return number


def parse_text(text):
    """The lists that a text states; says nothing yet on whether they are lawful."""
    counts = {}
    stated = {"crew": {}, "site": {}}
    for line_number, line in enumerate(text.splitlines(), start=1):
        line = line.split("#", 1)[0].strip()
        if not line:
            continue
        head, colon, tail = line.partition(":")
        words = head.split()
        if len(words) != 2:
            raise Unfit(f"line {line_number}: expected 'crews N', 'sites N', 'crew N: ..' or 'site N: ..'")
        word, number = words[0], parse_number(words[1], line_number, "a number")
        if word in ("crews", "sites") and not colon:
            side = word[:-1]
            if side in counts:
                raise Unfit(f"line {line_number}: the number of {word} is stated twice")
            counts[side] = number
        elif word in stated and colon:
            if number in stated[word]:
                raise Unfit(f"line {line_number}: {word} {number} has a second list")
            stated[word][number] = [parse_number(entry, line_number, "an entry") for entry in tail.split()]
        else:
            raise Unfit(f"line {line_number}: expected 'crews N', 'sites N', 'crew N: ..' or 'site N: ..'")
    return Lists(*(gather(counts, stated, side, other) for side, other in (("crew", "site"), ("site", "crew"))))


def gather(counts, stated, side, other):
    own = stated[side]
    if side in counts:
        count = counts[side]
        beyond = [number for number in own if number >= count]
        if beyond:
            raise Unfit(f"{side} {beyond[0]} has a list, but there are only {count} {side}s")
    else:
        named = [entry for entries in stated[other].values() for entry in entries]
        count = max([-1, *own, *named]) + 1
    return [own.get(number, []) for number in range(count)]


def show_text(lists):
    lines = [f"crews {len(lists.crews)}", f"sites {len(lists.sites)}"]
    for word, own, _, _ in lists.sides():
        for number, entries in enumerate(own):
            lines.append(" ".join([f"{word} {number}:", *map(str, entries)]))
    return "\n".join(lines) + "\n"


# Laws


def check_lawful(lists):
    """Raises Unfit at the first law that the lists break."""
    for word, own, other_word, other in lists.sides():
        if len(own) > MOST_PARTIES:
            raise Unfit(f"there are {len(own)} {word}s, and a roster has at most {MOST_PARTIES}")
        for number, entries in enumerate(own):
            for place, entry in enumerate(entries):
                if entry >= len(other):
                    raise Unfit(f"{word} {number} names {other_word} {entry}, which does not exist")
                if entry in entries[:place]:
                    raise Unfit(f"{word} {number} names {other_word} {entry} twice")
                if number not in other[entry]:
                    raise Unfit(f"{word} {number} names {other_word} {entry}, which does not name it back")


# Blocks


def two_bytes(number):
    return bytes([number // 256, number % 256])


def check_of(block):
    return sum((i + 1) * byte for i, byte in enumerate(block[:CHECK_AT])) % CHECK_MODULUS


def sealed(block):
    return bytes(block[:CHECK_AT]) + check_of(block).to_bytes(4, "big")


def filled(content):
    if len(content) > CHECK_AT:
        raise Unfit("a list is too long for its block")
    return sealed(content + bytes(CHECK_AT - len(content)))


def party_block(kind, number, entries):
    content = bytes([kind, 0]) + two_bytes(number) + two_bytes(len(entries))
    return filled(content + b"".join(map(two_bytes, entries)))


def lay_down(lists):
    """The bytes of the roster that lays these lists down."""
    counts = bytes([COUNTS_KIND, 0, 0, 0]) + two_bytes(len(lists.crews)) + two_bytes(len(lists.sites))
    blocks = [filled(counts)]
    blocks += [party_block(CREW_KIND, number, entries) for number, entries in enumerate(lists.crews)]
    blocks += [party_block(SITE_KIND, number, entries) for number, entries in enumerate(lists.sites)]
    return b"".join(blocks)


def pick_up(roster):
    """The lists in a roster that this script could have made; refuses any other."""
    if not roster or len(roster) % BLOCK != 0:
        raise Unfit(f"{len(roster)} bytes are not a whole number of blocks of {BLOCK}")
    blocks = [roster[at : at + BLOCK] for at in range(0, len(roster), BLOCK)]
    crews, sites = number_at(blocks[0], 4), number_at(blocks[0], 6)
    if len(blocks) != 1 + crews + sites:
        raise Unfit(f"{crews} crews and {sites} sites need {1 + crews + sites} blocks, and there are {len(blocks)}")
    own = [entries_of(block, index) for index, block in enumerate(blocks[1:], start=1)]
    lists = Lists(own[:crews], own[crews:])
    again = lay_down(lists)
    if again != roster:
        at = next(i for i in range(len(roster)) if again[i] != roster[i])
        raise Unfit(f"block {at // BLOCK}, byte {at % BLOCK} is {roster[at]}, where {again[at]} should stand")
    check_lawful(lists)
    return lists


def number_at(block, byte):
    return block[byte] * 256 + block[byte + 1]


def entries_of(block, index):
    length = number_at(block, 4)
    if length > MOST_PARTIES:
        raise Unfit(f"block {index}, byte 4: a list of {length} entries is too long")
    return [number_at(block, FIRST_ENTRY + 2 * k) for k in range(length)]


# Damage


def parse_change(text):
    """BLOCK:BYTE=VALUE as three numbers."""
    place, equals, value = text.partition("=")
    block, colon, byte = place.partition(":")
    if not (equals and colon and all(part.isascii() and part.isdigit() for part in (block, byte, value))):
        raise Unfit(f"--set {text}: expected BLOCK:BYTE=VALUE")
    block, byte, value = int(block), int(byte), int(value)
    if byte >= BLOCK or value > 255:
        raise Unfit(f"--set {text}: a block has bytes 0 to {BLOCK - 1}, of values 0 to 255")
    return block, byte, value


def damaged(roster, changes, reseal, keep):
    roster = bytearray(roster)
    for block, byte, value in changes:
        if (block + 1) * BLOCK > len(roster):
            raise Unfit(f"--set {block}:{byte}={value}: there are only {len(roster) // BLOCK} blocks")
        roster[block * BLOCK + byte] = value
    if reseal:
        blocks = [roster[at : at + BLOCK] for at in range(0, len(roster), BLOCK)]
        roster = b"".join(map(sealed, blocks))
    return bytes(roster if keep is None else roster[:keep])


# The command


def read_input(path, binary):
    if path == "-":
        return sys.stdin.buffer.read() if binary else sys.stdin.read()
    with open(path, "rb") as file:
        content = file.read()
    if binary:
        return content
    try:
        return content.decode("utf-8")
    except UnicodeDecodeError:
        raise Unfit(f"{path} is not text; --show prints a roster") from None


def write_output(path, content):
    if path == "-":
        sys.stdout.buffer.write(content)
    else:
        with open(path, "wb") as file:
            file.write(content)


def run(arguments):
    if arguments.show:
        write_output(arguments.output, show_text(pick_up(read_input(arguments.input, True))).encode())
        return
    lists = parse_text(read_input(arguments.input, False))
    if not arguments.unchecked:
        check_lawful(lists)
    changes = [parse_change(text) for text in arguments.set]
    roster = damaged(lay_down(lists), changes, arguments.reseal, arguments.keep)
    write_output(arguments.output, roster)


def main():
    parser = argparse.ArgumentParser(description=__doc__, formatter_class=argparse.RawDescriptionHelpFormatter)
    parser.add_argument("input", nargs="?", default="-", help="the text lists, or with --show the roster; standard input where absent")
    parser.add_argument("-o", "--output", default="-", help="the file to write; standard output where absent")
    parser.add_argument("--show", action="store_true", help="print a roster as text lists")
    parser.add_argument("--unchecked", action="store_true", help="lay down lists that break the laws too")
    parser.add_argument("--set", action="append", default=[], metavar="BLOCK:BYTE=VALUE", help="change a byte of the roster")
    parser.add_argument("--reseal", action="store_true", help="write all checks again after the changes")
    parser.add_argument("--keep", type=int, metavar="N", help="keep the first N bytes of the roster only")
    try:
        run(parser.parse_args())
    except (Unfit, OSError) as reason:
        sys.exit(f"make_roster: {reason}")


if __name__ == "__main__":
    main()
