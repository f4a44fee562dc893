"""The first fault of a roster, by the rules of docs/ROSTER.md read once more in Python.

Nothing here is shared with the proved reader. A fault is (number, layer, block, byte).
"""
BLOCK = 512
MOST = 250


def byte(roster, block, at):
    return roster[BLOCK * block + at]


def two(roster, block, at):
    return 256 * byte(roster, block, at) + byte(roster, block, at + 1)


def seal(roster, block):
    return sum((i + 1) * byte(roster, block, i) for i in range(508)) % 131071


def found_in_block(roster, block, fields):
    """The check, then the fields: (first byte, whether it is right), in order."""
    if 65536 * two(roster, block, 508) + two(roster, block, 510) != seal(roster, block):
        yield (2, "file", block, 508)
    for at, right in fields:
        if not right():
            yield (3, "file", block, at)


def zeros(roster, block, start):
    return [(at, lambda at=at: byte(roster, block, at) == 0) for at in range(start, 508)]


def found_in_head(roster):
    fields = [(0, lambda: byte(roster, 0, 0) == 1)]
    fields += [(at, lambda at=at: byte(roster, 0, at) == 0) for at in (1, 2, 3)]
    fields += [(at, lambda at=at: two(roster, 0, at) <= MOST) for at in (4, 6)]
    yield from found_in_block(roster, 0, fields + zeros(roster, 0, 8))


def found_in_party(roster, block, kind, number, others):
    fields = [
        (0, lambda: byte(roster, block, 0) == kind),
        (1, lambda: byte(roster, block, 1) == 0),
        (2, lambda: two(roster, block, 2) == number),
        (4, lambda: two(roster, block, 4) <= others),
    ]
    yield from found_in_block(roster, block, fields)
    length = two(roster, block, 4)
    yield from found_in_block(roster, block, zeros(roster, block, 6 + 2 * length))
    seen = set()
    for k in range(length):
        entry = two(roster, block, 6 + 2 * k)
        if entry >= others:
            yield (4, "lists", block, 6 + 2 * k)
        if entry in seen:
            yield (5, "lists", block, 6 + 2 * k)
        seen.add(entry)


def entries(roster, block):
    return [two(roster, block, 6 + 2 * k) for k in range(two(roster, block, 4))]


def found(roster):
    """Every fault that is looked for, in order; only the first is certain to have a meaning."""
    wrong_length = (1, "file", 0, 0)
    if not roster or len(roster) % BLOCK or len(roster) > 501 * BLOCK:
        yield wrong_length
    yield from found_in_head(roster)
    crews, sites = two(roster, 0, 4), two(roster, 0, 6)
    if len(roster) != BLOCK * (1 + crews + sites):
        yield wrong_length
    for crew in range(crews):
        yield from found_in_party(roster, 1 + crew, 2, crew, sites)
    for site in range(sites):
        yield from found_in_party(roster, 1 + crews + site, 3, site, crews)
    for own, back, count in ((1, 1 + crews, crews), (1 + crews, 1, sites)):
        for number in range(count):
            for k, entry in enumerate(entries(roster, own + number)):
                if number not in entries(roster, back + entry):
                    yield (6, "lists", own + number, 6 + 2 * k)


def first_fault(roster):
    return next(found(roster), None)
