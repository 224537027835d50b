#!/usr/bin/env python3
"""The whole record of a road file, made a second time and by another method than the library's.

  sheets.py files      the cases, one after the other: the size of a file in four bytes, the lowest first, and its bytes
  sheets.py expected   the record of each case, as the library must write it

The library adds rows one by one, the best first, and never takes one back. Here every place has a set of
pairs of time and limit; each road is applied to the whole set of its start, a pair that another covers is
struck out, and that goes on until no road changes anything. Only then are the pairs counted and sorted.
"""
import sys

import roadfiles
from roadfiles import HEADER, LAST, TOP, Dice, place, remark, road

MOST_BYTES = 65536
ROADS = 1024
ROWS = 1024
NO_LIMIT = TOP + 1  # better than every mark

# ---- the lists


def covers(p, q):
    return p[0] <= q[0] and p[1] >= q[1]


def added(pairs, new):
    """The pairs with the new one: where one of them covers it, as they were; else without those that it covers."""
    if any(covers(p, new) for p in pairs):
        return pairs
    return [p for p in pairs if not covers(new, p)] + [new]


def lists(places, roads):
    """By place, the pairs of time and limit of trips from place 0 that no other such pair covers, the quickest first."""
    pairs = [[] for _ in range(places)]
    pairs[0] = [(0, NO_LIMIT)]
    changed = True
    while changed:
        changed = False
        for start, end, marks, _ in roads:
            for time, limit in list(pairs[start]):
                after = added(pairs[end], (time + marks[0], min(limit, marks[2])))
                changed = changed or after is not pairs[end]
                pairs[end] = after
    return [sorted(some) for some in pairs]


def record(data):
    """What the library writes for a file."""
    if len(data) > MOST_BYTES:
        return "refused 21 at 0\n"
    places, roads, refusal = roadfiles.load(data, ROADS)
    if refusal is not None:
        return "refused %d at %d\n" % refusal
    pages = lists(places, roads)
    if sum(map(len, pages)) > ROWS:
        return "refused 18 at 0\n"
    lines = []
    for number, page in enumerate(pages):
        lines.append("place %d rows %d" % (number, len(page)))
        lines += ["%d %s" % (time, "-" if limit == NO_LIMIT else limit) for time, limit in page]
    return "".join(line + "\n" for line in lines)


# ---- cases: the parts of a file, each of them bytes or (bytes, times)


def network(places, roads):
    names = [(place(b"P"), places)] if places else []
    return [HEADER, *names, *(road(*r) for r in roads), LAST]


def fan(count):
    """A network of two places with so many roads between them, each slower than the one before and bearing more:
    a row for each of them, and one for the empty trip."""
    return network(2, [(0, 1, i + 1, 0, i + 1, 0) for i in range(count)])


def chain(stages):
    """Stages of two roads each, a quick one that bears little and a slow one that bears much."""
    roads = []
    for i in range(stages):
        roads += [(i, i + 1, 1, 0, 100 + i, 0), (i, i + 1, 3 + i % 2, 0, 200 - i, 0)]
    return network(stages + 1, roads)


def padded(size):
    """The yard with remarks before its end, so that the file has so many bytes."""
    file = roadfiles.yard()[: -len(LAST)]
    left = size - len(file) - len(LAST)
    parts = []
    while left:
        take = left if left <= 257 else min(257, left - 2)
        parts.append(remark(b"x" * (take - 2)))
        left -= take
    return [file, *parts, LAST]


def fixed_cases():
    yard = roadfiles.yard()
    yield from ([yard], [yard[:-1]], [yard + b"\0"], [HEADER + LAST], [b"CRN"], [b"CRN\2\0"])
    yield from (network(1, []), network(2, []), network(2048, []), network(2048, [(i, i + 1, 1, 0, 2048 - i, 0) for i in range(1023)]))
    # exactly as many rows as fit, and one more; the same with rows at further places
    yield from (fan(1022), fan(1023), fan(1024))
    yield network(3, [(0, 1, i + 1, 0, i + 1, 0) for i in range(511)] + [(1, 2, 7, 0, TOP, 0)] + [(0, 0, 0, 0, 0, 0)])
    yield network(3, [(0, 1, i + 1, 0, i + 1, 0) for i in range(511)] + [(1, 2, 7, 0, TOP, 0), (2, 1, 0, 0, 512, 0), (0, 2, 9000, 0, TOP, 0)])
    yield from (chain(8), chain(20), chain(40))
    # times that pass 32 bits, and the ends of the marks
    yield network(4, [(0, 1, TOP, 0, TOP, 0), (1, 2, TOP, 0, TOP, 0), (2, 3, TOP, 0, 0, 0), (0, 3, TOP, 0, 0, 0), (3, 0, 0, 0, TOP, 0)])
    yield from (padded(MOST_BYTES), padded(MOST_BYTES + 1))


def random_network(dice):
    """A network of up to 24 places; small marks make ties, large ones few."""
    places = 1 + dice.below(24)
    times, limits = 1 + dice.below(2 ** (1 + dice.below(32))), 1 + dice.below(2 ** (1 + dice.below(32)))
    if dice.below(2):
        times, limits = 1 + dice.below(6), 1 + dice.below(9)
    roads = []
    for _ in range(dice.below(6 * places)):
        start, end = dice.below(places), dice.below(places)
        if dice.below(3) == 0:
            end = min(start + 1, places - 1)
        roads.append((start, end, dice.below(times), dice.below(TOP), dice.below(limits), dice.below(TOP)))
    return network(places, roads)


def crowded_network(dice):
    """A network whose number of rows is near what fits."""
    places = 3 + dice.below(3)
    count = 1024 // (places - 1) - 4 + dice.below(8)
    roads = [(0, 1, 3 * i + dice.below(3), 0, 5 * i + dice.below(5), 0) for i in range(count)]
    roads += [(i, i + 1, dice.below(9), 0, TOP - dice.below(9), 0) for i in range(1, places - 1)]
    return network(places, roads[:ROADS])


def cases():
    yield from fixed_cases()
    dice = Dice(1788)
    for _ in range(300):
        yield random_network(dice)
    for _ in range(8):
        yield crowded_network(dice)


# ---- input and output of the case program


def files():
    data = [roadfiles.file_of(parts) for parts in cases()]
    return b"".join(len(file).to_bytes(4, "little") + file for file in data)


def expected():
    return "".join(record(roadfiles.file_of(parts)) for parts in cases()).encode()


def main():
    made = {"files": files, "expected": expected}
    if len(sys.argv) != 2 or sys.argv[1] not in made:
        sys.exit("usage: sheets.py files | expected")
    sys.stdout.buffer.write(made[sys.argv[1]]())


if __name__ == "__main__":
    main()
