#!/usr/bin/env python3
"""Road files, written a second time: what a file says, what loading it does, and the cases to try.

  roadfiles.py script     the cases, one a line: the input of the case program
  roadfiles.py expected   what the case program must print, two lines a case
  roadfiles.py yard       the yard file

A line of the script is the number of entries of the road table and then the bytes of the file, as
words of hexadecimal digits; a word that ends in *N stands N times. The same cases come out each time.
"""
import sys

LETTERS = b"CRN"
VERSION = 1
END, PLACE, ROAD, REMARK = 0, 1, 2, 3
MOST_PLACES = 2048
MOST_ROADS = 16384
TOP = 2**32 - 1

# What a road table holds before a loading: no file can say such a road.
UNSAID = (TOP, TOP, (TOP, TOP, TOP, TOP), False)

# ---- reading


def number(data, at, size):
    """The number of `size` bytes that stands at `at`, its lowest byte first."""
    return sum(data[at + k] << 8 * k for k in range(size))


def head_allowed(kind, length):
    if kind == END:
        return length == 0
    if kind == PLACE:
        return 1 <= length <= 32
    if kind == ROAD:
        return length == 20
    return kind == REMARK


def read(data):
    """The records of a file, as (offset, kind, first byte of the body, length of the body), and its
    refusal, as (number, offset) or None."""
    if len(data) < 5 or data[0:3] != LETTERS:
        return [], (1, 0)
    if number(data, 3, 2) != VERSION:
        return [], (2, 3)
    records = []
    at = 5
    while True:
        if at + 2 > len(data):
            return records, (3, at)
        kind, length = data[at], data[at + 1]
        if not head_allowed(kind, length):
            return records, (4, at)
        if at + 2 + length > len(data):
            return records, (3, at)
        records.append((at, kind, at + 2, length))
        at += 2 + length
        if kind == END:
            return records, None if at == len(data) else (5, at)


# ---- loading


def road_at(data, at):
    start, end = number(data, at, 2), number(data, at + 2, 2)
    return start, end, tuple(number(data, at + 4 + 4 * k, 4) for k in range(4)), True


def load(data, room):
    """What loading a file over a road table of `room` entries does: the number of places, the roads
    that it leaves in front of the table, and its refusal or None."""
    places, roads = 0, []
    records, refusal = read(data)
    for at, kind, body, _ in records:
        if kind == PLACE:
            if places == MOST_PLACES:
                return places, roads, (7, at)
            places += 1
        elif kind == ROAD:
            road = road_at(data, body)
            if road[0] >= places or road[1] >= places:
                return places, roads, (6, at)
            if len(roads) == MOST_ROADS or len(roads) == room:
                return places, roads, (8, at)
            roads.append(road)
    if refusal is None and places == 0:
        refusal = (9, records[-1][0])
    return places, roads, refusal


# ---- what is expected


def weight(road):
    start, end, marks, is_open = road
    return start + 3 * end + 5 * marks[0] + 7 * marks[1] + 11 * marks[2] + 13 * marks[3] + 17 * is_open


def table_sum(roads):
    """A sum that tells one table from another: each road counts by its place in the table."""
    return sum((i + 1) * weight(road) for i, road in enumerate(roads)) % 2**64


def reading_line(data):
    records, refusal = read(data)
    offsets = sum(at for at, _, _, _ in records)
    text = sum(length for _, kind, _, length in records if kind in (PLACE, REMARK))
    end = "ended" if refusal is None else "refused %d at %d" % refusal
    return "read %d records, offsets %d, text %d: %s" % (len(records), offsets, text, end)


def loading_line(data, room):
    places, roads, refusal = load(data, room)
    assert UNSAID not in roads
    if refusal is None:
        return "loaded %d places %d roads, sum %d" % (places, len(roads), table_sum(roads))
    layer = "file" if refusal[0] <= 5 else "draft"
    return "refused %d at %d by %s, kept %d, sum %d" % (*refusal, layer, len(roads), table_sum(roads))


# ---- writing files


def record(kind, body):
    return bytes([kind, len(body)]) + body


def place(name):
    return record(PLACE, name)


def road(start, end, *marks):
    numbers = [(start, 2), (end, 2)] + [(mark, 4) for mark in marks]
    return record(ROAD, b"".join(n.to_bytes(size, "little") for n, size in numbers))


def remark(text):
    return record(REMARK, text)


HEADER = LETTERS + VERSION.to_bytes(2, "little")
LAST = record(END, b"")

YARD = [
    (0, 1, 10, 5, 400, 2),
    (1, 3, 10, 5, 200, 2),
    (0, 2, 15, 1, 300, 6),
    (2, 3, 15, 3, 300, 1),
    (0, 3, 40, 2, 600, 3),
    (1, 2, 0, 0, 400, 0),
    (3, 0, 12, 1, 500, 4),
]


def yard():
    return HEADER + b"".join(place(bytes([c])) for c in b"ABCD") + b"".join(road(*r) for r in YARD) + LAST


# ---- cases: the room of the road table, and the parts of the file, each of them bytes or (bytes, times)


def repeated(unit, times):
    return [(unit, times)] if times else []


def yard_cases():
    file = yard()
    for size in range(len(file) + 1):
        yield 8, [file[:size]]
    for more in (b"\0", b"\1", b"\xff", b"\0\0", b"\0\0\0", place(b"E"), HEADER):
        yield 8, [file + more]
    yield 8, [file, (b"\0", 1000)]
    for room in (0, 1, 6, 7):
        yield room, [file]


def head_cases():
    """Every kind with some lengths, and the kinds 0 to 4 with every length: nothing but the head,
    and, where the head is allowed, with its body and with a body that is a byte short."""
    some = (0, 1, 2, 19, 20, 21, 31, 32, 33, 254, 255)
    for kind in range(256):
        for length in range(256) if kind <= 4 else some:
            head = bytes([kind, length])
            yield 1, [HEADER + head]
            if head_allowed(kind, length):
                end = b"" if kind == END else LAST
                yield 1, [HEADER + place(b"A") + head, *repeated(b"\0", length), end]
            if head_allowed(kind, length) and length > 0:
                yield 1, [HEADER + head, *repeated(b"\0", length - 1)]


def header_cases():
    for size in range(7):
        yield 0, [b"CRN\1\0\0\0"[:size]]
        yield 0, [b"\0" * size]
    for i in range(3):
        for wrong in (0, LETTERS[i] ^ 1, LETTERS[i] + 32, 255):
            yield 1, [LETTERS[:i] + bytes([wrong]) + LETTERS[i + 1 :] + b"\1\0" + place(b"A") + LAST]
    for version in (0, 1, 2, 255, 256, 257, 511, 65535):
        yield 1, [LETTERS + version.to_bytes(2, "little") + place(b"A") + LAST]
        yield 1, [LETTERS + version.to_bytes(2, "little")]
    # The letters are looked at before the version.
    yield 1, [b"CRM\2\0" + place(b"A") + LAST]
    yield 1, [b"crn\1\0" + place(b"A") + LAST]


def name_cases():
    for size in (0, 1, 32, 33):
        yield 1, [HEADER + bytes([PLACE, size]) + b"A" * size + LAST]
        yield 1, [HEADER + bytes([PLACE, size]) + b"A" * size + road(0, 0, 1, 2, 3, 4) + LAST]
    for size in (0, 1, 254, 255):
        yield 1, [HEADER + bytes([REMARK, size]), *repeated(b"r", size), LAST]
        yield 1, [HEADER + place(b"A") + bytes([REMARK, size]), *repeated(b"r", size), LAST]
    # More remarks than 16 bits can count, in bytes and in offsets.
    yield 1, [HEADER + place(b"A"), (remark(b"ab"), 40000), LAST]
    # Names are bytes: any of them, and two places may have one name.
    yield 1, [HEADER + place(bytes(range(32))) + place(bytes(range(224, 256))) + LAST]
    yield 1, [HEADER + place(b"A") + place(b"A") + road(1, 0, 1, 1, 1, 1) + LAST]


def place_cases():
    one = place(b"A")
    for count in (2047, 2048, 2049, 2050):
        yield 1, [HEADER, (one, count), LAST]
        yield 1, [HEADER, (one, count), road(count - 1, 0, 1, 2, 3, 4) + LAST]
    # A road beyond the places, when there are as many as there may be.
    yield 1, [HEADER, (one, 2048), road(0, 2048, 1, 2, 3, 4) + LAST]
    # The place that is too many comes before what follows it: a cut, a bad head, more bytes.
    yield 1, [HEADER, (one, 2049)]
    yield 1, [HEADER, (one, 2049), b"\7\7"]
    yield 1, [HEADER, (one, 2049), LAST + b"x"]
    # Cut inside of the place that would be too many.
    yield 1, [HEADER, (one, 2048), one[:2]]
    yield 1, [HEADER, (one, 2048), bytes([PLACE, 33])]
    # A remark in between, and a road kept.
    yield 2, [HEADER, (one, 2048), remark(b"full") + road(2047, 2047, 9, 8, 7, 6) + one + LAST]


def road_cases():
    one, two = place(b"A"), place(b"A") + place(b"B")
    step = road(1, 0, 10, 20, 30, 40)
    for count in (16383, 16384, 16385):
        yield 16400, [HEADER + two, (step, count), LAST]
    # With no more room than a network may have roads, one more than that, and one less.
    for room in (16383, 16384, 16385):
        yield room, [HEADER + two, (step, 16385), LAST]
    # The road that is too many names a place that is none, is cut, or has another length: that comes first.
    yield 16400, [HEADER + two, (step, 16384), road(2, 0, 1, 1, 1, 1) + LAST]
    yield 16400, [HEADER + two, (step, 16384), step[:-1]]
    yield 16400, [HEADER + two, (step, 16384), bytes([ROAD, 19]) + LAST]
    for room in range(5):
        yield room, [HEADER + two, (step, 3), LAST]
        yield room, [HEADER + two + LAST]
    yield 0, [HEADER + two + road(0, 2, 1, 1, 1, 1) + LAST]
    yield 1, [HEADER + two + step + road(2, 2, 1, 1, 1, 1) + LAST]
    yield 1, [HEADER + two + step + step[:21]]
    yield 1, [HEADER + two + step + step + b"\xff\xff"]
    # The numbers of places: the last one and the one after it, at the start, at the end and at both.
    for count in (0, 1, 2, 3, 255, 256, 257):
        for start, end in ((count - 1, 0), (0, count - 1), (count, 0), (0, count), (count, count), (65535, 65535)):
            if start >= 0 and end >= 0:
                yield 4, [HEADER, *repeated(place(b"P"), count), road(start, end, 1, 2, 3, 4) + LAST]
    # A road before its place, and the same road behind it.
    yield 4, [HEADER + one + step + place(b"B") + LAST]
    yield 4, [HEADER + one + place(b"B") + step + LAST]
    yield 4, [HEADER + step + two + LAST]
    yield 4, [HEADER + one + road(0, 0, 5, 6, 7, 8) + step + place(b"B") + LAST]
    # Marks at both ends of their range, each alone, and the bytes of a mark told apart.
    for mark in (0, 1, 255, 256, 65536, 16777216, 2**31, TOP - 1, TOP):
        yield 1, [HEADER + one + road(0, 0, mark, mark, mark, mark) + LAST]
    for k in range(4):
        yield 1, [HEADER + one + road(0, 0, *[TOP if i == k else 0 for i in range(4)]) + LAST]
    yield 1, [HEADER + two + road(0x0001, 0x0000, 0x01020304, 0x05060708, 0x090A0B0C, 0x0D0E0F10) + LAST]
    # Loops and parallel roads.
    yield 8, [HEADER + two + road(0, 0, 1, 1, 1, 1) + road(1, 1, 2, 2, 2, 2) + LAST]
    yield 8, [HEADER + two, (step, 5), road(0, 1, 1, 2, 3, 4) + step + LAST]


def end_cases():
    words = remark(b"nothing") + remark(b"")
    # No place: also behind remarks, and bytes behind the end record come first.
    for front in (b"", words):
        yield 2, [HEADER + front + LAST]
        for more in (b"\0", b"x", LAST, place(b"A"), place(b"A") + LAST):
            yield 2, [HEADER + front + LAST + more]
    yield 0, [HEADER + LAST]
    yield 0, [HEADER + place(b"A") + LAST]
    yield 2, [HEADER + place(b"A") + LAST + LAST]
    yield 2, [HEADER + place(b"A") + road(0, 0, 1, 2, 3, 4) + LAST + words]
    # No end record; then one of which a byte is missing, and one with a body.
    yield 2, [HEADER + place(b"A")]
    yield 2, [HEADER + place(b"A") + LAST[:1]]
    yield 2, [HEADER + place(b"A") + bytes([END, 1]) + b"x"]
    # What follows a fault is not looked at.
    yield 2, [HEADER + place(b"A") + b"\4\0" + place(b"B") + LAST]
    yield 2, [HEADER + place(b"A") + road(0, 0, 1, 2, 3, 4) + b"\1\0" + road(0, 0, 1, 2, 3, 4) + LAST]


class Dice:
    """Numbers that look random and are the same on every machine (splitmix64)."""

    def __init__(self, seed):
        self.state = seed

    def below(self, n):
        self.state = (self.state + 0x9E3779B97F4A7C15) % 2**64
        z = self.state
        z = (z ^ z >> 30) * 0xBF58476D1CE4E5B9 % 2**64
        z = (z ^ z >> 27) * 0x94D049BB133111EB % 2**64
        return (z ^ z >> 31) % n

    def bytes(self, size):
        return bytes(self.below(256) for _ in range(size))


def random_file(dice):
    """A well-formed file of a few records; its roads name places that stand before them."""
    parts, places = [HEADER], 0
    for _ in range(1 + dice.below(6)):
        what = dice.below(5)
        if what <= 1 or (what <= 3 and places == 0):
            parts.append(place(dice.bytes(1 + dice.below(4))))
            places += 1
        elif what <= 3:
            marks = [dice.below(2 ** (1 + dice.below(32))) for _ in range(4)]
            parts.append(road(dice.below(places), dice.below(places), *marks))
        else:
            parts.append(remark(dice.bytes(dice.below(6))))
    return b"".join(parts) + LAST


def damaged(dice, file):
    """The file with a byte changed, dropped or put in, or cut."""
    what, at = dice.below(4), dice.below(len(file))
    if what == 0:
        return file[:at] + bytes([file[at] ^ 1 + dice.below(255)]) + file[at + 1 :]
    if what == 1:
        return file[:at] + file[at + 1 :]
    if what == 2:
        return file[:at] + dice.bytes(1) + file[at:]
    return file[:at]


def random_cases():
    dice = Dice(2024)
    for i in range(300):
        file = random_file(dice)
        yield dice.below(5), [damaged(dice, file) if i % 2 else file]


def cases():
    for some in (yard_cases, head_cases, header_cases, name_cases, place_cases, road_cases, end_cases, random_cases):
        yield from some()


# ---- the two texts


def word(part):
    if isinstance(part, bytes):
        return part.hex()
    unit, times = part
    return "%s*%d" % (unit.hex(), times)


def script_line(room, parts):
    return " ".join([str(room)] + [word(part) for part in parts if part])


def file_of(parts):
    return b"".join(part if isinstance(part, bytes) else part[0] * part[1] for part in parts)


def script():
    return "".join(script_line(room, parts) + "\n" for room, parts in cases())


def expected():
    lines = []
    for room, parts in cases():
        data = file_of(parts)
        lines += [reading_line(data), loading_line(data, room)]
    return "".join(line + "\n" for line in lines)


def main():
    texts = {"script": lambda: script().encode(), "expected": lambda: expected().encode(), "yard": yard}
    if len(sys.argv) != 2 or sys.argv[1] not in texts:
        sys.exit("usage: roadfiles.py script | expected | yard")
    sys.stdout.buffer.write(texts[sys.argv[1]]())


if __name__ == "__main__":
    main()
