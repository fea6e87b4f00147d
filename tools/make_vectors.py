#!/usr/bin/env python3
"""Makes the cases of crates/stream_cases: its stdin, and the stdout that it must write, by the reference of tools/reference.py.

Run from anywhere; the result is the same each time."""
import random
from pathlib import Path

import reference as ref
from reference import HEADER, LIMIT, data_record, name_record, size_record, stream, write, zero

HOME = Path(__file__).resolve().parent.parent / "crates" / "stream_cases"
FILL = 0xAA


def shown(raw):
    return raw.hex() if raw else "-"


class Cases:
    def __init__(self):
        self.asked, self.told = [], []

    def check(self, raw):
        self.asked.append(f"check {shown(raw)}")
        try:
            ref.read(raw)
            self.told.append("accepted")
        except ref.Refused as refused:
            self.told.append(" ".join(map(str, refused.numbers)))

    def list(self, raw, room):
        self.asked.append(f"list {room} {shown(raw)}")
        buffer = bytes([FILL]) * room
        try:
            buffer, written = ref.listed(raw, buffer)
            self.told.append(f"{written} {shown(buffer)}")
        except ref.Refused as refused:
            self.told.append(" ".join(map(str, refused.numbers)) + " " + shown(buffer))


    def join(self, first, second, room):
        self.asked.append(f"join {room} {shown(first)} {shown(second)}")
        buffer = bytes([FILL]) * room
        try:
            buffer, written = ref.join(first, second, buffer)
            self.told.append(f"{written} {shown(buffer)}")
        except ref.Refused as refused:
            self.told.append(" ".join(map(str, refused.numbers)) + " " + shown(buffer))

    def apply(self, store, holds, image, name, raw):
        self.asked.append(f"{store} {shown(image)} {shown(name)} {shown(raw)}")
        numbers, after = ref.apply(raw, name, image, holds)
        self.told.append(("done" if numbers is None else " ".join(map(str, numbers))) + " " + shown(after))

    def flat(self, room, image, name, raw):
        self.apply(f"flat {room}", ref.flat(room), image, name, raw)

    def paged(self, places, pages, image, name, raw):
        self.apply(f"paged {places} {pages}", ref.paged(places, pages), image, name, raw)

    def merge(self, first, second, merged):
        """A join that Ceph's tool made too: its output, made canonical, is what has to come out."""
        wanted = ref.canonical(ref.meaning(merged))
        room = len(wanted) + 3
        self.asked.append(f"join {room} {shown(first)} {shown(second)}")
        self.told.append(f"{len(wanted)} {shown(wanted + bytes([FILL]) * 3)}")


def edges(cases):
    cases.check(b"")
    cases.check(HEADER)
    for n in range(12):
        cases.check(HEADER[:n])
    cases.check(b"rbd diff v2\n" + stream(b"a", 0)[12:])
    cases.check(stream(b"a", 0))
    for length in (0, 1, 2, 2**64 - 9, 2**64 - 1):
        cases.check(stream(b"a", 10, zero(9, length)))
    for offset in (10, 2**64 - 1):
        cases.check(stream(b"a", 10, zero(offset, 1)))
    for n in (0, 1, 64, 65, 2**32 - 1):
        cases.check(HEADER + b"t" + n.to_bytes(4, "little") + b"x" * min(n, 70) + size_record(0) + b"e")
    for byte in (0, 32, 33, 126, 127, 255):
        cases.check(stream(bytes([97, byte]), 0))
        cases.check(stream(b"a", 0, origin=bytes([byte])))
    for size in (LIMIT, LIMIT + 1, 2**64 - 1):
        cases.check(stream(b"a", size))
    for count in (511, 512, 513, 514):
        cases.check(stream(b"a", 2000, *[zero(3 * i, 1 + i % 2) for i in range(count)]))
        cases.check(stream(b"a", 2000, *[zero(3 * i, 1) for i in range(count)], end=b"z"))
    cases.check(stream(b"a", 0) + b"e")
    cases.check(stream(b"a", 0) + bytes(3))
    cases.check(stream(b"b", 0, origin=b"b"))


def orders(cases):
    f, t, s = name_record("f", b"a"), name_record("t", b"b"), size_record(10)
    for parts in ([f, t, s], [s, t, f], [t, s], [s, t], [t], [s], [f], [], [t, t, s], [s, s, t], [f, f, t, s], [t, s, f]):
        for end in (b"e", b"ee", b"", zero(0, 1) + b"e", write(0, b"xy") + b"e", b"q", b"F"):
            cases.check(HEADER + b"".join(parts) + end)
    for late in (f, t, s):
        cases.check(HEADER + t + s + zero(0, 1) + late + b"e")
        cases.check(HEADER + f + t + s + zero(0, 1) + late[:1])
    for first, second in ((zero(0, 2), zero(1, 2)), (zero(0, 2), zero(2, 2)), (write(0, b"abc"), zero(2, 1)), (zero(4, 2), write(3, b"q"))):
        cases.check(HEADER + t + s + first + second + b"e")
        cases.check(HEADER + t + s + first + second[:18])


def cuts(cases, raw):
    for n in range(len(raw) + 1):
        cases.check(raw[:n])


def lists(cases):
    samples = [
        stream(b"a", 0),
        stream(b"b", 10, write(2, b"WXYZ"), write(6, b"12"), zero(9, 1), origin=b"a"),
        stream(b"c", 10, zero(4, 4), write(8, b"k"), zero(9, 1), origin=b"a"),
        stream(b"c", 10, zero(0, 2), zero(2, 3), zero(6, 1), write(7, b"a"), write(8, b"b")),
        stream(b"big", LIMIT, zero(0, 9), zero(10, 90), zero(100, LIMIT - 101), zero(LIMIT - 1, 1)),
        stream(b"d", 4000, *[data_record("w", 2 * i, 1, bytes([i % 256])) for i in range(512)]),
        stream(b"d", 4000, *[data_record("w", i, 1, bytes([i % 256])) for i in range(512)]),
    ]
    for raw in samples:
        whole = len(ref.text(ref.ranges(ref.read(raw))))
        for room in sorted({0, 1, 18, 19, whole - 1, whole, whole + 5}):
            cases.list(raw, room)
    cases.list(b"", 30)
    cases.list(stream(b"a", 10, zero(9, 2)), 30)
    first, second = write(2, b"WXYZ"), write(2, b"wxyz")
    cases.list(stream(b"b", 10, first), 40)
    cases.list(stream(b"b", 10, second), 40)


def joins(cases):
    a = stream(b"b", 10, write(2, b"WXYZ"), origin=b"a")
    b = stream(b"c", 10, write(4, b"q"), origin=b"b")
    for room in (0, 54, 55, 56):
        cases.join(a, b, room)
    small, grown, cut = stream(b"b", 4, origin=b"a"), stream(b"c", 10, write(8, b"k"), origin=b"b"), stream(b"d", 6, origin=b"c")
    for room in (85, 86, 90):
        cases.join(small, grown, room)
    both = lambda first, second: ref.canonical(ref.joined(ref.meaning(first), ref.meaning(second)))
    for first, second in ((both(small, grown), cut), (small, both(grown, cut))):
        cases.join(first, second, 60)
    # names that do not meet, a later stream without a from name, the same stream twice
    cases.join(b, a, 80)
    cases.join(a, stream(b"c", 10), 80)
    cases.join(a, a, 80)
    # a fault of the earlier stream comes first, then one of the later
    for first, second in ((b"", b""), (a, b""), (a[:-1], b), (a, b[:-1]), (a + b"e", b[:3]), (a, b + b"x")):
        cases.join(first, second, 80)
    # 512 and 513 canonical records, and many parts in few records
    every = lambda start, count, step: [zero(start + step * i, 1) for i in range(count)]
    for count in (1, 256, 257):
        first = stream(b"b", 5000, *every(0, 256, 4), origin=b"a")
        second = stream(b"c", 5000, *every(2, count, 4), origin=b"b")
        for room in (0, 20000):
            cases.join(first, second, room)
    cases.join(stream(b"b", 4000, write(0, bytes(range(256)) * 8), origin=b"a"), stream(b"c", 4000, *[write(4 * i, bytes([i % 256])) for i in range(512)], origin=b"b"), 2200)


def applies(cases):
    digits = b"0123456789"
    joined = ref.canonical(ref.joined(ref.meaning(stream(b"b", 4, origin=b"a")), ref.meaning(stream(b"c", 10, write(8, b"k"), origin=b"b"))))
    for room in (10, 12):
        cases.flat(room, digits, b"a", joined)
    cases.flat(10, digits, b"b", joined)
    cases.flat(10, digits, b"a", joined[:-1])
    cases.flat(10, digits, b"a", stream(b"b", 11, write(0, b"x"), origin=b"a"))
    cases.flat(10, digits, b"a", stream(b"b", 0, origin=b"a"))
    cases.flat(10, b"", b"", stream(b"b", 10, write(2, b"ab"), write(4, b"cd"), zero(7, 2)))
    cases.flat(5, b"12345", b"a", stream(b"b", LIMIT, origin=b"a"))
    # three places, two pages: the third page does not fit, and what came before stands
    two = bytes([1]) + bytes(255) + bytes([1]) + bytes(511)
    cases.paged(3, 2, two, b"a", stream(b"b", 768, write(0, b"N"), write(512, b"k"), origin=b"a"))
    cases.paged(3, 2, two, b"a", stream(b"b", 768, zero(0, 1), write(512, b"k"), origin=b"a"))
    cases.paged(3, 2, two, b"a", stream(b"b", 768, write(255, b"ab"), write(257, b"c"), write(512, b"k"), origin=b"a"))
    cases.paged(3, 2, two, b"a", stream(b"b", 769, origin=b"a"))
    cases.paged(3, 2, two, b"a", stream(b"b", 256, origin=b"a"))
    rng = random.Random(3)
    for _ in range(150):
        places, pages = rng.randint(0, 6), rng.randint(0, 4)
        filled = sorted(rng.sample(range(places), min(places, pages, rng.randint(0, 4))))
        image = bytearray(rng.randint(256 * filled[-1] + 1 if filled else 0, 256 * places))
        for page in filled:
            spot = min(256 * page + rng.randrange(256), len(image) - 1)
            image[spot] = rng.randint(1, 255)
        size = rng.choice([0, 1, 255, 256, 257, 600, 1000, 256 * places, 256 * places + 1])
        data, at = [], 0
        while len(data) < 8 and rng.random() < 0.85:
            at += rng.choice([0, 0, 1, 100, 256])
            length = rng.choice([1, 2, 100, 256, 300])
            if at + length > size:
                break
            data.append(zero(at, length) if rng.random() < 0.4 else write(at, bytes(length) if rng.random() < 0.2 else rng.randbytes(length)))
            at += length
        raw = stream(b"b", size, *data, origin=b"a")
        cases.paged(places, pages, bytes(image), b"a", raw)
        cases.flat(rng.choice([len(image), 1000, 2000]) if len(image) <= 1000 else len(image), bytes(image), b"a", raw)


def merges(cases):
    for line in (HOME / "data" / "merges.txt").read_text().splitlines():
        cases.merge(*map(bytes.fromhex, line.split()))


def damaged(cases, seed, count):
    """Streams with a byte changed, left out, doubled or put in."""
    rng = random.Random(seed)
    for _ in range(count):
        size = rng.choice([0, 1, 10, 1000, LIMIT])
        data, at = [], 0
        while at < size and len(data) < 6 and rng.random() < 0.8:
            at += rng.choice([0, 0, 1, 5])
            length = rng.randint(1, 4)
            if at + length > size:
                break
            data.append(rng.choice([zero(at, length), write(at, bytes(rng.randbytes(length)))]))
            at += length
        raw = bytearray(stream(rng.choice([b"a", b"snap-1"]), size, *data, origin=rng.choice([b"", b"base"])))
        for _ in range(rng.choice([0, 1, 1, 2])):
            place = rng.randrange(len(raw))
            kind = rng.randrange(4)
            if kind == 0:
                raw[place] = rng.choice([0, 1, 2, 101, 102, 115, 116, 119, 122, 255, rng.randrange(256)])
            elif kind == 1:
                del raw[place]
            elif kind == 2:
                raw.insert(place, raw[place])
            else:
                raw.insert(place, rng.randrange(256))
        cases.check(bytes(raw))
        cases.list(bytes(raw), rng.choice([0, 19, 60, 120]))


def main():
    cases = Cases()
    edges(cases)
    orders(cases)
    cuts(cases, stream(b"b", 10, write(2, b"WXYZ"), zero(7, 2), write(9, b"q"), origin=b"a"))
    lists(cases)
    joins(cases)
    applies(cases)
    merges(cases)
    damaged(cases, 1, 400)
    (HOME / "stdin").write_text("".join(line + "\n" for line in cases.asked))
    (HOME / "stdout").write_text("".join(line + "\n" for line in cases.told))
    print(f"{len(cases.asked)} cases")


main()
