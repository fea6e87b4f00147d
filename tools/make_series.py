#!/usr/bin/env python3
"""Makes the series of crates/shelf_cases: its stdin, and the stdout that it must write, by the reference of tools/shelf_reference.py.

Run from anywhere; the result is the same each time. crates/shelf_cases/src/main.rt tells what the lines are. How often each call came to each
end goes to stderr; an end that never came is an error."""
import random
import sys
from pathlib import Path

import reference as ref
from reference import HEADER, LIMIT, name_record, size_record, stream, write, zero
from series_record import ALL, Book, Series, counted, wanted

HOME = Path(__file__).resolve().parent.parent / "crates" / "shelf_cases"


# series that were thought of

def plain(origin, to, size=10):
    return stream(to, size, write(3, to[:1]), origin=origin)


def base_names(book):
    for name in (b"", b"!", b"~", b"a" * 64, b" ", b"\x7f", b"\0", b"\xff", b"a b", b"a" * 65, b"a" * 200, b"ab\n"):
        with Series(book, ("flat", 10), name, 140, b"0123") as s:
            if s.shelf:
                for origin, to in ((b"q", b"b"), (name, name or b"c"), (b"", b"b"), (name, b"b")):
                    s.put(plain(origin, to))
                s.play("list 0", "settle", "settle")


def names_again(book):
    """A name is free again once a join or a settle has let it go."""
    with Series(book, ("flat", 10), b"a", 220) as s:
        for origin, to in ((b"a", b"a"), (b"a", b"b"), (b"b", b"a"), (b"b", b"b"), (b"b", b"c"), (b"c", b"b"), (b"b", b"d"), (b"c", b"d")):
            s.put(plain(origin, to))
        s.join(0)
        for to in (b"a", b"c", b"b"):
            s.put(plain(b"d", to))
        s.settle()
        for to in (b"c", b"d", b"a"):
            s.put(plain(b"b", to))


def full(book, base):
    """64 entries: 12 before 17, 17 before 19, and room again after a join or a settle."""
    names = [base, *(f"n{i}".encode() for i in range(70))]
    with Series(book, ("flat", 80), base, 3700, b"0123456789") as s:
        for i in range(66):
            s.put(stream(names[i + 1], 70, write(i, b"x"), origin=names[i]))
        s.put(plain(names[64], names[65]), s.shelf.fill())
        s.put(plain(names[64], names[3]))
        s.put(plain(names[63], names[3]))
        s.put(b"rbd")
        s.play("list 63", "join 63", "list 64", "join 64", f"list {ALL}", f"join {ALL}", "join 62")
        s.put(plain(names[64], names[63]))
        s.put(plain(names[63], names[65]))
        s.play("settle", "settle")
        s.put(plain(names[63], names[65]))
        s.put(plain(names[65], names[1]))
        s.join(0, handed=s.shelf.fill() - 1)
        s.play("join 60", "list 60", "join 30", "list 30", "join 0", "list 0", "join 0", "list 0")


def dots(origin, to, start, count):
    """Many small records apart."""
    return stream(to, 4000, *[zero(start + 4 * i, 1) if i % 3 else write(start + 4 * i, b"q") for i in range(count)], origin=origin)


def crowded(book, first, count):
    """A join of a stream with so many small records, about 512 in all, and then one that covers them."""
    with Series(book, ("paged", 16, 3), b"a", 21000) as s:
        s.put(plain(b"a", b"b"))
        s.put(first)
        s.put(dots(b"c", b"d", 2, count))
        s.put(stream(b"e", 4000, zero(0, 1500), zero(1500, 1000), origin=b"d"))
        s.join(1, handed=s.shelf.fill())
        s.play("join 1 0", "join 1", "settle", "settle", "join 0", "join 1", "join 0", "settle")


def most_records(book):
    """512 records, and 513 where an entry was."""
    apart = lambda to, origin: stream(to, 3000, *[zero(5 * i, 1) for i in range(513)], origin=origin)
    with Series(book, ("flat", 3000), b"a", 9500) as s:
        s.put(apart(b"b", b"a"))
        s.put(stream(b"b", 3000, *[write(i, bytes([i % 256])) for i in range(512)], origin=b"a"))
        s.settle()
        s.put(stream(b"c", 3000, *[write(5 * i, bytes([i % 256])) for i in range(512)], origin=b"b"))
        s.put(plain(b"c", b"d"))
        s.list(0)
        s.poke(0, apart(b"c", b"b"))
        s.play("list 0", "join 0", "settle", "list 1")


def cuts(book):
    """Every call, handed the shelf's bytes cut at every place."""
    with Series(book, ("flat", 10), b"a", 230, b"01234") as s:
        s.put(plain(b"a", b"b"))
        s.put(stream(b"c", 12, zero(1, 4), zero(5, 1), origin=b"b"))
        s.put(plain(b"c", b"d"))
        fill, last = s.shelf.fill(), plain(b"d", b"e")
        for handed in range(fill):
            s.put(last, handed)
            s.list(handed % 4, 30, handed)
            s.join(handed % 3, 90, handed)
            s.settle(handed)
        for handed in range(fill, fill + len(last) + 1):
            s.put(last, handed)
        s.join(2, handed=s.shelf.fill())
        s.list(2, handed=s.shelf.fill())
        s.settle(s.shelf.fill())
        s.settle(s.shelf.fill())


def rooms(book, holes):
    """A join that needs more than its two entries had; buffers and shelf's bytes one byte too short, exactly long enough, and longer."""
    for more in (0, 1, 40):
        with Series(book, ("flat", 40), b"a", 500, b"0123456789") as s:
            s.put(plain(b"a", b"b"))
            s.put(stream(b"c", 30, write(0, b"The shelf is a row of bytes"), origin=b"b"))
            s.put(stream(b"d", 31, *[zero(2 * i, 1) for i in range(1, holes)], origin=b"c"))
            s.put(plain(b"d", b"e"))
            text, joined = s.needed(s.shelf.list, 1), s.needed(s.shelf.join, 1)
            fill = s.shelf.place(1) + joined + s.shelf.rows[3].length
            s.list(1, text - 1)
            s.list(1, text + more)
            s.join(1, joined - 1)
            s.join(1, joined, fill - 1)
            s.join(1, joined - 1, fill - 1)
            s.join(1, joined + more, fill + more)
            s.play("list 0", "list 1", "join 1", "join 0", "settle", "list 0")


def stops(book):
    """A paged image with too few pages, or a flat one with too little room: settles that stop, and a join that helps."""
    after = ["settle", "settle", "list 0", "join 0 3", "settle", "join 0", "settle", "settle", "settle"]
    for pages in range(4):
        for image in (b"", bytes(300), b"x" * 200 * min(pages, 1)):
            with Series(book, ("paged", 4, pages), b"a", 400, image) as s:
                s.put(stream(b"b", 1000, zero(3, 2), *[write(256 * i + 5, b"page") for i in range(4)], origin=b"a"))
                s.put(stream(b"c", 1024, *[zero(256 * i, 256) for i in range(pages, 4)], origin=b"b"))
                s.put(plain(b"c", b"d", size=700))
                s.play(*after)
    for room in (0, 5, 100):
        with Series(book, ("flat", room), b"", 256, b"image"[:room]) as s:
            s.put(stream(b"b", room + 1, write(room, b"+")))
            s.put(stream(b"c", room, *([write(room - 1, b"-")] if room else []), origin=b"b"))
            s.put(stream(b"d", 0, origin=b"c"))
            s.play(*after)


def large(book):
    with Series(book, ("paged", 2, 1), b"a", 400, b"small") as s:
        s.put(stream(b"b", LIMIT, zero(0, 3), zero(4, LIMIT - 5), write(LIMIT - 1, b"!"), origin=b"a"))
        s.put(stream(b"c", LIMIT - 1, write(LIMIT - 2, b"?"), origin=b"b"))
        s.put(stream(b"d", LIMIT + 1, origin=b"c"))
        s.put(stream(b"d", 300, origin=b"c"))
        s.play("list 0", "settle", "join 0", "list 0", "settle", "join 0", "list 0", "settle")


# entries that were altered

def places(raw):
    """Where the records of a stream begin, the last of them e."""
    found = [12]
    for tag, value, *rest in ref.read(raw):
        found.append(found[-1] + (9 if tag == "s" else 5 + len(value) if tag in "ft" else 17 if tag == "z" else 17 + len(rest[0])))
    return found


def sample(origin, to):
    return stream(to, 20, zero(2, 3), zero(8, 2), write(12, b"k"), origin=origin)


def edits(raw):
    """Edits of a sample that keep its length, each a place and the new bytes from there on: those that leave no stream, and others."""
    f, t, s, first, second, third, e = places(raw)
    eight = lambda value: value.to_bytes(8, "little")
    no_stream = [(0, b"R"), (e, b"z"), (first, b"q"), (e, b"t"), (t, b"f"), (s, b"e"), (t + 5, b" "), (f + 1, b"\0"), (t + 1, b"A"), (s + 8, b"\1")]
    no_stream += [(first + 9, eight(0)), (s + 1, eight(11)), (second + 1, eight(4)), (first, b"e"), (third + 9, eight(2)), (third + 9, eight(9))]
    not_canonical = [(t, raw[s:first] + raw[t:s]), (f, raw[t:s] + raw[f:t]), (second + 1, eight(5)), (f, raw[s:first] + raw[f:s])]
    other_names = [(t + 5, b"?"), (f + 5, b"?"), (f, name_record("t", b"1234567")), (f + 5, raw[t + 5 : t + 6])]
    other_change = [(e - 1, b"K"), (second + 1, eight(6)), (s + 1, eight(13)), (s + 1, eight(LIMIT)), (s + 1, eight(65))]
    return no_stream, not_canonical + other_names + other_change


def altered(book, edited):
    """Three entries, of which one is altered; a put does not look at it."""
    chain = [(b"a", b"b"), (b"b", b"c"), (b"c", b"d")]
    no_stream, other = edits(sample(*chain[edited]))
    for place, new in no_stream + other:
        with Series(book, ("flat", 64), b"a", 256, b"0123456789") as s:
            for i, names in enumerate(chain):
                s.put(sample(*names) if i == edited else plain(*names))
            s.poke(s.shelf.place(edited) + place, new)
            s.play("list 0", "list 1", "list 2", f"join {max(0, edited - 1)} 0", f"join {min(edited, 1)}")
            s.put(plain(b"d", b"e"))
            s.play("settle", "settle", "join 0", "list 0 25")


def unnamed(book):
    """An entry without a from name that is given one, or another to name, or the same; then one byte of the next entry is lost."""
    for new in (name_record("f", b"a") + name_record("t", b"b"), name_record("t", b"1234568"), name_record("t", b"1234567")):
        with Series(book, ("flat", 30), b"", 150) as s:
            s.put(stream(b"1234567", 20, zero(1, 2)))
            s.put(plain(b"1234567", b"b"))
            s.poke(12, new)
            s.play("list 0", "join 0", "settle")
            s.poke(s.shelf.fill() - 1 if s.shelf.rows else 3, bytes(3))
            s.play("list 0", "list 1", "settle")


def wrong_puts(book):
    """Streams with every fault, for an empty shelf and for one with entries."""
    with Series(book, ("flat", 30), b"a", 200) as s:
        for origin, to in ((b"a", b"b"), (b"b", b"c"), (b"c", b"d")):
            raw = sample(origin, to)
            for place, new in edits(raw)[0]:
                s.put(raw[:place] + new + raw[place + len(new) :])
            for end in range(0, len(raw), 5):
                s.put(raw[:end])
            s.put(raw + b"e")
            s.put(plain(origin, to))


# series by chance

NAMES = [b"a", b"b", b"c", b"d", b"e", b"snap-1", b"snap-2", b"~" * 64]

# gaps, lengths and greatest number of a stream's records: long ones, many short ones, a few, some in several pages
SHAPES = [([0, 1], [30, 50], 2), ([1, 2, 3], [1], 16), ([0, 0, 1, 3, 20], [1, 2, 5, 12], 5), ([0, 1, 100, 256], [1, 2, 40], 6)]


def records(rng, size, shapes):
    """Rising data records, touching ones among them."""
    gaps, lengths, most = rng.choice(shapes)
    found, at = [], rng.choice(gaps)
    while at < size and len(found) < most and rng.random() < 0.9:
        length = min(rng.choice(lengths), size - at)
        found.append(rng.choice([zero(at, length), write(at, bytes(length)), write(at, rng.randbytes(length)), write(at, rng.randbytes(length))]))
        at += length + rng.choice(gaps)
    return found


def some_stream(rng, shelf, sizes, shapes):
    """Mostly one that may be put."""
    origin = shelf.rows[-1].to if shelf.rows else shelf.base
    taken = [shelf.base, *(row.to for row in shelf.rows)]
    to = rng.choice([name for name in NAMES if name not in taken] or NAMES)
    if rng.random() < 0.1:
        origin, to = rng.choice([(b"", to), (rng.choice(NAMES), to), (origin, rng.choice(NAMES))])
    size = rng.choice(sizes)
    parts = [name_record("t", to), size_record(size)] + ([name_record("f", origin)] if origin else [])
    rng.shuffle(parts)
    raw = bytearray(HEADER + b"".join(parts + records(rng, size, shapes)) + b"e")
    if rng.random() < 0.07:
        raw[rng.randrange(len(raw))] = rng.choice([0, 1, 32, 101, 102, 122, rng.randrange(256)])
    if rng.random() < 0.03:
        del raw[rng.randrange(len(raw)) :]
    return bytes(raw)


def some_store(rng):
    """A small store, an image that it holds, and sizes of streams for it."""
    if rng.random() < 0.4:
        room = rng.choice([0, 3, 17, 60, 200, 300, 300])
        return ("flat", room), rng.randbytes(rng.randint(0, room)), [0, room // 2, room, room, room, room + 1, rng.randint(0, room)]
    count, pages = rng.randint(1, 4), rng.randint(0, 3)
    image = bytearray(rng.randint(0, 256 * count))
    for _ in range(pages):
        if image:
            image[rng.randrange(len(image))] = rng.randrange(256)
    return ("paged", count, pages), bytes(image), [0, 255, 257, 256 * count, 256 * count, 256 * count, 256 * count + 1, rng.randint(0, 256 * count)]


def some_handed(rng, s):
    """Mostly all bytes; else cut at the fill, at an entry, or anywhere."""
    shelf = s.shelf
    edges = [shelf.fill(), shelf.fill() + 1, shelf.fill() - 1, shelf.place(1), shelf.place(rng.randint(0, 4)), 0, len(s.bytes), len(s.bytes) + 9]
    return ALL if rng.random() < 0.75 else max(0, rng.choice([*edges, rng.randint(0, len(s.bytes))]))


def some_entry(rng, shelf):
    return rng.choice([0, ALL, len(shelf.rows), rng.randint(0, 70)]) if rng.random() < 0.12 else rng.randrange(max(1, len(shelf.rows) - 1))


def some_room(rng, s, call, i):
    needed = s.needed(call, i)
    return rng.choice([needed, needed, needed + 9, needed - 1, 0, rng.randrange(needed), 250])


def some_poke(rng, s):
    """A byte, mostly of an entry."""
    place = rng.randrange(s.shelf.fill() if s.shelf.rows and rng.random() < 0.8 else len(s.bytes))
    s.poke(place, bytes([rng.choice([0, 1, 2, 33, 97, 98, 101, 102, 116, 119, 122, s.bytes[place] ^ 1, rng.randrange(256)])]))


def walk(book, seed):
    rng = random.Random(seed)
    store, image, sizes = some_store(rng)
    pokes, shapes = rng.choice([0, 0, 0, 2]), rng.choice([SHAPES, SHAPES[:2]])
    with Series(book, store, rng.choice([b"", b"a", b"base"]), rng.choice([100, 200, 400, 800, 2000, 4000]), image) as s:
        for turn in range(rng.randint(8, 24)):
            i, handed = some_entry(rng, s.shelf), some_handed(rng, s)
            call = "put" if turn < 3 else rng.choices(["put", "join", "settle", "list", "poke"], [8, 4, 2, 2, pokes])[0]
            if call == "put":
                s.put(some_stream(rng, s.shelf, sizes, shapes), handed)
            elif call == "join":
                s.join(i, some_room(rng, s, s.shelf.join, i), handed)
            elif call == "settle":
                s.settle(handed)
            elif call == "list":
                s.list(i, some_room(rng, s, s.shelf.list, i), handed)
            else:
                some_poke(rng, s)


def main():
    book = Book()
    base_names(book)
    names_again(book)
    for base in (b"", b"base"):
        full(book, base)
    for count in (255, 256, 257):
        crowded(book, dots(b"b", b"c", 0, 256), count)
    for count in (383, 384):
        crowded(book, stream(b"c", 4000, write(0, counted(1600)), origin=b"b"), count)
    most_records(book)
    cuts(book)
    for holes in (4, 6, 9, 14):
        rooms(book, holes)
    stops(book)
    large(book)
    for edited in range(3):
        altered(book, edited)
    unnamed(book)
    wrong_puts(book)
    for seed in range(240):
        walk(book, seed)
    for (call, end), count in sorted(book.ends.items()):
        print(f"{call} {end}: {count}", file=sys.stderr)
    missing = [end for end in wanted() if not book.ends[end]]
    assert not missing, missing
    (HOME / "stdin").write_text("".join(line + "\n" for line in book.asked))
    (HOME / "stdout").write_text("".join(line + "\n" for line in book.told))
    print(f"{book.series} series, {len(book.asked) - 2 * book.series} steps")


main()
