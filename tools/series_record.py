"""A series of calls on a shelf as it is recorded: what crates/shelf_cases is asked, line by line, and what it must tell, by tools/shelf_reference.py.

After every call of a series without pokes, the image with the shelf's streams applied in order has to be the first image with all accepted
streams applied in order."""
from collections import Counter

import reference as ref
from reference import Refused
from shelf_reference import Shelf, Store

SHOWN = 200
ALL = 2**64 - 1


def word(raw):
    return raw.hex() if raw else "-"


def checksum(raw):
    total = 0xCBF29CE484222325
    for byte in raw:
        total = (total ^ byte) * 0x100000001B3 % 2**64
    return total


def shown(raw):
    return word(raw) if len(raw) <= SHOWN else f"{len(raw)}:{checksum(raw)}"


def counted(length):
    """What the shelf's bytes and the buffers hold before the first call."""
    return bytes(i % 251 for i in range(length))


class Sketch:
    """An image's size and its first bytes, for the promise: streams are applied record by record, with no store and no join."""

    FIRST = 4096

    def __init__(self, image):
        self.size, self.bytes = len(image), bytearray(image)

    def apply(self, raw):
        for tag, value, *rest in ref.read(raw):
            if tag == "s":
                self.size, self.bytes = value, self.bytes[:value]
                self.bytes += bytes(min(value, self.FIRST) - len(self.bytes))
            elif tag in "wz":
                end = value + (rest[0] if tag == "z" else len(rest[0]))
                for place in range(value, min(end, self.FIRST)):
                    self.bytes[place] = rest[0][place - value] if tag == "w" else 0


def sketched(image, streams):
    sketch = Sketch(image)
    for raw in streams:
        sketch.apply(raw)
    return sketch.size, sketch.bytes


class Book:
    """The lines of all series, what has to be told for each, and how often each call came to each end."""

    def __init__(self):
        self.asked, self.told, self.ends, self.series = [], [], Counter(), 0

    def note(self, asked, *told):
        self.asked.append(" ".join(map(str, asked)))
        self.told.append(" ".join(map(str, told)))


class Series:
    """A series in play, over the store ('flat', room) or ('paged', places, pages)."""

    def __init__(self, book, store, base, length, image=b""):
        self.book, self.bytes, self.last, self.poked = book, bytearray(counted(length)), [""] * 3, False
        self.store = Store(image, getattr(ref, store[0])(*store[1:]))
        self.first, self.accepted, self.shelf = image, [], None
        assert self.store.holds(image)
        self.step("make", [*store, word(base), length, word(image)], self.make, base)
        book.series += 1

    def __enter__(self):
        return self

    def __exit__(self, *_):
        self.book.note(["end"], "end")

    # the steps

    def make(self, base):
        self.shelf = Shelf(base)

    def put(self, raw, handed=ALL):
        if self.step("put", ["put", handed, word(raw)], self.hand, handed, self.shelf.put, raw):
            self.accepted.append(raw)
        self.promise()

    def join(self, i, room=None, handed=ALL):
        fill = self.shelf.fill()
        if self.buffered("join", self.shelf.join, i, room, handed):
            self.book.ends["join", "longer" if self.shelf.fill() > fill else "not longer"] += 1

    def settle(self, handed=ALL):
        self.step("settle", ["settle", handed], self.hand, handed, self.shelf.settle, self.store)
        self.promise()

    def list(self, i, room=None, handed=ALL):
        self.buffered("list", self.shelf.list, i, room, handed)

    def poke(self, place, raw):
        self.poked = True
        assert 0 <= place <= len(self.bytes) - len(raw)
        self.bytes[place : place + len(raw)] = raw
        self.book.note(["poke", place, word(raw)], "done", self.state())

    def play(self, *steps):
        """Steps as text, each the name of a call and its first numbers."""
        for step in steps:
            call, *numbers = step.split()
            getattr(self, call)(*map(int, numbers))

    # what they are made of

    def hand(self, handed, call, *arguments):
        """The answer of a call that is handed so many of the shelf's bytes."""
        part = self.bytes[:handed]
        answer = call(part, *arguments)
        self.bytes[:handed] = part
        return answer

    def buffered(self, name, call, i, room, handed):
        """A call with a buffer; where no room is given, exactly what is needed."""
        assert 0 <= i <= ALL
        room = self.needed(call, i) if room is None else room
        done = self.step(name, [name, handed, i, room], self.hand, handed, call, i, counted(room), buffer=counted(room))
        self.promise()
        return done

    def needed(self, call, i):
        """The length that a call without a buffer says it needs; any, where it is refused for something else."""
        try:
            call(self.bytes[:], i, b"")
        except Refused as refused:
            return refused.numbers[2] if refused.numbers[0] == 14 else 40

    def step(self, name, asked, act, *arguments, buffer=None):
        """Has the reference act, writes down the line and what has to be told for it, and says whether the step was taken."""
        try:
            answer, told, done = act(*arguments), "done", True
            if buffer is not None:
                buffer, told = answer
        except Refused as refused:
            told, done = " ".join(map(str, refused.numbers)), False
        self.book.ends[name, "done" if done else ended(told)] += 1
        self.book.note(asked, told, *([] if buffer is None else [shown(buffer)]), *([self.state()] if self.shelf else []))
        return done

    def state(self):
        shelf = self.shelf
        rows = [f"{shelf.place(i)} {row.length} {word(row.origin)} {word(row.to)}" for i, row in enumerate(shelf.rows)]
        table = " ".join([word(shelf.base), str(shelf.fill()), str(len(rows)), *rows])
        before, self.last = self.last, [table, shown(self.bytes), shown(self.store.image)]
        return " ".join("same" if part == old else part for part, old in zip(self.last, before))

    def promise(self):
        if not self.poked:
            shelf = self.shelf
            waiting = [bytes(self.bytes[shelf.place(i) : shelf.place(i + 1)]) for i in range(len(shelf.rows))]
            assert sketched(self.store.image, waiting) == sketched(self.first, self.accepted)


def ended(told):
    cause, layer, _, record, _ = map(int, told.split())
    return f"{cause} of layer {layer}" + (", record 0" if cause == 16 and not record else "")


def wanted():
    """Every end that a call can come to."""
    yield from (("make", "done"), ("make", "6 of layer 4"), ("join", "longer"), ("join", "not longer"), ("settle", "16 of layer 3, record 0"))
    own = {"put": "12/4 14/4 17/4 19/4 20/4", "join": "13/2 14/2 14/4 18/4 20/4", "settle": "16/3 18/4 20/4", "list": "14/1 18/4 20/4"}
    for call, causes in own.items():
        yield call, "done"
        for cause in [*(f"{cause}/1" for cause in range(1, 12)), *causes.split()]:
            yield call, cause.replace("/", " of layer ")
