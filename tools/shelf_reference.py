"""The shelf of docs/SHELF.md, docs/REFUSALS.md and docs/DECISIONS.md, written a second time, in Python, from these pages alone.

Streams, joins and applies are those of tools/reference.py. A call is handed the shelf's bytes, or their beginning, as a bytearray, and
alters it in place. A refusal is raised; it has altered nothing but the image at cause 16."""
import reference as ref
from reference import Refused

JOIN, SHELF = 2, 4
MOST_ENTRIES = 64
MOST_RANGES = 512


class Store:
    """An image, and the test which images can be held."""

    def __init__(self, image, holds):
        self.image, self.holds = image, holds


class Row:
    """What the table tells of an entry. Its place is the sum of the lengths before it."""

    def __init__(self, length, origin, to):
        self.length, self.origin, self.to = length, origin, to


class Shelf:
    def __init__(self, base):
        if base and not ref.good_name(base):
            raise Refused(6, SHELF, 0)
        self.base, self.rows = base, []

    def place(self, i):
        """Where entry i begins."""
        return sum(row.length for row in self.rows[:i])

    def fill(self):
        return self.place(len(self.rows))

    def put(self, handed, raw):
        number, fill = len(self.rows), self.fill()
        fault = lambda cause, place=0: Refused(cause, SHELF, place, entry=number)
        if len(handed) < fill:
            raise fault(20)
        difference = ref.in_entry(number, ref.meaning, raw)
        if difference.origin != (self.rows[-1].to if self.rows else self.base):
            raise fault(12)
        if number == MOST_ENTRIES:
            raise fault(17)
        if difference.to in [self.base, *(row.to for row in self.rows)]:
            raise fault(19)
        entry = ref.canonical(difference)
        if len(handed) < fill + len(entry):
            raise fault(14, fill + len(entry))
        handed[fill : fill + len(entry)] = entry
        self.rows.append(Row(len(entry), difference.origin, difference.to))

    def require(self, handed, i, last):
        """Causes 18 and 20 of a call that names entry i and needs the entries up to last."""
        if last >= len(self.rows):
            raise Refused(18, SHELF, i, entry=i)
        if len(handed) < self.fill():
            raise Refused(20, SHELF, 0, entry=i)

    def entry(self, handed, i):
        """The stream of entry i, if it is canonical and its names are those of its row."""
        raw, row = bytes(handed[self.place(i) : self.place(i + 1)]), self.rows[i]
        difference = ref.in_entry(i, ref.meaning, raw)
        if ref.canonical(difference) != raw or (difference.origin, difference.to) != (row.origin, row.to):
            raise Refused(20, SHELF, 0, entry=i)
        return raw

    def join(self, handed, i, work):
        """The work buffer afterwards, and the joined stream's length."""
        self.require(handed, i, i + 1)
        earlier, later = self.entry(handed, i), self.entry(handed, i + 1)
        result = ref.joined(ref.meaning(earlier), ref.meaning(later))
        if len(result.ranges) > MOST_RANGES:
            raise Refused(13, JOIN, 0, entry=i)
        entry = ref.canonical(result)
        work, written = ref.in_entry(i, ref.into, work, entry, JOIN)
        moved = entry + handed[self.place(i + 2) : self.fill()]
        start, fill = self.place(i), self.place(i) + len(moved)
        if len(handed) < fill:
            raise Refused(14, SHELF, fill, entry=i)
        handed[start:fill] = moved
        self.rows[i : i + 2] = [Row(len(entry), result.origin, result.to)]
        return work, written

    def settle(self, handed, store):
        self.require(handed, 0, 0)
        entry = self.entry(handed, 0)
        numbers, store.image = ref.carried_out(ref.read(entry), store.image, store.holds)
        if numbers:
            raise Refused(*numbers)
        moved = handed[len(entry) : self.fill()]
        handed[: len(moved)] = moved
        self.base = self.rows.pop(0).to

    def list(self, handed, i, text):
        """The text buffer afterwards, and the text's length."""
        self.require(handed, i, i)
        return ref.in_entry(i, ref.listed, self.entry(handed, i), text)
