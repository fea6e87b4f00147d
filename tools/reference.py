"""The rules of docs/FORMAT.md, docs/MEANING.md, docs/REFUSALS.md and docs/STORES.md, written a second time, in Python, from these pages alone.

It shares nothing with the proved code, so that the two can be held against each other. Differences are small here: a position's
state is looked at one by one."""

HEADER = b"rbd diff v1\n"
LIMIT = 1 << 40


class Refused(Exception):
    """A fault: cause, layer, place, record, entry."""

    def __init__(self, cause, layer, place, record=0, entry=0):
        super().__init__(cause, layer, place, record, entry)
        self.numbers = [cause, layer, place, record, entry]


def number(raw):
    return int.from_bytes(raw, "little")


def good_name(name):
    return 1 <= len(name) <= 64 and all(33 <= b <= 126 for b in name)


def read(stream):
    """The records of a stream in their order: (tag, value) for metadata, ('w', offset, bytes), ('z', offset, length)."""
    if stream[:12] != HEADER:
        raise Refused(1, 1, 0)
    records, seen, place, end, count, size = [], {}, 12, 0, 0, None
    cut = Refused(2, 1, len(stream))
    while True:
        if place >= len(stream):
            raise cut
        tag, rest = chr(stream[place]), stream[place:]
        at = lambda cause: Refused(cause, 1, place)
        if tag not in "ftswze":
            raise at(3)
        if tag in "fts":
            if count or tag in seen:
                raise at(4)
            if tag == "s":
                if len(rest) < 9:
                    raise cut
                size = number(rest[1:9])
                if size > LIMIT:
                    raise at(7)
                seen[tag], step = size, 9
                records.append((tag, size))
            else:
                if len(rest) < 5:
                    raise cut
                length = number(rest[1:5])
                if not 1 <= length <= 64:
                    raise at(6)
                if len(rest) < 5 + length:
                    raise cut
                name = rest[5 : 5 + length]
                if not good_name(name):
                    raise at(6)
                seen[tag], step = name, 5 + length
                records.append((tag, name))
        else:
            if "t" not in seen or "s" not in seen:
                raise at(5)
            if tag == "e":
                if place + 1 < len(stream):
                    raise Refused(11, 1, place + 1)
                return records
            if count == 512:
                raise at(10)
            if len(rest) < 17:
                raise cut
            offset, length = number(rest[1:9]), number(rest[9:17])
            if length == 0 or offset + length > size:
                raise at(8)
            if offset < end:
                raise at(9)
            step = 17
            if tag == "w":
                if len(rest) < 17 + length:
                    raise cut
                step += length
                records.append((tag, offset, rest[17 : 17 + length]))
            else:
                records.append((tag, offset, length))
            count, end = count + 1, offset + length
        place += step


def ranges(records):
    """The longest runs of one kind, rising: [offset, length, tag, payload]."""
    found = []
    for record in records:
        if record[0] not in "wz":
            continue
        tag, offset = record[0], record[1]
        payload = record[2] if tag == "w" else b""
        length = len(payload) if tag == "w" else record[2]
        if found and found[-1][2] == tag and found[-1][0] + found[-1][1] == offset:
            found[-1][1] += length
            found[-1][3] += payload
        else:
            found.append([offset, length, tag, payload])
    return found


def text(found):
    lines = ["offset length kind"]
    for offset, length, tag, _ in found:
        lines.append(f"{offset} {length} {'data' if tag == 'w' else 'zero'}")
    return "".join(line + "\n" for line in lines).encode()


def into(buffer, written, layer):
    """The buffer with the bytes at its front, or cause 14."""
    if len(buffer) < len(written):
        raise Refused(14, layer, len(written))
    return written + buffer[len(written) :], len(written)


class Difference:
    """Names, size and the ranges of a stream; kept positions are in none of them."""

    def __init__(self, origin, to, size, found):
        self.origin, self.to, self.size, self.ranges = origin, to, size, found

    def at(self, start, stop):
        """The state of the positions from start up to stop, where no range begins or ends in between: None, or a tag with its bytes."""
        for offset, length, tag, payload in self.ranges:
            if offset <= start and stop <= offset + length:
                return tag, payload[start - offset : stop - offset] if tag == "w" else b""
        return None


def metadata(records):
    return {record[0]: record[1] for record in records if record[0] in "fts"}


def meaning(stream):
    records = read(stream)
    value = metadata(records)
    return Difference(value.get("f", b""), value["t"], value["s"], ranges(records))


def canonical(d):
    data = [write(o, p) if tag == "w" else zero(o, n) for o, n, tag, p in d.ranges]
    return stream(d.to, d.size, *data, origin=d.origin)


def joined(earlier, later):
    """The join of two differences: the later state, unless it keeps; then zeroed past the earlier size, and the earlier state before."""
    edges = {0, later.size, min(earlier.size, later.size)}
    for d in (earlier, later):
        for offset, length, _, _ in d.ranges:
            edges |= {min(offset, later.size), min(offset + length, later.size)}
    records, edges = [], sorted(edges)
    for start, stop in zip(edges, edges[1:]):
        state = later.at(start, stop)
        if state is None:
            state = ("z", b"") if start >= earlier.size else earlier.at(start, stop)
        if state is not None:
            records.append((state[0], start, state[1] if state[0] == "w" else stop - start))
    return Difference(earlier.origin, later.to, later.size, ranges(records))


def in_entry(entry, call, *arguments):
    try:
        return call(*arguments)
    except Refused as refused:
        refused.numbers[4] = entry
        raise


def join(first, second, buffer):
    earlier = in_entry(0, meaning, first)
    later = in_entry(1, meaning, second)
    if later.origin != earlier.to:
        raise Refused(12, 2, 0)
    result = joined(earlier, later)
    if len(result.ranges) > 512:
        raise Refused(13, 2, 0)
    return into(buffer, canonical(result), 2)


def flat(room):
    """The set of images that a flat image over so much memory can hold."""
    return lambda image: len(image) <= min(room, LIMIT)


def paged(places, pages):
    """The set of images that a paged image can hold."""
    filled = lambda image: sum(any(image[i : i + 256]) for i in range(0, len(image), 256))
    return lambda image: len(image) <= 256 * places and filled(image) <= pages


def steps(records):
    """What an apply asks of the store behind the resize: (canonical record, offset, bytes), a w part by part."""
    parts = [record for record in records if record[0] == "w"]
    for number, (offset, length, tag, _) in enumerate(ranges(records), 1):
        if tag == "z":
            yield number, offset, bytes(length)
        else:
            for _, start, payload in parts:
                if offset <= start < offset + length:
                    yield number, start, payload


def apply(stream, name, image, holds):
    """The fault's numbers or None, and the image afterwards."""
    try:
        records = read(stream)
    except Refused as refused:
        return refused.numbers, image
    if metadata(records).get("f", b"") != name:
        return [12, 2, 0, 0, 0], image
    return carried_out(records, image, holds)


def carried_out(records, image, holds):
    """The fault's numbers or None, and the image with the records' size and steps: what came before a refusal stands.

    No case has a size of 16 MiB or more that its store can hold, so such a size is refused without making the image."""
    size = metadata(records)["s"]
    grown = image[:size] + bytes(max(0, size - len(image))) if size < 1 << 24 else None
    if grown is None or not holds(grown):
        return [16, 3, size, 0, 0], image
    image = grown
    for number, offset, payload in steps(records):
        changed = image[:offset] + payload + image[offset + len(payload) :]
        if not holds(changed):
            return [16, 3, offset, number, 0], image
        image = changed
    return None, image


def listed(stream, buffer):
    return into(buffer, text(ranges(read(stream))), 1)


# writing, for the makers of cases

def name_record(tag, name):
    return tag.encode() + len(name).to_bytes(4, "little") + name


def size_record(size):
    return b"s" + size.to_bytes(8, "little")


def data_record(tag, offset, length, payload=b""):
    return tag.encode() + offset.to_bytes(8, "little") + length.to_bytes(8, "little") + payload


def write(offset, payload):
    return data_record("w", offset, len(payload), payload)


def zero(offset, length):
    return data_record("z", offset, length)


def stream(to, size, *data, origin=b"", end=b"e"):
    start = name_record("f", origin) if origin else b""
    return HEADER + start + name_record("t", to) + size_record(size) + b"".join(data) + end
