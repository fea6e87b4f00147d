#!/usr/bin/env python3
"""Makes crates/stream_cases/data/merges.txt: pairs of streams, and what Ceph's own tool joins them to.

Each line has the earlier stream, the later one and the output of `rbd merge-diff`, in hexadecimal. Needs the command `rbd` (Debian's
package ceph-common); it works offline, and its warning about a missing configuration does not matter. Pairs that come from a chain of three
are there in both bracketings. The pairs are the same each time."""
import random
import subprocess
import tempfile
from pathlib import Path

from random_records import rising_records
from reference import LIMIT, stream, write, zero

OUT = Path(__file__).resolve().parent.parent / "crates" / "stream_cases" / "data" / "merges.txt"


def merged(first, second):
    with tempfile.TemporaryDirectory() as folder:
        paths = [Path(folder) / name for name in ("first", "second", "out")]
        paths[0].write_bytes(first)
        paths[1].write_bytes(second)
        subprocess.run(["rbd", "merge-diff", *map(str, paths)], check=True, capture_output=True)
        return paths[2].read_bytes()


def records(rng, size, most):
    return rising_records(rng, size, most, [0, 0, 1, 2, 7, size // 3], [1, 2, 3, 5, 16], 0.4)


def difference(rng, origin, to, size, most=8):
    return stream(to, size, *records(rng, size, most), origin=origin)


def pairs():
    rng = random.Random(7)
    made = []
    # inside, overlapping, touching, around; the same range twice
    for first in (write(2, b"WXYZ"), zero(2, 4), write(0, b"abcdefghij"), write(4, b"q")):
        for second in (write(4, b"q"), write(2, b"wxyz"), zero(3, 2), write(1, b"ab"), write(5, b"cd"), zero(0, 10), write(6, b"12")):
            made.append((stream(b"b", 10, first, origin=b"a"), stream(b"c", 10, second, origin=b"b")))
    # shrink and regrow
    for small in (0, 1, 4, 9):
        made.append((stream(b"b", small, origin=b"a"), stream(b"c", 10, write(8, b"k"), origin=b"b")))
        made.append((stream(b"b", small, *([write(0, b"x")] if small else []), origin=b"a"), stream(b"c", 12, origin=b"b")))
    made.append((stream(b"b", 10, write(5, b"abcde"), origin=b"a"), stream(b"c", 6, origin=b"b")))
    # large sizes
    for size in (LIMIT, LIMIT - 5, 1 << 33):
        made.append((stream(b"b", 1 << 20, write(9, b"low"), origin=b"a"), stream(b"c", size, zero(size - 8, 8), origin=b"b")))
        earlier = stream(b"b", size, zero(0, 1 << 30), write(size - 4, b"high"), origin=b"a")
        made.append((earlier, stream(b"c", size, write(5, b"in"), write(size - 3, b"i"), origin=b"b")))
    # many small ones
    for _ in range(60):
        first, second = rng.choice([0, 3, 17, 40, 200]), rng.choice([1, 5, 17, 40, 200])
        made.append((difference(rng, rng.choice([b"", b"a"]), b"b", first), difference(rng, b"b", b"c", second)))
    return made


def chains():
    """Chains of three; each gives four pairs, two for either bracketing."""
    rng = random.Random(8)
    for _ in range(12):
        sizes = [rng.choice([4, 6, 10, 30, 64]) for _ in range(3)]
        a = difference(rng, b"a", b"b", sizes[0])
        b = difference(rng, b"b", b"c", sizes[1])
        c = difference(rng, b"c", b"d", sizes[2])
        ab, bc = merged(a, b), merged(b, c)
        yield from ((a, b), (ab, c), (b, c), (a, bc))


def main():
    lines = [" ".join(raw.hex() for raw in (first, second, merged(first, second))) for first, second in [*pairs(), *chains()]]
    OUT.parent.mkdir(parents=True, exist_ok=True)
    OUT.write_text("".join(line + "\n" for line in lines))
    print(f"{len(lines)} pairs")


main()
