#!/usr/bin/env python3
"""Hostile input: damaged and random streams for check, list and join through the calls for C, each answer held against the reference.

All six numbers and every byte of each buffer are compared with tools/reference.py, which was written from docs/ alone. Usage:

    (cd crates/lovgwarzh_c && rt lib) && python3 tools/hostile.py [HOW MANY] [SEED]

Prints how often each cause came, and the differences found; status 1 if there is one."""
import collections
import ctypes
import random
import subprocess
import sys
from pathlib import Path

import reference as ref
from random_records import rising_records
from reference import HEADER, LIMIT, data_record, name_record, size_record, stream, write, zero

HOME = Path(__file__).resolve().parent.parent
ARCHIVE = HOME / "crates" / "lovgwarzh_c" / "out" / "liblovgwarzh_c.a"
LIBRARY = HOME / "target" / "liblovgwarzh.so"
FILL = 0xA5


class Answer(ctypes.Structure):
    _fields_ = [(name, ctypes.c_uint64) for name in ("written", "cause", "layer", "place", "record", "entry")]

    def numbers(self):
        return [self.written, self.cause, self.layer, self.place, self.record, self.entry]


def load():
    LIBRARY.parent.mkdir(exist_ok=True)
    subprocess.run(["gcc", "-shared", "-o", LIBRARY, "-Wl,--whole-archive", ARCHIVE, "-Wl,--no-whole-archive"], check=True)
    calls = ctypes.CDLL(str(LIBRARY))
    for call in (calls.lovgwarzh_check, calls.lovgwarzh_list, calls.lovgwarzh_join):
        call.restype = Answer
    raw, size = ctypes.c_char_p, ctypes.c_size_t
    calls.lovgwarzh_check.argtypes = [raw, size]
    calls.lovgwarzh_list.argtypes = [raw, size, raw, size]
    calls.lovgwarzh_join.argtypes = [raw, size, raw, size, raw, size]
    return calls


NUMBERS = [0, 1, 2, 3, 9, 10, 63, 64, 65, 255, 256, 511, 512, LIMIT - 1, LIMIT, LIMIT + 1, 2**32 - 1, 2**63, 2**64 - 10, 2**64 - 1]
SIZES = [0, 1, 4, 10, 10, 10, 64, 1000, LIMIT]
NAMES = [b"a", b"b", b"c", b"snap-1", b"x" * 63, b"x" * 64]


class Maker:
    """Streams, mostly nearly right."""

    def __init__(self, seed):
        self.rng = random.Random(seed)

    def data(self, size, most):
        return rising_records(self.rng, size, most, [0, 0, 1, 2, 5], [1, 1, 2, 3, 8], 0.5)

    def good(self, origin=None, to=None):
        rng = self.rng
        size = rng.choice(SIZES)
        origin = rng.choice([b"", b"a", b"b"]) if origin is None else origin
        data = self.data(size, 6)
        if rng.random() < 0.003:
            size = 4000
            data = [zero(3 * i, 1 + rng.randint(0, 2)) for i in range(rng.choice([510, 511, 512, 513, 514]))]
        metas = [name_record("t", rng.choice(NAMES) if to is None else to), size_record(size)]
        if origin:
            metas.append(name_record("f", origin))
        if rng.random() < 0.3:
            rng.shuffle(metas)
        return HEADER + b"".join(metas + data) + b"e"

    def record(self):
        rng = self.rng
        kind = rng.randrange(5)
        if kind == 0:
            name = bytes(rng.choice([97, 33, 126, 32, 127, 0]) for _ in range(rng.choice([0, 1, 2, 64, 65])))
            return name_record(rng.choice("ft"), name)
        if kind == 1:
            return size_record(rng.choice(NUMBERS))
        if kind == 2:
            return data_record(rng.choice("wz"), rng.choice(NUMBERS), rng.choice(NUMBERS), rng.randbytes(rng.choice([0, 1, 3])))
        if kind == 3:
            return bytes([rng.randrange(256)])
        return b"e"

    def damaged(self, raw):
        rng, raw = self.rng, bytearray(raw)
        for _ in range(rng.choice([1, 1, 1, 2, 4])):
            place = rng.randrange(len(raw) + 1) if raw else 0
            kind = rng.randrange(7)
            if kind == 0 and place < len(raw):
                raw[place] = rng.choice([0, 1, 2, 10, 33, 101, 102, 115, 116, 119, 122, 126, 127, 255, rng.randrange(256)])
            elif kind == 1 and place < len(raw):
                del raw[place]
            elif kind == 2:
                raw[place:place] = rng.randbytes(rng.choice([1, 2]))
            elif kind == 3:
                del raw[place:]
            elif kind == 4:
                raw[place:place] = self.record()
            elif kind == 5 and place + 8 <= len(raw):
                raw[place : place + 8] = rng.choice(NUMBERS).to_bytes(8, "little")
            else:
                raw += rng.choice([b"e", b"\0", rng.randbytes(3)])
        return bytes(raw)

    def any(self, origin=None, to=None):
        rng = self.rng
        chance = rng.random()
        if chance < 0.3:
            return self.good(origin, to)
        if chance < 0.85:
            return self.damaged(self.good(origin, to))
        if chance < 0.95:
            return HEADER + b"".join(self.record() for _ in range(rng.randint(0, 6))) + rng.choice([b"e", b""])
        return rng.randbytes(rng.choice([0, 1, 11, 12, 13, 40]))

    def crowded(self):
        """Two streams whose join has about 512 canonical records."""
        count = self.rng.choice([255, 256, 257, 300])
        every = lambda start, n: [zero(start + 4 * i, 1) if self.rng.random() < 0.5 else write(start + 4 * i, b"q") for i in range(n)]
        return stream(b"b", 5000, *every(0, 256), origin=b"a"), stream(b"c", 5000, *every(2, count), origin=b"b")

    def room(self):
        return self.rng.choice([0, 1, 18, 19, 20, 27, 28, 40, 60, 86, 120, 300, 300, 10000])


class Trial:
    def __init__(self, seed):
        self.calls, self.make = load(), Maker(seed)
        self.causes, self.differences = collections.Counter(), 0

    def compare(self, what, inputs, answer, held, wanted, want_held):
        self.causes[wanted[1]] += 1
        if answer.numbers() != wanted or held != want_held:
            self.differences += 1
            if self.differences <= 5:
                print(f"{what} {[raw.hex() for raw in inputs]}: {answer.numbers()} {held.hex()}, wanted {wanted} {want_held.hex()}")

    def into(self, what, inputs, call, reference, room):
        """A call that writes: its answer, its buffer, and the byte behind the buffer, which is 0."""
        buffer = bytes([FILL]) * room
        held = ctypes.create_string_buffer(buffer, room + 1) if room else ctypes.create_string_buffer(1)
        flat = [part for raw in inputs for part in (raw, len(raw))]
        answer = call(*flat, held, room)
        try:
            wanted_held, written = reference(*inputs, buffer)
            wanted = [written, 0, 0, 0, 0, 0]
        except ref.Refused as refused:
            wanted_held, wanted = buffer, [0, *refused.numbers]
        self.compare(what, inputs, answer, held.raw[: room + 1], wanted, wanted_held + b"\0")

    def check(self):
        raw = self.make.any()
        answer = self.calls.lovgwarzh_check(raw, len(raw))
        try:
            ref.read(raw)
            wanted = [0] * 6
        except ref.Refused as refused:
            wanted = [0, *refused.numbers]
        self.compare("check", [raw], answer, b"", wanted, b"")

    def list(self):
        self.into("list", [self.make.any()], self.calls.lovgwarzh_list, ref.listed, self.make.room())

    def join(self):
        rng, make = self.make.rng, self.make
        if rng.random() < 0.003:
            earlier, later = self.make.crowded()
        else:
            to, origin = (b"b", b"b") if rng.random() < 0.9 else (rng.choice(NAMES), rng.choice([b"", *NAMES]))
            earlier = make.any(to=to) if rng.random() < 0.3 else make.good(to=to)
            later = make.any(origin=origin) if rng.random() < 0.3 else make.good(origin=origin)
        self.into("join", [earlier, later], self.calls.lovgwarzh_join, ref.join, make.room())

    def cuts(self):
        """Streams cut at every byte."""
        raw = self.make.good()
        for n in range(len(raw) + 1):
            answer = self.calls.lovgwarzh_check(raw[:n], n)
            try:
                ref.read(raw[:n])
                wanted = [0] * 6
            except ref.Refused as refused:
                wanted = [0, *refused.numbers]
            self.compare("check", [raw[:n]], answer, b"", wanted, b"")
        return len(raw) + 1


def main():
    count = int(sys.argv[1]) if len(sys.argv) > 1 else 1_000_000
    seed = int(sys.argv[2]) if len(sys.argv) > 2 else 1
    trial, done = Trial(seed), 0
    while done < count // 50:
        done += trial.cuts()
    for i in range(count - done):
        (trial.check, trial.list, trial.join)[i % 3]()
    print(f"seed {seed}: {sum(trial.causes.values())} inputs, {trial.differences} differences")
    print("accepted and causes: " + ", ".join(f"{cause}: {n}" for cause, n in sorted(trial.causes.items())))
    sys.exit(trial.differences != 0)


main()
