#!/usr/bin/env python3
# Seed of the stored list: 20011.
"""Writes questions for `oracle values`, one a line.

  questions.py               the stored list as the Rust is asked, always the same
  questions.py extended      the rest of it: short vectors that u, w or - extends, by document 02, at which
                             the Rust panics; model.py answers them
  questions.py SEED COUNT    COUNT random questions in which all kinds mix and
                             some vectors are wide, for longer comparisons; those that the Rust panics at left out
"""
import itertools
import random
import sys

from model import Bad, vcd_symbols, vcd_text

SEED = 20011
SYMBOLS = b"01xzhuwl-"
CAPITALS = b"XZHUWL"
DELTAS = (0, 1, 7, 8, 31, 32, 127, 128, 511, 512, 1023, 1024, 2047, 2048, 4095, 4096,
          16383, 16384, 65534)
BITS = (1, 2, 4)
REALS = (
    0x0000000000000000, 0x8000000000000000,  # zeros
    0x7FF0000000000000, 0xFFF0000000000000,  # infinities
    0x7FF8000000000000, 0xFFF8000000000000,  # quiet NaNs
    0x7FF8000000000001, 0xFFF80000DEADBEEF, 0x7FFFFFFFFFFFFFFF, 0xFFFFFFFFFFFFFFFF,
    0x7FF0000000000001, 0xFFF0000000000001,  # signalling NaNs
    0x7FF7FFFFFFFFFFFF, 0xFFF4000000000000, 0x7FF0123456789ABC, 0xFFF000000000FF00,
    0x0000000000000001, 0x8000000000000001,  # subnormals
    0x000FFFFFFFFFFFFF, 0x800FFFFFFFFFFFFF, 0x0000000100000000,
    0x0010000000000000, 0x8010000000000000,  # smallest normals
    0x7FEFFFFFFFFFFFFF, 0xFFEFFFFFFFFFFFFF,  # largest
    0x3FF0000000000000, 0xBFF0000000000000, 0x3FEFFFFFFFFFFFFF, 0x3FF0000000000001,
    0x400921FB54442D18, 0x4340000000000000, 0x0102030405060708, 0x8070605040302010,
)


def raw_length(width, claim):
    """Bytes that count; claim 3 does not exist and goes by 4 bits."""
    return -(-width * (BITS + (4,))[claim] // 8)


def extended(width, value):
    """Whether u, w or - extends a value: it is good, and shorter than its vector."""
    try:
        return len(vcd_text(width, value)) < width and vcd_symbols(width, value)[0] in (5, 6, 8)
    except Bad:
        return False


class Questions:
    def __init__(self, seed):
        self.random = random.Random(seed)
        self.lines = []
        self.extended = []
        self.seen = set()
        self.turn = 0

    def delta(self):
        """The deltas in turn."""
        self.turn += 1
        return DELTAS[self.turn % len(DELTAS)]

    def add(self, line, lines):
        if line not in self.seen:
            self.seen.add(line)
            lines.append(line)

    def vcd(self, width, value, delta=None):
        delta = self.delta() if delta is None else delta
        lines = self.extended if extended(width, bytes(value)) else self.lines
        self.add(f"v {width} {delta} {bytes(value).hex()}", lines)

    def raw(self, width, claim, value, delta=None):
        delta = self.delta() if delta is None else delta
        self.add(f"r {width} {delta} {claim} {bytes(value).hex()}", self.lines)

    def real(self, bits, delta=None):
        delta = self.delta() if delta is None else delta
        self.add(f"f {delta} {bits:016x}", self.lines)

    # random parts

    def symbols(self, count, largest=8):
        """Symbols up to `largest`, sometimes in capitals."""
        alphabet = SYMBOLS[:largest + 1]
        if self.random.random() < 0.3:
            alphabet += bytes(c for c in CAPITALS if bytes([c]).lower() in alphabet)
        return bytes(self.random.choice(alphabet) for _ in range(count))

    def largest(self):
        return self.random.choice((1, 1, 3, 3, 8))

    def bad_byte(self):
        while True:
            byte = self.random.randrange(256)
            if byte not in SYMBOLS + CAPITALS:
                return byte

    def place(self, width):
        return self.random.choice((0, width - 1, self.random.randrange(width)))

    def prefix(self):
        return self.random.choice((b"b", b"b", b"B", b"", b"0b", b"b0b", b"B0b"))

    def random_vcd(self, width, kind, delta=None):
        largest = self.largest()
        if kind in ("short", "extend"):
            first = self.random.choice(SYMBOLS + CAPITALS if kind == "short" else b"01xXzZ")
            length = self.random.randrange(max(width - 1, 1))
            value = bytes([first]) + self.symbols(length, largest)
        else:
            value = bytearray(self.symbols(width, 1 if kind == "lone" else largest))
            if kind == "lone":  # one symbol alone decides the class
                value[self.place(width)] = self.random.choice(SYMBOLS[2:] + CAPITALS)
            elif kind == "long":
                value += self.symbols(1, largest)
            elif kind == "start":
                value[0] = self.bad_byte()
            elif kind == "middle":
                value[width // 2] = self.bad_byte()
            elif kind == "end":
                value[-1] = self.bad_byte()
        self.vcd(width, self.prefix() + bytes(value), delta)

    def random_raw(self, width, claim, kind, delta=None):
        length = raw_length(width, claim)
        bits = (BITS + (4,))[claim]
        largest = self.random.choice((1, 3, 8) if claim > 1 else (1, 3)[:claim + 1])
        symbols = [self.random.randint(0, largest) for _ in range(width)]
        if kind == "lone":
            symbols = [symbol % 2 for symbol in symbols]
            symbols[self.place(width)] = largest
        elif kind == "above":  # only claim 2 has room for it
            symbols[self.place(width)] = self.random.randint(9, 15)
        number = 0
        for symbol in symbols:
            number = number << bits | symbol % (1 << bits)
        if kind in ("dirty", "above"):
            number |= self.random.getrandbits(8) << width * bits
            number &= (1 << 8 * length) - 1
        value = number.to_bytes(length, "big")
        if kind == "few":
            value = value[self.random.randint(1, length):]
        elif kind == "extra":
            value = self.random.randbytes(self.random.randint(1, 3)) + value
        self.raw(width, claim, value, delta)

    # the stored list

    def stored(self):
        # events
        for delta in DELTAS:
            for value in (b"", b"1", b"q", b"11", b"b1"):
                self.vcd(0, value, delta)
        for byte in b"0xZh-bB\x00\xff":
            self.vcd(0, bytes([byte]))

        # every byte: as last and only one, as last of two, as first of two
        for byte in range(256):
            self.vcd(1, bytes([byte]))
            self.vcd(2, bytes([ord("1"), byte]))
            self.vcd(3, bytes([byte, ord("1")]))

        # every width-1 symbol and some width-2 values at every delta
        for delta in DELTAS:
            for symbol in SYMBOLS:
                self.vcd(1, bytes([symbol]), delta)
            for value in (b"11", b"1x", b"1-"):
                self.vcd(2, value, delta)

        # all short values over a small alphabet
        for length in range(4):
            for value in itertools.product(b"01xZh-bBq", repeat=length):
                value = bytes(value)
                if length < 3 or value[0] in b"0b":
                    self.vcd(1, value)
                if length < 3 or value[0] in b"0bB":
                    self.vcd(2, value)
                self.vcd(3, value)

        # prefixes
        parts = ("", "b", "B", "0b", "b0b", "0", "bb", "B0b", "0B", "b0B", "0b0b", "b0b0b")
        for prefix in parts:
            for rest in ("", "0", "1", "x", "z", "h", "10", "X1", "-", "1zu", "0000", "1111111"):
                for width in (1, 2, 4, 7, 8):
                    self.vcd(width, (prefix + rest).encode())

        # left extension from each first symbol
        for width in (2, 3, 4, 5, 8, 9, 16, 17, 33):
            for first in SYMBOLS + CAPITALS:
                self.vcd(width, bytes([first]))
                self.vcd(width, b"b" + bytes([first]) + self.symbols(1, 3))

        # random values
        for width in range(1, 71):
            for kind in ("exact",) * 6 + ("lone",) * 3 + ("extend",) * 4 + (
                    "short", "long", "start", "middle", "end"):
                self.random_vcd(width, kind)

        # raw values: all of small widths
        for byte in range(16):
            for width, claim in ((1, 0), (1, 1), (1, 2), (2, 0), (2, 1), (3, 0)):
                self.raw(width, claim, [byte])
                self.raw(width, claim, [byte | self.random.randrange(1, 16) << 4])
        for byte in range(64):
            self.raw(3, 1, [byte])
        for byte in range(256):
            self.raw(2, 2, [byte])
        for claim in range(4):
            for delta in DELTAS:
                self.raw(1, claim, [1], delta)
                self.raw(2, claim, [1], delta)

        # random raw values
        for width in range(1, 41):
            for claim in range(4):
                kinds = ("few", "exact", "exact", "lone", "extra", "dirty", "above", "above")
                kinds = ("exact",) if claim == 3 else kinds if claim == 2 else kinds[:6]
                for kind in kinds:
                    self.random_raw(width, claim, kind)

        # reals
        for bits in REALS:
            for _ in range(3):
                self.real(bits)
        for delta in DELTAS:
            self.real(0x3FF8000000000000, delta)
        for _ in range(150):
            self.real(self.random.getrandbits(64))

    # a list for longer comparisons

    def mixed(self, count):
        while len(self.lines) < count:
            delta = self.random.choice(DELTAS + (self.random.randrange(65535),))
            width = self.random.choice((1, 2, 3, 4, self.random.randint(1, 20),
                                        self.random.randint(1, 140)))
            if self.random.random() < 0.0001:
                width = self.random.choice((255, 256, 1023, 4096, 65535, 65536))
            choice = self.random.randrange(16)
            if choice < 7:
                kind = self.random.choice(("exact", "exact", "lone", "extend", "extend", "short",
                                           "long", "start", "middle", "end"))
                self.random_vcd(width, kind, delta)
            elif choice < 14:
                claim = self.random.choice((0, 1, 1, 2, 2, 2, self.random.randrange(4)))
                kinds = ("few", "exact", "exact", "lone", "extra", "dirty", "above")
                kind = self.random.choice(kinds if claim == 2 else kinds[:6])
                self.random_raw(width, claim, kind, delta)
            elif choice < 15:
                self.vcd(0, self.random.randbytes(self.random.randrange(3)), delta)
            else:
                self.real(self.random.choice((self.random.getrandbits(64),
                                              self.random.choice(REALS))), delta)


def main():
    if sys.argv[1:] in ([], ["extended"]):
        questions = Questions(SEED)
        questions.stored()
    else:
        questions = Questions(int(sys.argv[1]))
        questions.mixed(int(sys.argv[2]))
    lines = questions.extended if sys.argv[1:] == ["extended"] else questions.lines
    sys.stdout.write("".join(line + "\n" for line in lines))


if __name__ == "__main__":
    main()
