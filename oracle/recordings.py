#!/usr/bin/env python3
# Seeds of the stored list: 20012 and 20014.
"""Writes recordings without a refusal, for `oracle recordings`; `recorder.py` says the form.
They are of edition 1 of the skip rule, whose rule is the Rust's, and of one sender, as the Rust knows no other: probe 0.

  recordings.py                   the stored list, always the same
  recordings.py SEED COUNT        COUNT random recordings, some with wide vectors
  recordings.py SEED COUNT long   COUNT recordings of 65,534 to 140,000 times, B 65,535
"""
import random
import sys

from model import class_of
from questions import BITS, REALS, raw_length

SEED = 20012
STORED = 240       # of up to 38 calls
SHORT_SEED = 20014
SHORT = 280        # of up to 16 calls
LETTERS = "01xzhuwl-"
TOP_TIME = 2**64 - 1

# Recordings that a random one seldom is.
SPECIAL = """
start 2 4 1 4 / time 10 / v 0 1 / v 1 b1x / time 20 / v 1 b0001 / finish
start 0 2 / finish
start 0 65535 / finish
start 5 3 0 1 7 real absent / finish
start 0 2 / time 0 / finish
start 0 2 / times 1 3 / finish
start 1 2 1 / times 1 5 / finish
start 3 3 0 real 70 / times 7 13 / finish
start 1 5 1 / time 10 / v 0 1 / time 5 / v 0 0 / time 10 / v 0 x / time 11 / v 0 0 / finish
start 1 2 1 / time 10 / time 5 / time 11 / time 11 / time 3 / time 12 / v 0 1 / finish
start 1 2 2 / time 4 / time 3 / v 9 q / r 9 2 / v 0 101 / time 4 / v 0 11 / finish
start 2 2 1 absent / time 5 / time 4 / v 1 1 / r 1 1 01 / f 1 0000000000000000 / time 6 / v 0 1 / finish
start 1 2 2 / time 1 / v 0 1x / time 2 / v 0 11 / time 3 / v 0 11 / time 4 / v 0 11 / time 5 / v 0 01 / finish
start 1 2 1 / time 1 / r 0 2 01 / time 2 / time 3 / v 0 1 / time 4 / v 0 0 / finish
start 1 3 4 / time 1 / r 0 2 1111 / time 2 / r 0 1 55 / time 3 / r 0 0 0f / time 4 / r 0 0 ff / finish
start 1 2 real / time 1 / f 0 8000000000000000 / time 2 / f 0 0000000000000000 / time 3 / f 0 0000000000000000 / f 0 7ff0000000000001 / time 4 / f 0 7ff8000000000001 / finish
start 1 2 0 / time 1 / v 0 / v 0 1 / time 2 / v 0 q / time 3 / v 0 1 / v 0 1 / time 4 / finish
start 1 5 1 / time 0 / time 18446744073709551615 / v 0 1 / time 18446744073709551614 / v 0 0 / time 18446744073709551615 / v 0 0 / finish
start 1 2 1 / time 18446744073709551613 / v 0 / time 18446744073709551614 / v 0 b / time 18446744073709551615 / v 0 b1x / finish
start 2 2 3 1 / time 1 / v 0 1-x / v 1 h / time 2 / v 0 101 / time 3 / v 0 1x0 / v 1 1 / time 4 / v 1 0 / finish
start 1 65535 1 / times 0 7 / v 0 1 / times 8 15 / v 0 0 / v 0 x / finish
start 2 65535 2 1 / times 0 31 / v 0 1 / times 32 34 / v 0 x / v 1 1 / finish
start 2 5 1 real / times 0 20 / v 0 1 / times 21 33 / v 0 1 / f 1 3ff0000000000000 / finish
start 6 2 1 1 1 1 1 1 / time 1 / v 5 1 / v 0 0 / v 3 x / time 2 / v 4 1 / time 3 / v 5 1 / v 1 z / v 0 0 / finish
start 1 2 8 / time 1 / v 0 x / time 2 / v 0 1 / time 3 / v 0 b0b1 / time 4 / v 0 B00000001 / time 5 / v 0 Z1 / finish
"""


def special(line):
    """The short form: values as text, and the times of a range in one."""
    lines = []
    for call in line.split(" / "):
        word, *rest = call.split(" ")
        if word == "v":
            value = rest[1] if len(rest) > 1 else ""
            lines.append(f"vcd {rest[0]} {value.encode().hex()}")
        elif word == "r":
            lines.append(f"raw {rest[0]} {rest[1]} {rest[2] if len(rest) > 2 else ''}")
        elif word == "f":
            lines.append(f"real {rest[0]} {rest[1]}")
        elif word == "times":
            lines += [f"time {time}" for time in range(int(rest[0]), int(rest[1]) + 1)]
        else:
            lines.append(call)
    return lines


class Recording:
    """One random recording; `lines` grows call by call."""

    def __init__(self, rng, limit, kinds, last):
        self.random = rng
        self.kinds = kinds
        self.last = last      # time, None before any
        self.skip = False
        self.content = {}     # a signal's last content
        self.lines = [" ".join(map(str, ["start", len(kinds), limit, *kinds]))]

    # times

    def time(self, taken=False):
        choice = self.random.random()
        if self.last is None:
            time = self.random.choice((0, 1, self.random.randrange(1000),
                                       self.random.randrange(2**64), 2**64 - 40))
        elif taken or choice < 0.72:
            time = self.last + self.random.choice((1, 1, 2, 10, 1 << self.random.randrange(40)))
        elif choice < 0.84:
            time = self.last
        else:
            time = self.random.choice((0, self.last - 1, self.random.randrange(self.last + 1)))
        time = min(max(time, 0), TOP_TIME)
        self.lines.append(f"time {time}")
        if self.last is None or time > self.last:
            self.last, self.skip = time, False
        elif time < self.last:
            self.skip = True

    # changes

    def change(self):
        if self.skip and self.random.random() < 0.4:
            return self.unexamined()
        present = [signal for signal, kind in enumerate(self.kinds) if kind != "absent"]
        if not present:
            return self.unexamined() if self.skip else self.time()
        signal = self.random.choice(present)
        kind = self.kinds[signal]
        if kind == 0:
            self.vcd(signal, self.random.choice((b"", b"1", b"0", b"q", b"\xff")))
        elif kind == "real":
            self.real(signal)
        else:
            self.vector(signal, kind)

    def unexamined(self):
        """In a skip nothing is looked at: any signal, any value."""
        signal = self.random.choice((0, len(self.kinds), self.random.randrange(2**31)))
        value = self.random.randbytes(self.random.randrange(4))
        form = self.random.randrange(3)
        if form == 0:
            self.vcd(signal, value)
        elif form == 1:
            self.lines.append(f"raw {signal} {self.random.randrange(3)} {value.hex()}")
        else:
            self.lines.append(f"real {signal} {self.random.getrandbits(64):016x}")

    def vcd(self, signal, value):
        self.lines.append(f"vcd {signal} {value.hex()}")

    def real(self, signal):
        bits = self.content.get(signal)
        if bits is None or self.random.random() < 0.65:
            bits = self.random.choice(REALS[:6] + (self.random.choice(REALS),
                                                   self.random.getrandbits(64)))
        self.lines.append(f"real {signal} {bits:016x}")
        if not self.skip:
            self.content[signal] = bits

    def vector(self, signal, width):
        symbols = self.content.get(signal)
        if symbols is None or self.random.random() < 0.65:
            largest = self.random.choice((1, 1, 1, 3, 3, 8))
            symbols = [self.random.randint(0, largest) for _ in range(width)]
            if self.random.random() < 0.3:  # one that left extension makes
                fill = self.random.choice((0, 0, 2, 3))
                count = self.random.randint(1, width)
                symbols = [fill] * (width - count) + symbols[width - count:]
        if self.random.random() < 0.5:
            self.vcd(signal, self.text(symbols))
        else:
            self.raw(signal, symbols)
        if not self.skip:
            self.content[signal] = symbols

    def text(self, symbols):
        letters = "".join(LETTERS[symbol] for symbol in symbols)
        if self.random.random() < 0.2:
            letters = letters.upper()
        if len(symbols) == 1:
            return (self.random.choice(("", "", "b", "q", "10")) + letters).encode()
        if self.random.random() < 0.5:
            letters = self.shorter(letters)
        return (self.random.choice(("", "b", "b", "B", "b0b", "0b")) + letters).encode()

    def shorter(self, letters):
        """The same symbols with fewer letters, where left extension gives them back; by u, w and - it does too, but the Rust panics there."""
        first = letters[0].lower()
        if first not in "0xz":
            return letters
        count = len(letters) - len(letters.lower().lstrip(first))
        rest = letters[count:]
        enough = first == "0" and rest[:1] in ("0", "1")
        least = 0 if enough else 1
        return letters[0] * self.random.randint(least, count) + rest

    def raw(self, signal, symbols):
        own = class_of(symbols)
        claim = self.random.randint(own, 2) if self.random.random() < 0.5 else own
        bits = BITS[claim]
        number = 0
        for symbol in symbols:
            number = number << bits | symbol
        length = raw_length(len(symbols), claim)
        if self.random.random() < 0.2:  # unused top bits
            number |= self.random.getrandbits(8) << len(symbols) * bits
            number &= (1 << 8 * length) - 1
        value = number.to_bytes(length, "big")
        if self.random.random() < 0.15:  # bytes before the counted ones
            value = self.random.randbytes(self.random.randint(1, 2)) + value
        self.lines.append(f"raw {signal} {claim} {value.hex()}")

    # whole

    def fill(self, calls, share):
        """`calls` times and changes, the times being about `share` of them."""
        for _ in range(calls):
            if self.last is None or self.random.random() < share:
                self.time()
            else:
                self.change()
        self.lines.append("finish")


def small_kind(rng):
    return rng.choice((0, 1, 1, 1, "real", 2, 3, 4, rng.randint(2, 9), rng.randint(5, 17),
                       rng.randint(2, 40), rng.randint(2, 70), "absent"))


def any_kind(rng):
    if rng.random() < 0.002:
        return rng.choice((255, 256, 257, 1023, 4096, 65535, 65536))
    return rng.choice((small_kind(rng), small_kind(rng), rng.randint(2, 140)))


def random_recording(rng, kind, most):
    limit = rng.choice((2, 2, 2, 3, 3, 5, 65535))
    kinds = [kind(rng) for _ in range(rng.choice((1, 1, 2, 2, 3, 3, 4, 5, 6)))]
    recording = Recording(rng, limit, kinds, None)
    calls = 0 if rng.random() < 0.01 else rng.randint(6, most)
    recording.fill(calls, rng.choice((0.25, 0.4, 0.6)))
    return recording.lines


def long_recording(rng):
    """Real cuts at 65,535 times, changes close to the cuts and far apart."""
    kinds = [0, 1, 5, "real", 33, "absent"]
    recording = Recording(rng, 65_535, kinds, rng.randrange(3))
    recording.lines.append(f"time {recording.last}")
    count = rng.choice((65_534, 65_535, 65_536, 131_068, 131_069, 131_070, 140_000))
    for number in range(2, count + 1):
        recording.time(taken=number % 1000 != 0)
        near = number % 65_534 in (0, 1, 2, 3, 65_532, 65_533)
        if near or rng.random() < 0.002:
            for _ in range(rng.randint(1, 6)):
                recording.change()
    recording.lines.append("finish")
    return recording.lines


def stored():
    rng = random.Random(SEED)
    recordings = [special(line) for line in SPECIAL.strip().split("\n")]
    while len(recordings) < STORED:
        recordings.append(random_recording(rng, small_kind, 38))
    rng = random.Random(SHORT_SEED)
    return recordings + [random_recording(rng, small_kind, 16) for _ in range(SHORT)]


def main():
    if len(sys.argv) == 1:
        recordings = stored()
    else:
        rng = random.Random(int(sys.argv[1]))
        if sys.argv[3:] == ["long"]:
            recordings = (long_recording(rng) for _ in range(int(sys.argv[2])))
        else:
            recordings = (random_recording(rng, any_kind, 38) for _ in range(int(sys.argv[2])))
    for recording in recordings:
        sys.stdout.write("".join(line + "\n" for line in recording))


if __name__ == "__main__":
    main()
