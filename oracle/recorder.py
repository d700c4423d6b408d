#!/usr/bin/env python3
"""The recorder of document 01, with document 02's left extension, its second edition of the skip
rule and its two probes, from the written rules alone.

  recorder.py          answers the calls on standard input
  recorder.py sheet    repeats them, each answer below its call as a comment `#= ANSWER`
  recorder.py images   puts together the images of the parts that `oracle blocks` prints

One call a line, words parted by one space; bytes in hexadecimal, and an empty value
leaves its space at the line's end. Lines that are empty or begin with # say nothing.

  start S B KIND ..    a kind is a width (0: event), `real` or `absent`; one for each
                       record; KIND*COUNT for COUNT of them
  time N
  vcd SIGNAL HEX
  raw SIGNAL CLAIM HEX
  real SIGNAL HEX16    the 64 bits, highest digit first
  finish

Answers: started, taken, same, back, recorded, skipped, refused K, and for a finish
`finished TOTAL skipped COUNT` with a line `image HEX` after it; where a record names
probe 1, COUNT is that of probe 0, a space and that of probe 1.

What is lent, what is chosen for the starts that follow, who sends, and what another hand
alters between two calls, is said by lines that have no answer. Buffers keep their content;
the lent part begins at their front.

  lend TIMES WORK IMAGE           numbers of 64 bits, bytes, bytes
  edition N                       of the skip rule, until the next such line; 1 at first
  probes P ..                     of the records of a start, one for each KIND, until the next
                                  such line; all 0 at first. A start with another number of KINDs
                                  than of these says nothing
  sender N                        of the times and changes, until the next such line; 0 at first
  set FIELD N                     a field of the state (`State` below; false is 0)
  record SIGNAL KIND INDEX TOP [PROBE]
                                  the record of a signal; its probe is 0 where none is said
  poke BUFFER PLACE HEX           bytes of `work` or `image`
"""
import sys
from dataclasses import dataclass, replace

from model import Bad, class_of, leb128, pack, raw_symbols, vcd_symbols

EVENT, REAL, ABSENT = 0, "real", "absent"  # else a kind is its width
NUMBERS = {REAL: 0xFFFFFFFE, ABSENT: 0xFFFFFFFF}  # in an image; else the width
IMAGE_LIMIT = 1_073_741_824
COUNT_TOP = 2**32 - 1
EDITIONS = 1, 2  # of the skip rule
PROBES = 0, 1
SKIP = "skip", "skip_1"           # fields of the state, by probe
SKIPPED = "skipped", "skipped_1"
WHOLE = 65_535, 1 << 24, 1 << 24  # lent where no line says otherwise


class Refused(Exception):
    """Raised before anything is written, so all memory stays."""


def refuse(number, *conditions):
    if any(conditions):
        raise Refused(number)


def u32(number):
    return number.to_bytes(4, "little")


def too_wide(kind):
    return kind not in NUMBERS and kind > 65_536


@dataclass
class Record:
    kind: int | str
    index: int = 0
    top: int = 0
    probe: int = 0


@dataclass
class State:
    closed: bool = False
    limit: int = 0    # B
    signals: int = 0  # S
    held: int = 0     # times in the table
    work: int = 0     # used bytes
    image: int = 0    # used bytes
    blocks: int = 0   # N
    skip: bool = False
    skipped: int = 0
    edition: int = 0
    skip_1: bool = False
    skipped_1: int = 0


class Buffer:
    """`length` places are lent; those never written hold 0."""

    def __init__(self, store, length):
        self.store = store
        self.length = length

    def read(self, place, count):
        assert place + count <= self.length, "read past the lent part"
        self.grow(place + count)
        return self.store[place:place + count]

    def write(self, place, items):
        assert place + len(items) <= self.length, "write past the lent part"
        self.grow(place + len(items))
        self.store[place:place + len(items)] = items

    def grow(self, end):
        if len(self.store) < end:
            self.store.extend([0] * (end - len(self.store)))


def block_bytes(times, parts):
    """`parts` has for each signal (class, stream) or None."""
    offsets, data = [], b""
    for part in parts:
        offsets.append(0 if part is None else len(data) + 1)
        if part is not None:
            data += bytes([part[0]]) + part[1]
    size = 12 + 4 * len(offsets) + 8 * len(times) + len(data)
    return b"".join([u32(size), u32(len(times)), u32(len(offsets)), *map(u32, offsets),
                     *(time.to_bytes(8, "little") for time in times), data])


def head_bytes(limit, blocks, total, kinds):
    numbers = (NUMBERS.get(kind, kind) for kind in kinds)
    return b"".join(map(u32, (len(kinds), limit, blocks, total, *numbers)))


def decode(kind, form, *value):
    """Content as the stream has it after d, the class it raises the top to, and symbols."""
    vector = kind not in (EVENT, REAL, ABSENT)
    refuse(5, form == "vcd" and kind == REAL, form == "raw" and not vector,
           form == "real" and kind != REAL)
    if form == "real":
        return value[0].to_bytes(8, "little"), 0, None
    if kind == EVENT:
        refuse(6, len(value[0]) > 1)
        return b"", 0, None
    if form == "vcd" and too_wide(kind):  # 6 or not is all that shows: as far as that goes
        kind = min(kind, 65_537 + len(value[0]))
    try:
        symbols = vcd_symbols(kind, *value) if form == "vcd" else raw_symbols(kind, *value)
    except Bad:
        raise Refused(6) from None
    claim = value[0] if form == "raw" else 0
    return None, max(class_of(symbols), claim), symbols


def change_bytes(kind, delta, rest, symbols):
    if symbols is None:
        return leb128(delta) + rest
    if kind == 1:
        return leb128(delta * 16 + symbols[0])
    own = class_of(symbols)
    return leb128(delta * 4 + own) + pack(symbols, own)


class Recorder:
    """The state, the records and the lent buffers, and the calls on them."""

    def __init__(self):
        self.state = State(closed=True)
        self.edition = 1  # for the starts that follow
        self.probes = None  # for the starts that follow, one for each KIND; None: all 0
        self.sender = 0  # of the times and changes that follow
        self.records = []
        self.times = Buffer([], WHOLE[0])
        self.work = Buffer(bytearray(), WHOLE[1])
        self.image = Buffer(bytearray(), WHOLE[2])

    def lend(self, times, work, image):
        self.times.length, self.work.length, self.image.length = times, work, image

    # calls

    def start(self, signals, limit, kinds, probes=None):
        """The probes are all 0 where none are given."""
        probes = probes or [0] * len(kinds)
        refuse(1, self.edition not in EDITIONS,
               any(probe not in PROBES for probe in probes),
               not 2 <= limit <= 65_535,
               self.times.length < limit,
               signals > 65_536,
               signals != len(kinds),
               any(map(too_wide, kinds)),
               self.image.length < 16 + 4 * signals,
               self.image.length > IMAGE_LIMIT)
        self.state = State(limit=limit, signals=signals, image=16 + 4 * signals,
                           edition=self.edition)
        self.records = [Record(kind, probe=probe) for kind, probe in zip(kinds, probes)]
        self.image.write(0, head_bytes(limit, 0, self.state.image, kinds))
        return "started"

    def time(self, time):
        self.require_sound(self.sender)
        state = self.state
        skip = SKIP[self.sender]
        if state.held:
            last = self.last_time()
            if time == last:
                if state.edition == 2:
                    setattr(state, skip, False)
                return "same"
            if time < last:
                setattr(state, skip, True)
                return "back"
            if state.held == state.limit:
                self.cut()
        self.times.write(state.held, [time])
        state.held += 1
        setattr(state, skip, False)
        return "taken"

    def change(self, signal, form, *value):
        self.require_sound(self.sender)
        state = self.state
        refuse(3, state.held == 0)
        if getattr(state, SKIP[self.sender]):
            skipped = SKIPPED[self.sender]
            setattr(state, skipped, min(getattr(state, skipped) + 1, COUNT_TOP))
            return "skipped"
        refuse(4, signal >= state.signals or self.records[signal].kind == ABSENT)
        record = self.records[signal]
        refuse(18, record.probe != self.sender)
        rest, top, symbols = decode(record.kind, form, *value)
        refuse(10, record.index > state.held - 1, too_wide(record.kind))
        stream = change_bytes(record.kind, state.held - 1 - record.index, rest, symbols)
        refuse(7, state.work + 8 + len(stream) > self.work.length)
        self.work.write(state.work, u32(signal) + u32(len(stream)) + stream)
        state.work += 8 + len(stream)
        record.index = state.held - 1
        record.top = max(record.top, top)
        return "recorded"

    def finish(self):
        self.require_sound()
        if self.state.held:
            self.cut()
        self.state.closed = True
        of_1 = any(record.probe == 1 for record in self.records)
        counts = f"{self.state.skipped} {self.state.skipped_1}" if of_1 else self.state.skipped
        return f"finished {self.state.image} skipped {counts}"

    # parts of calls

    def require_sound(self, sender=None):
        """A finish has no sender."""
        state = self.state
        refuse(2, state.closed)
        refuse(18, sender is not None and sender not in PROBES)
        refuse(10, state.edition not in EDITIONS,
               not 2 <= state.limit <= 65_535,
               state.held > state.limit,
               self.times.length < state.limit,
               state.work > self.work.length,
               state.image > self.image.length,
               self.image.length > IMAGE_LIMIT,
               state.blocks > state.image,
               state.signals != len(self.records),
               state.work > 0 and state.held == 0)

    def last_time(self):
        return self.times.read(self.state.held - 1, 1)[0]

    def streams(self):
        """The work as one stream a signal."""
        work = bytes(self.work.read(0, self.state.work))
        streams = [[] for _ in self.records]
        place = 0
        while place < len(work):
            refuse(10, len(work) - place < 8)
            signal, size = (int.from_bytes(work[at:at + 4], "little") for at in (place, place + 4))
            place += 8
            refuse(10, signal >= self.state.signals, size > len(work) - place)
            streams[signal].append(work[place:place + size])
            place += size
        return [b"".join(pieces) for pieces in streams]

    def cut(self):
        state = self.state
        parts = [(record.top, stream) if stream else None
                 for record, stream in zip(self.records, self.streams())]
        block = block_bytes(self.times.read(0, state.held), parts)
        refuse(8, len(block) > self.image.length - state.image)
        self.image.write(state.image, block)
        state.image += len(block)
        state.blocks += 1
        self.image.write(8, u32(state.blocks) + u32(state.image))
        self.times.write(0, [self.last_time()])
        state.held, state.work = 1, 0
        for record in self.records:
            record.index = 0

    def image_left(self):
        return bytes(self.image.read(0, self.state.image))


# Lines.

def kind_of(word):
    return word if word in NUMBERS else int(word)


def records_of(words, probes):
    """Kinds and probes of the records; `KIND*COUNT` stands for COUNT such records."""
    kinds, named = [], []
    for word, probe in zip(words, probes or [0] * len(words), strict=True):
        kind, _, count = word.partition("*")
        kinds += [kind_of(kind)] * int(count or 1)
        named += [probe] * int(count or 1)
    return kinds, named


def miscounted(recorder, words):
    """A start with another number of kinds than of probes."""
    return words[0] == "start" and recorder.probes is not None and len(recorder.probes) != len(words) - 3


def alter(recorder, words):
    """Lines without an answer; True if this is one."""
    name, *rest = words
    if name == "lend":
        recorder.lend(*map(int, rest))
    elif name == "edition":
        recorder.edition = int(rest[0])
    elif name == "probes":
        recorder.probes = [int(word) for word in rest]
    elif name == "sender":
        recorder.sender = int(rest[0])
    elif name == "set":
        old = getattr(recorder.state, rest[0])
        setattr(recorder.state, rest[0], type(old)(int(rest[1])))
    elif name == "record":
        recorder.records[int(rest[0])] = Record(kind_of(rest[1]), *map(int, rest[2:]))
    elif name == "poke":
        getattr(recorder, rest[0]).write(int(rest[1]), bytes.fromhex(rest[2]))
    else:
        return False
    return True


def call(recorder, words):
    name, *rest = words
    if name == "start":
        return recorder.start(int(rest[0]), int(rest[1]), *records_of(rest[2:], recorder.probes))
    if name == "time":
        return recorder.time(int(rest[0]))
    if name == "vcd":
        return recorder.change(int(rest[0]), "vcd", bytes.fromhex(rest[1]))
    if name == "raw":
        return recorder.change(int(rest[0]), "raw", int(rest[1]), bytes.fromhex(rest[2]))
    if name == "real":
        return recorder.change(int(rest[0]), "real", int(rest[1], 16))
    assert words == ["finish"], words
    return recorder.finish()


def answers(recorder, line):
    """The lines that answer one line."""
    words = line.split(" ")
    if line == "" or line.startswith("#") or alter(recorder, words) or miscounted(recorder, words):
        return []
    before = replace(recorder.state), [replace(record) for record in recorder.records]
    try:
        answer = call(recorder, words)
    except Refused as refused:
        assert before == (recorder.state, recorder.records), "a refusal moved something"
        return [f"refused {refused}"]
    if not answer.startswith("finished"):
        return [answer]
    return [answer, f"image {recorder.image_left().hex()}"]


def assemble(lines):
    """Images of the parts that `oracle blocks` prints."""
    limit, kinds, blocks = None, [], []

    def image():
        written = [block_bytes(times, parts) for times, parts in blocks]
        total = 16 + 4 * len(kinds) + sum(map(len, written))
        return head_bytes(limit, len(blocks), total, kinds) + b"".join(written)

    for line in lines:
        name, *words = line.split()
        if name == "recording":
            if limit is not None:
                yield image()
            limit, *kinds = map(int, words)
            blocks = []
        elif name == "block":
            blocks.append(([int(word) for word in words], [None] * len(kinds)))
        else:
            signal, _, offset, _, meta, _, stream = words
            parts = blocks[-1][1]
            before = sum(1 + len(part[1]) for part in parts if part)
            assert int(offset) == before + 1, "an offset is not the place plus one"
            parts[int(signal)] = int(meta), bytes.fromhex(stream)
    if limit is not None:
        yield image()


def main():
    mode = sys.argv[1] if len(sys.argv) > 1 else "answers"
    if mode == "images":
        for image in assemble(sys.stdin):
            print("image", image.hex())
        return
    recorder = Recorder()
    for line in sys.stdin:
        line = line.rstrip("\n")
        if line.startswith("#= "):  # an answer of an earlier run
            continue
        said = answers(recorder, line)
        if mode == "sheet":
            print(line, *("#= " + answer for answer in said), sep="\n")
        else:
            print(*said, sep="\n", end="\n" if said else "")


if __name__ == "__main__":
    main()
