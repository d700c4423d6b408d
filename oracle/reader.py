#!/usr/bin/env python3
"""The reader of document 01, with document 02's joins and its "none" before a first change, from the written rules
alone: opener, stream part, loading, combined table, cursor.

  reader.py            answers the questions on standard input
  reader.py loads      reads the lines `image HEX` among those of standard input, and prints what
                       `oracle loads` prints of their recordings
  reader.py blocks     the same, and prints what `oracle blocks` prints

One question a line, words parted by one space; an empty image leaves its space at the line's end,
and `-` stands for the image of the line before.

  open HEX                        yes, no
  table ROOM HEX                  refused K, `times N: T T ..`
  load SIGNAL INDEX BYTES HEX     refused K, `entries N class C: I I .. HEX` (the bytes of all entries, if any)
  stream BLOCK SIGNAL HEX         the stream, an empty line if there is none
  cursor SIGNAL TIME ROOM HEX     refused K, none, `entry N time T` and `event`, `class C SYMBOLS` or `real HEX16`

ROOM, INDEX and BYTES say how many numbers or bytes are lent.
"""
import sys
from dataclasses import dataclass, field

from model import BITS, LETTERS, class_of, length, pack
from recorder import ABSENT, EVENT, IMAGE_LIMIT, REAL, Refused, refuse, too_wide

KINDS = {0xFFFFFFFE: REAL, 0xFFFFFFFF: ABSENT}


@dataclass
class Change:
    index: int     # in its block
    content: object  # None, a tuple of symbols, or a real's eight bytes


@dataclass
class Part:
    offset: int
    top: int
    stream: bytes
    changes: list


@dataclass
class Block:
    times: list
    parts: list = field(default_factory=list)  # a Part or None for each signal


@dataclass
class Image:
    limit: int
    kinds: list
    blocks: list


class Bytes:
    """Bytes taken from the front; what is not there is no image."""

    def __init__(self, data):
        self.data = data
        self.at = 0

    def left(self):
        return len(self.data) - self.at

    def take(self, count):
        demand(count <= self.left())
        self.at += count
        return self.data[self.at - count:self.at]

    def number(self, size):
        return int.from_bytes(self.take(size), "little")

    def leb128(self):
        """Shortest form: the last byte is not 0, unless it is the only one."""
        value = shift = 0
        while True:
            byte = self.take(1)[0]
            value += byte % 128 << shift
            if byte < 128:
                demand(byte > 0 or shift == 0)
                return value
            shift += 7


def demand(*conditions):
    refuse(11, not all(conditions))


# The opener.

def read_symbols(data, width, own):
    number = int.from_bytes(data, "big")
    bits = BITS[own]
    symbols = tuple(number >> bits * place & (1 << bits) - 1 for place in reversed(range(width)))
    demand(number >> bits * width == 0, max(symbols) <= 8, class_of(symbols) == own)
    return symbols


def read_change(data, kind):
    """d and the content."""
    number = data.leb128()
    if kind == EVENT:
        return number, None
    if kind == REAL:
        return number, data.take(8)
    if kind == 1:
        demand(number % 16 <= 8)
        return number // 16, (number % 16,)
    own = number % 4
    demand(own <= 2)
    return number // 4, read_symbols(data.take(length(kind, own)), kind, own)


def classes(changes):
    return [class_of(change.content) if isinstance(change.content, tuple) else 0 for change in changes]


def read_part(offset, data, kind, times):
    demand(kind != ABSENT)
    data = Bytes(data)
    claim = data.number(1)
    stream = data.data[1:]
    changes, index = [], 0
    while data.left():
        delta, content = read_change(data, kind)
        index += delta
        demand(index < times)
        changes.append(Change(index, content))
    demand(changes)
    demand(max(classes(changes)) <= claim <= (0 if kind in (EVENT, REAL) else 2))
    return Part(offset, claim, stream, changes)


def read_parts(offsets, data, kinds, times):
    """By number, without gaps, the first at the start of the data."""
    places = [offset - 1 for offset in offsets if offset]
    ends = places[1:] + [len(data)]
    demand(places[:1] == [0] or (not places and not data))
    demand(all(place < end for place, end in zip(places, ends)))
    spans = iter(zip(places, ends))
    parts = []
    for signal, offset in enumerate(offsets):
        if not offset:
            parts.append(None)
            continue
        start, end = next(spans)
        parts.append(read_part(offset, data[start:end], kinds[signal], times))
    return parts


def read_block(data, image):
    """Each block by itself is one that a recording can leave first; it starts at or after the end before it."""
    size, times, signals = (data.number(4) for _ in range(3))
    demand(signals == len(image.kinds), 1 <= times <= image.limit)
    demand(12 + 4 * signals + 8 * times <= size, size - 12 <= data.left())
    offsets = [data.number(4) for _ in range(signals)]
    block = Block([data.number(8) for _ in range(times)])
    demand(all(a < b for a, b in zip(block.times, block.times[1:])))
    demand(not image.blocks or image.blocks[-1].times[-1] <= block.times[0])
    rest = data.take(size - 12 - 4 * signals - 8 * times)
    block.parts = read_parts(offsets, rest, image.kinds, times)
    return block


def read_image(image):
    """11 if these bytes are left by no list of calls and joined from no accepted images."""
    data = Bytes(image)
    signals, limit, blocks, total = (data.number(4) for _ in range(4))
    demand(total == len(image), total <= IMAGE_LIMIT, 2 <= limit <= 65_535, signals <= 65_536)
    numbers = [data.number(4) for _ in range(signals)]
    kinds = [KINDS.get(number, number) for number in numbers]
    demand(not any(map(too_wide, kinds)))
    read = Image(limit, kinds, [])
    for _ in range(blocks):
        read.blocks.append(read_block(data, read))
    demand(data.left() == 0)
    return read


def opens(image):
    try:
        read_image(image)
        return True
    except Refused:
        return False


# The stream of a signal in a block.

def stream(image, block, signal):
    if not opens(image):
        return b""
    read = read_image(image)
    if block >= len(read.blocks) or signal >= len(read.kinds):
        return b""
    part = read.blocks[block].parts[signal]
    return part.stream if part else b""


# Loading.

def combined(read):
    """The table, and for each block the place of its first time in it."""
    table, starts = [], []
    for block in read.blocks:
        repeated = table and block.times[0] == table[-1]
        starts.append(len(table) - 1 if repeated else len(table))
        table += block.times[1:] if repeated else block.times
    return table, starts


def entry_bytes(kind, klass, content):
    if kind in (EVENT, REAL):
        return content or b""
    own = class_of(content)
    if kind == 1:
        return bytes([own * 64 + content[0]])
    packed = pack(content, own).rjust(length(kind, klass), b"\0")
    if klass and kind % (8 // BITS[klass]) == 0:
        return bytes([own * 64]) + packed
    return bytes([packed[0] + own * 64]) + packed[1:]


def kept(read, signal):
    """The kept entries, each (index, content), and the class."""
    starts = combined(read)[1]
    entries, tops = [], []
    for block, start in zip(read.blocks, starts):
        part = block.parts[signal]
        if part is None:
            continue
        tops.append(part.top)
        for change in part.changes:
            repeats = entries and read.kinds[signal] != EVENT and entries[-1][1] == change.content
            if not repeats:
                entries.append((start + change.index, change.content))
    return entries, max(tops, default=2)


def known(read, signal):
    refuse(4, signal >= len(read.kinds) or read.kinds[signal] == ABSENT)


def table(image, room):
    times = combined(read_image(image))[0]
    refuse(9, len(times) > room)
    return times


def load(image, signal, index_room, byte_room):
    """The indices, the entries' bytes, the class."""
    read = read_image(image)
    known(read, signal)
    entries, klass = kept(read, signal)
    data = b"".join(entry_bytes(read.kinds[signal], klass, content) for _, content in entries)
    refuse(9, len(entries) > index_room, len(data) > byte_room)
    return [index for index, _ in entries], data, klass


def cursor(image, signal, time, room):
    """The number, time and content of the last entry at or before a time; None where there is none."""
    read = read_image(image)
    known(read, signal)
    kind = read.kinds[signal]
    refuse(9, kind != REAL and kind > room)
    times = combined(read)[0]
    found = None
    for number, (index, content) in enumerate(kept(read, signal)[0]):
        if times[index] <= time:
            found = number, times[index], content
    return found


def offsets(read, signal):
    """For each place of the table FIRST+COUNT of the entries at the last place up to it that has any, or `-`."""
    indices = [index for index, _ in kept(read, signal)[0]]
    for place in range(len(combined(read)[0])):
        last = max((index for index in indices if index <= place), default=None)
        yield "-" if last is None else f"{indices.index(last)}+{indices.count(last)}"


# Lines.

def line_of(head, numbers, data=b""):
    return " ".join([head, *map(str, numbers), *([data.hex()] if data else [])])


def shown_entries(indices, data, klass):
    return line_of(f"entries {len(indices)} class {klass}:", indices, data)


def shown_times(times):
    return line_of(f"times {len(times)}:", times)


def value_word(content):
    """An entry in one word: `event`, a real's 64 bits, or its own class and the symbols."""
    if content is None:
        return "event"
    if isinstance(content, bytes):
        return content[::-1].hex()
    return f"{class_of(content)}:" + "".join(LETTERS[symbol] for symbol in content)


def shown_content(content):
    word = value_word(content)
    if isinstance(content, bytes):
        return "real " + word
    return word if content is None else "class " + word.replace(":", " ")


def question(line, before):
    """The words but for the image, and the image; `before` is the one of the line before."""
    *words, digits = line.split(" ")
    return words, before if digits == "-" else bytes.fromhex(digits)


def answer(words, image):
    name, *numbers = words
    numbers = [int(number) for number in numbers]
    try:
        if name == "open":
            return "yes" if opens(image) else "no"
        if name == "table":
            return shown_times(table(image, *numbers))
        if name == "load":
            return shown_entries(*load(image, *numbers))
        if name == "stream":
            return stream(image, *numbers).hex()
        assert name == "cursor", name
        found = cursor(image, *numbers)
        return "none" if found is None else f"entry {found[0]} time {found[1]} {shown_content(found[2])}"
    except Refused as refused:
        return f"refused {refused}"


def loads(image):
    """What a recording's signals load as, absent ones left out."""
    read = read_image(image)
    room = len(image) * 20
    yield shown_times(table(image, room))
    for signal, kind in enumerate(read.kinds):
        if kind != ABSENT:
            yield f"signal {signal} " + shown_entries(*load(image, signal, room, 1 << 30))
            yield line_of(f"signal {signal} values:", (value_word(content) for _, content in kept(read, signal)[0]))
            yield line_of(f"signal {signal} offsets:", offsets(read, signal))


def blocks(image):
    """What a recording's blocks hold."""
    read = read_image(image)
    numbers = {name: number for number, name in KINDS.items()}
    yield line_of(f"recording {read.limit}", (numbers.get(kind, kind) for kind in read.kinds))
    for block in read.blocks:
        yield line_of("block", block.times)
        for signal, part in enumerate(block.parts):
            if part:
                yield f"signal {signal} offset {part.offset} meta {part.top} stream {part.stream.hex()}"


def main():
    mode = sys.argv[1] if len(sys.argv) > 1 else "answers"
    image = b""
    for line in sys.stdin:
        line = line.rstrip("\n")
        if mode in ("loads", "blocks"):
            if line.startswith("image "):
                print(*(loads if mode == "loads" else blocks)(bytes.fromhex(line[6:])), sep="\n")
            continue
        words, image = question(line, image)
        print(answer(words, image))


if __name__ == "__main__":
    main()
