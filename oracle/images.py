#!/usr/bin/env python3
# Seed: 40019.
"""Writes the questions of crates/images, and their answers; `reader.py` says the form.

  images.py questions          standard input of crates/images, always the same
  images.py answers            its standard output
  images.py damaged SEED N     N random damaged images, as questions `open HEX`

Tables and loads of the recordings of crates/recordings/stdin are answered by the Rust (loads.out), and what cursors
find there is held against the entries and values that the Rust shows: where it shows none, the cursor finds none. All
other answers are those of reader.py; the second opener (opener.py) must agree with it on every image.
"""
import functools
import pathlib
import random
import sys

from join import join
from opener import left_or_joined
from reader import ABSENT, EVENT, REAL, answer, combined, cursor, kept, opens, read_image, value_word
from recorder import IMAGE_LIMIT, block_bytes, head_bytes, u32

SEED = 40019
HERE = pathlib.Path(__file__).parent
WITH_CURSORS = 240  # of the recordings; the others are opened and loaded
WITH_ROOMS = range(7, 55)
NUMBERS, BYTES, IMAGE, QUESTIONS = 64, 2048, 1024, 425_984  # what crates/images has
TOP_TIME = 2**64 - 1
BENCH = bytes.fromhex(
    "02000000 04000000 01000000 43000000 01000000 04000000 2B000000 02000000 02000000 01000000 03000000"
    "0A00000000000000 1400000000000000 00 01 01 01 06 04 01")


class Sheet:
    """Questions with their answers."""

    def __init__(self):
        self.questions, self.answers = [], []
        self.image = None

    def ask(self, words, image, expected=None):
        words = words.split(" ")
        said = answer(words, image)
        assert expected is None or said == expected, (words, image.hex(), said, expected)
        assert len(image) <= IMAGE
        assert words[0] != "load" or not said.endswith("a5"), "the pattern in lent memory"
        if image != self.image:
            assert opens(image) == left_or_joined(image), image.hex()
        digits = "-" if image == self.image else image.hex()
        self.image = image
        self.questions.append(" ".join([*words, digits]))
        self.answers.append(said)


# Recordings that the Rust made and loaded.

def rust_loads():
    """For each recording its table and, by signal, the load, the values and the offsets."""
    for line in (HERE / "loads.out").read_text().splitlines():
        if line.startswith("times "):
            loaded = {"table": line}
            yield loaded
        else:
            signal, rest = line.split(" ", 2)[1:]
            name, _, words = rest.partition(":")
            if name in ("values", "offsets"):
                loaded[f"{name} {signal}"] = words.split()
            else:
                loaded[f"load {signal}"] = rest


def rust_shows(loaded, signal, time):
    """The number and the value of the last entry that the Rust shows at a time, or None. It is asked by a place of its
    table, that of the last time up to this one, and answers the first entry there and how many they are."""
    place = sum(int(at) <= time for at in loaded["table"].split(" ")[2:]) - 1
    offset = loaded[f"offsets {signal}"][place] if place >= 0 else "-"
    if offset == "-":
        return None
    first, count = map(int, offset.split("+"))
    return first + count - 1, loaded[f"values {signal}"][first + count - 1]


def room_for(kind):
    return 0 if kind in (EVENT, REAL) else kind


def ask_cursor(sheet, image, signal, time, room, loaded):
    found = cursor(image, signal, time, room)
    shown = None if found is None else (found[0], value_word(found[2]))
    assert shown == rust_shows(loaded, signal, time), (signal, time, image.hex(), shown)
    sheet.ask(f"cursor {signal} {time} {room}", image)


def asked_times(rng, read, signal):
    """Two times of the table or beside them, and the time before the signal's first entry; 0 without a table."""
    times = combined(read)[0]
    near = [time + step for time in times for step in (-1, 0, 1) if 0 <= time + step <= TOP_TIME]
    chosen = rng.sample(near, min(2, len(near))) or [0]
    before = [times[index] - 1 for index, _ in kept(read, signal)[0][:1] if times[index] > 0]
    return chosen + [time for time in before if time not in chosen]


def recordings(sheet, rng):
    lines = (HERE.parent / "crates/recordings/stdout").read_text().splitlines()
    images = [bytes.fromhex(line[6:]) for line in lines if line.startswith("image ")]
    loads = list(rust_loads())
    assert len(images) == len(loads)
    for number, (image, loaded) in enumerate(zip(images, loads)):
        read = read_image(image)
        sheet.ask("open", image, "yes")
        sheet.ask(f"table {NUMBERS}", image, loaded["table"])
        for signal, kind in enumerate(read.kinds):
            if kind == ABSENT:
                sheet.ask(f"load {signal} {NUMBERS} {BYTES}", image, "refused 4")
                continue
            sheet.ask(f"load {signal} {NUMBERS} {BYTES}", image, loaded[f"load {signal}"])
            for time in asked_times(rng, read, signal) if number < WITH_CURSORS else ():
                ask_cursor(sheet, image, signal, time, room_for(kind), loaded)
        pairs = [(block, signal) for block in range(len(read.blocks)) for signal in range(len(read.kinds))]
        for block, signal in rng.sample(pairs, min(3, len(pairs))):
            sheet.ask(f"stream {block} {signal}", image)
        if number in WITH_ROOMS:
            rooms(sheet, image)


# Lent memory exactly as long as needed, one shorter and one longer.

def rooms(sheet, image):
    read = read_image(image)
    count = len(combined(read)[0])
    for room in (count - 1, count, count + 1):
        if 0 <= room <= NUMBERS:
            sheet.ask(f"table {room}", image)
    for signal, kind in enumerate(read.kinds):
        if kind == ABSENT:
            continue
        entries, _ = kept(read, signal)
        words = answer(["load", signal, 1 << 20, 1 << 20], image).split(" ")
        size = len(words[-1]) // 2 if len(words) > 4 + len(entries) else 0
        for index, data in ((0, 0), (0, -1), (-1, 0), (1, 1)):
            if 0 <= len(entries) + index <= NUMBERS and 0 <= size + data <= BYTES:
                sheet.ask(f"load {signal} {len(entries) + index} {size + data}", image)
        for room in (room_for(kind) - 1, room_for(kind) + 1):
            if 0 <= room <= BYTES:
                sheet.ask(f"cursor {signal} 0 {room}", image)
    strangers(sheet, image)


def strangers(sheet, image):
    """Signals and blocks that are not there, with no room: 11 comes before 4, and 4 before 9."""
    signals, blocks = (int.from_bytes(image[at:at + 4], "little") for at in (0, 8))
    for signal in (signals % 2**32, 2**32 - 1):
        sheet.ask(f"load {signal} 0 0", image)
        sheet.ask(f"cursor {signal} 0 0", image)
        sheet.ask(f"stream 0 {signal}", image)
    sheet.ask(f"stream {blocks % 2**32} 0", image)


def bench(sheet):
    sheet.ask("open", BENCH, "yes")
    sheet.ask("table 2", BENCH, "times 2: 10 20")
    sheet.ask("load 0 1 1", BENCH, "entries 1 class 0: 0 01")
    sheet.ask("load 1 2 4", BENCH, "entries 2 class 1: 0 1 40060001")
    sheet.ask("stream 0 0", BENCH, "01")
    sheet.ask("stream 0 1", BENCH, "01060401")
    first, second = "entry 0 time 10 class 1 001x", "entry 1 time 20 class 0 0001"
    for time in (0, 9):
        for signal, width in ((0, 1), (1, 4)):
            sheet.ask(f"cursor {signal} {time} {width}", BENCH, "none")
            sheet.ask(f"cursor {signal} {time} {width - 1}", BENCH, "refused 9")
    for time in (10, 11, 19):
        sheet.ask(f"cursor 1 {time} 4", BENCH, first)
    for time in (20, 21, TOP_TIME):
        sheet.ask(f"cursor 1 {time} 4", BENCH, second)
    for time in (10, TOP_TIME):
        sheet.ask(f"cursor 0 {time} 1", BENCH, "entry 0 time 10 class 0 1")
    sheet.ask("cursor 1 20 3", BENCH, "refused 9")
    sheet.ask("cursor 0 20 0", BENCH, "refused 9")
    rooms(sheet, BENCH)
    for size in (0, 1, 15, 16, 24, len(BENCH) - 1):
        sheet.ask("open", BENCH[:size], "no")
    longer = BENCH + b"\0"
    sheet.ask("open", longer, "no")
    sheet.ask("table 2", longer, "refused 11")
    sheet.ask("load 1 2 4", longer, "refused 11")
    sheet.ask("cursor 1 20 4", longer, "refused 11")
    sheet.ask("stream 0 1", longer, "")
    strangers(sheet, longer)


def around(sheet, image):
    """The cursor at every time, just before and just after."""
    read = read_image(image)
    times = combined(read)[0] or [0]
    near = sorted({time + step for time in times for step in (-1, 0, 1) if 0 <= time + step <= TOP_TIME})
    for signal, kind in enumerate(read.kinds):
        if kind != ABSENT and room_for(kind) <= BYTES:
            for time in near:
                sheet.ask(f"cursor {signal} {time} {room_for(kind)}", image)


# Images made by hand. Each rule is broken alone, next to an image that keeps it.

def made(limit, kinds, blocks=(), count=None):
    """A block: times, and for each signal a class and a stream in hexadecimal, or None."""
    written = b"".join(
        block_bytes(times, [part and (part[0], bytes.fromhex(part[1])) for part in parts]) for times, parts in blocks)
    total = 16 + 4 * len(kinds) + len(written)
    return head_bytes(limit, len(blocks) if count is None else count, total, kinds) + written


def one(kind, klass, stream, times=(1, 2)):
    """One signal, one block."""
    return made(9, [kind], [(times, [(klass, stream)])])


def bare(*tables, limit=2):
    """Times alone."""
    return made(limit, [], [(times, []) for times in tables])


def two(kind, *parts):
    """One signal, blocks of two times."""
    return made(2, [kind], [((at, at + 1), [part]) for at, part in enumerate(parts, 1)])


def offsets(first, second, data="00 01 00 02"):
    """Two events with these offsets."""
    data = bytes.fromhex(data)
    block = b"".join(map(u32, (36 + len(data), 2, 2, first, second)))
    block += (1).to_bytes(8, "little") + (2).to_bytes(8, "little") + data
    return head_bytes(9, 1, 24 + len(block), [0, 0]) + block


def stranger(kinds, signals):
    """A block for another number of signals, sound but for that."""
    block = block_bytes((1, 2), [None] * signals)
    return head_bytes(9, 1, 16 + 4 * len(kinds) + len(block), kinds) + block


def edited(image, place, number):
    return image[:place] + u32(number) + image[place + 4:]


ONE = "000000000000f03f"  # the real 1.0
ACCEPTED = [
    made(2, []), made(65_535, []), made(2, [65_536, REAL, ABSENT, 0, 1]), bare([1]), bare([0]), bare([1, 2]),
    bare([1, 2], [2, 3]), bare([1, 2], [2, TOP_TIME]), bare([1, 2], limit=3), bare([1, 2, 3], [3, 4], limit=3),
    # short blocks, of one time, with and without a gap before them
    bare([1, 2], [2]), bare([1], [1, 2]), bare([1, 2], [3, 4]), bare([1, 2], [2, 3], limit=3), bare([5], [5], [5]),
    bare([1], [2], [3]), bare([1], [1, 2], [2], [2, 3], [4]), bare([0], [0]), bare([TOP_TIME], [TOP_TIME]),
    bare([0, TOP_TIME], [TOP_TIME]), bare([1, 2], [2], [2, 3], limit=65_535),
    one(1, 0, "00"), one(1, 0, "11"), one(1, 1, "12"), one(1, 2, "02"), one(1, 2, "08"), one(1, 2, "01"),
    one(1, 1, "01"), one(1, 0, "8101", range(9)), one(1, 0, "00 00 11 00"), one(2, 0, "00 03"),
    one(2, 1, "01 06"), one(2, 2, "02 48"), one(2, 2, "00 03"), one(4, 1, "04 0f 01 e4"),
    one(3, 2, "02 0182 00 05 05 18"), one(8, 0, "00 ff"), one(0, 0, "00"), one(0, 0, "00 01 00 00"),
    one(REAL, 0, "00 010000000000f07f 01 0000000000000080 00 0000000000000000"), two(1, (2, "00"), (2, "10")),
    two(1, (2, "00"), None, (2, "10")), two(1, (0, "00"), (1, "12")),
    two(2, (1, "01 06"), (1, "04 03"), (2, "04 03"), (2, "04 01")), two(0, (0, "00 01"), (0, "01 00")),
    two(0, None, (0, "01")), offsets(1, 3, "00 01 00 01"), offsets(1, 0, "00 01"), offsets(0, 1, "00 01"),
    offsets(0, 0, ""),
    # a class byte below that of a block before
    two(1, (2, "00"), (1, "10")), two(1, (2, "00"), None, (1, "10")), two(2, (1, "01 06"), (0, "04 03")),
    two(1, (1, "02"), (0, "11"), (2, "18"), (0, "10")),
    # changes at index 0 of a later block
    two(0, (0, "00"), (0, "00")), two(1, None, (0, "01")), two(1, None, (0, "11 00"), (0, "01 10")),
    two(0, (0, "01 00"), (0, "00 00 01")), two(REAL, (0, "01" + ONE), (0, "00" + ONE + "01" + ONE)),
]
REFUSED = [
    b"", made(2, [])[:15], made(2, []) + b"\0", edited(made(2, []), 12, 15), edited(made(2, []), 12, 17),
    made(1, []), made(0, []), made(65_536, []), made(2, [65_537]), made(2, [0xFFFFFFFD]),
    edited(made(2, []), 0, 1), edited(made(2, []), 0, 65_537), edited(made(2, []), 0, 0x40000000),
    edited(made(2, [1]), 0, 0), made(2, [], count=1), made(2, [], count=2**32 - 1),
    # tables
    bare([]), bare([], [1]), bare([1, 2], []), bare([1], [], [2]), bare([1, 2], [1, 2]), bare([1, 2], [1]),
    bare([2], [1]), bare([5], [5], [4]), bare([1, 2], [3], [2, 3]), bare([TOP_TIME], [0]), bare([1, 2], [2, 2]),
    bare([1, 2], [2, 1]), bare([2, 1]), bare([1, 1]), bare([1, 2, 3]), bare([1, 2], [2, 3, 4], [4, 5]),
    bare([1], [2, 3, 4]), bare([TOP_TIME, 0]), made(2, [], [((1, 2), [])], count=0),
    made(2, [], [((1, 2), [])], count=2), made(2, [], [((1,), []), ((1,), [])], count=1),
    # a block's three numbers
    edited(bare([1, 2]), 16, 27), edited(bare([1, 2]), 16, 29), edited(bare([1, 2]), 16, 0),
    edited(bare([1, 2]), 16, 2**32 - 1), edited(bare([1, 2]), 20, 1), edited(bare([1, 2], limit=9), 20, 3),
    edited(bare([1, 2]), 20, 0x20000002), edited(bare([1, 2]), 24, 1), edited(bare([1, 2]), 24, 0x40000000),
    edited(one(1, 0, "00"), 28, 0), stranger([], 1), stranger([1], 0), stranger([1, 1], 1), stranger([1], 2),
    # class bytes
    one(1, 0, "02"), one(1, 1, "08"), one(1, 3, "08"), one(1, 255, "00"), one(2, 0, "01 06"),
    one(2, 1, "02 48"), one(2, 3, "00 03"), one(0, 1, "00"), one(REAL, 1, "00 0000000000000000"),
    one(0, 2, "00"), two(1, (0, "00"), (0, "12")), two(1, (2, "08"), (1, "18")), two(0, (0, "00"), (1, "00")),
    # streams
    one(1, 0, ""), one(0, 0, ""), one(REAL, 0, ""), one(ABSENT, 0, "00"), one(ABSENT, 2, "00"),
    one(ABSENT, 0, ""), one(0, 0, "02"), one(0, 0, "01 01"), one(1, 0, "21"), one(1, 0, "8101", range(8)),
    one(2, 0, "08 03"), one(0, 0, "80"), one(0, 0, "8000"), one(0, 0, "8100"), one(0, 0, "818000"),
    one(1, 0, "9100"), one(2, 0, "8400 03"), one(0, 0, "ffffffffffffffffff01"),
    one(0, 0, "80808080808080808002"), one(0, 0, "8180808010"), one(1, 0, "8080808010"),
    one(1, 0, "80808080808080808002"), one(2, 0, "8080808010 03"), one(0, 0, "8080808080808080808001"),
    one(1, 2, "09"), one(1, 2, "0f"), one(2, 2, "03 00"), one(2, 2, "03 03"), one(2, 2, "03 48"),
    one(2, 2, "01 05"), one(2, 2, "02 23"), one(2, 2, "02 11"), one(2, 0, "00 07"), one(4, 0, "00 11"),
    one(3, 1, "01 86"), one(3, 2, "02 1182"), one(2, 2, "02 49"), one(2, 2, "02 98"), one(2, 0, "00"),
    one(9, 0, "00 01"), one(REAL, 0, "00 00000000000000"), one(REAL, 0, "00 0000000000000000 00"),
    two(0, (0, "00"), (0, "02")), two(1, None, (0, "11 11")),
    # offsets
    offsets(1, 1, "00 01"), offsets(3, 1, "00 01 00 01"), offsets(2, 4, "00 00 01 00 01"),
    offsets(1, 5, "00 01 00 01"), offsets(1, 2, "00 01 00 01"), offsets(1, 6, "00 01 00 01"),
    offsets(0, 3, "00 01 00 01"), offsets(0, 0, "00 01"), offsets(1, 3, "00 01 00"), offsets(1, 3, "00 01"),
    offsets(0, 2**32 - 1, "00 01"), offsets(2, 0, "00 01"),
]


def by_hand(sheet):
    for images, word in ((ACCEPTED, "yes"), (REFUSED, "no")):
        for image in images:
            sheet.ask("open", image, word)
            if word == "yes":
                rooms(sheet, image)
                around(sheet, image)
    for image in REFUSED[::6]:
        strangers(sheet, image)


# The cursor before, at and after a signal's first change.

def found_at(sheet, image, signal, room, *asked):
    """Each pair has times and what the cursor answers there."""
    for times, answered in asked:
        for time in times:
            sheet.ask(f"cursor {signal} {time} {room}", image, answered)


def first_changes(sheet):
    """B 2, times 1 2 and 2 3. The vector has changes in the second block only, two of them at one time; the event two
    in the first and one in the second; the real one at the end; the last signal none."""
    image = made(2, [2, EVENT, REAL, 2], [
        ((1, 2), [None, (0, "01 00"), None, None]),
        ((2, 3), [(1, "04 01 01 06"), (0, "01"), (0, "01" + ONE), None])])
    sheet.ask("open", image, "yes")
    sheet.ask("load 0 2 2", image, "entries 2 class 1: 2 2 0146")
    found_at(sheet, image, 0, 2, ((0, 1, 2), "none"), ((3, TOP_TIME), "entry 1 time 3 class 1 1x"))
    found_at(sheet, image, 0, 3, ((2,), "none"))
    found_at(sheet, image, 0, 1, ((0, 2, 3), "refused 9"))
    found_at(sheet, image, 1, 0, ((0, 1), "none"), ((2,), "entry 1 time 2 event"), ((3, 4), "entry 2 time 3 event"))
    found_at(sheet, image, 2, 0, ((0, 2), "none"), ((3, TOP_TIME), "entry 0 time 3 real 3ff0000000000000"))
    found_at(sheet, image, 3, 2, ((0, 3, TOP_TIME), "none"))
    found_at(sheet, image, 3, 1, ((0, 3), "refused 9"))


def first_and_last_time(sheet):
    """A change at time 0 has no time before it; one at the last time has all others."""
    image = made(2, [1, 1, EVENT, REAL], [((0, TOP_TIME), [(0, "01"), (0, "11"), (0, "01"), (0, "01" + ONE)])])
    sheet.ask("open", image, "yes")
    found_at(sheet, image, 0, 1, ((0, 1, TOP_TIME), "entry 0 time 0 class 0 1"))
    before = ((0, 1, TOP_TIME - 1), "none")
    found_at(sheet, image, 1, 1, before, ((TOP_TIME,), f"entry 0 time {TOP_TIME} class 0 1"))
    found_at(sheet, image, 2, 0, before, ((TOP_TIME,), f"entry 0 time {TOP_TIME} event"))
    found_at(sheet, image, 3, 0, before, ((TOP_TIME,), f"entry 0 time {TOP_TIME} real 3ff0000000000000"))


def repeats_of_the_first(sheet):
    """Changes that repeat the first are no entries, over blocks too: it stands, with its own time."""
    image = two(1, (0, "11"), (0, "01 11"), (0, "10 01"))
    sheet.ask("open", image, "yes")
    sheet.ask("load 0 3 3", image, "entries 3 class 0: 1 3 3 010001")
    found_at(sheet, image, 0, 1, ((0, 1), "none"), ((2, 3), "entry 0 time 2 class 0 1"))
    found_at(sheet, image, 0, 1, ((4, 5), "entry 2 time 4 class 0 1"))


def first_entries(sheet):
    first_changes(sheet)
    first_and_last_time(sheet)
    repeats_of_the_first(sheet)


# Joined images.

def joined(*images):
    def both(first, second):
        said, image = join(first, second, IMAGE_LIMIT)
        assert said == f"joined {len(image)}", said
        return image
    return functools.reduce(both, images)


def one_time_three_times(sheet):
    """Each `time 5; vcd 0 "1"`: the time stands once, the events all."""
    event = made(2, [EVENT], [((5,), [(0, "00")])])
    image = joined(event, event, event)
    assert len(image) == 98 and image == joined(event, joined(event, event))
    sheet.ask("open", image, "yes")
    sheet.ask("table 1", image, "times 1: 5")
    sheet.ask("load 0 3 0", image, "entries 3 class 0: 0 0 0")
    for block in range(3):
        sheet.ask(f"stream {block} 0", image, "00")
    sheet.ask("stream 3 0", image, "")
    for time in (0, 4, 5, 6):
        sheet.ask(f"cursor 0 {time} 0", image, "none" if time < 5 else "entry 2 time 5 event")
    rooms(sheet, image)


def claim_before_the_seam(sheet):
    """time 1, "1" on 0, time 5, raw claim 2 on 1; then time 5, "1" on 0, "11" on 1, time 9, "0" on 0.
    C of signal 1 is the first class byte, not the last, and its second change a repeat."""
    first = made(4, [1, 2], [((1, 5), [(0, "01"), (2, "04 03")])])
    second = made(4, [1, 2], [((5, 9), [(0, "01 10"), (0, "00 03")])])
    image = joined(first, second)
    assert image == bytes.fromhex(
        "02000000 04000000 02000000 6b000000 01000000 02000000"
        "29000000 02000000 02000000 01000000 03000000 0100000000000000 0500000000000000 00 01 02 04 03"
        "2a000000 02000000 02000000 01000000 04000000 0500000000000000 0900000000000000 00 01 10 00 00 03")
    sheet.ask("open", image, "yes")
    sheet.ask("table 3", image, "times 3: 1 5 9")
    sheet.ask("load 0 2 2", image, "entries 2 class 0: 0 2 0100")
    sheet.ask("load 1 1 2", image, "entries 1 class 2: 1 0003")
    for block, streams in enumerate((("01", "0403"), ("0110", "0003"))):
        for signal, stream in enumerate(streams):
            sheet.ask(f"stream {block} {signal}", image, stream)
    sheet.ask("cursor 0 0 1", image, "none")
    for time in (1, 5, 8, 9, 10):
        sheet.ask(f"cursor 0 {time} 1", image, "entry 0 time 1 class 0 1" if time < 9 else "entry 1 time 9 class 0 0")
    for time in (0, 1, 4, 5, 8, 9, 10):
        sheet.ask(f"cursor 1 {time} 2", image, "none" if time < 5 else "entry 0 time 5 class 0 11")
    rooms(sheet, image)


def gap(sheet):
    """time 1, "0", time 2; then time 7, "x": between 2 and 7 the first value stands."""
    image = joined(made(2, [1], [((1, 2), [(0, "00")])]), made(2, [1], [((7,), [(1, "02")])]))
    sheet.ask("open", image, "yes")
    sheet.ask("table 3", image, "times 3: 1 2 7")
    sheet.ask("load 0 2 2", image, "entries 2 class 1: 0 2 0042")
    sheet.ask("cursor 0 0 1", image, "none")
    for time in (1, 2, 3, 6):
        sheet.ask(f"cursor 0 {time} 1", image, "entry 0 time 1 class 0 0")
    for time in (7, 8, TOP_TIME):
        sheet.ask(f"cursor 0 {time} 1", image, "entry 1 time 7 class 1 x")
    rooms(sheet, image)


def seams(sheet):
    """No times in the second; repeats, reals and classes over several seams."""
    empty = made(2, [1, REAL])
    first = made(2, [1, REAL], [((3, 4), [(1, "12"), (0, "00" + ONE)])])
    assert joined(first, empty) == first
    again = made(2, [1, REAL], [((4,), [(1, "02"), (0, "00" + ONE)])])
    sheet.ask("load 0 1 1", joined(first, again, again, empty, again), "entries 1 class 1: 1 42")
    sheet.ask("load 1 1 8", joined(first, again, again, empty, again), "entries 1 class 0: 0 " + ONE)
    other = made(2, [1, REAL], [((4, 5), [(2, "01"), (0, "01 0000000000000080")])])
    image = joined(again, other, made(2, [1, REAL], [((9,), [(0, "01"), None])]))
    sheet.ask("open", image, "yes")
    sheet.ask("table 3", image, "times 3: 4 5 9")
    sheet.ask("load 0 2 2", image, "entries 2 class 2: 0 0 4201")
    sheet.ask("load 1 2 16", image, f"entries 2 class 0: 0 1 {ONE}0000000000000080")
    rooms(sheet, image)
    around(sheet, image)


def first_after_the_seam(sheet):
    """What has its first change in the second recording shows nothing before it, whether that starts later or not."""
    kinds = [1, EVENT, REAL]
    first = made(2, kinds, [((1, 4), [(0, "01"), None, None])])
    for start in (4, 7):
        image = joined(first, made(2, kinds, [((start, 9), [None, (0, "00"), (0, "01" + ONE)])]))
        sheet.ask("open", image, "yes")
        found_at(sheet, image, 0, 1, ((0,), "none"), ((1, start, 9), "entry 0 time 1 class 0 1"))
        found_at(sheet, image, 1, 0, ((0, 1, start - 1), "none"), ((start, 9), f"entry 0 time {start} event"))
        found_at(sheet, image, 2, 0, ((0, 4, 8), "none"), ((9, 10), "entry 0 time 9 real 3ff0000000000000"))


def turned_back():
    """Of two conditions the earlier; no condition but these."""
    first, second = made(2, [1], [((1, 2), [(0, "00")])]), made(2, [1], [((7,), [(1, "02")])])
    empty, of_events, of_three = made(2, [1]), made(2, [EVENT]), made(3, [1])
    total = len(first) + len(second) - 20
    for one_image, other, room, said in (
            (first[:-1], of_events, 999, "refused 11"), (first, second + b"\0", 0, "refused 11"),
            (empty, of_events, 999, "refused 14"), (first, of_three, 0, "refused 14"),
            (first, made(2, [1, 1]), 999, "refused 14"), (empty, empty, 999, "refused 15"),
            (empty, first, 0, "refused 15"), (second, first, 999, "refused 16"), (second, first, 0, "refused 16"),
            (first, first, 999, "refused 16"), (first, second, total - 1, "refused 8"),
            (first, empty, len(first) - 1, "refused 8"), (first, empty, len(first), f"joined {len(first)}"),
            (first, second, total, f"joined {total}")):
        assert join(one_image, other, room)[0] == said, said


def joins(sheet):
    turned_back()
    one_time_three_times(sheet)
    claim_before_the_seam(sheet)
    gap(sheet)
    seams(sheet)
    first_after_the_seam(sheet)


# Damaged images.

def places(image):
    """Where the numbers of 32 bits stand."""
    signals = int.from_bytes(image[:4], "little")
    found = list(range(0, 16 + 4 * signals, 4))
    at = 16 + 4 * signals
    while at < len(image):
        size = int.from_bytes(image[at:at + 4], "little")
        found += range(at, at + 12 + 4 * signals, 4)
        at += size
    return found


def field_edit(rng, image):
    place = rng.choice(places(image))
    old = int.from_bytes(image[place:place + 4], "little")
    new = rng.choice((old + 1, old - 1, 0, 1, 2, old ^ 1 << rng.randrange(32), 65_536, 2**32 - 1, 2**32 - 2))
    return edited(image, place, new % 2**32)


def data_edit(rng, image):
    """A byte past the head and the numbers: times, class bytes and streams."""
    place = rng.randrange(min(16, len(image) - 1), len(image))
    byte = rng.choice((image[place] ^ 1 << rng.randrange(8), rng.randrange(256)))
    return image[:place] + bytes([byte]) + image[place + 1:]


def resized(rng, image):
    """A byte more or less at the end of the last block, its numbers and the total following."""
    signals, blocks = (int.from_bytes(image[at:at + 4], "little") for at in (0, 8))
    at = 16 + 4 * signals
    for _ in range(blocks - 1):
        at += int.from_bytes(image[at:at + 4], "little")
    change = rng.choice((-1, 1, 1, 2))
    size = len(image) - at + change
    if change < 0:
        image = image[:change]
    else:
        image += rng.randbytes(change) if rng.random() < 0.5 else bytes(change)
    image = edited(image, 12, len(image))
    return edited(image, at, size) if blocks else image


def cut_or_insertion(rng, image):
    place = rng.randrange(len(image))
    kind = rng.randrange(3)
    if kind == 0:
        return image[:place]
    if kind == 1:
        return image[:place] + bytes([rng.randrange(256)]) + image[place:]
    return image[:place] + image[place + 1:]


def damages(rng, images):
    """One edit of a sound image, or two, the second being of a single byte."""
    while True:
        image = rng.choice((field_edit, data_edit, data_edit, resized, cut_or_insertion))(rng, rng.choice(images))
        if len(image) > 16 and rng.random() < 0.25:
            image = rng.choice((data_edit, cut_or_insertion))(rng, image)
        yield image


def sources():
    lines = (HERE.parent / "crates/recordings/stdout").read_text().splitlines()
    images = [bytes.fromhex(line[6:]) for line in lines if line.startswith("image ")]
    return [image for image in images if 40 <= len(image) <= 150]


def later(image, step):
    """The same with all times moved, so that it starts a step after its end."""
    read = read_image(image)
    times = combined(read)[0]
    by = times[-1] + step - times[0]
    blocks = [([time + by for time in block.times], [part and (part.top, part.stream.hex()) for part in block.parts])
              for block in read.blocks]
    return made(read.limit, read.kinds, blocks) if times[-1] + by <= TOP_TIME else None


def joined_sources():
    """Each joined with itself later, at its end and after it."""
    images = [image for image in sources() if len(image) <= 110 and read_image(image).blocks]
    pairs = [(image, later(image, number % 3)) for number, image in enumerate(images)]
    return [joined(image, second) for image, second in pairs if second]


def damaged(sheet, rng, images, count):
    seen = set(images)
    for image in damages(rng, images):
        if image in seen:
            continue
        seen.add(image)
        sheet.ask("open", image)
        if count % 10 == 0:
            strangers(sheet, image)
        count -= 1
        if count == 0:
            return


def main():
    mode, *rest = sys.argv[1:]
    if mode == "damaged":
        images = damages(random.Random(int(rest[0])), sources() + joined_sources())
        for _ in range(int(rest[1])):
            print("open", next(images).hex())
        return
    rng, sheet = random.Random(SEED), Sheet()
    bench(sheet)
    by_hand(sheet)
    first_entries(sheet)
    joins(sheet)
    recordings(sheet, rng)
    damaged(sheet, rng, sources(), 300)
    damaged(sheet, rng, joined_sources(), 50)
    assert sum(len(question) + 1 for question in sheet.questions) <= QUESTIONS
    print(*getattr(sheet, mode), sep="\n")


if __name__ == "__main__":
    main()
