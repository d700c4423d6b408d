"""Reads an image from standard input and writes its listing to standard output.

Written from docs/FORMAT.md alone; "rule n" below is rule n of that page.
What is no image, and every input over 16,384 bytes, gives `refused 11`.
Run:  python3 reader.py < IMAGE > LISTING
"""
import io
import struct
import sys

INPUT_LIMIT = 16_384  # rule 3 holds for all that is within it
EVENT, REAL, ABSENT = 0, 0xFFFFFFFE, 0xFFFFFFFF  # every other kind is a vector's width
LETTERS = "01xzhuwl-"  # by symbol
CLASS_OF = (0, 0, 1, 1, 2, 2, 2, 2, 2)  # by symbol
BITS_A_SYMBOL = (1, 2, 4)  # by class

class Refused(Exception):
    """The bytes are no image."""

class Signal:
    def __init__(self, kind):
        self.kind = kind
        self.largest_class = 0  # of the class bytes of its parts
        self.kept = []  # pairs (index in the combined table, content as listed)

def need(condition):
    if not condition:
        raise Refused

def take(source, count):
    taken = source.read(count)
    need(len(taken) == count)
    return taken

def take_u32s(source, count):
    return struct.unpack(f"<{count}I", take(source, 4 * count))

def take_leb128(stream):
    number = 0
    for shift in (0, 7, 14):  # no number of an image has a fourth byte
        byte = take(stream, 1)[0]  # rule 20
        number += (byte & 0x7F) << shift
        if byte < 0x80:
            need(byte != 0 or shift == 0)  # rule 21
            return number
    raise Refused

def take_packed(stream, width, value_class):
    """The symbols of a packed value, leftmost first."""
    bits = BITS_A_SYMBOL[value_class]
    packed = int.from_bytes(take(stream, (width * bits + 7) // 8), "big")  # rule 20
    need(packed >> width * bits == 0)  # rule 25
    symbols = [packed >> bits * place & (1 << bits) - 1 for place in reversed(range(width))]
    need(max(symbols) <= 8)  # rule 26
    need(max(CLASS_OF[symbol] for symbol in symbols) == value_class)  # rule 27
    return symbols

def take_change(stream, kind):
    """The next change of a stream: d, the class of its value, its content as listed."""
    number = take_leb128(stream)
    if kind == EVENT:
        return number, 0, ""
    if kind == REAL:
        return number, 0, take(stream, 8)[::-1].hex()  # rule 20
    if kind == 1:
        step, symbol = divmod(number, 16)
        need(symbol <= 8)  # rule 23
        return step, CLASS_OF[symbol], LETTERS[symbol]
    step, value_class = divmod(number, 4)
    need(value_class <= 2)  # rule 24
    return step, value_class, "".join(LETTERS[s] for s in take_packed(stream, kind, value_class))

def read_part(part, signal, time_count, start):
    """Adds a part's kept changes to its signal; start is the block's in the combined table."""
    need(signal.kind != ABSENT)  # rule 16
    class_byte = part[0]
    need(class_byte <= 2)  # rule 17
    need(class_byte == 0 or signal.kind not in (EVENT, REAL))  # rule 19
    signal.largest_class = max(signal.largest_class, class_byte)
    stream = io.BytesIO(part[1:])
    index = 0
    while stream.tell() < len(part) - 1:
        step, value_class, content = take_change(stream, signal.kind)
        index += step
        need(index < time_count)  # rule 22
        need(value_class <= class_byte)  # rule 18: this part's, not the largest
        # The change before this one has the content of the last kept one.
        if signal.kind == EVENT or not signal.kept or signal.kept[-1][1] != content:
            signal.kept.append((start + index, content))

def read_block(source, signals, times, max_times):
    """Adds a block's times to the combined table, and its changes to the signals."""
    size, time_count, signal_count = take_u32s(source, 3)  # rule 7
    need(signal_count == len(signals))  # rule 9
    need(time_count <= max_times)  # rule 10
    need(time_count >= 1)  # rule 11
    need(size >= 12 + 4 * signal_count + 8 * time_count)  # rule 8
    block = io.BytesIO(take(source, size - 12))  # rule 7
    offsets = take_u32s(block, signal_count)
    block_times = struct.unpack(f"<{time_count}Q", take(block, 8 * time_count))
    need(all(a < b for a, b in zip(block_times, block_times[1:])))  # rule 12
    if times:  # by rule 11 this is so in every block after another
        need(block_times[0] >= times[-1])  # rule 13
        if block_times[0] == times[-1]:
            times.pop()  # it comes again with this block and stands in the combined table once
    start = len(times)
    times.extend(block_times)
    data = block.read()
    with_part = [signal for signal, offset in zip(signals, offsets) if offset]
    bounds = [offset - 1 for offset in offsets if offset] + [len(data)]
    need(bounds[0] == 0)  # rule 14: the first offset is 1; without parts the data is empty
    need(all(end - begin >= 2 for begin, end in zip(bounds, bounds[1:])))  # rules 14 and 15
    for signal, begin, end in zip(with_part, bounds, bounds[1:]):
        read_part(data[begin:end], signal, time_count, start)

def read_image(image):
    """The signals, the combined table and the number of blocks."""
    source = io.BytesIO(image)
    signal_count, max_times, block_count, total = take_u32s(source, 4)  # rule 1
    need(total == len(image))  # rule 2
    need(2 <= max_times <= 65_535)  # rule 4
    need(signal_count <= 65_536)  # rule 5
    kinds = take_u32s(source, signal_count)  # rule 1
    need(all(kind <= 65_536 or kind in (REAL, ABSENT) for kind in kinds))  # rule 6
    signals, times = [Signal(kind) for kind in kinds], []
    for _ in range(block_count):
        read_block(source, signals, times, max_times)
    need(source.read() == b"")  # rule 7
    return signals, times, block_count

def signal_head(signal):
    """The signal's line without its number."""
    if signal.kind == ABSENT:
        return "absent"
    shown_class = signal.largest_class if signal.kept else 2  # its first part has one (rule 15)
    names = {EVENT: "event", REAL: "real"}
    name = names.get(signal.kind, f"width {signal.kind} class {shown_class}")
    return f"{name} changes {len(signal.kept)}"

def listing(data):
    try:
        need(len(data) <= INPUT_LIMIT)
        signals, times, block_count = read_image(data)
    except Refused:
        return "refused 11\n"
    lines = [f"signals {len(signals)} times {len(times)} blocks {block_count}"]
    lines += [f"time {index} {time}" for index, time in enumerate(times)]
    for number, signal in enumerate(signals):
        lines.append(f"signal {number} {signal_head(signal)}")
        lines += [f"{index} {content}".rstrip() for index, content in signal.kept]
    return "\n".join(lines) + "\n"

if __name__ == "__main__":
    sys.stdout.buffer.write(listing(sys.stdin.buffer.read(INPUT_LIMIT + 1)).encode("ascii"))
