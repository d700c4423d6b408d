#!/usr/bin/env python3
"""The opener a second time, with no rule of its own: "left by a list of calls, or joined from accepted images".

For each block, calls are read off its bytes by the layout alone and made on the recorder; what these recordings leave
is joined, and must be the same bytes.

  opener.py            holds this against the opener of reader.py, for the images of all questions on standard input
"""
import sys

from join import joined, parts_of
from model import BITS, length, pack
from reader import KINDS, Bytes, demand, opens, question
from recorder import ABSENT, EVENT, IMAGE_LIMIT, REAL, Recorder, Refused, too_wide


def loose_number(data):
    """LEB128, shortest or not."""
    value = shift = 0
    while True:
        byte = data.take(1)[0]
        value += byte % 128 << shift
        shift += 7
        if byte < 128:
            return value


def loose_change(data, kind):
    """d and the content, whatever the symbols are."""
    number = loose_number(data)
    if kind == EVENT:
        return number, None
    if kind == REAL:
        return number, data.take(8)
    if kind == 1:
        return number // 16, (number % 16,)
    bits = BITS[number % 4]
    packed = int.from_bytes(data.take(length(kind, number % 4)), "big")
    return number // 4, tuple(packed >> bits * place & (1 << bits) - 1 for place in reversed(range(kind)))


def loose_part(data, kind):
    """The class byte, and (index, content) of each change."""
    claim, index, changes = data.number(1), 0, []
    while data.left():
        delta, content = loose_change(data, kind)
        index += delta
        changes.append((index, content))
    return claim, changes


def loose_block(data, kinds):
    """The times, and (signal, class byte, changes) of each part."""
    size, times, signals = (data.number(4) for _ in range(3))
    offsets = [data.number(4) for _ in range(signals)]
    times = [data.number(8) for _ in range(times)]
    rest = data.take(max(size - 12 - 4 * len(offsets) - 8 * len(times), 0))
    places = [offset - 1 for offset in offsets if offset] + [len(rest)]
    parts = []
    for signal in (signal for signal, offset in enumerate(offsets) if offset):
        demand(signal < len(kinds), not too_wide(kinds[signal]), kinds[signal] != ABSENT)
        place = places.pop(0)
        parts.append((signal, *loose_part(Bytes(rest[place:places[0]]), kinds[signal])))
    return times, parts


def loosely(image):
    """Limit, kinds and blocks, as far as the bytes can be walked."""
    data = Bytes(image)
    signals, limit, blocks, _ = (data.number(4) for _ in range(4))
    kinds = [KINDS.get(number, number) for number in (data.number(4) for _ in range(signals))]
    return limit, kinds, [loose_block(data, kinds) for _ in range(blocks)]


def recorded(limit, kinds, times, parts):
    """What a recording of these leaves. Each vector's change is a raw one that claims the class byte of its part."""
    recorder = Recorder()
    recorder.start(len(kinds), limit, kinds)
    for index, time in enumerate(times):
        recorder.time(time)
        for signal, claim, changes in parts:
            for _, content in (change for change in changes if change[0] == index):
                if content is None:
                    recorder.change(signal, "vcd", b"")
                elif isinstance(content, bytes):
                    recorder.change(signal, "real", int.from_bytes(content, "little"))
                else:
                    recorder.change(signal, "raw", claim, pack(content, claim))
    recorder.finish()
    return recorder.image_left()


def left_or_joined(image):
    try:
        limit, kinds, blocks = loosely(image)
        left, *later = [recorded(limit, kinds, *block) for block in blocks or [((), ())]]
        for second in later:
            left = joined(parts_of(left), parts_of(second), IMAGE_LIMIT)
        return left == image
    except (Refused, OverflowError, IndexError):  # refused, or no such class, or symbols above the claim
        return False


def main():
    image, images = b"", {}
    for line in sys.stdin:
        image = question(line.rstrip("\n"), image)[1]
        if image not in images:
            images[image] = opens(image)
            assert images[image] == left_or_joined(image), line
    print(len(images), "images,", sum(images.values()), "accepted; recordings and their joins leave exactly these")


if __name__ == "__main__":
    main()
