#!/usr/bin/env python3
"""Document 02, 'Joining two recordings', from the written rules alone.

`join(first, second, room)` takes two byte strings and the length of the output, and gives the answer, `joined TOTAL` or
`refused K`, with the bytes that the output then begins with. A refusal leaves the output, so it gives none.
"""
from dataclasses import dataclass

from reader import opens
from recorder import IMAGE_LIMIT, Refused, refuse, u32


def number(data, place, size=4):
    return int.from_bytes(data[place:place + size], "little")


@dataclass
class Parts:
    """What a join looks at."""
    limit: int
    kinds: bytes
    tables: list  # the times of each block
    blocks: bytes


def parts_of(image):
    """By the layout; the image is an accepted one."""
    signals, limit, count = (number(image, place) for place in (0, 4, 8))
    head = at = 16 + 4 * signals
    tables = []
    for _ in range(count):
        times = at + 12 + 4 * signals
        tables.append([number(image, times + 8 * place, 8) for place in range(number(image, at + 4))])
        at += number(image, at)
    return Parts(limit, image[16:head], tables, image[head:])


def joined(first, second, room):
    """The join of two accepted images, given as `Parts`; 14 compares S with the kinds."""
    refuse(14, first.limit != second.limit, first.kinds != second.kinds)
    refuse(15, not first.tables)
    refuse(16, second.tables and second.tables[0][0] < first.tables[-1][-1])
    blocks = first.blocks + second.blocks
    total = 16 + len(first.kinds) + len(blocks)
    refuse(8, total > room, total > IMAGE_LIMIT)
    head = len(first.kinds) // 4, first.limit, len(first.tables) + len(second.tables), total
    return b"".join(map(u32, head)) + first.kinds + blocks


def join(first, second, room):
    try:
        refuse(11, not opens(first), not opens(second))
        image = joined(parts_of(first), parts_of(second), room)
    except Refused as refused:
        return f"refused {refused}", b""
    return f"joined {len(image)}", image
