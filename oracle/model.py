#!/usr/bin/env python3
"""Answers the questions of `oracle values` from the written rules alone.

Reads questions on standard input and writes answers on standard output; shares
no code with the Rust. A difference between the two is a finding.
"""
import sys

LETTERS = "01xzhuwl-"
SYMBOL = {}
for number, letter in enumerate(LETTERS):
    SYMBOL[ord(letter)] = SYMBOL[ord(letter.upper())] = number
BITS = (1, 2, 4)


class Bad(Exception):
    pass


def class_of(symbols):
    return max(0 if symbol <= 1 else 1 if symbol <= 3 else 2 for symbol in symbols)


def leb128(number):
    out = []
    while number >= 128:
        out.append(number % 128 + 128)
        number //= 128
    return bytes(out + [number])


def length(width, klass):
    return -(-width * BITS[klass] // 8)


def pack(symbols, klass):
    number = 0
    for symbol in symbols:
        number = number << BITS[klass] | symbol
    return number.to_bytes(length(len(symbols), klass), "big")


def vcd_text(width, value):
    """What stands for symbols."""
    if width == 1:
        last = value[-1:]
        return b"0" if last in (b"", b"b") else last
    if value[:1] in (b"b", b"B"):
        value = value[1:]
    if len(value) > 2 and value[:2] == b"0b":
        value = value[2:]
    return value


def vcd_symbols(width, value):
    value = vcd_text(width, value)
    if not value or len(value) > width or any(byte not in SYMBOL for byte in value):
        raise Bad
    symbols = [SYMBOL[byte] for byte in value]
    if len(symbols) < width:
        if symbols[0] in (4, 7):  # h and l; document 02: u, w and - extend
            raise Bad
        fill = symbols[0] if symbols[0] >= 2 else 0
        symbols = [fill] * (width - len(symbols)) + symbols
    return symbols


def raw_symbols(width, claim, value):
    if claim > 2 or len(value) < length(width, claim):
        raise Bad
    # bytes before the counted ones and top bits lie above every symbol read
    number = int.from_bytes(value, "big")
    bits = BITS[claim]
    symbols = [number >> bits * (width - 1 - place) & (1 << bits) - 1 for place in range(width)]
    if max(symbols) > 8:
        raise Bad
    return symbols


def vector(width, index, symbols, top):
    shown = "".join(LETTERS[symbol] for symbol in symbols)
    klass = class_of(symbols)
    if width == 1:
        stream = leb128(index * 16 + symbols[0])
    else:
        stream = leb128(index * 4 + klass) + pack(symbols, klass)
    return max(top, klass), stream, shown


def answer(line):
    kind, *fields, digits = line.split(" ")
    fields = [int(field) for field in fields]
    value = bytes.fromhex(digits)
    if kind == "f":
        return 0, leb128(fields[0]) + value[::-1], digits
    width, index = fields[:2]
    if kind == "r":
        return vector(width, index, raw_symbols(width, fields[2], value), fields[2])
    if width == 0:
        if len(value) > 1:
            raise Bad
        return 0, leb128(index), "event"
    return vector(width, index, vcd_symbols(width, value), 0)


def main():
    for line in sys.stdin:
        try:
            top, stream, shown = answer(line.rstrip("\n"))
            print(top, stream.hex(), shown)
        except Bad:
            print("bad")


if __name__ == "__main__":
    main()
