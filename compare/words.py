#!/usr/bin/env python3
"""Test words and what crates/word_vectors must print for them.

    words.py stdin     the words, one a line
    words.py stdout    the line expected for each

Each class is one row of 32 characters, bit 31 first, after paper 01, "Words and records", and 02 §1: 0 and 1 are fixed,
a letter is a bit of its field. What no row fits is Other.
"""
import sys

PROCESSING = "c:condition o:operation s:s n:rn d:rd"
SINGLE = "c:condition p:p u:u b:b w:w l:l n:rn d:rd"
BLOCK = "c:condition p:p u:u s:s w:w l:l n:rn i:list"
BRANCH = "c:condition k:link f:offset"
MULTIPLY = "c:condition s:s a:accumulate n:rn d:rd m:rm x:rs"
CONSTANT = "constant r:rotate v:value"
AMOUNT = "amount m:rm t:shift a:amount"
REGISTER = "register m:rm t:shift x:rs"

ROWS = [
    ("cccc001oooosnnnnddddrrrrvvvvvvvv", "processing", PROCESSING, CONSTANT),
    ("cccc000oooosnnnnddddaaaaatt0mmmm", "processing", PROCESSING, AMOUNT),
    ("cccc000oooosnnnnddddxxxx0tt1mmmm", "processing", PROCESSING, REGISTER),
    ("cccc010pubwlnnnnddddrrrrvvvvvvvv", "single", SINGLE, CONSTANT),
    ("cccc011pubwlnnnnddddaaaaatt0mmmm", "single", SINGLE, AMOUNT),
    ("cccc100puswlnnnniiiiiiiiiiiiiiii", "block", BLOCK, ""),
    ("cccc101kffffffffffffffffffffffff", "branch", BRANCH, ""),
    ("cccc000000asddddnnnnxxxx1001mmmm", "multiply", MULTIPLY, ""),
]


def fits(pattern, bits):
    return all(p == b or p not in "01" for p, b in zip(pattern, bits))


def show(item, pattern, bits):
    """An item `letter:name` of a row as name=HEX; any other item as it stands."""
    if ":" not in item:
        return item
    letter, name = item.split(":")
    value = int("".join(b for p, b in zip(pattern, bits) if p == letter), 2)
    return f"{name}={value:X}"


def expected(word):
    bits = f"{word:032b}"
    rows = [row for row in ROWS if fits(row[0], bits)]
    assert len(rows) <= 1, f"two classes for {word:08X}"
    if rows:
        pattern, name, fields, operand = rows[0]
        record = " ".join(show(item, pattern, bits) for item in (name + " " + fields + " " + operand).split())
    else:
        record = f"other holds={word:08X}"
    return f"{record} number=0 word={word:08X}"


def conditions():
    for condition in range(16):
        for rest in (0x3A00005, 0x5910004, 0x8BD8003, 0xAFFFFFE, 0x0234291, 0xF000011):
            yield condition << 28 | rest


def processing():
    operands = (0x2000234, 0x0000102, 0x0000213)  # constant, shift by amount, shift by register
    for operation in range(16):
        for s in (0, 1):
            yield 0xE0065000 | operation << 21 | s << 20 | operands[(operation + s) % 3]
    # bits 7 and 4 of a constant belong to its value
    for low in (0x0FF, 0x090, 0x080, 0x010, 0x06F, 0xF90, 0xFFF, 0x000, 0x4FF):
        yield 0xE3A00000 | low
    for shift in range(4):
        for amount in (0, 1, 2, 16, 31):
            yield 0xE1A00001 | amount << 7 | shift << 5
        for rs in (0, 2, 8, 15):
            yield 0xE1A0F01E | rs << 8 | shift << 5


def multiplies():
    yield from (0xE0000291, 0xE0100291, 0xE0203291, 0xE0303291, 0x00000090, 0xF0000090)
    for bits in range(4):  # accumulate, S
        yield 0xE0012394 | bits << 20
        for low in (16, 12, 8, 0):  # each field at its ends, and shared with the others
            for register in (0, 1, 15):
                yield 0xE0055595 & ~(15 << low) | bits << 20 | register << low
        yield 0xE00FFF9F | bits << 20
    # one of the bits changed that make it one; then the rest of its space
    for low in (4, 5, 6, 7, 22, 23, 24, 25, 26, 27):
        yield 0xE0012394 ^ 1 << low
        yield 0xE03CDE9A ^ 1 << low
    for kind in (0xB0, 0xD0, 0xF0):
        for bits in range(0, 32, 7):
            yield 0xE0012304 | bits << 20 | kind
    for bits in range(4, 32):
        yield 0xE0012394 | bits << 20


def not_processing():
    # bits 7 and 4 without I: SWP, SWPB and what later machines have there
    yield from (0xE1020091, 0xE1420091, 0xE1D100B2, 0xE1C100B2, 0xE1D100D2, 0xE1D100F2, 0xE0810392)
    for operation in range(16):
        yield 0xE0000F9F | operation << 21
    for shift in range(4):
        yield 0xE1B01092 | shift << 5
    # one of the two is not enough
    yield from (0xE0000281, 0xE0000211, 0xE1020081, 0xE1020011, 0xE1D100A2, 0xE1D10032)


def singles():
    for bits in range(32):
        yield 0xE4012FFF | bits << 20
        yield 0xE6034FE5 | bits << 20
    # without I bit 4 belongs to the offset; with I it makes an Other
    for low in (0x000, 0x010, 0x090, 0x800, 0x001, 0xFFF):
        yield 0xE59F0000 | low
    for low in (0x001, 0x081, 0xFE1, 0x011, 0x091, 0x211, 0xFFF, 0xFEF):
        yield 0xE79F0000 | low
    for shift in range(4):
        yield 0xE7810002 | shift << 5
        yield 0xE7810012 | shift << 5


def blocks():
    for bits in range(32):
        yield 0xE80D5AA5 | bits << 20
    for named in (0x0000, 0xFFFF, 0x8000, 0x0001, 0x7FFF, 0x4010):
        yield 0xE8B00000 | named
        yield 0xE96F0000 | named


def branches():
    for link in (0, 1):
        for offset in (0, 1, 2, 0x7FFFFF, 0x800000, 0x800001, 0xFFFFFE, 0xFFFFFF, 0x555555, 0xAAAAAA):
            yield 0xEA000000 | link << 24 | offset


def others():
    yield from (0xEF000000, 0xEFFFFFFF, 0xEF123456, 0xFF000000, 0x0F000000)
    for bits in range(0, 32, 3):  # coprocessor transfers, operations, and SWI
        yield 0xEC123456 | bits << 20
        yield 0xEE123456 | bits << 20
    yield from (0xEE000010, 0xEE100010, 0xED900000, 0xEC000000)


def corners():
    yield from (0x00000000, 0xFFFFFFFF, 0x55555555, 0xAAAAAAAA, 0x0FFFFFFF, 0xF0000000)
    for k in range(32):
        yield 1 << k
        yield 0xFFFFFFFF ^ 1 << k


def scattered(n):
    word = 1
    for _ in range(n):
        word = (word * 1664525 + 1013904223) % 2**32
        yield word ^ word >> 15


def words():
    parts = (conditions(), processing(), multiplies(), not_processing(), singles(), blocks(), branches(), others(), corners(), scattered(40))
    return list(dict.fromkeys(word for part in parts for word in part))


def main():
    line = {"stdin": "{:08X}".format, "stdout": expected}.get("".join(sys.argv[1:]))
    if line is None:
        sys.exit(__doc__)
    for word in words():
        print(line(word))


main()
