#!/usr/bin/env python3
"""Writes the cases of crates/label_cases: its stdin and its stdout.

A label is taken apart here as a text of 32 binary digits, and the centre is worked out in THz and
GHz by exact decimals, from docs/labels.md and docs/refusals.md alone.
"""
import random
from decimal import Decimal

from written import write

GHZ = {1: Decimal("100"), 2: Decimal("50"), 3: Decimal("25"), 4: Decimal("12.5")}
NUMBERS = [-1000, -999, -500, -256, -11, -1, 0, 1, 3, 5, 255, 256, 999, 1000]
WRONG = [-32768, -32767, -1002, -1001, 1001, 1002, 32767]


def no(number):
    return "NO %d 0 label" % number


def compose(code, n):
    return "001" + format(code, "04b") + "0" * 9 + format(n % 65536, "016b")


def tell(code, n):
    centre = (Decimal("193.1") + n * GHZ[code] / 1000) * 10 ** 6
    assert centre == int(centre)
    return "%d %d %d" % (code, n, centre)


def hexadecimal(digits):
    return "%08X" % int(digits, 2)


def reading(digits):
    grid, code, identifier = digits[:3], int(digits[3:7], 2), digits[7:16]
    n = int(digits[17:], 2) - (32768 if digits[16] == "1" else 0)
    if grid != "001":
        return no(30)
    if code not in GHZ:
        return no(31)
    if identifier != "000000000":
        return no(32)
    if abs(n) > 1000:
        return no(33)
    return tell(code, n) + " " + hexadecimal(digits)


def writing(code, n):
    if code not in GHZ:
        return no(31)
    if abs(n) > 1000:
        return no(33)
    digits = compose(code, n)
    return hexadecimal(digits) + " " + reading(digits)


# worked by hand: the published example (50 GHz, 193.35 THz is n 5), others of docs/labels.md, and some more
BY_HAND = [
    ("WRITE 2 5", "24000005 2 5 193350000 24000005"),
    ("READ 24000005", "2 5 193350000 24000005"),
    ("WRITE 1 -1", "2200FFFF 1 -1 193000000 2200FFFF"),
    ("READ 2200FFFF", "1 -1 193000000 2200FFFF"),
    ("READ 24000003", "2 3 193250000 24000003"),
    ("READ 26000003", "3 3 193175000 26000003"),
    ("WRITE 1 -1000", "2200FC18 1 -1000 93100000 2200FC18"),
    ("WRITE 4 1000", "280003E8 4 1000 205600000 280003E8"),
    ("READ 2200FC18", "1 -1000 93100000 2200FC18"),
    ("READ 280003E8", "4 1000 205600000 280003E8"),
    ("READ 00000000", "NO 30 0 label"),
    ("READ 20000000", "NO 31 0 label"),
    ("READ 2A000000", "NO 31 0 label"),
    ("READ 22010000", "NO 32 0 label"),
    ("READ 23010000", "NO 32 0 label"),
    ("READ 220003E9", "NO 33 0 label"),
    ("READ 2200FC17", "NO 33 0 label"),
    ("WRITE 0 2000", "NO 31 0 label"),
    ("WRITE 5 0", "NO 31 0 label"),
    ("WRITE 4 1001", "NO 33 0 label"),
]


def flipped(digits, i):
    return digits[:i] + ("0" if digits[i] == "1" else "1") + digits[i + 1:]


def cases():
    # both ends of n and past them, at all four codes and beside them
    for code in [0, 1, 2, 3, 4, 5, 15, 16, 17, 255]:
        for n in NUMBERS + WRONG:
            yield "WRITE %d %d" % (code, n), writing(code, n)
    rng = random.Random(6205)
    good = [compose(code, n) for code in GHZ for n in NUMBERS]
    for digits in good:
        yield "READ " + hexadecimal(digits), reading(digits)
    # every single-bit change of good labels, and some of two bits
    for digits in good[::5] + [compose(2, 3)]:
        for i in range(32):
            once = flipped(digits, i)
            twice = flipped(once, rng.randrange(32))
            yield "READ " + hexadecimal(once), reading(once)
            yield "READ " + hexadecimal(twice), reading(twice)
    # each value of each field, the others good
    for grid in range(8):
        yield "READ %08X" % (grid << 29 | 2 << 25 | 7), reading(format(grid << 29 | 2 << 25 | 7, "032b"))
    for code in range(16):
        yield "READ %08X" % (1 << 29 | code << 25 | 7), reading(format(1 << 29 | code << 25 | 7, "032b"))
    for identifier in [1, 2, 4, 127, 128, 255, 256, 257, 510, 511]:
        bits = 1 << 29 | 3 << 25 | identifier << 16
        yield "READ %08X" % bits, reading(format(bits, "032b"))
    for n in [0x03E7, 0x03E8, 0x03E9, 0x7FFF, 0x8000, 0xFC17, 0xFC18, 0xFC19, 0xFFFF]:
        bits = 1 << 29 | 4 << 25 | n
        yield "READ %08X" % bits, reading(format(bits, "032b"))
    # any number of 32 bits; with the right Grid; with the right Grid and code
    for keep in (0, 3, 7):
        for _ in range(150):
            digits = (compose(rng.randint(1, 4), 0)[:keep] + format(rng.getrandbits(32), "032b"))[:32]
            yield "READ " + hexadecimal(digits), reading(digits)


def model(line):
    verb, *words = line.split()
    return reading(format(int(words[0], 16), "032b")) if verb == "READ" else writing(int(words[0]), int(words[1]))


write("label_cases", BY_HAND, model, cases())
