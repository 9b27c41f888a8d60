#!/usr/bin/env python3
"""Writes the cases of crates/plan_cases: its stdin and its stdout.

The verdict below is written from docs/plan-file.md alone and shares nothing with the program.
"""
import random
import struct
from pathlib import Path

CRATE = Path(__file__).resolve().parent.parent / "crates" / "plan_cases"
ABSENT = 65535
STALE = 7


def pack(code=1, nodes=4, numbers=(0, 1), spans=((0, 1), (1, 3), (0, 2), (2, 3)), tariffs=None,
         converters=((1, 0, 1, 1),), version=1, gap=0, counts=None, tail=b""):
    """The bytes of a plan; gap bytes stand before each section, tail after the last."""
    if tariffs is None:
        tariffs = [2, ABSENT, ABSENT, 3, 4, 4, 5, ABSENT]
    sections = [
        b"".join(struct.pack(">h", n) for n in numbers),
        b"".join(bytes(s) for s in spans),
        b"".join(struct.pack(">H", t) for t in tariffs),
        b"".join(struct.pack(">BBBH", *c) for c in converters),
    ]
    head = struct.pack(">BBBBHH", version, code, nodes, len(numbers), len(spans), len(converters))
    if counts:
        head = counts
    pairs, body, at = b"", b"", 40
    for section in sections:
        body += b"\xee" * gap
        at += gap
        pairs += struct.pack(">II", at, len(section))
        body += section
        at += len(section)
    return head + pairs + body + tail


def wide(plan, at):
    return int.from_bytes(plan[at:at + 4], "big")


def header_fault(plan):
    if not 40 <= len(plan) <= 65536:
        return (1, 0, "file")
    if plan[0] != 1:
        return (2, 0, "file")
    for at, value, low, high in [(1, plan[1], 1, 4), (2, plan[2], 1, 64), (3, plan[3], 1, 16),
                                 (4, plan[4] << 8 | plan[5], 0, 256),
                                 (6, plan[6] << 8 | plan[7], 0, 4096)]:
        if not low <= value <= high:
            return (3, at, "file")
    return None


def sizes(plan):
    k, m, r = plan[3], plan[4] << 8 | plan[5], plan[6] << 8 | plan[7]
    return [2 * k, 2 * m, 2 * m * k, 5 * r]


def pair_fault(plan):
    floor = 40
    for pair, size in zip((8, 16, 24, 32), sizes(plan)):
        start, length = wide(plan, pair), wide(plan, pair + 4)
        if start < floor:
            return (4, pair, "section")
        if length != size:
            return (5, pair, "section")
        if start + length > len(plan):
            return (6, pair, "section")
        floor = start + length
    return None


def record_fault(plan):
    n, k = plan[2], plan[3]
    size = sizes(plan)
    last = None
    for at in range(wide(plan, 8), wide(plan, 8) + size[0], 2):
        number = int.from_bytes(plan[at:at + 2], "big", signed=True)
        if not -1000 <= number <= 1000 or last is not None and number <= last:
            return (7, at, "record")
        last = number
    for at in range(wide(plan, 16), wide(plan, 16) + size[1], 2):
        tail, head = plan[at], plan[at + 1]
        if tail >= n or head >= n or tail == head:
            return (8, at, "record")
    last = None
    for at in range(wide(plan, 32), wide(plan, 32) + size[3], 5):
        node, source, target = plan[at:at + 3]
        tariff = int.from_bytes(plan[at + 3:at + 5], "big")
        bad = node >= n or source >= k or target >= k or source == target or tariff == ABSENT
        if bad or last is not None and (node, source, target) <= last:
            return (9, at, "record")
        last = (node, source, target)
    return None


def digest(plan):
    n, k, m = plan[2], plan[3], plan[4] << 8 | plan[5]
    a, b, c, d = (wide(plan, p) for p in (8, 16, 24, 32))
    value = 1

    def mix(x):
        nonlocal value
        value = (value * 31 + x) % 2 ** 32

    for i in range(k):
        mix(int.from_bytes(plan[a + 2 * i:a + 2 * i + 2], "big"))
    for e in range(m):
        mix(plan[b + 2 * e])
        mix(plan[b + 2 * e + 1])
        for i in range(k):
            at = c + 2 * (e * k + i)
            tariff = int.from_bytes(plan[at:at + 2], "big")
            mix(65536 if tariff == ABSENT else tariff)
    turns = {}
    for at in range(d, d + sizes(plan)[3], 5):
        turns[tuple(plan[at:at + 3])] = int.from_bytes(plan[at + 3:at + 5], "big")
    for u in range(n):
        for x in range(k):
            for y in range(k):
                mix(turns.get((u, x, y), 65536))
    return value, turns


def verdict(plan, tariffs, converters):
    fault = header_fault(plan) or pair_fault(plan) or record_fault(plan)
    if not fault:
        n, k, m = plan[2], plan[3], plan[4] << 8 | plan[5]
        if tariffs < m * k or converters < n * k * k:
            fault = (10, 0, "book")
    if fault:
        return "NO %d %d %s true" % fault
    value, turns = digest(plan)
    at = wide(plan, 24)
    told = [int.from_bytes(plan[at + 2 * i:at + 2 * i + 2], "big") for i in range(m * k)]
    left = tariffs - m * k + told.count(STALE)
    beyond = converters - n * k * k + list(turns.values()).count(STALE)
    return "OK %d %d %d %d %08X %d %d" % (n, m, k, plan[1], value, left, beyond)


def put(plan, at, data):
    return plan[:at] + bytes(data) + plan[at + len(data):]


def sound_plan(rng):
    n = rng.choice([1, 2, 4, 16, 64])
    k = rng.choice([1, 2, 5, 16])
    m = 0 if n == 1 else rng.choice([0, 1, 7, 20, 256])
    if m == 256 and k == 16:
        k = 5
    numbers = sorted(rng.sample(range(-1000, 1001), k))
    spans = [tuple(rng.sample(range(n), 2)) for _ in range(m)]
    tariffs = [rng.choice([0, 1, STALE, 300, 65534, ABSENT]) for _ in range(m * k)]
    every = [(u, a, b) for u in range(n) for a in range(k) for b in range(k) if a != b]
    chosen = sorted(rng.sample(every, min(len(every), rng.choice([0, 1, 9, 40]))))
    converters = [c + (rng.choice([0, STALE, 65534]),) for c in chosen]
    return pack(rng.randint(1, 4), n, numbers, spans, tariffs, converters,
                gap=rng.choice([0, 0, 3]), tail=b"\xaa" * rng.choice([0, 0, 5]))


def cases():
    sample = pack()
    yield sample, 8, 16
    # the tables: just long enough, one short, longer
    for tables in [(8, 16), (7, 16), (8, 15), (0, 0), (20, 30)]:
        yield (sample,) + tables
    # the size: empty, 39, 40, the largest and one more
    for plan in [b"", sample[:1], sample[:39], sample[:40], sample[:72],
                 sample + bytes(65536 - 73), sample + bytes(65537 - 73)]:
        yield plan, 8, 16
    # header values on both sides of their limits
    for at, values in [(0, [0, 2, 255]), (1, [0, 1, 4, 5, 255]), (2, [0, 1, 2, 3, 64, 65, 255]), (3, [0, 1, 3, 16, 17])]:
        for value in values:
            yield put(sample, at, [value]), 8, 4096
    for at, value in [(4, 0), (4, 3), (4, 5), (4, 256), (4, 257), (4, 65535), (6, 0), (6, 2), (6, 4096), (6, 4097), (6, 65535)]:
        yield put(sample, at, struct.pack(">H", value)), 8, 16
    yield pack(nodes=64), 8, 256
    yield pack(nodes=65), 8, 260
    # each pair: offset one less, one more, far, near the wrap; length off by one, near the wrap
    for pair in (8, 16, 24, 32):
        start, size = wide(sample, pair), wide(sample, pair + 4)
        for value in (start - 1, start + 1, 39, 0, 73, 65536, 2 ** 32 - 1, 2 ** 32 - size, 2 ** 31):
            yield put(sample, pair, struct.pack(">I", value)), 8, 16
            yield put(sample + bytes(40), pair, struct.pack(">I", value)), 8, 16
        for value in (size - 1, size + 1, 0, 2 ** 32 - 1, 2 ** 32 - start):
            yield put(sample, pair + 4, struct.pack(">I", value)), 8, 16
    # records
    for numbers in [(0, 1000), (0, 1001), (-1000, 0), (-1001, 0), (1, 1), (1, 0), (999, 1000), (-32768, 0), (0, 32767), (1001, 0)]:
        yield pack(numbers=numbers), 8, 16
    for spans in [((0, 4), (1, 3), (0, 2), (2, 3)), ((4, 0), (1, 3), (0, 2), (2, 3)), ((0, 1), (1, 3), (0, 2), (2, 2)),
                  ((0, 1), (0, 1), (0, 1), (1, 0)), ((0, 1), (255, 3), (9, 9), (2, 3))]:
        yield pack(spans=spans), 8, 16
    for converters in [((4, 0, 1, 1),), ((3, 0, 1, 65534),), ((1, 2, 1, 1),), ((1, 0, 2, 1),), ((1, 1, 1, 1),), ((1, 0, 1, ABSENT),),
                       ((1, 0, 1, 1), (1, 0, 1, 1)), ((1, 1, 0, 1), (1, 0, 1, 1)), ((1, 0, 1, 1), (1, 1, 0, 1)),
                       ((2, 0, 1, 1), (1, 0, 1, 1)), ((0, 1, 0, 1), (1, 0, 1, 1)), ((0, 1, 0, 1), (0, 0, 1, 1), (9, 9, 9, 9))]:
        yield pack(converters=converters), 8, 16
    yield pack(numbers=(0, 5, 9), tariffs=[1] * 12, converters=((1, 0, 1, 1), (1, 0, 2, 1), (1, 1, 0, 1), (1, 2, 0, 3))), 12, 36
    # two faults each: the first in the order decides
    both = [(0, [9]), (1, [9]), (2, [0]), (3, [0]), (4, [9, 9]), (6, [99, 0]), (8, [0, 0, 0, 39]), (12, [0, 0, 0, 9]),
            (16, [9, 9, 9, 9]), (20, [0, 0, 0, 7]), (24, [0, 0, 0, 51]), (28, [9]), (32, [0, 0, 0, 69]), (36, [1]),
            (40, [0, 2]), (42, [128, 0]), (44, [9]), (51, [2]), (68, [9]), (71, [255, 255])]
    for i, (at, data) in enumerate(both):
        for other, more in both[i + 1:]:
            yield put(put(sample, at, data), other, more), 7, 16
    # one node, no span, no converter, one channel
    yield pack(nodes=1, numbers=(7,), spans=(), tariffs=[], converters=()), 0, 1
    # sound plans, with gaps and bytes after the end, and each of them damaged
    rng = random.Random(20261118)
    for _ in range(40):
        plan = sound_plan(rng)
        n, k, m = plan[2], plan[3], plan[4] << 8 | plan[5]
        tables = (m * k + rng.choice([0, 0, 3]), n * k * k + rng.choice([0, 0, 3]))
        yield (plan,) + tables
        yield (put(plan, rng.randrange(40), [rng.randrange(256)]),) + tables
        yield (put(plan, rng.randrange(len(plan)), [rng.randrange(256)]),) + tables


def main():
    given, wanted = [], []
    for plan, tariffs, converters in cases():
        body = plan.rstrip(b"\0")
        given.append("%s %d %d %d" % (body.hex().upper(), len(plan) - len(body), tariffs, converters))
        wanted.append(verdict(plan, tariffs, converters))
    (CRATE / "stdin").write_text("".join(line + "\n" for line in given))
    (CRATE / "stdout").write_text("".join(line + "\n" for line in wanted))
    print(len(given), "cases")


main()
