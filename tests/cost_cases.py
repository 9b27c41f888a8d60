#!/usr/bin/env python3
"""Writes the cases of crates/cost_cases: its stdin and its stdout.

Each kind is written here from docs/costs.md alone; values are Python's numbers and pairs, which
have no end, and are stopped by hand.
"""
import random

from written import write

TOP = 4294967295
MOST = 65535


def stopped(count, total):
    return (MOST, TOP) if count >= MOST else (count, min(total, TOP))


def step(kind, value, sort, tariff):
    if kind == "SUM":
        return min(value + tariff, TOP)
    if kind == "WORST":
        return tariff if tariff > value else value
    return stopped(value[0] + (sort == "C"), value[1] + tariff)


def text(kind, value):
    return "%d+%d" % value if kind == "FEW" else str(value)


def run(kind, value, charges):
    for sort, tariff in charges:
        value = step(kind, value, sort, tariff)
    start = {"SUM": "0", "FEW": "0+0", "WORST": "0"}[kind]
    return start + " " + text(kind, value)


# worked by hand: the examples of docs/costs.md, and some more
BY_HAND = [
    ("SUM 4294967290 S9", "0 4294967295"),
    ("SUM 4294967290 S5", "0 4294967295"),
    ("SUM 4294967290 C9", "0 4294967295"),
    ("SUM 4294967290 S4", "0 4294967294"),
    ("SUM 4294967290 C4", "0 4294967294"),
    ("SUM 0 S2 C1 S3", "0 6"),
    ("FEW 65534+7 C0", "0+0 65535+4294967295"),
    ("FEW 65534+7 S0", "0+0 65534+7"),
    ("FEW 65533+7 C1", "0+0 65534+8"),
    ("FEW 65535+4 S0", "0+0 65535+4294967295"),
    ("FEW 0+0 S2 C1 S3", "0+0 1+6"),
    ("FEW 0+0 S4 S5", "0+0 0+9"),
    ("WORST 0 S2 C1 S3", "0 3"),
    ("FEW 65535+4294967295 S1", "0+0 65535+4294967295"),
    ("FEW 65535+4294967295 C0", "0+0 65535+4294967295"),
    ("WORST 3 S3", "0 3"),
    ("WORST 3 C3", "0 3"),
    ("WORST 3 S65534", "0 65534"),
    ("WORST 3 C65534", "0 65534"),
    ("WORST 0 S4 S5", "0 5"),
    ("SUM 0 S4 S5", "0 9"),
    ("WORST 0 C65534 S3", "0 65534"),
    ("FEW 65534+9 MOST 65535+4", "65534+9 true 65535+4294967295"),
    ("FEW 65535+4 MOST 65534+9", "65535+4294967295 false 65534+9"),
    ("FEW 0+9 MOST 1+6", "0+9 true 1+6"),
    ("FEW 1+6 MOST 1+5", "1+6 false 1+5"),
    ("SUM 6 MOST 9", "6 true 9"),
    ("SUM 9 MOST 6", "9 false 6"),
    ("WORST 3 MOST 3", "3 true 3"),
    ("WORST 4 MOST 3", "4 false 3"),
]

EDGES = {
    "SUM": [0, 1, 65534, 65535, 65536, TOP - 65535, TOP - 65534, TOP - 1, TOP],
    "FEW": [(0, 0), (0, TOP), (1, 0), (1, 5), (65533, TOP), (65534, 0), (65534, 7), (65534, TOP - 1), (65534, TOP), (65535, TOP)],
    "WORST": [0, 1, 2, 65533, 65534, 65535],
}
TARIFFS = [0, 1, 2, 300, 65533, 65534]


def cases():
    rng = random.Random(4)
    for kind, values in EDGES.items():
        for a in values:
            for b in values:
                most = "true" if a <= b else "false"
                yield "%s %s MOST %s" % (kind, text(kind, a), text(kind, b)), "%s %s %s" % (text(kind, a), most, text(kind, b))
            for sort in "SC":
                for tariff in TARIFFS:
                    yield "%s %s %s%d" % (kind, text(kind, a), sort, tariff), run(kind, a, [(sort, tariff)])
        for _ in range(60):
            a = rng.choice(values)
            charges = [(rng.choice("SSC"), rng.choice(TARIFFS + [rng.randrange(65535)])) for _ in range(rng.choice([1, 2, 3, 10, 40]))]
            words = " ".join("%s%d" % c for c in charges)
            yield "%s %s %s" % (kind, text(kind, a), words), run(kind, a, charges)


def model(line):
    kind, value, *rest = line.split()
    number = (lambda w: stopped(*map(int, w.split("+")))) if kind == "FEW" else int
    if rest[0] == "MOST":
        a, b = number(value), number(rest[1])
        return "%s %s %s" % (text(kind, a), "true" if a <= b else "false", text(kind, b))
    return run(kind, number(value), [(w[0], int(w[1:])) for w in rest])


write("cost_cases", BY_HAND, model, cases())
