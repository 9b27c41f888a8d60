"""Writes the plan of 64 nodes and 16 channels that made.h makes, and tickets for it, nearly all of which are served."""
import sys
from pathlib import Path

NODES, CHANNELS, SPANS, SHARE, TICKETS = 64, 16, 256, 25, 20_000
ABSENT = 65535
state = 20261127


def below(bound):
    global state
    state = (state * 6364136223846793005 + 1442695040888963407) % 2**64
    return (state >> 33) % bound


def halves(numbers):
    return b"".join(number.to_bytes(2, "big") for number in numbers)


def plan():
    numbers = halves(range(CHANNELS))
    spans = b"".join(bytes([s % NODES, (s + below(NODES - 1) + 1) % NODES]) for s in range(SPANS))
    tariffs = halves(below(1000) + 1 if below(4) else ABSENT for _ in range(SPANS * CHANNELS))
    converters = b"".join(
        bytes([node, a, b]) + halves([below(1000) + 1])
        for node in range(NODES)
        for a in range(CHANNELS)
        for b in range(CHANNELS)
        if a != b and below(100) < SHARE
    )
    header = bytes([1, 1, NODES, CHANNELS]) + halves([SPANS, len(converters) // 5])
    offset = 40
    for section in (numbers, spans, tariffs, converters):
        header += offset.to_bytes(4, "big") + len(section).to_bytes(4, "big")
        offset += len(section)
    return header + numbers + spans + tariffs + converters


def ends():
    start = below(NODES)
    return start, (start + below(NODES - 1) + 1) % NODES


def kind():
    return ("SUM", "FEW", "WORST")[below(3)]


def pick(circuits):
    return sorted(circuits)[below(len(circuits))]


def tickets():
    """Of 100: some 30 LIGHT, 25 DARK, 20 SLIP, 10 QUOTE, 13 TRIAL and 2 that are refused; and few SHUT."""
    free, lit = set(range(128)), set()
    for count in range(TICKETS):
        draw = below(100)
        if count % 1000 == 999:
            yield f"SHUT {below(SPANS)}"
        elif draw < 30 and free or not lit:
            circuit = pick(free)
            free.remove(circuit)
            lit.add(circuit)
            yield "LIGHT {} {} {} {}".format(circuit, *ends(), kind())
        elif draw < 55:
            circuit = pick(lit)
            lit.remove(circuit)
            free.add(circuit)
            yield f"DARK {circuit}"
        elif draw < 75:
            yield f"SLIP {pick(lit)}"
        elif draw < 85 and free:
            yield "QUOTE {} {} {} {}".format(pick(free), *ends(), kind())
        elif draw < 98:
            yield "TRIAL {} {} {} {}".format(*ends(), below(SPANS), kind())
        else:
            yield ("DARK 128", "LIGHT 1 2", "SLIP", "SHUT 999", "TRY 0 1 2 SUM")[below(5)]


if __name__ == "__main__":
    folder = Path(sys.argv[1])
    (folder / "plan.bin").write_bytes(plan())
    (folder / "tickets").write_text("".join(ticket + "\n" for ticket in tickets()))
