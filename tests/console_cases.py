#!/usr/bin/env python3
"""Writes the sample plan and tickets of the console, and the replies that are due.

The replies come from the little model below. It knows
  - which lines are tickets, and where each other line is refused (docs/tickets.md);
  - which circuits stand, each on its path, and which spans are shut (Book);
  - which paths are cheapest by SUM, FEW and WORST (cheapest): Dijkstra's method finds what they cost, and
    a walk along every path how many cost that. A circuit is only lit where there is one, since of several
    the console may take any;
  - the labels of channels (label), and so the slip of a path.
It doesn't know where costs end (docs/costs.md).
Each ticket below also has its reply beside it, written by hand.
"""
import heapq
from pathlib import Path

CRATE = Path(__file__).resolve().parent.parent / "crates" / "console"


class Refused(Exception):
    """A refusal: its number and its place."""


# Lines

def sort(byte):
    if 48 <= byte <= 57:
        return "digit"
    if 65 <= byte <= 90:
        return "letter"
    return "space" if byte == 32 else "foreign"


def words(line):
    """The words of a line, each after the place where it starts."""
    if not 1 <= len(line) <= 80:
        raise Refused(12, 0)
    found, before, start = [], None, None
    for place, byte in enumerate(line + b"\n", 1):
        here = sort(byte)
        if here in ("space", "foreign") and start is not None:
            word = line[start - 1:place - 1]
            if word[:1].isdigit() and (len(word) > 5 or int(word) > 65535):
                raise Refused(15, start)
            found.append((start, word))
            start = None
        if place > len(line):
            return found
        if here == "space" and (place == 1 or place == len(line) or before == "space"):
            raise Refused(13, place)
        if here == "foreign" or {before, here} == {"digit", "letter"}:
            raise Refused(14, place)
        if here != "space" and start is None:
            start = place
        before = here


ORDER = ["number", "number", "number", "kind"]
VERBS = {b"LIGHT": ORDER, b"QUOTE": ORDER, b"TRIAL": ORDER,
         b"DARK": ["number"], b"SHUT": ["number"], b"SLIP": ["number"]}


def ticket(line):
    """The verb of a ticket, and what follows it."""
    (place, verb), *rest = words(line)
    if verb not in VERBS:
        raise Refused(16, place)
    due = VERBS[verb]
    if len(rest) != len(due):
        raise Refused(17, rest[len(due)][0] if len(rest) > len(due) else len(line) + 1)
    told = []
    for (place, word), wanted in zip(rest, due):
        if word.isdigit() != (wanted == "number"):
            raise Refused(18, place)
        if wanted == "kind" and word not in KINDS:
            raise Refused(19, place)
        told.append(int(word) if wanted == "number" else word)
    return verb, told


# Paths

class Network:
    """What a plan tells. A step of a path is a pair of span and channel."""

    def __init__(self, nodes, code, numbers, spans, tariffs, converters):
        self.nodes, self.code, self.numbers, self.spans = nodes, code, numbers, spans
        self.tariffs = tariffs  # of each step that there is
        self.converters = converters  # the tariff for each node, channel from and channel to


# each kind: the cost of a path by its tariffs and by how many of them are converters', and its text
KINDS = {
    b"SUM": (lambda tariffs, turns: sum(tariffs), b"%d"),
    b"FEW": (lambda tariffs, turns: (turns, sum(tariffs)), b"%d+%d"),
    b"WORST": (lambda tariffs, turns: max(tariffs), b"%d"),
}


def cost(network, kind, path):
    turns = [network.converters[network.spans[span][0], channel, then]
             for (_, channel), (span, then) in zip(path, path[1:]) if channel != then]
    return KINDS[kind][0]([network.tariffs[step] for step in path] + turns, len(turns))


def onward(network, usable, source, path):
    """The path with one step more, in each way there is."""
    node = network.spans[path[-1][0]][1] if path else source
    for span, channel in usable:
        joined = not path or channel == path[-1][1] or (node, path[-1][1], channel) in network.converters
        if network.spans[span][0] == node and joined:
            yield [*path, (span, channel)]


def least(network, usable, kind, source, target):
    """What a cheapest path costs, or None: each node and channel that a path can come to is settled once."""
    seen, settled = [(0, [])], set()
    while seen:
        spent, path = heapq.heappop(seen)
        if path:
            span, channel = path[-1]
            node = network.spans[span][1]
            if node == target:
                return spent
            if (node, channel) in settled:
                continue
            settled.add((node, channel))
        for longer in onward(network, usable, source, path):
            heapq.heappush(seen, (cost(network, kind, longer), longer))
    return None


def paths(network, usable, source, target, path=()):
    """Every path that takes no step twice."""
    if path and network.spans[path[-1][0]][1] == target:
        yield path
    for longer in onward(network, usable, source, path):
        if longer[-1] not in path:
            yield from paths(network, usable, source, target, longer)


def cheapest(network, usable, kind, source, target):
    """The cheapest paths, and what they cost."""
    every = [(cost(network, kind, path), path) for path in paths(network, usable, source, target)]
    spent = least(network, usable, kind, source, target)
    assert spent == min((c for c, _ in every), default=None)
    return [path for c, path in every if c == spent], spent


# The book, and its replies

def label(network, channel):
    return 1 << 29 | network.code << 25 | network.numbers[channel] % 2 ** 16


def settings(network, path):
    """The slip of a path, each setting a line of text."""
    ports = ["- -", *("%d %08X" % (span, label(network, channel)) for span, channel in path), "- -"]
    nodes = [network.spans[span][0] for span, _ in path] + [network.spans[path[-1][0]][1]]
    return ["%d %s %s" % setting for setting in zip(nodes, ports, ports[1:])]


class Book:
    def __init__(self, network):
        self.network, self.circuits, self.shut = network, {}, set()

    def usable(self):
        held = {step for path in self.circuits.values() for step in path}
        return [step for step in self.network.tariffs if step not in held and step[0] not in self.shut]

    def judge_circuit(self, circuit, stands):
        if circuit > 127:
            raise Refused(21, 0)
        if (circuit in self.circuits) != stands:
            raise Refused(23, 0)

    def judge_ends(self, source, target):
        if max(source, target) >= self.network.nodes:
            raise Refused(24, 0)
        if source == target:
            raise Refused(25, 0)

    def judge_span(self, span):
        if span >= len(self.network.spans):
            raise Refused(26, 0)

    def find(self, usable, source, target, kind):
        """The cheapest paths over some steps, and the text of what they cost."""
        found, spent = cheapest(self.network, usable, kind, source, target)
        if not found:
            raise Refused(29, 0)
        return found, KINDS[kind][1] % spent

    def order(self, circuit, source, target, kind):
        self.judge_circuit(circuit, stands=False)
        self.judge_ends(source, target)
        return self.find(self.usable(), source, target, kind)

    def light(self, circuit, source, target, kind):
        found, text = self.order(circuit, source, target, kind)
        assert len(found) == 1, found
        self.circuits[circuit] = found[0]
        return b"LIT %d %s" % (circuit, text)

    def quote(self, circuit, source, target, kind):
        return b"FEE %s" % self.order(circuit, source, target, kind)[1]

    def trial(self, source, target, span, kind):
        self.judge_ends(source, target)
        self.judge_span(span)
        left = [step for step in self.usable() if step[0] != span]
        return b"FEE %s" % self.find(left, source, target, kind)[1]

    def dark(self, circuit):
        self.judge_circuit(circuit, stands=True)
        return b"DARK %d %d" % (circuit, len(self.circuits.pop(circuit)))

    def shut_span(self, span):
        self.judge_span(span)
        self.shut.add(span)
        return b"SHUT %d" % span

    def slip(self, circuit):
        self.judge_circuit(circuit, stands=True)
        lines = settings(self.network, self.circuits[circuit])
        return "\n".join(["SLIP %d %d" % (circuit, len(lines)), *lines]).encode()

    def reply(self, line):
        calls = {b"LIGHT": self.light, b"QUOTE": self.quote, b"TRIAL": self.trial,
                 b"DARK": self.dark, b"SHUT": self.shut_span, b"SLIP": self.slip}
        try:
            verb, told = ticket(line)
            return calls[verb](*told)
        except Refused as refused:
            return b"NO %d %d" % refused.args


# The plan

def plan(network):
    def wide(n):
        return n.to_bytes(4, "big")

    def two(n):
        return (n % 2 ** 16).to_bytes(2, "big")

    channels = len(network.numbers)
    steps = [(span, channel) for span in range(len(network.spans)) for channel in range(channels)]
    sections = [
        b"".join(two(n) for n in network.numbers),
        b"".join(bytes(ends) for ends in network.spans),
        b"".join(two(network.tariffs.get(step, 65535)) for step in steps),
        b"".join(bytes(where) + two(w) for where, w in sorted(network.converters.items())),
    ]
    head = bytes([1, network.code, network.nodes, channels]) + two(len(network.spans)) + two(len(network.converters))
    at = 40
    for section in sections:
        head += wide(at) + wide(len(section))
        at += len(section)
    return head + b"".join(sections)


# the sample network of docs/network.md
SAMPLE = Network(
    nodes=4, code=1, numbers=[0, 1],
    spans=[(0, 1), (1, 3), (0, 2), (2, 3)],
    tariffs={(0, 0): 2, (1, 1): 3, (2, 0): 4, (2, 1): 4, (3, 0): 5},
    converters={(1, 0, 1): 1},
)

# a line, and its reply by hand
TICKETS = [
    (b"QUOTE 1 0 3 FEW", b"FEE 0+9"),
    (b"TRIAL 0 3 0 SUM", b"FEE 9"),
    (b"LIGHT 1 0 3 SUM", b"LIT 1 6"),
    (b"LIGHT 2 0 3 SUM", b"LIT 2 9"),
    (b"LIGHT 3 0 3 SUM", b"NO 29 0"),
    (b"SLIP 1", b"SLIP 1 3\n0 - - 0 22000000\n1 0 22000000 1 22000001\n3 1 22000001 - -"),
    (b"DARK 1", b"DARK 1 2"),
    (b"DARK X1", b"NO 14 7"),
    (b"SHUT 0", b"SHUT 0"),

    # circuit 2 stands, and span 0 is shut: what stands is not lit again, and what does not has no slip
    (b"SLIP 2", b"SLIP 2 3\n0 - - 2 22000000\n2 2 22000000 3 22000000\n3 3 22000000 - -"),
    (b"LIGHT 2 0 2 SUM", b"NO 23 0"),
    (b"QUOTE 2 0 2 SUM", b"NO 23 0"),
    (b"DARK 1", b"NO 23 0"),
    (b"SLIP 1", b"NO 23 0"),
    (b"DARK 0", b"NO 23 0"),
    (b"SLIP 127", b"NO 23 0"),
    # there is no such circuit
    (b"LIGHT 128 0 2 SUM", b"NO 21 0"),
    (b"QUOTE 128 0 2 FEW", b"NO 21 0"),
    (b"DARK 128", b"NO 21 0"),
    (b"SLIP 128", b"NO 21 0"),
    (b"SLIP 65535", b"NO 21 0"),
    # there is no such node, or both are the same; the lower number comes first
    (b"LIGHT 3 4 2 SUM", b"NO 24 0"),
    (b"QUOTE 3 0 4 WORST", b"NO 24 0"),
    (b"LIGHT 3 65535 65535 FEW", b"NO 24 0"),
    (b"LIGHT 3 0 0 SUM", b"NO 25 0"),
    (b"QUOTE 3 3 3 WORST", b"NO 25 0"),
    (b"LIGHT 128 4 4 SUM", b"NO 21 0"),
    (b"QUOTE 2 4 4 SUM", b"NO 23 0"),
    (b"LIGHT 2 1 1 SUM", b"NO 23 0"),
    # no path leads against the spans, nor over the one that is shut
    (b"QUOTE 3 3 0 SUM", b"NO 29 0"),
    (b"LIGHT 3 0 1 FEW", b"NO 29 0"),
    # a trial takes no circuit and shuts nothing: span 2 has one channel left, and span 1 too
    (b"TRIAL 0 2 3 SUM", b"FEE 4"),
    (b"TRIAL 0 2 1 FEW", b"FEE 0+4"),
    (b"TRIAL 0 2 3 WORST", b"FEE 4"),
    (b"TRIAL 1 3 2 SUM", b"FEE 3"),
    (b"TRIAL 1 3 3 FEW", b"FEE 0+3"),
    # the span is shut already
    (b"TRIAL 0 2 0 SUM", b"FEE 4"),
    (b"TRIAL 0 2 00000 FEW", b"FEE 0+4"),
    (b"TRIAL 00001 03 0 WORST", b"FEE 3"),
    (b"TRIAL 0 1 0 WORST", b"NO 29 0"),
    # without the span no path leads there, and without any none did
    (b"TRIAL 0 2 2 SUM", b"NO 29 0"),
    (b"TRIAL 0 2 2 FEW", b"NO 29 0"),
    (b"TRIAL 1 3 1 WORST", b"NO 29 0"),
    (b"TRIAL 0 3 1 SUM", b"NO 29 0"),
    (b"TRIAL 3 0 2 FEW", b"NO 29 0"),
    # no such node, one node, no such span; the lowest number comes first
    (b"TRIAL 4 3 0 SUM", b"NO 24 0"),
    (b"TRIAL 0 4 0 FEW", b"NO 24 0"),
    (b"TRIAL 128 3 1 WORST", b"NO 24 0"),
    (b"TRIAL 65535 65535 4 WORST", b"NO 24 0"),
    (b"TRIAL 0 65535 65535 SUM", b"NO 24 0"),
    (b"TRIAL 3 3 0 SUM", b"NO 25 0"),
    (b"TRIAL 0 0 4 FEW", b"NO 25 0"),
    (b"TRIAL 0 2 4 SUM", b"NO 26 0"),
    (b"TRIAL 1 3 65535 FEW", b"NO 26 0"),
    (b"TRIAL 3 0 256 WORST", b"NO 26 0"),
    # one channel of span 2 is left, by every kind of cost
    (b"QUOTE 3 0 2 SUM", b"FEE 4"),
    (b"QUOTE 3 0 2 FEW", b"FEE 0+4"),
    (b"QUOTE 3 0 2 WORST", b"FEE 4"),
    (b"LIGHT 0 0 2 WORST", b"LIT 0 4"),
    (b"QUOTE 3 0 2 SUM", b"NO 29 0"),
    (b"TRIAL 0 2 3 SUM", b"NO 29 0"),
    (b"SLIP 0", b"SLIP 0 2\n0 - - 2 22000001\n2 2 22000001 - -"),
    (b"QUOTE 00127 00001 00003 WORST", b"FEE 3"),
    (b"LIGHT 00127 01 00003 FEW", b"LIT 127 0+3"),
    (b"SLIP 127", b"SLIP 127 2\n1 - - 1 22000001\n3 1 22000001 - -"),
    # dark, and lit again on another path
    (b"DARK 2", b"DARK 2 2"),
    (b"DARK 2", b"NO 23 0"),
    (b"QUOTE 2 0 3 WORST", b"FEE 5"),
    (b"TRIAL 0 3 1 SUM", b"FEE 9"),
    (b"TRIAL 0 3 1 FEW", b"FEE 0+9"),
    (b"TRIAL 0 3 0 WORST", b"FEE 5"),
    (b"TRIAL 0 3 2 WORST", b"NO 29 0"),
    (b"TRIAL 0 3 3 FEW", b"NO 29 0"),
    (b"LIGHT 2 2 3 FEW", b"LIT 2 0+5"),
    (b"SLIP 2", b"SLIP 2 2\n2 - - 3 22000000\n3 3 22000000 - -"),
    (b"QUOTE 1 0 3 SUM", b"NO 29 0"),
    (b"DARK 0", b"DARK 0 1"),
    (b"DARK 00002", b"DARK 2 1"),
    (b"LIGHT 2 0 3 WORST", b"LIT 2 5"),
    (b"DARK 2", b"DARK 2 2"),
    # two paths are equally cheap
    (b"QUOTE 2 0 2 FEW", b"FEE 0+4"),
    (b"TRIAL 0 2 1 FEW", b"FEE 0+4"),

    # too few words, too many
    (b"LIGHT", b"NO 17 6"),
    (b"LIGHT X", b"NO 17 8"),
    (b"LIGHT 1 0 3", b"NO 17 12"),
    (b"LIGHT 1 0 3 SUM 4", b"NO 17 17"),
    (b"QUOTE", b"NO 17 6"),
    (b"QUOTE 1 0 3", b"NO 17 12"),
    (b"QUOTE 1 0 3 SUM FEW", b"NO 17 17"),
    (b"TRIAL", b"NO 17 6"),
    (b"TRIAL 0 X", b"NO 17 10"),
    (b"TRIAL 0 3 0", b"NO 17 12"),
    (b"TRIAL 0 3 SUM", b"NO 17 14"),
    (b"TRIAL 0 3 0 SUM 1", b"NO 17 17"),
    (b"TRIAL 1 0 3 0 SUM", b"NO 17 15"),
    (b"DARK", b"NO 17 5"),
    (b"DARK 1 SUM", b"NO 17 8"),
    (b"SLIP", b"NO 17 5"),
    (b"SLIP X 2", b"NO 17 8"),
    # names for numbers, numbers for names, and kinds that there are not
    (b"LIGHT X 0 3 BEST", b"NO 18 7"),
    (b"LIGHT SUM 1 0 3", b"NO 18 7"),
    (b"LIGHT 1 0 3 5", b"NO 18 13"),
    (b"QUOTE 1 X 3 SUM", b"NO 18 9"),
    (b"QUOTE 1 0 X BEST", b"NO 18 11"),
    (b"TRIAL X 3 0 SUM", b"NO 18 7"),
    (b"TRIAL SUM 0 3 0", b"NO 18 7"),
    (b"TRIAL 0 X 0 BEST", b"NO 18 9"),
    (b"TRIAL 0 3 X 5", b"NO 18 11"),
    (b"TRIAL 0 3 0 00", b"NO 18 13"),
    (b"DARK SUM", b"NO 18 6"),
    (b"SLIP X", b"NO 18 6"),
    (b"LIGHT 128 0 0 BEST", b"NO 19 15"),
    (b"QUOTE 1 0 3 SUMS", b"NO 19 13"),
    (b"QUOTE 1 0 3 SU", b"NO 19 13"),
    (b"TRIAL 0 3 0 BEST", b"NO 19 13"),
    (b"TRIAL 4 4 4 WORSE", b"NO 19 13"),
    (b"TRIAL 0 3 0 FEWER", b"NO 19 13"),
    # verbs that there are not
    (b"TRY 0 3 0 SUM", b"NO 16 1"),
    (b"TRIALS 0 3 0 SUM", b"NO 16 1"),
    (b"LIGHTS 1 0 3 SUM", b"NO 16 1"),
    (b"SUM 1", b"NO 16 1"),
    (b"1 DARK", b"NO 16 1"),
    # spaces, foreign bytes, large numbers
    (b" QUOTE 1 0 3 SUM", b"NO 13 1"),
    (b"QUOTE 1  0 3 SUM", b"NO 13 9"),
    (b"TRIAL 0 3 0 SUM ", b"NO 13 16"),
    (b"DARK 1 ", b"NO 13 7"),
    (b"light 1 0 3 SUM", b"NO 14 1"),
    (b"LIGHT 1 0 3 sum", b"NO 14 13"),
    (b"QUOTE 1 0 3 SUM3", b"NO 14 16"),
    (b"TRIAL 0 3 0 sum", b"NO 14 13"),
    (b"SLIP -1", b"NO 14 6"),
    (b"LIGHT 65536 0 3 BEST", b"NO 15 7"),
    (b"QUOTE 1 0 65536 sum", b"NO 15 11"),
    (b"TRIAL 0 3 65536 SUM", b"NO 15 11"),
    (b"TRIAL 000000 3 0 BEST", b"NO 15 7"),
    (b"DARK 65536", b"NO 15 6"),
    (b"SLIP 000127", b"NO 15 6"),

    (b"SHUT 0", b"SHUT 0"),
    (b"SHUT 3", b"SHUT 3"),
    (b"SHUT 0", b"SHUT 0"),
    (b"SHUT 00003", b"SHUT 3"),
    # two spans are shut: a trial with one of them is as without
    (b"TRIAL 0 2 3 WORST", b"FEE 4"),
    (b"TRIAL 0 2 0 SUM", b"FEE 4"),
    (b"TRIAL 2 3 3 FEW", b"NO 29 0"),
    (b"TRIAL 2 3 0 FEW", b"NO 29 0"),
    (b"SHUT 4", b"NO 26 0"),
    (b"SHUT 65535", b"NO 26 0"),
    (b"", b"NO 12 0"),
    (b"SHUT", b"NO 17 5"),
    (b"SHUT 1 2", b"NO 17 8"),
    (b"SHUT X", b"NO 18 6"),
    (b"DARK 1", b"NO 23 0"),
    (b"5", b"NO 16 1"),
    (b"SHUTS 1", b"NO 16 1"),
    (b" SHUT 1", b"NO 13 1"),
    (b"SHUT  1", b"NO 13 6"),
    (b"SHUT 1 ", b"NO 13 7"),
    (b" ", b"NO 13 1"),
    (b"shut 1", b"NO 14 1"),
    (b"SHUT 1A", b"NO 14 7"),
    (b"SHUT1", b"NO 14 5"),
    (b"SHUT 1\r", b"NO 14 7"),
    (b"SHUT \0", b"NO 14 6"),
    (b"\xff", b"NO 14 1"),
    (b"SHUT 65536", b"NO 15 6"),
    (b"SHUT 000003", b"NO 15 6"),
    (b"SHUT 123456#", b"NO 15 6"),
    # 80 bytes: the verb and 38 words
    (b"SHUT" + b" 1" * 38, b"NO 17 8"),
    (b"SHUT " + b"0" * 75, b"NO 15 6"),
    # 81 bytes
    (b"SHUT" + b" 1" * 38 + b"1", b"NO 12 0"),
    (b"SHUT " + b"0" * 75 + b"#", b"NO 12 0"),
    # 1,000 bytes
    (b"SHUT 1" + b" " * 994, b"NO 12 0"),
    # over one reading of the input, so that a line, and the next, lie across two
    (b"SHUT 1" + b"0" * 70000, b"NO 12 0"),
    (b"SHUT 1", b"SHUT 1"),
    # a circuit stays on a span that is shut, and no other one comes there
    (b"SLIP 127", b"SLIP 127 2\n1 - - 1 22000001\n3 1 22000001 - -"),
    (b"DARK 127", b"DARK 127 1"),
    (b"LIGHT 127 1 3 FEW", b"NO 29 0"),
    # the last line lacks its byte 10
    (b"SHUT 2", b"SHUT 2"),
]


def main():
    book = Book(SAMPLE)
    for line, by_hand in TICKETS:
        said = book.reply(line)
        assert said == by_hand, (line, said, by_hand)
    assert len(plan(SAMPLE)) == 73
    (CRATE / "data" / "plan.bin").write_bytes(plan(SAMPLE))
    (CRATE / "stdin").write_bytes(b"\n".join(line for line, _ in TICKETS))
    (CRATE / "stdout").write_bytes(b"".join(by_hand + b"\n" for _, by_hand in TICKETS))
    print(len(TICKETS), "tickets")


if __name__ == "__main__":
    main()
