#!/usr/bin/env python3
"""Writes what crates/search_against has to print: its stdout.

It draws the networks that the program draws, by the same rule, and finds the least costs on each by
Dijkstra's method over the places where a path can stand. That is written from docs/network.md,
docs/semilightpaths.md and docs/costs.md alone; it shares nothing with the search, nor with the other
router in the crate, and its costs are Python's numbers and pairs. So three programs agree on each
line: how many queries found a path, how many did not, and a digest of all costs in order.
"""
import heapq

from written import CRATES

TOP = 4294967295
ZERO, SMALL, ANY, LARGEST = range(4)


class Draws:
    """The numbers that the program draws."""

    def __init__(self, seed):
        self.state = seed

    def below(self, end):
        self.state = (self.state * 1664525 + 1013904223) % 2 ** 32
        return (self.state >> 16) * end >> 16

    def within(self, first, last):
        return first + self.below(last - first + 1)

    def comes(self, chances):
        return self.below(16) < chances

    def tariff(self, sort):
        if sort == SMALL:
            return self.below(10)
        if sort == ANY:
            return self.below(65535)
        return 0 if sort == ZERO else 65534


class Network:
    """What can be used of a network that is drawn: its steps by tail, and its converters."""

    def __init__(self, draws, shape):
        self.nodes = draws.within(*shape["nodes"])
        self.channels = draws.within(*shape["channels"])
        spans = draws.within(*shape["spans"])
        ends = [self.ends(draws) for _ in range(spans if self.nodes > 1 else 0)]
        steps = [(e, c) for e in range(len(ends)) for c in range(self.channels)]
        sort = shape["tariffs"]
        tariffs = [draws.tariff(sort) if draws.comes(shape["carried"]) else None for _ in steps]
        self.converters = {}
        for node in range(self.nodes):
            for a in range(self.channels):
                for b in range(self.channels):
                    if a != b and draws.comes(shape["converted"]):
                        self.converters[node, a, b] = draws.tariff(sort)
        shut = [draws.comes(shape["shut"]) for _ in ends]
        held = [draws.comes(shape["held"]) for _ in steps]
        self.leaving = [[] for _ in range(self.nodes)]
        for (span, channel), tariff, taken in zip(steps, tariffs, held):
            if tariff is not None and not taken and not shut[span]:
                tail, head = ends[span]
                self.leaving[tail].append((head, channel, tariff))

    def ends(self, draws):
        tail = draws.below(self.nodes)
        other = draws.below(self.nodes - 1)
        return tail, other + (other >= tail)

    def steps(self, node, entered):
        """Where a path can go on to, with what the conversion, if there is one, and the span charge."""
        for head, channel, tariff in self.leaving[node]:
            if entered is None or entered == channel:
                yield head, channel, None, tariff
            elif (node, entered, channel) in self.converters:
                yield head, channel, self.converters[node, entered, channel], tariff


def stopped(count, total):
    return (65535, TOP) if count >= 65535 else (count, min(total, TOP))


def by_sum(cost, turn, tariff):
    return min(cost + (turn or 0) + tariff, TOP)


def by_few(cost, turn, tariff):
    return stopped(cost[0] + (turn is not None), cost[1] + (turn or 0) + tariff)


def by_worst(cost, turn, tariff):
    return max(cost, turn or 0, tariff)


def by_upside(cost, turn, tariff):
    turned = cost if turn is None else min(cost + 65534 - turn, TOP)
    return min(turned + 65534 - tariff, TOP)


# each kind: its start, and the cost after one more step
KINDS = [(0, by_sum), ((0, 0), by_few), (0, by_worst), (0, by_upside)]


def least_costs(network, kind, source):
    """The least cost of a semilightpath from a node to each node that has one."""
    start, after = kind
    open_, settled, least = [(start, source, -1)], set(), {}
    while open_:
        cost, node, entered = heapq.heappop(open_)
        if (node, entered) in settled:
            continue
        settled.add((node, entered))
        if entered >= 0:
            least[node] = min(cost, least.get(node, cost))
        for head, channel, turn, tariff in network.steps(node, entered if entered >= 0 else None):
            if (head, channel) not in settled:
                heapq.heappush(open_, (after(cost, turn, tariff), head, channel))
    return least


class Score:
    def __init__(self):
        self.found, self.none, self.digest = 0, 0, 1

    def mix(self, value):
        self.digest = (self.digest * 31 + value) % 2 ** 32

    def note(self, cost):
        if cost is None:
            self.none += 1
            self.mix(0)
            return
        self.found += 1
        self.mix(1)
        for number in cost if isinstance(cost, tuple) else (0, cost):
            self.mix(number)


def line(name, seed, networks, asked, shape):
    draws, score = Draws(seed), Score()
    for _ in range(networks):
        network = Network(draws, shape)
        nodes = range(max(network.nodes - asked, 0), network.nodes)
        for kind in KINDS:
            for source in nodes:
                least = least_costs(network, kind, source)
                for target in nodes:
                    score.note(least.get(target))
    return "%s: %d found, %d not, %08X\n" % (name, score.found, score.none, score.digest)


PLAIN = {"nodes": (1, 10), "channels": (1, 4), "spans": (0, 24), "tariffs": SMALL,
         "carried": 12, "converted": 5, "shut": 0, "held": 0}
USED = {**PLAIN, "shut": 3, "held": 4}
NARROW = {**PLAIN, "nodes": (5, 6), "channels": (4, 4), "spans": (8, 20), "carried": 4}
WIDE = {**USED, "nodes": (20, 40), "channels": (4, 8), "spans": (60, 160)}
FULL = {**USED, "nodes": (64, 64), "channels": (16, 16), "spans": (256, 256), "carried": 10, "converted": 3}

# name, seed, how many networks, between how many of the last nodes of each it is asked, and their shape
GROUPS = [
    ("small", 1, 120, 10, PLAIN),
    ("used in part", 2, 240, 10, USED),
    ("free of charge", 3, 40, 10, {**USED, "tariffs": ZERO}),
    ("any tariffs", 4, 120, 10, {**USED, "tariffs": ANY}),
    ("the largest tariff throughout", 5, 40, 10, {**USED, "tariffs": LARGEST}),
    ("no converters", 6, 40, 10, {**PLAIN, "converted": 0}),
    ("all converters", 7, 40, 10, {**USED, "converted": 16}),
    ("narrow", 8, 240, 10, NARROW),
    ("narrow, any tariffs", 9, 240, 10, {**NARROW, "tariffs": ANY}),
    ("wide", 10, 12, 6, WIDE),
    ("full", 11, 3, 5, FULL),
]


def sample(shut):
    """The sample network of docs/network.md, with span 0 shut or open."""
    network = Network(Draws(0), {**PLAIN, "nodes": (4, 4), "channels": (2, 2), "spans": (0, 0)})
    network.leaving = [[(2, 0, 4), (2, 1, 4)], [(3, 1, 3)], [(3, 0, 5)], []]
    if not shut:
        network.leaving[0].append((1, 0, 2))
    network.converters = {(1, 0, 1): 1}
    return network


# worked by hand: docs/semilightpaths.md
assert [least_costs(sample(False), kind, 0)[3] for kind in KINDS] == [6, (0, 9), 3, 131059]
assert [least_costs(sample(True), kind, 0)[3] for kind in KINDS] == [9, (0, 9), 5, 131059]
assert not least_costs(sample(False), KINDS[0], 3)

lines = [line(*group) for group in GROUPS]
(CRATES / "search_against" / "stdout").write_text("".join(lines))
print(len(lines), "groups")
