#include "search.h"
#include <deque>

namespace {

const int NOTHING_ENTERED = -1;

// The tariff of going over from one channel to another at a node, 0 where nothing has to be converted;
// nothing where the node has no such converter.
std::optional<int> conversion(const Network &network, int node, int entered, int leaving) {
    if (entered == NOTHING_ENTERED || entered == leaving) {
        return 0;
    }
    int tariff = network.converter(node, entered, leaving);
    return tariff == NO_TARIFF ? std::nullopt : std::optional(tariff);
}

Cost after_step(Kind kind, Cost cost, int entered, int leaving, int conversion, int fare) {
    if (entered != NOTHING_ENTERED && entered != leaving) {
        cost = after_conversion(kind, cost, conversion);
    }
    return after_span(kind, cost, fare);
}

// Improves what it costs to have entered a node on a channel, again and again, until nothing falls any
// more. Nothing is ever settled before the end.
class Relaxing {
public:
    Relaxing(const Book &book, Kind kind, int without)
        : book(book), network(book.network()), kind(kind), without(without),
          best(size_t(network.nodes * network.channels)), waits(best.size(), false) {
        leaving.resize(size_t(network.nodes));
        for (int span = 0; span < int(network.spans.size()); span++) {
            leaving[size_t(network.spans[size_t(span)].tail)].push_back(span);
        }
    }

    std::optional<Cost> from_to(int from, int to) {
        go_on(from, NOTHING_ENTERED, Cost{});
        while (!waiting.empty()) {
            int arrival = waiting.front();
            waiting.pop_front();
            waits[size_t(arrival)] = false;
            go_on(arrival / network.channels, arrival % network.channels, *best[size_t(arrival)]);
        }
        return least_at(to);
    }

private:
    const Book &book;
    const Network &network;
    Kind kind;
    int without;
    std::vector<std::optional<Cost>> best;
    std::vector<bool> waits;
    std::deque<int> waiting;
    std::vector<std::vector<int>> leaving;

    void go_on(int node, int entered, Cost cost) {
        for (int channel = 0; channel < network.channels; channel++) {
            std::optional<int> converted = conversion(network, node, entered, channel);
            if (converted) {
                take_spans(node, entered, channel, *converted, cost);
            }
        }
    }

    void take_spans(int node, int entered, int channel, int converted, Cost cost) {
        for (int span : leaving[size_t(node)]) {
            std::optional<int> fare = book.fare({span, channel});
            if (fare && span != without) {
                Cost after = after_step(kind, cost, entered, channel, converted, *fare);
                offer(network.spans[size_t(span)].head * network.channels + channel, after);
            }
        }
    }

    void offer(int arrival, Cost cost) {
        std::optional<Cost> &known = best[size_t(arrival)];
        if (known && at_most(kind, *known, cost)) {
            return;
        }
        known = cost;
        if (!waits[size_t(arrival)]) {
            waits[size_t(arrival)] = true;
            waiting.push_back(arrival);
        }
    }

    std::optional<Cost> least_at(int node) const {
        std::optional<Cost> least;
        for (int channel = 0; channel < network.channels; channel++) {
            const std::optional<Cost> &here = best[size_t(node * network.channels + channel)];
            if (here && (!least || !at_most(kind, *least, *here))) {
                least = here;
            }
        }
        return least;
    }
};

} // namespace

std::optional<Cost> least_cost(const Book &book, Kind kind, int from, int to, int without) {
    return Relaxing(book, kind, without).from_to(from, to);
}

std::string fault_of_path(const Book &book, int from, int to, const Path &path) {
    const Network &network = book.network();
    std::vector<bool> taken(network.tariffs.size(), false);
    int node = from, entered = NOTHING_ENTERED;
    for (Step step : path) {
        const Span &span = network.spans[size_t(step.span)];
        size_t entry = size_t(step.span * network.channels + step.channel);
        if (!book.fare(step)) {
            return "a channel can't be used";
        }
        if (span.tail != node) {
            return "a span doesn't leave the node that was come to";
        }
        if (!conversion(network, node, entered, step.channel)) {
            return "a node has no such converter";
        }
        if (taken[entry]) {
            return "a channel is taken twice";
        }
        taken[entry] = true;
        node = span.head;
        entered = step.channel;
    }
    if (path.empty()) {
        return "the path has no steps";
    }
    return node == to ? "" : "the path doesn't end where it should";
}

Cost cost_of(const Book &book, Kind kind, const Path &path) {
    const Network &network = book.network();
    Cost cost;
    int entered = NOTHING_ENTERED;
    for (Step step : path) {
        int node = network.spans[size_t(step.span)].tail;
        int converted = conversion(network, node, entered, step.channel).value_or(LARGEST_TARIFF);
        int fare = book.fare(step).value_or(LARGEST_TARIFF);
        cost = after_step(kind, cost, entered, step.channel, converted, fare);
        entered = step.channel;
    }
    return cost;
}
