// The book: which circuits are lit, which channels they hold, which spans are shut (docs/book.md).
#pragma once
#include "network.h"
#include <array>
#include <optional>
#include <vector>

const int CIRCUITS = 128;

using Path = std::vector<Step>;

class Book {
public:
    explicit Book(const Network &network)
        : of(network), held(network.tariffs.size(), false), shut_spans(network.spans.size(), false) {}

    const Network &network() const { return of; }
    bool is_lit(int circuit) const { return circuits[size_t(circuit)].has_value(); }
    const Path &path(int circuit) const { return *circuits[size_t(circuit)]; }

    // A step's tariff, or nothing where it can't be used now (docs/semilightpaths.md).
    std::optional<int> fare(Step step) const {
        bool barred = shut_spans[size_t(step.span)] || held[entry(step)];
        int tariff = of.tariff(step);
        return barred || tariff == NO_TARIFF ? std::nullopt : std::optional(tariff);
    }

    void light(int circuit, const Path &path) {
        circuits[size_t(circuit)] = path;
        mark(path, true);
    }

    // How many channels went back.
    size_t darken(int circuit) {
        size_t channels = path(circuit).size();
        mark(path(circuit), false);
        circuits[size_t(circuit)].reset();
        return channels;
    }

    void shut(int span) { shut_spans[size_t(span)] = true; }

private:
    const Network &of;
    std::vector<bool> held;
    std::vector<bool> shut_spans;
    std::array<std::optional<Path>, CIRCUITS> circuits;

    size_t entry(Step step) const { return size_t(step.span * of.channels + step.channel); }

    void mark(const Path &path, bool value) {
        for (Step step : path) {
            held[entry(step)] = value;
        }
    }
};
