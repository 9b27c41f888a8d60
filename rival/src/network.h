// The network that a plan tells (docs/network.md).
#pragma once
#include "costs.h"
#include <cstdint>
#include <string>
#include <vector>

struct Span {
    int tail;
    int head;
};

// A span taken on one of its channels.
struct Step {
    int span;
    int channel;
};

struct Network {
    int spacing = 0;
    int nodes = 0;
    int channels = 0;
    std::vector<int> numbers;
    std::vector<Span> spans;
    std::vector<int> tariffs;
    std::vector<int> converters;

    int tariff(Step step) const { return tariffs[size_t(step.span * channels + step.channel)]; }
    int &converter(int node, int from, int to) {
        return converters[size_t((node * channels + from) * channels + to)];
    }
    int converter(int node, int from, int to) const {
        return converters[size_t((node * channels + from) * channels + to)];
    }
};

// A channel's label (docs/labels.md), as eight hexadecimal digits.
std::string label(const Network &network, int channel);
