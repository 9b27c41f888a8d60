// A plan before it is written: what its bytes are to say, sound or not.
#pragma once
#include "network.h"
#include "random.h"
#include <array>
#include <string>
#include <vector>

struct Converter {
    int node;
    int from;
    int to;
    int tariff;
};

struct Draft {
    int version = 1;
    int spacing = 1;
    int nodes = 1;
    int channels = 1;
    std::vector<int> numbers;
    std::vector<Span> spans;
    std::vector<int> tariffs;
    std::vector<Converter> converters;
    // What lies before each section, and behind the last.
    std::array<std::string, 4> gaps;
    std::string tail;

    // Where a section begins: 0 is channel numbers, 1 spans, 2 tariffs, 3 converters.
    size_t begin(size_t section) const;
    size_t length(size_t section) const;
    std::string written() const;
};

// A number put into bytes that are there, the high byte first.
void put(std::string &bytes, size_t at, size_t width, uint64_t number);

// The sample network (docs/network.md).
Draft sample();

// Some sound plan.
Draft random_draft(Random &random);

// A plan with these counts, all of whose records are sound.
Draft full_draft(Random &random, int nodes, int channels, int spans, int converters);

// One whose cheapest paths are very long: a ring that must be gone round once for each channel.
Draft winding_draft(int ring, int channels);
