// Kinds of cost (docs/costs.md).
#pragma once
#include <cstdint>
#include <string>

enum class Kind { Sum, Few, Worst };

// A value of any kind. SUM and WORST use the amount alone; FEW counts conversions too.
struct Cost {
    uint32_t conversions = 0;
    uint32_t amount = 0;
};

const int LARGEST_TARIFF = 65534;
const int NO_TARIFF = 65535;

Cost after_span(Kind kind, Cost cost, int tariff);
Cost after_conversion(Kind kind, Cost cost, int tariff);
bool at_most(Kind kind, Cost one, Cost other);
std::string text(Kind kind, Cost cost);
