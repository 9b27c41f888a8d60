#include "costs.h"
#include <algorithm>

namespace {

const uint64_t SUM_END = 4294967295u;
const uint32_t COUNT_END = 65535;

uint32_t added(uint32_t amount, int tariff) {
    return uint32_t(std::min(SUM_END, uint64_t(amount) + uint64_t(tariff)));
}

} // namespace

Cost after_span(Kind kind, Cost cost, int tariff) {
    if (kind == Kind::Worst) {
        cost.amount = std::max(cost.amount, uint32_t(tariff));
    } else {
        cost.amount = added(cost.amount, tariff);
    }
    return cost;
}

Cost after_conversion(Kind kind, Cost cost, int tariff) {
    cost = after_span(kind, cost, tariff);
    if (kind == Kind::Few) {
        cost.conversions = std::min(COUNT_END, cost.conversions + 1);
        if (cost.conversions == COUNT_END) {
            cost.amount = uint32_t(SUM_END);
        }
    }
    return cost;
}

bool at_most(Kind kind, Cost one, Cost other) {
    if (kind == Kind::Few && one.conversions != other.conversions) {
        return one.conversions < other.conversions;
    }
    return one.amount <= other.amount;
}

std::string text(Kind kind, Cost cost) {
    std::string amount = std::to_string(cost.amount);
    return kind == Kind::Few ? std::to_string(cost.conversions) + "+" + amount : amount;
}
