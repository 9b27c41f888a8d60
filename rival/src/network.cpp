#include "network.h"
#include <cstdio>

std::string label(const Network &network, int channel) {
    const uint32_t grid = 1;
    uint32_t code = uint32_t(network.spacing);
    uint32_t number = uint32_t(network.numbers[size_t(channel)]) & 0xFFFF;
    char digits[9];
    std::snprintf(digits, sizeof digits, "%08X", grid << 29 | code << 25 | number);
    return digits;
}
