// Ticket lines, good and bad.
#pragma once
#include "random.h"
#include <string>

// About how large what a ticket names is.
struct Sizes {
    int nodes;
    int spans;
};

// So many lines, each ended but perhaps the last.
std::string random_lines(Random &random, Sizes sizes, int count);

// Bytes of a text flipped, put in, taken out or cut off.
std::string damaged(Random &random, std::string text, int times);
