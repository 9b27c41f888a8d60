// The least cost of a semilightpath, and what is wrong with a path that was told (docs/semilightpaths.md).
#pragma once
#include "book.h"
#include <string>

const int NO_SPAN = -1;

// The least cost from node to node over what can be used, with one span more counted as shut; nothing
// where no semilightpath leads there.
std::optional<Cost> least_cost(const Book &book, Kind kind, int from, int to, int without = NO_SPAN);

// Why a path is no semilightpath over what can be used, or takes a channel twice; empty where it's sound.
std::string fault_of_path(const Book &book, int from, int to, const Path &path);

// What a semilightpath costs.
Cost cost_of(const Book &book, Kind kind, const Path &path);
