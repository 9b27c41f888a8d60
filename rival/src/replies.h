// What the console replies to a line (docs/console.md), by the model alone.
#pragma once
#include "book.h"
#include "search.h"
#include "ticket.h"

// An order that was lit: its path isn't known until its slip is read.
struct Order {
    int circuit;
    int from;
    int to;
    Kind kind;
    Cost cost;
};

struct Reply {
    std::string text;
    // The refusal's number, or 0.
    int refusal = 0;
    // The verb, or nothing where the line is no ticket.
    std::optional<Verb> verb;
    // What was lit by this line.
    std::optional<Order> lit;
};

// The reply to a line. All changes of the book are made, but that a path is lit.
Reply reply_to(Book &book, const std::string &line);

// A circuit's slip: its header and its settings, each line ended (docs/slips.md).
std::string slip(const Network &network, int circuit, const Path &path);
