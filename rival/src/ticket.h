// Tickets: a line is one, or is refused (docs/tickets.md).
#pragma once
#include "costs.h"
#include "refusal.h"
#include <array>
#include <string>
#include <variant>

enum class Verb { Light, Quote, Trial, Dark, Shut, Slip };

struct Ticket {
    Verb verb;
    std::array<int, 3> numbers;
    Kind kind;
};

std::string name(Verb verb);
std::variant<Refusal, Ticket> read_ticket(const std::string &line);
