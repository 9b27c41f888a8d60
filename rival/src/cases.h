// The cases that are tried: what a console is given in each.
#pragma once
#include "judge.h"
#include "process.h"
#include <cstdint>
#include <optional>
#include <string>
#include <vector>

struct Case {
    std::string name;
    Given given;
    // What is due of the plan, where that is stated by hand: "sound", or a refusal's number and place.
    std::optional<std::string> due_of_plan = {};
    // What is due of all that is printed, where that is stated by hand. The model isn't asked then.
    std::optional<std::string> due_out = {};
    // Whether reading or writing fails, so that the status is 1.
    bool fails = false;
    // Some bytes, again and again, that make a long first line of the input. They are put before it when the
    // case is tried, so that not all long inputs are held at once.
    std::string filler = {};
    size_t filled = 0;
};

// A case drawn from a seed and its number.
Case random_case(uint64_t seed, int number);

// What is tried besides, always: every limit of plans from both sides, one by one and two at a time.
std::vector<Case> plan_limit_cases();

// The examples of the documents, which lie in a folder.
std::vector<Case> documented_cases(const std::string &docs);

// Every limit of lines from both sides, and every byte at every place of some tickets.
std::vector<Case> line_limit_cases();

// Networks and books at their limits.
std::vector<Case> size_cases(uint64_t seed);

// The first fault of what was printed in a case, or nothing.
std::optional<Fault> judge_case(const Case &tried, const Printed &printed, Counts &counts);
