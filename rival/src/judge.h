// Judges what a console printed, line by line, against the model.
#pragma once
#include "process.h"
#include <map>
#include <optional>
#include <string>
#include <utility>
#include <vector>

struct Fault {
    // The input's line, counted from 1; 0 where the fault is none of a line's.
    long line = 0;
    std::string asked;
    std::string due;
    std::string got;
};

// What came up: how often a refusal came to a line of a sort, and how often a line was accepted.
struct Counts {
    std::map<std::pair<int, std::string>, long> refused;
    std::map<std::string, long> accepted;
    long lines = 0;
    long paths = 0;
    long longest_path = 0;
    long most_lit = 0;

    void add(const Counts &other);
};

// The lines of an input: a byte 10 ends each, and nothing after the last is no line.
std::vector<std::string> lines_of(const std::string &input);

// A slip ticket behind each line that may light a circuit, so that the path which was taken can be read.
std::string with_slips(const std::string &input);

// The first fault of what was printed, or nothing.
std::optional<Fault> judge(const Given &given, const Printed &printed, Counts &counts);
