// Judges a console on made plans and tickets. rival/run starts it; see rival/README.md.
#include "cases.h"
#include "judge.h"
#include <algorithm>
#include <atomic>
#include <chrono>
#include <cstdio>
#include <cstdlib>
#include <csignal>
#include <filesystem>
#include <fstream>
#include <iostream>
#include <mutex>
#include <thread>

namespace {

// So many faults are told of, and then no more is tried.
const long MOST_FAULTS = 20;

struct Options {
    std::string console;
    std::string work;
    std::string kept;
    std::string docs;
    uint64_t seed;
    int count;
    int jobs;
    // Whether the console may map as much memory as it likes, as one with checks built in has to.
    bool memory_is_open;
};

struct Total {
    Counts counts;
    long cases = 0;
    std::atomic<long> faults{0};
    std::mutex lock;
};

std::string shown(const std::string &bytes) {
    std::string text;
    for (char byte : bytes.substr(0, 400)) {
        char code[5];
        std::snprintf(code, sizeof code, "\\x%02X", uint8_t(byte));
        text += byte == '\n' ? "\\n" : byte >= 32 && byte < 127 ? std::string(1, byte) : code;
    }
    return bytes.size() > 400 ? text + ".." : text;
}

void keep(const std::string &folder, const Case &tried, const Printed &printed) {
    std::filesystem::create_directories(folder);
    std::ofstream(folder + "/plan.bin", std::ios::binary) << tried.given.plan;
    std::ofstream(folder + "/stdin", std::ios::binary) << tried.given.input;
    std::ofstream(folder + "/stdout", std::ios::binary) << printed.out;
}

void report(const Options &options, const Case &tried, const Printed &printed, const Fault &fault,
            Total &total) {
    std::lock_guard<std::mutex> hold(total.lock);
    total.faults++;
    if (total.faults > MOST_FAULTS) {
        return;
    }
    std::string folder = options.kept + "/fault-" + std::to_string(total.faults);
    keep(folder, tried, printed);
    std::cout << "FAULT in " << tried.name << " (seed " << options.seed << "), line " << fault.line << ": "
              << shown(fault.asked) << "\n  due " << shown(fault.due) << "\n  got " << shown(fault.got)
              << "\n  kept in " << folder << std::endl;
}

void try_one(const Options &options, Console &console, const Case &tried, Total &total) {
    Printed printed = console.run(tried.given);
    Counts counts;
    std::optional<Fault> fault = judge_case(tried, printed, counts);
    if (fault) {
        report(options, tried, printed, *fault, total);
    }
    std::lock_guard<std::mutex> hold(total.lock);
    total.cases++;
    total.counts.add(counts);
}

// A case with its long line put before its input.
Case filled(Case tried, const Options &options) {
    tried.given.memory = options.memory_is_open ? 0 : tried.given.memory;
    std::string line;
    while (line.size() < tried.filled) {
        line += tried.filler;
    }
    line.resize(tried.filled);
    tried.given.input = line + tried.given.input;
    return tried;
}

// Takes case after case, until there is none left.
void work(const Options &options, const std::vector<Case> &always, std::atomic<int> &next, int worker,
          Total &total) {
    Console console(options.console, options.work + "/" + std::to_string(worker));
    int fixed = int(always.size()), all = fixed + options.count;
    for (int number = next++; number < all && total.faults < MOST_FAULTS; number = next++) {
        bool drawn = number >= fixed;
        Case tried =
            drawn ? random_case(options.seed, number - fixed) : filled(always[size_t(number)], options);
        try_one(options, console, tried, total);
    }
}

// The same, where what goes wrong with the rival itself is a fault too.
void work_guarded(const Options &options, const std::vector<Case> &always, std::atomic<int> &next, int worker,
                  Total &total) {
    try {
        work(options, always, next, worker, total);
    } catch (const std::exception &error) {
        std::lock_guard<std::mutex> hold(total.lock);
        total.faults += MOST_FAULTS;
        std::cout << "FAULT of the rival itself: " << error.what() << std::endl;
    }
}

// Where a refusal came from, in the order of the table.
const std::vector<std::string> SORTS = {"plan",  "no ticket", "LIGHT", "QUOTE",
                                        "TRIAL", "DARK",      "SHUT",  "SLIP"};

// The refusals that the console never gives (docs/console.md).
bool never_comes(int number) {
    const std::vector<int> never = {10, 11, 20, 22, 27, 28, 30, 31, 32, 33};
    return std::find(never.begin(), never.end(), number) != never.end();
}

long print_table(const Counts &counts) {
    long missing = 0;
    std::printf("%-10s", "refusal");
    for (const std::string &sort : SORTS) {
        std::printf(" %10s", sort.c_str());
    }
    std::printf("\n");
    for (int number = 1; number <= 33; number++) {
        long all = 0;
        std::printf("%-10d", number);
        for (const std::string &sort : SORTS) {
            auto found = counts.refused.find({number, sort});
            long times = found == counts.refused.end() ? 0 : found->second;
            all += times;
            std::printf(" %10s", times ? std::to_string(times).c_str() : "-");
        }
        bool never = never_comes(number);
        std::printf("%s\n", all ? "" : never ? "  never, and never may" : "  NEVER CAME UP");
        missing += all == 0 && !never;
    }
    std::printf("%-10s", "accepted");
    for (const std::string &sort : SORTS) {
        auto found = counts.accepted.find(sort);
        std::printf(" %10ld", found == counts.accepted.end() ? 0 : found->second);
    }
    std::printf("\n");
    return missing;
}

std::vector<Case> cases_always(const Options &options) {
    std::vector<Case> all;
    auto add = [&](std::vector<Case> some) { std::move(some.begin(), some.end(), std::back_inserter(all)); };
    add(documented_cases(options.docs));
    add(line_limit_cases());
    add(size_cases(options.seed));
    add(plan_limit_cases());
    return all;
}

int run(const Options &options) {
    auto start = std::chrono::steady_clock::now();
    std::vector<Case> always = cases_always(options);
    std::atomic<int> next{0};
    Total total;
    std::vector<std::thread> workers;
    for (int worker = 0; worker < options.jobs; worker++) {
        workers.emplace_back([&, worker] { work_guarded(options, always, next, worker, total); });
    }
    for (std::thread &worker : workers) {
        worker.join();
    }
    long missing = print_table(total.counts);
    double seconds = std::chrono::duration<double>(std::chrono::steady_clock::now() - start).count();
    const Counts &counts = total.counts;
    std::printf("paths read from slips: %ld, the longest of %ld steps; most circuits lit at once: %ld\n",
                counts.paths, counts.longest_path, counts.most_lit);
    std::printf("seed %lu: %ld cases (%zu fixed, %d drawn), %ld lines judged, %ld faults, ", options.seed,
                total.cases, always.size(), options.count, counts.lines, total.faults.load());
    std::printf("%ld refusals that never came up, %.0f s\n", missing, seconds);
    return total.faults == 0 && missing == 0 ? 0 : 1;
}

} // namespace

int main(int count, char **words) {
    if (count != 8) {
        std::cerr << "rival CONSOLE WORK-FOLDER KEPT-FOLDER DOCS-FOLDER SEED COUNT JOBS\n";
        return 2;
    }
    std::signal(SIGPIPE, SIG_IGN);
    std::string console = std::filesystem::absolute(words[1]).string();
    try {
        uint64_t seed = std::stoull(words[5]);
        const char *memory = std::getenv("MEMORY");
        bool open = memory && std::string(memory) == "open";
        return run(
            {console, words[2], words[3], words[4], seed, std::stoi(words[6]), std::stoi(words[7]), open});
    } catch (const std::exception &error) {
        std::cerr << "rival: " << error.what() << "\n";
        return 2;
    }
}
