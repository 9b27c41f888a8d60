// Random numbers from a seed: the same seed gives the same numbers on every machine.
#pragma once
#include <cstddef>
#include <cstdint>
#include <vector>

class Random {
public:
    explicit Random(uint64_t seed) : state(seed * 0x9E3779B97F4A7C15ull + 0x1234567) {}

    uint64_t next() {
        state += 0x9E3779B97F4A7C15ull;
        uint64_t mixed = state;
        mixed = (mixed ^ (mixed >> 30)) * 0xBF58476D1CE4E5B9ull;
        mixed = (mixed ^ (mixed >> 27)) * 0x94D049BB133111EBull;
        return mixed ^ (mixed >> 31);
    }

    // A number from 0 to count - 1; 0 where count is 0.
    int below(int count) { return count <= 0 ? 0 : int(next() % uint64_t(count)); }
    int between(int low, int high) { return low + below(high - low + 1); }
    bool chance(int percent) { return below(100) < percent; }

    template <class T> T pick(const std::vector<T> &from) {
        return from[std::size_t(below(int(from.size())))];
    }

private:
    uint64_t state;
};
