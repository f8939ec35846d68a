// A small seeded generator of numbers (splitmix64), so that every machine measures the same texts.
#pragma once

#include <cstddef>
#include <cstdint>
#include <string>

class Rng {
public:
    // Each purpose has a sequence of its own under the same seed.
    Rng(uint64_t seed, const std::string &purpose) : state(seed) {
        for (unsigned char c : purpose) state = (state ^ c) * 0x100000001B3u;
    }

    uint64_t next() {
        state += 0x9E3779B97F4A7C15u;
        uint64_t z = (state ^ (state >> 30)) * 0xBF58476D1CE4E5B9u;
        z = (z ^ (z >> 27)) * 0x94D049BB133111EBu;
        return z ^ (z >> 31);
    }

    // From first to last, both included.
    size_t between(size_t first, size_t last) { return first + next() % (last - first + 1); }

    // True once in so many times.
    bool one_in(size_t times) { return next() % times == 0; }

    template <class List> const auto &pick(const List &list) { return list[next() % std::size(list)]; }

private:
    uint64_t state;
};
