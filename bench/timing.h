// Times of a row's parties, taken in turn.
#pragma once

#include <string>
#include <vector>

#include "rows.h"

struct Effort {
    size_t runs = 9;       // at least 5
    double seconds = 0.01; // the least time of one run of one party
};

// A party's seconds for one pass, a number for each run.
struct Timed {
    std::string party;
    std::vector<double> seconds;
};

// How often another party's speed goes into ours: the median over the runs, and half the distance of the quartiles.
struct Ratio {
    double median, spread;
};

std::vector<Timed> measure(const Row &row, const Effort &effort);

double median(std::vector<double> numbers);

// Null where the row has no such party.
const Timed *times_of(const std::vector<Timed> &timed, const std::string &party);

// The fastest by its median of all parties but ours.
const Timed &fastest_peer(const std::vector<Timed> &timed);

Ratio faster_by(const Timed &ours, const Timed &peer);
