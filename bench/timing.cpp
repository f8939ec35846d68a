#include "timing.h"

#include <time.h>

#include <algorithm>
#include <cmath>

// Time of this thread on a processor: what other programs take is left out.
static double now() {
    timespec t;
    clock_gettime(CLOCK_THREAD_CPUTIME_ID, &t);
    return double(t.tv_sec) + double(t.tv_nsec) * 1e-9;
}

static double time_of(const Party &party, size_t passes) {
    const double began = now();
    for (size_t i = 0; i < passes; i++) party.pass();
    return (now() - began) / double(passes);
}

// Warms up, and finds the passes that make a run long enough for the clock.
static size_t passes_for(const Party &party, double seconds) {
    time_of(party, 1);
    for (size_t passes = 1;;) {
        const double each = std::max(time_of(party, passes), 1e-9);
        if (each * double(passes) >= seconds / 2) return size_t(std::ceil(seconds / each));
        passes *= 2;
    }
}

std::vector<Timed> measure(const Row &row, const Effort &effort) {
    std::vector<Timed> timed;
    std::vector<size_t> passes;
    for (const Party &party : row.parties) {
        timed.push_back({party.name, {}});
        passes.push_back(passes_for(party, effort.seconds));
    }
    // In turn, starting with another party each time, so that a slow moment of the machine meets all alike.
    const size_t n = row.parties.size();
    for (size_t run = 0; run < effort.runs; run++) {
        for (size_t i = 0; i < n; i++) {
            const size_t k = (run + i) % n;
            timed[k].seconds.push_back(time_of(row.parties[k], passes[k]));
        }
    }
    return timed;
}

static double quantile(std::vector<double> numbers, double part) {
    std::sort(numbers.begin(), numbers.end());
    const double place = part * double(numbers.size() - 1);
    const size_t low = size_t(place), high = std::min(low + 1, numbers.size() - 1);
    return numbers[low] + (place - double(low)) * (numbers[high] - numbers[low]);
}

double median(std::vector<double> numbers) { return quantile(std::move(numbers), 0.5); }

const Timed *times_of(const std::vector<Timed> &timed, const std::string &party) {
    for (const Timed &t : timed)
        if (t.party == party) return &t;
    return nullptr;
}

const Timed &fastest_peer(const std::vector<Timed> &timed) {
    const Timed *best = nullptr;
    for (const Timed &t : timed) {
        if (t.party == "ours") continue;
        if (!best || median(t.seconds) < median(best->seconds)) best = &t;
    }
    return *best;
}

Ratio faster_by(const Timed &ours, const Timed &peer) {
    std::vector<double> ratios;
    for (size_t i = 0; i < ours.seconds.size(); i++) ratios.push_back(peer.seconds[i] / ours.seconds[i]);
    return {median(ratios), (quantile(ratios, 0.75) - quantile(ratios, 0.25)) / 2};
}
