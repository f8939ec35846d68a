// The formats, each with our functions and with the peers' names for it. A new format is one entry in formats.cpp.
#pragma once

#include <string>
#include <vector>

#include "library.h"

using ReadCall = qalithonda_numbers (*)(const uint8_t *, size_t, uint32_t *, size_t);
using WriteCall = qalithonda_numbers (*)(const uint32_t *, size_t, uint8_t *, size_t);
// Steps through a whole text, keeps the cells, and gives the answer that ends the steps.
using StepsCall = qalithonda_numbers (*)(const uint8_t *, size_t, uint32_t *);

using CompareCall = qalithonda_compared (*)(const uint8_t *, size_t, const uint8_t *, size_t);

// A way of writing: ours, and the ICU converter that writes the most like it.
struct Style {
    std::string name;
    WriteCall ours;
    std::string icu;
};

struct Format {
    std::string name;
    ReadCall read;
    StepsCall steps;
    CompareCall compare;
    std::vector<Style> styles; // the first is the one that the corpora are written in
    std::string iconv, icu;
    bool cells_are_units;      // a cell is a UTF-16 unit; else a set's number and a code, as in JP-2
};

extern const Format UTF7, JP2, MAILBOX;
