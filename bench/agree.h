// Before anything is measured: do ours and the peers find the same content?
#pragma once

#include <string>
#include <utility>
#include <vector>

#include "texts.h"

// What is worth telling of a corpus: how many cells it has, and how long each party's own writing of it is.
struct Agreement {
    std::string corpus;
    size_t bytes, cells;
    std::vector<std::pair<std::string, size_t>> written; // by whom and in which style, bytes
};

// Ends the program at the first difference.
Agreement check_agreement(const Material &material);
