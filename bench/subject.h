// The rows on subject lines: reading and writing them, against our own UTF-7 on the same units, and against Python's package
// email, which is run once for all lines.
#pragma once

#include <functional>
#include <vector>

#include "rows.h"

struct SubjectRow {
    Row row;
    // Python's seconds for one pass, a number for each run; none where there is no python3.
    std::function<std::vector<double>(size_t runs)> python;
};

std::vector<SubjectRow> subject_rows(uint64_t seed);
