// The tables of results, from the measured rows.
#pragma once

#include <vector>

#include "agree.h"
#include "rows.h"
#include "table.h"
#include "timing.h"

struct Measured {
    Task task;
    std::vector<Timed> timed;
};

// Ratios alone, with the sizes beside each other.
Table ratio_table(const std::vector<Measured> &all);

Table reading_table(const std::vector<Measured> &all);
Table writing_table(const std::vector<Measured> &all);
Table stepping_table(const std::vector<Measured> &all);
Table comparing_table(const std::vector<Measured> &all);
Table limit_table(const std::vector<Measured> &all);
Table page_table(const std::vector<Measured> &all);
Table growth_table(const std::vector<Measured> &all);
Table squeeze_table(const std::vector<Measured> &all);
Table page_file_table(const std::vector<Measured> &all);
Table bench_table(const std::vector<Measured> &all);
Table subject_table(const std::vector<Measured> &all);

// Every party by itself.
Table parties_table(const std::vector<Measured> &all);

// How long each party's own writing of the corpora is.
Table agreement_table(const std::vector<Agreement> &all);
