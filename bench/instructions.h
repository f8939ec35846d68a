// Instructions for each byte, counted by valgrind's callgrind.
#pragma once

#include <string>
#include <vector>

#include "rows.h"
#include "table.h"

// Runs this program under valgrind for each party of each row, with so many passes and with twice as many: what is the
// same in both, starting and making the corpus, falls out of the difference.
Table instruction_table(const std::vector<Row> &rows, const std::string &program, const std::string &seed, size_t passes);
