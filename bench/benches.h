// The rows on both benches: replace, undo, redo, save and open, against the same call of a single page.
#pragma once

#include <vector>

#include "rows.h"

std::vector<Row> bench_rows();
