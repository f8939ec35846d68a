// The rows on page files: keeping a page and reading it back, against a plain copy of its lists in hex digits.
#pragma once

#include <vector>

#include "rows.h"

std::vector<Row> page_file_rows();
