// The rows on the page: open, replace, undo, redo and save, against one plain pass over text and used history; squeeze,
// against undoing and redoing the same steps.
#pragma once

#include <vector>

#include "rows.h"

std::vector<Row> page_rows();
