// The C interface of libqalithonda.a.
#pragma once

#include "../include/qalithonda.h"

// The longest text, list of cells, text buffer or history that a call takes.
constexpr size_t LIMIT = QALITHONDA_LIMIT;
