// How a list of cells is spelled, by the bench's own hand: as the library writes it, so that the two can be compared.
#pragma once

#include <string>

#include "memory.h"

// In body style, one run for each stretch, closed by '-'.
std::string spelled_utf7(const Cells &units);

std::string spelled_mailbox(const Cells &units);

// A designation wherever the set in force differs. Starts and ends in ASCII.
std::string spelled_jp2(const Cells &cells);
