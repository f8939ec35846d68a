// Where and when it was measured.
#pragma once

#include <string>
#include <utility>
#include <vector>

// Names and values, in the order to be printed.
std::vector<std::pair<std::string, std::string>> machine_facts();
