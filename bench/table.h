// Tables, as text for a terminal or as Markdown for README.md.
#pragma once

#include <string>
#include <vector>

struct Table {
    std::string title;
    std::vector<std::string> head;
    std::vector<std::vector<std::string>> lines;
    std::vector<std::string> notes;
};

void print(const Table &table, bool markdown);

// A number in so many places after the point.
std::string fixed(double number, int places);
