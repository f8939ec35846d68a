#include "table.h"

#include <algorithm>
#include <cstdio>

std::string fixed(double number, int places) {
    char text[64];
    std::snprintf(text, sizeof text, "%.*f", places, number);
    return text;
}

// Bytes that start a character: the tables hold a few signs outside ASCII.
static size_t width(const std::string &text) {
    return size_t(std::count_if(text.begin(), text.end(), [](unsigned char c) { return (c & 0xC0) != 0x80; }));
}

// Names to the left, numbers to the right.
static bool is_number(const std::string &text) {
    return !text.empty() && (text[0] == '-' || (text[0] >= '0' && text[0] <= '9')) && text.find(' ') == std::string::npos;
}

static void print_text(const Table &table) {
    std::vector<size_t> widths;
    for (const std::string &name : table.head) widths.push_back(width(name));
    for (const auto &line : table.lines)
        for (size_t i = 0; i < line.size(); i++) widths[i] = std::max(widths[i], width(line[i]));
    const auto put = [&](const std::vector<std::string> &line, const std::vector<std::string> &like) {
        std::string text;
        for (size_t i = 0; i < line.size(); i++) {
            const std::string space(widths[i] - width(line[i]), ' ');
            text += is_number(like[i]) ? space + line[i] : line[i] + space;
            text += "  ";
        }
        text.erase(text.find_last_not_of(' ') + 1);
        std::printf("%s\n", text.c_str());
    };
    std::printf("\n%s\n", table.title.c_str());
    put(table.head, table.lines[0]);
    for (const auto &line : table.lines) put(line, table.lines[0]);
    for (const std::string &note : table.notes) std::printf("  %s\n", note.c_str());
}

static void print_markdown(const Table &table) {
    const auto put = [](const std::vector<std::string> &line) {
        for (const std::string &field : line) std::printf("| %s ", field.c_str());
        std::printf("|\n");
    };
    std::printf("\n### %s\n\n", table.title.c_str());
    put(table.head);
    for (const std::string &field : table.lines[0]) std::printf(is_number(field) ? "|---:" : "|---");
    std::printf("|\n");
    for (const auto &line : table.lines) put(line);
    for (const std::string &note : table.notes) std::printf("\n%s\n", note.c_str());
}

void print(const Table &table, bool markdown) {
    if (table.lines.empty()) return;
    markdown ? print_markdown(table) : print_text(table);
}
