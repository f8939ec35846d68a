#include "spelling.h"

#include <map>

// ---- UTF-7 and mailbox names differ in what stands for itself, in the sign that opens a run, and in the last letter.

struct Runs {
    bool (*direct)(uint32_t unit);
    char opens;
    char last_letter; // the 63rd is '+' in both
};

static bool direct_in_body(uint32_t u) {
    return (u >= 32 && u < 126 && u != '+' && u != '\\') || u == '\t' || u == '\r' || u == '\n';
}

static bool direct_in_name(uint32_t u) { return u >= 32 && u < 127 && u != '&'; }

static const Runs UTF7_RUNS = {direct_in_body, '+', '/'}, MAILBOX_RUNS = {direct_in_name, '&', ','};

static char letter(const Runs &runs, uint32_t value) {
    return value == 63 ? runs.last_letter : "ABCDEFGHIJKLMNOPQRSTUVWXYZabcdefghijklmnopqrstuvwxyz0123456789+"[value];
}

// The run of the units from `from` to `to`.
static std::string run(const Runs &runs, const Cells &units, size_t from, size_t to) {
    std::string text(1, runs.opens);
    uint32_t bits = 0;
    int count = 0;
    for (; from < to; from++) {
        bits = bits << 16 | units[from];
        for (count += 16; count >= 6; count -= 6) text += letter(runs, bits >> (count - 6) & 63);
    }
    if (count > 0) text += letter(runs, bits << (6 - count) & 63);
    return text + "-";
}

static std::string spelled(const Runs &runs, const Cells &units) {
    const auto is_opening = [&](size_t i) { return units[i] == uint32_t(runs.opens); };
    std::string text;
    for (size_t i = 0, end; i < units.size(); i = end) {
        for (end = i; end < units.size() && !runs.direct(units[end]) && !is_opening(end);) end++;
        if (end > i) {
            text += run(runs, units, i, end);
            continue;
        }
        end = i + 1;
        text += char(units[i]);
        if (is_opening(i)) text += '-';
    }
    return text;
}

std::string spelled_utf7(const Cells &units) { return spelled(UTF7_RUNS, units); }

std::string spelled_mailbox(const Cells &units) { return spelled(MAILBOX_RUNS, units); }

// ---- JP-2

struct Designation {
    const char *escape;
    int bytes; // of a cell
    bool to_g2;
};

static const std::map<uint32_t, Designation> DESIGNATIONS = {
    {6, {"\033(B", 1, false}},   {14, {"\033(J", 1, false}},   {42, {"\033$@", 2, false}},
    {58, {"\033$A", 2, false}},  {87, {"\033$B", 2, false}},   {149, {"\033$(C", 2, false}},
    {159, {"\033$(D", 2, false}}, {100, {"\033.A", 1, true}}, {126, {"\033.F", 1, true}},
};

std::string spelled_jp2(const Cells &cells) {
    std::string text;
    uint32_t g0 = 6, g2 = 0;
    for (const uint32_t cell : cells) {
        const uint32_t set = cell / 65536, code = cell % 65536;
        const Designation &d = DESIGNATIONS.at(set);
        uint32_t &force = d.to_g2 ? g2 : g0;
        if (force != set) text += d.escape;
        force = set;
        if (d.to_g2) text += "\033N";
        if (d.bytes == 2) text += char(code / 256);
        text += char(code % 256);
    }
    return g0 == 6 ? text : text + DESIGNATIONS.at(6).escape;
}
