// The rows on texts: reading, writing and stepping, and the limits of the machine.
#pragma once

#include <map>
#include <memory>
#include <string>
#include <vector>

#include "corpora.h"
#include "rows.h"

// What iconv converts to and from, each a peer by itself. WCHAR_T is glibc's own inner form: one step less.
constexpr const char *ICONV_WAYS[] = {"WCHAR_T", "UTF-16LE"};

// A corpus, and what each party reads in it, piece by piece. Each writes from what it has read.
struct Material {
    Corpus corpus;
    std::vector<Cells> cells;                         // ours
    std::map<std::string, std::vector<Bytes>> iconvs; // by way
    std::vector<Units> units;                         // ICU

    size_t cell_count() const;
};

Material prepare(Corpus corpus);

std::vector<Row> text_rows(std::shared_ptr<const Material> material);

// The calls that those rows measure, to know them before the corpus is made.
std::vector<std::string> text_calls(const Format &format);

// memcpy and a loop that widens bytes to cells: no reader of bytes into cells is faster.
Row limit_row(const TextSize &size);
