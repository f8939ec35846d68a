// Seeded texts that ours and both peers accept.
#pragma once

#include <string>
#include <vector>

#include "formats.h"
#include "memory.h"
#include "rng.h"

// A corpus: texts that stand by themselves, each read and written by a call of its own.
struct Corpus {
    std::string name; // of the kind of text
    std::string size; // of a text, as "4K"
    const Format *format;
    std::vector<Bytes> pieces;

    size_t bytes() const;
};

// A kind of text: lines, spelled one by one.
struct TextKind {
    std::string name;
    const Format *format;
    Cells (*line)(Rng &, size_t room);     // the cells of a line; may be too long for so many bytes, it is cut then
    std::string (*spelled)(const Cells &); // as the library writes them
    std::string end;                       // of a line, as it is spelled
};

// In the order of the tables. A new kind is one entry in corpora.cpp.
const std::vector<TextKind> &text_kinds();

struct TextSize {
    std::string name;
    size_t bytes;
};

// In the order of the tables.
const std::vector<TextSize> &text_sizes();

// Texts of that size, or where it is over LIMIT of LIMIT bytes, and as many of them as make 64 KiB or the size.
Corpus make_corpus(const TextKind &kind, const TextSize &size, uint64_t seed);

// The JP-2 text of one cell, written by the generator and not by the library, to ask a peer for its character.
Bytes jp2_text_of(uint32_t cell);
