// What is measured: a row of a table is one task, done by several parties.
#pragma once

#include <functional>
#include <string>
#include <vector>

// A party's way of doing the task once.
struct Party {
    std::string name; // "ours"; on texts "WCHAR_T", "UTF-16LE", "ICU"; else "memcpy", "widen", "pass", "hex" ..
    std::function<void()> pass;
};

struct Task {
    std::string subject; // the corpus, or the kind of page
    std::string size;    // of a text, or of the history
    std::string call;
    size_t bytes; // of the corpus as it arrived, for MB/s; the same for all parties
    size_t cells;

    std::string key() const { return subject + "/" + size + "/" + call; }
};

struct Row {
    Task task;
    std::vector<Party> parties;
};
