#include "results.h"

#include <algorithm>
#include <set>

static double per_second(size_t amount, const Timed &t) { return double(amount) / median(t.seconds); }

static std::string speed(size_t amount, const Timed &t) { return fixed(per_second(amount, t) / 1e6, 0); }

// "1.92 ±0.03"; one place more where the ratio is small
static std::string shown(const Ratio &ratio) {
    const int places = ratio.median < 0.1 ? 3 : 2;
    return fixed(ratio.median, places) + " ±" + fixed(ratio.spread, places);
}

// The rows of a call on texts, by how its name begins.
static std::vector<const Measured *> rows_of(const std::vector<Measured> &all, const std::string &call) {
    std::vector<const Measured *> rows;
    for (const Measured &m : all)
        if (m.task.call.rfind(call, 0) == 0) rows.push_back(&m);
    return rows;
}

// Which row stands in the line of a corpus and a call, in the column of a size; null where it was not measured.
static const Measured *measured_at(const std::vector<Measured> &all, const Task &task, const std::string &size) {
    for (const Measured &m : all)
        if (m.task.subject == task.subject && m.task.call == task.call && m.task.size == size) return &m;
    return nullptr;
}

static std::string ratio_to_fastest(const Measured &m) {
    return fixed(faster_by(*times_of(m.timed, "ours"), fastest_peer(m.timed)).median, 2);
}

Table ratio_table(const std::vector<Measured> &all) {
    Table table{"Ours against the fastest peer, by size", {"call", "corpus"}, {}, {}};
    for (const TextSize &size : text_sizes()) table.head.push_back(size.name);
    for (const char *call : {"read", "write", "step"}) {
        std::set<std::string> told;
        for (const Measured *m : rows_of(all, call)) {
            if (!told.insert(m->task.call + m->task.subject).second) continue;
            std::vector<std::string> line{m->task.call, m->task.subject};
            for (const TextSize &size : text_sizes()) {
                const Measured *there = measured_at(all, m->task, size.name);
                line.push_back(there ? ratio_to_fastest(*there) : "-");
            }
            table.lines.push_back(line);
        }
    }
    table.notes = {"Above 1 ours is faster. Reading and writing: the fastest of iconv with WCHAR_T, iconv with UTF-16LE and "
                   "ICU; stepping: ICU's ucnv_getNextUChar."};
    return table;
}

// Speeds of ours and of each peer, the ratio to the fastest, and which that is.
static std::vector<std::string> text_line(const Measured &m) {
    const Timed &ours = *times_of(m.timed, "ours"), &peer = fastest_peer(m.timed);
    std::vector<std::string> line{m.task.subject, m.task.size, m.task.call};
    for (const Timed &t : m.timed) line.push_back(speed(m.task.bytes, t));
    line.push_back(shown(faster_by(ours, peer)));
    line.push_back(peer.party);
    return line;
}

static Table text_table(const std::string &title, const std::vector<Measured> &all, const std::string &call) {
    Table table{title,
                {"corpus", "size", "call", "ours MB/s", "iconv WCHAR_T", "iconv UTF-16LE", "ICU", "ours/fastest", "fastest"},
                {},
                {}};
    for (const Measured *m : rows_of(all, call)) table.lines.push_back(text_line(*m));
    return table;
}

Table reading_table(const std::vector<Measured> &all) {
    Table table = text_table("Reading", all, "read");
    table.notes = {"Ours reads to 32-bit cells, and judges the whole text before it writes a cell; ICU to UTF-16."};
    return table;
}

Table writing_table(const std::vector<Measured> &all) {
    Table table = text_table("Writing", all, "write");
    table.notes = {"Each writes the same characters in its own way; MB/s are of the corpus's bytes, for all alike.",
                   "UTF-7: iconv writes only set D as itself, in both rows; ICU is UTF-7 (body) and UTF-7,version=1 (header).",
                   "JP-2: the peers choose the sets, since Unicode does not name them; our cells name them."};
    return table;
}

Table stepping_table(const std::vector<Measured> &all) {
    Table table{"Stepping", {"corpus", "size", "ours Mcells/s", "ours MB/s", "ICU MB/s", "ours/ICU"}, {}, {}};
    for (const Measured *m : rows_of(all, "step")) {
        const Timed &ours = *times_of(m->timed, "ours"), &icu = *times_of(m->timed, "ICU");
        table.lines.push_back({m->task.subject, m->task.size, speed(m->task.cells, ours), speed(m->task.bytes, ours),
                               speed(m->task.bytes, icu), shown(faster_by(ours, icu))});
    }
    table.notes = {"One call of the C interface for each cell; ICU: one of ucnv_getNextUChar for each character."};
    return table;
}

Table comparing_table(const std::vector<Measured> &all) {
    Table table{"Comparing equal texts, against reading both",
                {"corpus", "size", "call", "ours MB/s", "read both MB/s", "ours/read both"},
                {},
                {}};
    for (const Measured *m : rows_of(all, "compare")) {
        const Timed &ours = *times_of(m->timed, "ours"), &both = *times_of(m->timed, "read both");
        table.lines.push_back({m->task.subject, m->task.size, m->task.call, speed(m->task.bytes, ours),
                               speed(m->task.bytes, both), shown(faster_by(ours, both))});
    }
    table.notes = {"compare: a text and a copy of it. compare-spelled: the same cells as another gateway spells them, UTF-7 in body "
                   "and in header style, JP-2 with ASCII designated once more where each line begins.",
                   "MB/s are of the first text's bytes."};
    return table;
}

Table limit_table(const std::vector<Measured> &all) {
    Table table{"The limit", {"size", "memcpy MB/s", "widening loop MB/s"}, {}, {}};
    for (const Measured &m : all) {
        if (m.task.subject != "limit") continue;
        const Timed &copied = *times_of(m.timed, "memcpy"), &widened = *times_of(m.timed, "widen");
        table.lines.push_back({m.task.size, speed(m.task.bytes, copied), speed(m.task.bytes, widened)});
    }
    table.notes = {"Bytes copied, and bytes widened to 32 bits, by plain loops that the compiler vectorises."};
    return table;
}

Table page_table(const std::vector<Measured> &all) {
    Table table{"The page", {"kind", "history", "call", "ours µs", "plain pass µs", "ours/pass"}, {}, {}};
    for (const Measured &m : all) {
        const Timed *pass = times_of(m.timed, "pass");
        if (!pass) continue;
        const Timed &ours = *times_of(m.timed, "ours");
        table.lines.push_back({m.task.subject, m.task.size, m.task.call, fixed(median(ours.seconds) * 1e6, 1),
                               fixed(median(pass->seconds) * 1e6, 1), shown(faster_by(ours, *pass))});
    }
    table.notes = {"1,048,576 cells of ASCII (put in: one fewer) and a history of 1,048,576 words; a step puts one cell for one.",
                   "The plain pass sums the text and the used history. Our calls also see to it that all past the ends is 0."};
    return table;
}

Table growth_table(const std::vector<Measured> &all) {
    Table table{"The page, by size", {"kind", "call", "size", "ours µs", "ns a cell", "plain pass µs", "ours/pass"}, {}, {}};
    for (const Measured &m : all) {
        const Timed *pass = times_of(m.timed, "sized pass");
        if (!pass) continue;
        const Timed &ours = *times_of(m.timed, "ours");
        table.lines.push_back({m.task.subject, m.task.call, m.task.size, fixed(median(ours.seconds) * 1e6, 1),
                               fixed(median(ours.seconds) * 1e9 / double(m.task.cells), 3),
                               fixed(median(pass->seconds) * 1e6, 1), shown(faster_by(ours, *pass))});
    }
    table.notes = {"A page that fills buffers of so many cells and words, with a step for every ten cells; opened without.",
                   "Where the cost grows with the text and not faster, the nanoseconds of a cell stay."};
    return table;
}

Table squeeze_table(const std::vector<Measured> &all) {
    Table table{"Squeezing",
                {"kind", "one undo µs", "squeeze ms", "undo, redo one by one ms", "ours/one by one"},
                {},
                {}};
    for (const Measured &m : all) {
        const Timed *each = times_of(m.timed, "one by one");
        if (!each) continue;
        const Timed &ours = *times_of(m.timed, "ours"), &undo = *times_of(m.timed, "one undo");
        table.lines.push_back({m.task.subject, fixed(median(undo.seconds) * 1e6, 1),
                               fixed(median(ours.seconds) * 1e3, 1), fixed(median(each->seconds) * 1e3, 1),
                               shown(faster_by(ours, *each))});
    }
    table.notes = {"The oldest 5,000 of 10,000 steps, each of which replaced another of 10,000 cells, in random order; "
                   "buffers of 65,536.",
                   "One by one: 5,000 undos and 5,000 redos of those same steps, the newer ones being undone."};
    return table;
}

Table page_file_table(const std::vector<Measured> &all) {
    Table table{"Page files", {"kind", "call", "bytes of file", "ours MB/s", "hex copy MB/s", "ours/copy"}, {}, {}};
    for (const Measured &m : all) {
        const Timed *hex = times_of(m.timed, "hex");
        if (!hex) continue;
        const Timed &ours = *times_of(m.timed, "ours");
        table.lines.push_back({m.task.subject, m.task.call, std::to_string(m.task.bytes), speed(m.task.bytes, ours),
                               speed(m.task.bytes, *hex), shown(faster_by(ours, *hex))});
    }
    table.notes = {"A page of 1,048,576 cells with 100,000 steps, its arrived bytes and its steps in one file.",
                   "The hex copy is a plain loop that puts the lists' digits, or takes them without judging any."};
    return table;
}

Table bench_table(const std::vector<Measured> &all) {
    Table table{"Both benches, against a single page", {"kind", "history", "call", "ours µs", "page µs", "ours/page"}, {}, {}};
    for (const Measured &m : all) {
        const Timed *page = times_of(m.timed, "single page");
        if (!page) continue;
        const Timed &ours = *times_of(m.timed, "ours");
        table.lines.push_back({m.task.subject, m.task.size, m.task.call, fixed(median(ours.seconds) * 1e6, 1),
                               fixed(median(page->seconds) * 1e6, 1), shown(faster_by(ours, *page))});
    }
    table.notes = {"A call of bench 0 against the same call of a page with as many cells and steps: 1,048,576 cells, and a "
                   "history of 1,048,576 words.",
                   "One bench: it has all cells and steps, and the other an empty letter. In turn: each has half of both."};
    return table;
}

Table subject_table(const std::vector<Measured> &all) {
    Table table{"Subject lines",
                {"corpus", "call", "ours MB/s", "ours µs a line", "UTF-7 µs a line", "ours/UTF-7", "Python µs a line", "ours/Python"},
                {},
                {}};
    for (const Measured *m : rows_of(all, "subject")) {
        const Timed &ours = *times_of(m->timed, "ours"), &utf7 = *times_of(m->timed, "UTF-7");
        const Timed *python = times_of(m->timed, "Python");
        const double lines = std::stod(m->task.size); // "512 lines"
        const auto each = [&](const Timed &t) { return fixed(median(t.seconds) * 1e6 / lines, 2); };
        table.lines.push_back({m->task.subject, m->task.call, speed(m->task.bytes, ours), each(ours), each(utf7),
                               shown(faster_by(ours, utf7)), python ? each(*python) : "-",
                               python ? fixed(faster_by(ours, *python).median, 1) : "-"});
    }
    table.notes = {"512 subjects, each a line of the corpus of UTF-7 and a call of its own; MB/s are of the subject lines' bytes.",
                   "UTF-7: our own reader and header style writer on the same units. Wanted in writing: at least a quarter of it.",
                   "Python: email.header's decode_header, and Header(..).encode with this charset in Q; its time on the processor."};
    return table;
}

Table parties_table(const std::vector<Measured> &all) {
    Table table{"Every party by itself", {"row", "party", "MB/s", "slowest", "fastest"}, {}, {}};
    for (const Measured &m : all) {
        for (const Timed &t : m.timed) {
            const auto [least, most] = std::minmax_element(t.seconds.begin(), t.seconds.end());
            table.lines.push_back({m.task.key(), t.party, speed(m.task.bytes, t),
                                   fixed(double(m.task.bytes) / *most / 1e6, 0), fixed(double(m.task.bytes) / *least / 1e6, 0)});
        }
    }
    return table;
}

Table agreement_table(const std::vector<Agreement> &all) {
    Table table{"The corpora, and how long each writes them",
                {"corpus", "bytes", "cells", "written (the corpus is 1)"},
                {},
                {}};
    for (size_t i = 0; i < all.size(); i++) {
        const Agreement &a = all[i];
        const auto same = [&](const Agreement &later) { return later.corpus == a.corpus; };
        if (std::any_of(all.begin() + long(i) + 1, all.end(), same)) continue; // the larger size tells more
        std::string written;
        for (const auto &[who, bytes] : a.written)
            written += (written.empty() ? "" : ", ") + who + " " + fixed(double(bytes) / double(a.bytes), 3);
        table.lines.push_back({a.corpus, std::to_string(a.bytes), std::to_string(a.cells), written});
    }
    return table;
}
