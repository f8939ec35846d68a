#include "texts.h"

#include <cstring>
#include <memory>

#include "peers.h"

using Shared = std::shared_ptr<const Material>;

size_t Material::cell_count() const {
    size_t sum = 0;
    for (const Cells &piece : cells) sum += piece.size();
    return sum;
}

static size_t accepted(qalithonda_numbers answer, const char *what) {
    if (answer.number != 0)
        fail(std::string(what) + ": number " + std::to_string(answer.number) + ", place " + std::to_string(answer.place));
    return answer.place;
}

Material prepare(Corpus corpus) {
    Material m{std::move(corpus), {}, {}, {}};
    const Format &format = *m.corpus.format;
    Icu icu(format.icu);
    for (const Bytes &text : m.corpus.pieces) {
        Cells cells(text.size());
        cells.resize(accepted(format.read(text.data(), text.size(), cells.data(), cells.size()), "reading"));
        m.cells.push_back(cells);
        Units units(text.size(), 0);
        units.resize(icu.read(text.data(), text.size(), units.data(), units.size()));
        m.units.push_back(units);
    }
    for (const char *way : ICONV_WAYS) {
        Iconv iconv(way, format.iconv);
        for (const Bytes &text : m.corpus.pieces) {
            Bytes wide(4 * text.size());
            wide.resize(iconv.convert(text.data(), text.size(), wide.data(), wide.size()));
            m.iconvs[way].push_back(wide);
        }
    }
    return m;
}

// Each pass converts all pieces, one after another, into one stretch of memory. Each party has memory of its own.

template <class List> static std::shared_ptr<List> memory(size_t length) { return std::make_shared<List>(length, 0); }

static Party our_reading(Shared m) {
    return {"ours", [m, out = memory<Cells>(m->corpus.bytes())] {
                size_t at = 0;
                for (const Bytes &text : m->corpus.pieces)
                    at += accepted(m->corpus.format->read(text.data(), text.size(), &(*out)[at], out->size() - at), "reading");
            }};
}

static Party our_stepping(Shared m) {
    return {"ours", [m, out = memory<Cells>(m->corpus.bytes())] {
                size_t at = 0;
                for (const Bytes &text : m->corpus.pieces)
                    at += accepted(m->corpus.format->steps(text.data(), text.size(), &(*out)[at]), "stepping");
            }};
}

// Texts that are compared, one by one.
struct Pairs {
    std::vector<Bytes> first, second;

    size_t bytes() const {
        size_t sum = 0;
        for (const Bytes &text : first) sum += text.size();
        return sum;
    }
};

// Each text and a copy of it.
static Pairs copies(const Material &m) { return {m.corpus.pieces, m.corpus.pieces}; }

static Bytes written(WriteCall write, const Cells &cells, size_t count) {
    Bytes text(6 * count + 3);
    text.resize(accepted(write(cells.data(), count, text.data(), text.size()), "writing"));
    return text;
}

// UTF-7 in body and in header style, no longer than the piece.
static void in_styles(Pairs &pairs, const Cells &cells, size_t size) {
    size_t count = cells.size();
    const size_t whole = written(UTF7.styles[1].ours, cells, count).size();
    if (whole > size) count = count * size / whole * 63 / 64;
    pairs.first.push_back(written(UTF7.styles[0].ours, cells, count));
    pairs.second.push_back(written(UTF7.styles[1].ours, cells, count));
}

// JP-2 with ASCII designated once more where each line begins, no longer than the piece.
static void designated(Pairs &pairs, const Bytes &piece) {
    Bytes first, second;
    for (size_t at = 0, end; at < piece.size(); at = end) {
        for (end = at; end < piece.size() && piece[end] != '\n';) end++;
        if (end < piece.size()) end++;
        if (second.size() + 3 + (end - at) > piece.size()) break;
        first.insert(first.end(), piece.begin() + at, piece.begin() + end);
        for (const char c : {'\x1b', '(', 'B'}) second.push_back(uint8_t(c));
        second.insert(second.end(), piece.begin() + at, piece.begin() + end);
    }
    if (first.empty()) return;
    pairs.first.push_back(first);
    pairs.second.push_back(second);
}

// The same cells as another gateway spells them. Names have one spelling, and so has a text of one line in JP-2 here.
static Pairs spelled(const Material &m) {
    Pairs pairs;
    for (size_t i = 0; i < m.corpus.pieces.size(); i++) {
        if (m.corpus.format == &UTF7) in_styles(pairs, m.cells[i], m.corpus.pieces[i].size());
        if (m.corpus.format == &JP2) designated(pairs, m.corpus.pieces[i]);
    }
    return pairs;
}

static Party our_comparing(const Format &format, std::shared_ptr<const Pairs> pairs) {
    return {"ours", [compare = format.compare, pairs] {
                for (size_t i = 0; i < pairs->first.size(); i++) {
                    const Bytes &first = pairs->first[i], &second = pairs->second[i];
                    const auto found = compare(first.data(), first.size(), second.data(), second.size());
                    accepted(found.answer, "comparing");
                    if (!found.same) fail("comparing: not the same");
                }
            }};
}

// What comparing is measured against: both texts are read.
static Party reading_both(const Format &format, std::shared_ptr<const Pairs> pairs) {
    return {"read both", [read = format.read, pairs, out = memory<Cells>(LIMIT)] {
                for (const auto *texts : {&pairs->first, &pairs->second})
                    for (const Bytes &text : *texts)
                        accepted(read(text.data(), text.size(), out->data(), out->size()), "reading");
            }};
}

static Row comparing(Task task, const Format &format, Pairs &&of) {
    auto pairs = std::make_shared<const Pairs>(std::move(of));
    task.bytes = pairs->bytes();
    return {task, {our_comparing(format, pairs), reading_both(format, pairs)}};
}

static Party iconv_reading(Shared m, const std::string &way) {
    auto iconv = std::make_shared<Iconv>(way, m->corpus.format->iconv);
    return {way, [m, iconv, out = memory<Bytes>(4 * m->corpus.bytes())] {
                size_t at = 0;
                for (const Bytes &text : m->corpus.pieces)
                    at += iconv->convert(text.data(), text.size(), &(*out)[at], out->size() - at);
            }};
}

static Party icu_reading(Shared m) {
    auto icu = std::make_shared<Icu>(m->corpus.format->icu);
    return {"ICU", [m, icu, out = memory<Units>(m->corpus.bytes())] {
                size_t at = 0;
                for (const Bytes &text : m->corpus.pieces)
                    at += icu->read(text.data(), text.size(), &(*out)[at], out->size() - at);
            }};
}

static Party icu_stepping(Shared m) {
    auto icu = std::make_shared<Icu>(m->corpus.format->icu);
    return {"ICU", [m, icu, out = memory<Cells>(m->corpus.bytes())] {
                size_t at = 0;
                for (const Bytes &text : m->corpus.pieces) at += icu->step(text.data(), text.size(), &(*out)[at]);
            }};
}

// Room for any writing of the corpus's characters: six bytes a cell, and a designation at the end of each piece.
static size_t writing_room(const Material &m) { return 6 * m.cell_count() + 3 * m.cells.size(); }

static Party our_writing(Shared m, const Style &style) {
    return {"ours", [m, write = style.ours, out = memory<Bytes>(writing_room(*m))] {
                size_t at = 0;
                for (const Cells &cells : m->cells)
                    at += accepted(write(cells.data(), cells.size(), &(*out)[at], out->size() - at), "writing");
            }};
}

static Party iconv_writing(Shared m, const std::string &way) {
    auto iconv = std::make_shared<Iconv>(m->corpus.format->iconv, way);
    return {way, [m, iconv, pieces = &m->iconvs.at(way), out = memory<Bytes>(writing_room(*m))] {
                size_t at = 0;
                for (const Bytes &wide : *pieces)
                    at += iconv->convert(wide.data(), wide.size(), &(*out)[at], out->size() - at);
            }};
}

static Party icu_writing(Shared m, const Style &style) {
    auto icu = std::make_shared<Icu>(style.icu);
    return {"ICU", [m, icu, out = memory<Bytes>(writing_room(*m))] {
                size_t at = 0;
                for (const Units &units : m->units)
                    at += icu->write(units.data(), units.size(), &(*out)[at], out->size() - at);
            }};
}

// Kept out of line, so that the compiler cannot see that nobody looks at the result.
[[gnu::noinline]] static void widen(const uint8_t *__restrict from, size_t length, uint32_t *__restrict to) {
    for (size_t i = 0; i < length; i++) to[i] = from[i];
    asm volatile("" ::: "memory");
}

[[gnu::noinline]] static void copy(const uint8_t *from, size_t length, uint8_t *to) {
    std::memcpy(to, from, length);
    asm volatile("" ::: "memory");
}

Row limit_row(const TextSize &size) {
    auto from = std::make_shared<const Bytes>(size.bytes, 'e');
    return {{"limit", size.name, "bytes", size.bytes, size.bytes},
            {{"memcpy", [from, out = memory<Bytes>(size.bytes)] { copy(from->data(), from->size(), out->data()); }},
             {"widen", [from, out = memory<Cells>(size.bytes)] { widen(from->data(), from->size(), out->data()); }}}};
}

static std::string writing_call(const Style &style) { return style.name.empty() ? "write" : "write-" + style.name; }

std::vector<std::string> text_calls(const Format &format) {
    std::vector<std::string> calls{"read"};
    for (const Style &style : format.styles) calls.push_back(writing_call(style));
    calls.push_back("step");
    calls.push_back("compare");
    calls.push_back("compare-spelled");
    return calls;
}

static Row reading(Shared m, const Task &task) {
    Row row{task, {our_reading(m)}};
    for (const char *way : ICONV_WAYS) row.parties.push_back(iconv_reading(m, way));
    row.parties.push_back(icu_reading(m));
    return row;
}

static Row writing(Shared m, const Task &task, const Style &style) {
    Row row{task, {our_writing(m, style)}};
    for (const char *way : ICONV_WAYS) row.parties.push_back(iconv_writing(m, way));
    row.parties.push_back(icu_writing(m, style));
    return row;
}

std::vector<Row> text_rows(Shared m) {
    const Format &format = *m->corpus.format;
    const auto task = [&](const std::string &call) -> Task {
        return {m->corpus.name, m->corpus.size, call, m->corpus.bytes(), m->cell_count()};
    };
    std::vector<Row> rows{reading(m, task("read"))};
    for (const Style &style : format.styles) rows.push_back(writing(m, task(writing_call(style)), style));
    rows.push_back({task("step"), {our_stepping(m), icu_stepping(m)}});
    if (m->corpus.size != "64K" && m->corpus.size != "1M") return rows;
    rows.push_back(comparing(task("compare"), format, copies(*m)));
    Pairs others = spelled(*m);
    if (others.first != others.second) rows.push_back(comparing(task("compare-spelled"), format, std::move(others)));
    return rows;
}
