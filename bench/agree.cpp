#include "agree.h"

#include <algorithm>
#include <cstring>
#include <functional>
#include <map>

#include "peers.h"

static Units units_in(const Bytes &utf16) {
    Units units(utf16.size() / 2, 0);
    std::memcpy(units.data(), utf16.data(), utf16.size());
    return units;
}

static Cells numbers_in(const Bytes &ucs4) {
    Cells numbers(ucs4.size() / 4);
    std::memcpy(numbers.data(), ucs4.data(), ucs4.size());
    return numbers;
}

static Units as_units(const Cells &characters) {
    Units units;
    for (uint32_t c : characters) {
        if (c >= 0x10000) units += {char16_t(0xD800 + (c - 0x10000) / 1024), char16_t(0xDC00 + (c - 0x10000) % 1024)};
        else units += char16_t(c);
    }
    return units;
}

static bool is_low_surrogate(char16_t u) { return u >= 0xDC00 && u < 0xE000; }

// JP-2 cells are no Unicode: the peer itself is asked for the character of each cell, one cell at a time, in a text that
// the generator of the corpora spells. So every cell is compared, and where it stands, and not only their number.
class Characters {
public:
    explicit Characters(std::function<Units(const Bytes &)> peer) : reads(std::move(peer)) {}

    Units of(const Cells &cells) {
        Units all;
        for (uint32_t cell : cells) {
            auto found = known.find(cell);
            if (found == known.end()) found = known.emplace(cell, reads(jp2_text_of(cell))).first;
            all += found->second;
        }
        return all;
    }

private:
    std::function<Units(const Bytes &)> reads;
    std::map<uint32_t, Units> known;
};

class Checker {
public:
    explicit Checker(const Material &material)
        : m(material), corpus(m.corpus), format(*m.corpus.format), iconv("UTF-16LE", format.iconv),
          iconv_back(format.iconv, "UTF-16LE"), icu(format.icu),
          iconv_characters([this](const Bytes &text) { return by_iconv(text); }),
          icu_characters([this](const Bytes &text) { return by_icu(text); }) {}

    // Our cells are the peers' characters, one for one.
    void reading(size_t piece) {
        const Cells &cells = m.cells[piece];
        const Units &units = m.units[piece];
        same(units_in(m.iconvs.at("UTF-16LE")[piece]) == units, "iconv and ICU read different characters");
        same(as_units(numbers_in(m.iconvs.at("WCHAR_T")[piece])) == units, "iconv reads otherwise to WCHAR_T");
        same(cells.size() == units.size(), "ours counts other cells than the peers count characters");
        same(characters(cells, iconv_characters) == units, "our cells are not iconv's characters");
        same(characters(cells, icu_characters) == units, "our cells are not ICU's characters");
    }

    // Stepping gives what reading gives, ours and ICU's.
    void stepping(size_t piece) {
        const Bytes &text = corpus.pieces[piece];
        Cells cells(text.size()), characters(text.size());
        const auto answer = format.steps(text.data(), text.size(), cells.data());
        cells.resize(answer.place);
        same(answer.number == 0 && cells == m.cells[piece], "stepping gives other cells than reading");
        characters.resize(icu.step(text.data(), text.size(), characters.data()));
        same(as_units(characters) == m.units[piece], "ICU steps over other characters than it reads");
    }

    // Every writing is read back by all three. It may be longer than the corpus, and our reader takes no more than LIMIT
    // bytes: so a part of the piece is written at a time.
    void writing(size_t piece) {
        const Cells &cells = m.cells[piece];
        const Units &units = m.units[piece];
        for (size_t from = 0, to; from < cells.size(); from = to) {
            to = std::min(from + LIMIT / 8, cells.size());
            if (to < cells.size() && is_low_surrogate(units[to])) to++;
            const Cells part(cells.begin() + long(from), cells.begin() + long(to));
            const Units spoken = units.substr(from, to - from);
            for (const Style &style : format.styles) {
                const Bytes ours = our_writing(style, part);
                same(our_reading(ours, "its own writing") == part, "ours reads other cells in its own writing");
                reads_the_same("ours " + style.name, ours, spoken);
                reads_the_same("ICU " + style.name, icu_writing(style, spoken), spoken);
            }
            reads_the_same("iconv", iconv_writing(spoken), spoken);
        }
    }

    // How long each writes the corpus. Ours, in the corpus's own style, writes the corpus.
    Agreement lengths() {
        std::map<std::string, size_t> written;
        for (size_t i = 0; i < corpus.pieces.size(); i++) {
            same(our_writing(format.styles[0], m.cells[i]) == corpus.pieces[i], "our writing is not the corpus");
            for (const Style &style : format.styles) {
                written["ours " + style.name] += our_writing(style, m.cells[i]).size();
                written["ICU " + style.name] += icu_writing(style, m.units[i]).size();
            }
            written["iconv"] += iconv_writing(m.units[i]).size();
        }
        return {corpus.name, corpus.bytes(), m.cell_count(), {written.begin(), written.end()}};
    }

private:
    void same(bool equal, const std::string &what) {
        if (!equal) fail(corpus.name + " " + corpus.size + ": " + what);
    }

    // A cell of UTF-7 is a unit; for a cell of JP-2 a peer is asked.
    Units characters(const Cells &cells, Characters &peer) {
        return format.cells_are_units ? Units(cells.begin(), cells.end()) : peer.of(cells);
    }

    Units by_iconv(const Bytes &text) {
        Bytes wide(2 * text.size() + 2);
        wide.resize(iconv.convert(text.data(), text.size(), wide.data(), wide.size()));
        return units_in(wide);
    }

    Units by_icu(const Bytes &text) {
        Units units(text.size() + 1, 0);
        units.resize(icu.read(text.data(), text.size(), units.data(), units.size()));
        return units;
    }

    Cells our_reading(const Bytes &text, const std::string &whose) {
        Cells cells(text.size());
        const auto answer = format.read(text.data(), text.size(), cells.data(), cells.size());
        same(answer.number == 0, "ours refuses " + whose + ": number " + std::to_string(answer.number));
        cells.resize(answer.place);
        return cells;
    }

    Bytes our_writing(const Style &style, const Cells &cells) {
        Bytes out(6 * cells.size() + 3);
        const auto answer = style.ours(cells.data(), cells.size(), out.data(), out.size());
        same(answer.number == 0, "ours cannot write what it has read");
        out.resize(answer.place);
        return out;
    }

    Bytes iconv_writing(const Units &units) {
        Bytes out(6 * units.size() + 3);
        out.resize(iconv_back.convert(units.data(), 2 * units.size(), out.data(), out.size()));
        return out;
    }

    Bytes icu_writing(const Style &style, const Units &units) {
        Icu writer(style.icu);
        Bytes out(6 * units.size() + 3);
        out.resize(writer.write(units.data(), units.size(), out.data(), out.size()));
        return out;
    }

    void reads_the_same(const std::string &who, const Bytes &written, const Units &units) {
        same(by_iconv(written) == units, "iconv reads other characters in the writing of " + who);
        same(by_icu(written) == units, "ICU reads other characters in the writing of " + who);
        same(characters(our_reading(written, "the writing of " + who), iconv_characters) == units,
             "ours reads other characters in the writing of " + who);
    }

    const Material &m;
    const Corpus &corpus;
    const Format &format;
    Iconv iconv, iconv_back;
    Icu icu;
    Characters iconv_characters, icu_characters;
};

Agreement check_agreement(const Material &material) {
    Checker checker(material);
    for (size_t piece = 0; piece < material.corpus.pieces.size(); piece++) {
        checker.reading(piece);
        checker.stepping(piece);
        checker.writing(piece);
    }
    return checker.lengths();
}
