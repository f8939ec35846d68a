#include "corpora.h"

#include <algorithm>

#include "spelling.h"

static const char *const ENGLISH[] = {
    "the", "of", "and", "letter", "journal", "page", "bench", "apprentice", "silver", "watch", "we", "have", "sent",
    "your", "order", "back", "with", "two", "springs", "please", "write", "soon", "workshop", "in", "on", "a", "is",
    "weather", "catalogue", "price", "Monday", "1923", "No. 17", "which", "was", "mended", "yesterday", "by", "hand",
};
static const char16_t *const WESTERN[] = {
    u"été", u"garçon", u"über", u"Mädchen", u"Straße", u"café", u"naïve", u"Öl", u"façade", u"señor", u"à", u"déjà",
    u"für", u"schön", u"où", u"años", u"português", u"Grüße", u"forêt", u"tête", u"le", u"la", u"und", u"der", u"les",
    u"en", u"mit", u"pour", u"nicht", u"dans", u"una", u"con", u"Brief", u"montre", u"heure", u"Uhr", u"à", u"é",
};
static const char *const STOPS[] = {".", ",", ";", "!", "?", " -", ":", " &", " (sic)", "\""};

// ---- A line is a list of cells: UTF-16 units, or in JP-2 a set's number and a code.

static uint32_t cell_of(int set, int code) { return uint32_t(set * 65536 + code); }

// ASCII in units is of set 0, in JP-2 of set 6.
static void say(Cells &line, int set, const std::string &ascii) {
    for (unsigned char c : ascii) line.push_back(cell_of(set, c));
}

static void say(Cells &line, const Units &units) { line.insert(line.end(), units.begin(), units.end()); }

// So many words with spaces between them, and a stop behind one in six; `word` puts the i-th, from 1.
template <class Word> static Cells sentence(Rng &rng, int set, size_t words, Word word) {
    Cells line;
    for (size_t i = 1; i <= words; i++) {
        if (i > 1) say(line, set, " ");
        word(line, i);
        if (rng.one_in(6)) say(line, set, rng.pick(STOPS));
    }
    return line;
}

// English words over and over, until the room is full.
static Cells one_line(Rng &rng, int set, size_t room) {
    Cells line;
    while (line.size() < room) say(line, set, std::string(rng.pick(ENGLISH)) + " ");
    return line;
}

// ---- UTF-7 and mailbox names

// One character of Japanese: kana for the most part, kanji, and now and then one that takes a surrogate pair.
static Units japanese(Rng &rng) {
    const size_t kind = rng.between(1, 100);
    if (kind <= 50) return Units(1, char16_t(rng.between(0x3041, 0x3093)));
    if (kind <= 62) return Units(1, char16_t(rng.between(0x30A1, 0x30F6)));
    if (kind <= 94) return Units(1, char16_t(rng.between(0x4E00, 0x9FA5)));
    if (kind <= 99 || !rng.one_in(2)) return Units(1, rng.one_in(2) ? u'、' : u'。');
    const size_t beyond = rng.between(0x20000, 0x2A6D6) - 0x10000;
    return {char16_t(0xD800 + beyond / 1024), char16_t(0xDC00 + beyond % 1024)};
}

static void japanese(Cells &line, Rng &rng, size_t characters) {
    for (; characters > 0; characters--) say(line, japanese(rng));
}

// English words; one line in eight has a short foreign word, one in forty a '+'.
static Cells utf7_ascii(Rng &rng, size_t) {
    const size_t words = rng.between(8, 13);
    const size_t foreign = rng.one_in(8) ? rng.between(1, words) : 0;
    const size_t plus = rng.one_in(40) ? rng.between(1, words) : 0;
    return sentence(rng, 0, words, [&](Cells &line, size_t i) {
        if (i == foreign) japanese(line, rng, rng.between(2, 4));
        else say(line, 0, i == plus ? "1+1" : rng.pick(ENGLISH));
    });
}

// One run of 60 to 240 characters a line; one line in four starts with an English word.
static Cells utf7_japanese(Rng &rng, size_t) {
    Cells line;
    if (rng.one_in(4)) say(line, 0, rng.pick(ENGLISH) + std::string(": "));
    japanese(line, rng, rng.between(60, 240));
    return line;
}

// French, German and Spanish words: runs of one unit, rarely two.
static Cells utf7_western(Rng &rng, size_t) {
    return sentence(rng, 0, rng.between(8, 13), [&](Cells &line, size_t) { say(line, rng.pick(WESTERN)); });
}

static Cells utf7_one_line(Rng &rng, size_t room) { return one_line(rng, 0, room); }

// One run that fills the room: eight letters spell three units.
static Cells utf7_one_run(Rng &rng, size_t room) {
    Cells line;
    while (line.size() * 8 < (room - 2) * 3) japanese(line, rng, 1);
    return line;
}

// Folders in English, Japanese and French, one to four words each.
static Cells mailbox_ascii(Rng &rng, size_t) {
    Cells line;
    for (size_t n = rng.between(1, 4); n > 0; n--) say(line, 0, rng.pick(ENGLISH) + std::string(n > 1 ? " " : ""));
    return line;
}

static Cells mailbox_japanese(Rng &rng, size_t) {
    Cells line;
    japanese(line, rng, rng.between(2, 12));
    return line;
}

static Cells mailbox_western(Rng &rng, size_t) {
    Cells line;
    for (size_t n = rng.between(1, 4); n > 0; n--) say(line, rng.pick(WESTERN) + Units(n > 1 ? u" " : u""));
    return line;
}

// ---- JP-2

static int pair_in(Rng &rng, size_t first_row, size_t last_row, size_t first = 0x21, size_t last = 0x7E) {
    return int(rng.between(first_row, last_row) * 256 + rng.between(first, last));
}

// A code of the set that is assigned in the tables of both peers.
static int code_in(Rng &rng, int set) {
    switch (set) {
    case 14: return int(rng.between(0x41, 0x7E)); // with the yen and the overline
    case 42:
    case 87:
        if (rng.one_in(2)) return pair_in(rng, 0x24, 0x24, 0x21, 0x73); // hiragana
        if (rng.one_in(4)) return pair_in(rng, 0x25, 0x25, 0x21, 0x76); // katakana
        return pair_in(rng, 0x30, 0x4E);
    case 58: return pair_in(rng, 0x30, 0x56);
    case 149: return pair_in(rng, 0x30, 0x48); // hangul
    case 159: return pair_in(rng, 0x30, 0x6C);
    case 100: return int(rng.between(0x60, 0x7E));  // small Latin letters
    case 126: return int(rng.between(0x61, 0x7E));  // small Greek letters
    default: return int(rng.between('a', 'z'));
    }
}

static void put(Cells &line, Rng &rng, int set, size_t count) {
    for (; count > 0; count--) line.push_back(cell_of(set, code_in(rng, set)));
}

// One to four characters of a set, then another set.
static Cells jp2_designations(Rng &rng, size_t) {
    static const int sets[] = {6, 14, 42, 58, 87, 87, 149, 159};
    Cells line;
    for (size_t n = rng.between(12, 24); n > 0; n--) {
        const int set = rng.pick(sets);
        put(line, rng, set, rng.between(1, 4));
    }
    return line;
}

// Words of a Western language with about one accented letter in four, or words that are Greek throughout.
static Cells jp2_shifts(Rng &rng, size_t) {
    Cells line;
    const int set = rng.one_in(3) ? 126 : 100;
    for (size_t n = rng.between(6, 11); n > 0; n--) {
        for (size_t k = rng.between(2, 8); k > 0; k--) put(line, rng, set == 126 || rng.one_in(4) ? set : 6, 1);
        say(line, 6, n > 1 ? " " : ".");
    }
    return line;
}

// The words of utf7_western, their accented letters in ISO-8859-1.
static Cells jp2_western(Rng &rng, size_t) {
    return sentence(rng, 6, rng.between(8, 13), [&](Cells &line, size_t) {
        for (const char16_t u : Units(rng.pick(WESTERN))) line.push_back(u < 128 ? cell_of(6, u) : cell_of(100, u - 128));
    });
}

// English words; one line in six has a Japanese word.
static Cells jp2_ascii(Rng &rng, size_t) {
    const size_t words = rng.between(8, 13);
    const size_t foreign = rng.one_in(6) ? rng.between(1, words) : 0;
    return sentence(rng, 6, words, [&](Cells &line, size_t i) {
        if (i == foreign) put(line, rng, 87, rng.between(2, 8));
        else say(line, 6, rng.pick(ENGLISH));
    });
}

// A line of a Japanese letter: some thirty pairs.
static Cells jp2_mail(Rng &rng, size_t) {
    Cells line;
    put(line, rng, 87, rng.between(24, 36));
    return line;
}

static Cells jp2_one_line(Rng &rng, size_t room) { return one_line(rng, 6, room); }

Bytes jp2_text_of(uint32_t cell) {
    const std::string text = spelled_jp2({cell});
    return Bytes(text.begin(), text.end());
}

// ---- The corpora

const std::vector<TextKind> &text_kinds() {
    static const std::vector<TextKind> kinds = {
        {"utf7-ascii", &UTF7, utf7_ascii, spelled_utf7, "\r\n"},
        {"utf7-japanese", &UTF7, utf7_japanese, spelled_utf7, "\r\n"},
        {"utf7-western", &UTF7, utf7_western, spelled_utf7, "\r\n"},
        {"utf7-one-run", &UTF7, utf7_one_run, spelled_utf7, ""},
        {"utf7-one-line", &UTF7, utf7_one_line, spelled_utf7, ""},
        {"jp2-designations", &JP2, jp2_designations, spelled_jp2, "\r\n"},
        {"jp2-shifts", &JP2, jp2_shifts, spelled_jp2, "\r\n"},
        {"jp2-western", &JP2, jp2_western, spelled_jp2, "\r\n"},
        {"jp2-ascii", &JP2, jp2_ascii, spelled_jp2, "\r\n"},
        {"jp2-mail", &JP2, jp2_mail, spelled_jp2, "\r\n"},
        {"jp2-one-line", &JP2, jp2_one_line, spelled_jp2, ""},
        {"mailbox-ascii", &MAILBOX, mailbox_ascii, spelled_mailbox, "/"},
        {"mailbox-japanese", &MAILBOX, mailbox_japanese, spelled_mailbox, "/"},
        {"mailbox-western", &MAILBOX, mailbox_western, spelled_mailbox, "/"},
    };
    return kinds;
}

const std::vector<TextSize> &text_sizes() {
    static const std::vector<TextSize> sizes = {
        {"200", 200}, {"1K", 1 << 10}, {"4K", 1 << 12}, {"16K", 1 << 14}, {"64K", 1 << 16}, {"256K", 1 << 18},
        {"1M", 1 << 20},
    };
    return sizes;
}

size_t Corpus::bytes() const {
    size_t sum = 0;
    for (const Bytes &piece : pieces) sum += piece.size();
    return sum;
}

static bool is_high_surrogate(uint32_t cell) { return cell >= 0xD800 && cell < 0xDC00; }

// Spelled with its end, and cut until it fits; nothing if no cell does.
static std::string line_within(const TextKind &kind, Cells cells, size_t room) {
    while (!cells.empty()) {
        const std::string line = kind.spelled(cells) + kind.end;
        if (line.size() <= room) return line;
        cells.pop_back();
        if (!cells.empty() && is_high_surrogate(cells.back())) cells.pop_back();
    }
    return "";
}

// Lines, the last cut to fit, and what little is left over in ASCII.
static Bytes make_piece(const TextKind &kind, Rng &rng, size_t bytes) {
    Bytes piece;
    for (;;) {
        const size_t room = bytes - piece.size();
        const std::string line = room < 8 ? "" : line_within(kind, kind.line(rng, room), room);
        if (line.empty()) break;
        piece.insert(piece.end(), line.begin(), line.end());
    }
    piece.resize(bytes, 'e');
    return piece;
}

Corpus make_corpus(const TextKind &kind, const TextSize &size, uint64_t seed) {
    Rng rng(seed, kind.name);
    Corpus corpus{kind.name, size.name, kind.format, {}};
    const size_t each = std::min(size.bytes, LIMIT), all = std::max(size.bytes, size_t(1 << 16));
    for (size_t made = 0; made + each <= all; made += each) corpus.pieces.push_back(make_piece(kind, rng, each));
    return corpus;
}
