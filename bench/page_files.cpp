#include "page_files.h"

#include "desk.h"

// Room for any file: two digits a byte, eight a word, and the ten lines.
static size_t file_room(const Desk &desk) {
    return 2 * desk.arrived.size() + 8 * (desk.page.length + desk.page.used) + 113;
}

static size_t keep(const Desk &desk, Bytes &file) {
    const auto answer = qalithonda_page_keep(desk.page, desk.text.data(), desk.room, desk.history.data(), desk.room,
                                             desk.arrived.data(), desk.arrived.size(), file.data(), file.size());
    if (answer.number != 0) fail("page_keep: number " + std::to_string(answer.number));
    return answer.place;
}

static void read_back(const Bytes &file, Desk &desk) {
    desk.page = Desk::accepted(qalithonda_page_read(file.data(), file.size(), desk.arrived.data(), desk.arrived.size(),
                                                    desk.text.data(), desk.room, desk.history.data(), desk.room),
                               "page_read")
                    .page;
}

static Bytes file_of(const Desk &desk) {
    Bytes file(file_room(desk));
    file.resize(keep(desk, file));
    return file;
}

// ---- The plain copy: the digits of the three lists, nothing else, and on the way back no digit is judged.

template <class Element> [[gnu::noinline]] static uint8_t *put_hex(const Element *list, size_t count, uint8_t *to) {
    for (size_t i = 0; i < count; i++)
        for (int shift = 8 * sizeof(Element) - 4; shift >= 0; shift -= 4) *to++ = "0123456789ABCDEF"[list[i] >> shift & 15];
    return to;
}

static uint32_t value_of(uint8_t digit) { return digit < 'A' ? digit - '0' : digit - 'A' + 10; }

template <class Element> [[gnu::noinline]] static const uint8_t *take_hex(const uint8_t *from, Element *list, size_t count) {
    for (size_t i = 0; i < count; i++) {
        uint32_t all = 0;
        for (size_t k = 0; k < 2 * sizeof(Element); k++) all = all << 4 | value_of(*from++);
        list[i] = Element(all);
    }
    return from;
}

static void put_lists(const Desk &desk, uint8_t *to) {
    to = put_hex(desk.arrived.data(), desk.arrived.size(), to);
    to = put_hex(desk.text.data(), desk.page.length, to);
    put_hex(desk.history.data(), desk.page.used, to);
}

static void take_lists(const uint8_t *from, Desk &desk) {
    from = take_hex(from, desk.arrived.data(), desk.arrived.size());
    from = take_hex(from, desk.text.data(), desk.page.length);
    take_hex(from, desk.history.data(), desk.page.used);
}

// ---- The rows

static Task task_of(const Desk &made, const std::string &call, size_t bytes) {
    return {made.kind->name, "100000 steps", call, bytes, made.page.length};
}

// A desk with the same page, and nothing in its lists.
static SharedDesk emptied(const Desk &made) {
    SharedDesk desk = copy_of(made);
    std::fill(desk->arrived.begin(), desk->arrived.end(), 0);
    std::fill(desk->text.begin(), desk->text.end(), 0);
    std::fill(desk->history.begin(), desk->history.end(), 0);
    return desk;
}

static Row keeping(const Desk &made) {
    SharedDesk desk = copy_of(made);
    auto ours = std::make_shared<Bytes>(file_room(made)), plain = std::make_shared<Bytes>(file_room(made));
    return {task_of(made, "page_keep", file_of(made).size()),
            {{"ours", [desk, ours] { keep(*desk, *ours); }},
             {"hex", [desk, plain] { put_lists(*desk, plain->data()); }}}};
}

// Both must give back what was kept.
static Row reading(const Desk &made) {
    auto file = std::make_shared<const Bytes>(file_of(made));
    auto digits = std::make_shared<Bytes>(file_room(made));
    put_lists(made, digits->data());
    SharedDesk ours = emptied(made), plain = emptied(made);
    read_back(*file, *ours);
    take_lists(digits->data(), *plain);
    for (const SharedDesk &desk : {ours, plain})
        if (desk->arrived != made.arrived || desk->text != made.text || desk->history != made.history)
            fail("page file: not the page that was kept");
    return {task_of(made, "page_read", file->size()),
            {{"ours", [ours, file] { read_back(*file, *ours); }},
             {"hex", [plain, digits] { take_lists(digits->data(), *plain); }}}};
}

std::vector<Row> page_file_rows() {
    std::vector<Row> rows;
    for (const PageKind &kind : KINDS) {
        const Desk made(kind, LIMIT, spread(100000));
        rows.push_back(keeping(made));
        rows.push_back(reading(made));
    }
    return rows;
}
