#include "page.h"

#include <algorithm>
#include <string>

#include "desk.h"

// The plain pass: the sum of the text and of the used history. Out of line, so that it is made each time; unrolled, so
// that it is as fast wherever the linker puts it.
[[gnu::noinline]] static uint32_t sum(const uint32_t *words, size_t length) {
    uint32_t all = 0;
#pragma GCC unroll 8
    for (size_t i = 0; i < length; i++) all += words[i];
    return all;
}

static Party plain_pass(SharedDesk desk) {
    return {"pass", [desk] {
                volatile uint32_t all = sum(desk->text.data(), desk->page.length) + sum(desk->history.data(), desk->page.used);
                (void)all;
            }};
}

static Row row(SharedDesk desk, const std::string &size, const std::string &call, std::function<void()> ours) {
    const size_t bytes = 4 * (desk->page.length + desk->page.used);
    return {{desk->kind->name, size, call, bytes, desk->page.length}, {{"ours", std::move(ours)}, plain_pass(desk)}};
}

static Row opening(const Desk &made, const std::string &size) {
    SharedDesk desk = copy_of(made);
    return row(desk, size, "open", one_open(desk));
}

static Row replacing(const Desk &made, const std::string &size) {
    SharedDesk desk = copy_of(made);
    return row(desk, size, "replace", one_replace(desk));
}

// A cell put in before all others, and undone: two calls, and every cell moves twice.
static Row putting_in(const Desk &made, const std::string &size) {
    SharedDesk desk = copy_of(made);
    return row(desk, size, "put in, undo", [desk] {
        desk->undo(desk->replace(desk->page, 0, 0, desk->kind->second).page);
        for (size_t i = 0; i < 5; i++) desk->history[i] = 0;
    });
}

static Row undoing(const Desk &made, const std::string &size) {
    SharedDesk desk = copy_of(made);
    return row(desk, size, "undo", one_undo(desk));
}

static Row redoing(const Desk &made, const std::string &size) {
    SharedDesk desk = copy_of(made);
    return row(desk, size, "redo", one_redo(desk));
}

static Row saving(const Desk &made, const std::string &size) {
    SharedDesk desk = copy_of(made);
    return row(desk, size, "save", one_save(desk));
}

// The oldest half of 10,000 steps, in buffers of so many.
constexpr size_t OLDEST = 5000, SQUEEZED = 1 << 16;

// The history is put back by hand before each call.
static std::function<void()> one_squeeze(SharedDesk desk, SharedDesk first) {
    return [desk, first] {
        std::copy_n(first->history.begin(), first->page.used, desk->history.begin());
        desk->squeeze(OLDEST);
    };
}

// The steps that the squeeze folds, undone and redone: the newer ones are undone before.
static std::function<void()> one_by_one(SharedDesk desk) {
    for (size_t i = 0; i < OLDEST; i++) desk->page = desk->back(desk->page).page;
    return [desk] {
        qalithonda_page page = desk->page;
        for (size_t i = 0; i < OLDEST; i++) page = desk->back(page).page;
        if (page.done != 0) fail("undo: steps are left");
        for (size_t i = 0; i < OLDEST; i++) page = desk->forth(page).page;
        if (page.done != desk->page.done) fail("redo: not as many");
    };
}

static Row squeezing(const PageKind &kind) {
    const Desk made(kind, 2 * OLDEST, scattered(2 * OLDEST), SQUEEZED);
    const size_t bytes = 4 * (made.page.length + made.page.used);
    return {{kind.name, "10000 steps", "squeeze 5000", bytes, made.page.length},
            {{"ours", one_squeeze(copy_of(made), copy_of(made))},
             {"one by one", one_by_one(copy_of(made))},
             {"one undo", one_undo(copy_of(made))}}};
}

// The calls on a page of so many cells in buffers of so many, of which its steps fill half the history.
static std::vector<Row> sized(const PageKind &kind, const std::string &size, size_t room) {
    const Desk none(kind, room, {}, room), many(kind, room, spread(room / 10), room);
    std::vector<Row> rows = {opening(none, size), replacing(many, size), undoing(many, size), redoing(many, size),
                             saving(many, size)};
    for (Row &row : rows) row.parties[1].name = "sized pass";
    return rows;
}

std::vector<Row> page_rows() {
    std::vector<Row> rows;
    for (const PageKind &kind : KINDS) {
        const Desk none(kind, LIMIT, {}), one(kind, LIMIT, spread(1)), many(kind, LIMIT, spread(100000));
        const Desk shorter(kind, LIMIT - 1, {});
        for (const Row &row : {
                 opening(none, "0 steps"), saving(none, "0 steps"), replacing(none, "0 steps"), putting_in(shorter, "0 steps"),
                 undoing(one, "1 step"), redoing(one, "1 step"), saving(one, "1 step"), replacing(many, "100000 steps"),
                 undoing(many, "100000 steps"), redoing(many, "100000 steps"), saving(many, "100000 steps"),
                 squeezing(kind),
             })
            rows.push_back(row);
        for (const auto &[size, room] : {std::pair("64K", size_t(1) << 16), {"256K", size_t(1) << 18}, {"1M", LIMIT}})
            for (const Row &row : sized(kind, size, room)) rows.push_back(row);
    }
    return rows;
}
