#include "benches.h"

#include <algorithm>
#include <memory>
#include <string>

#include "desk.h"

// Both benches with their buffers, and the steps that stand: each puts one cell for one, and they fall on the benches in
// turn, or all on bench 0 where bench 1 has an empty letter. The last is of bench 0.
struct Workshop {
    const PageKind *kind;
    Bytes arrived[2], out;
    Cells texts[2], history;
    qalithonda_benches both;
    size_t last = 0; // the place of the last step

    Workshop(const PageKind &the_kind, size_t length, size_t other_length, size_t steps)
        : kind(&the_kind), arrived{Bytes(length, 'a'), Bytes(other_length, 'a')}, out(6 * length + 3),
          texts{Cells(length), Cells(other_length)}, history(LIMIT) {
        both = open().benches;
        const size_t sharing = other_length > 0 ? 2 : 1;
        for (size_t i = 0; i + 1 < steps; i++) put_down((steps - 1 - i) % sharing, i / sharing * 6);
        if (steps == 0) return;
        last = (steps - 1) / sharing * 6;
        both = replace(last).benches;
    }

    // Puts a step down by hand, since a call for each of many takes long. The call for the last judges them all.
    void put_down(size_t bench, size_t place) {
        const uint32_t record[] = {uint32_t(bench), uint32_t(place), 1, 1, texts[bench][place], kind->second};
        std::copy(record, record + 6, history.begin() + long(both.used));
        texts[bench][place] = kind->second;
        (bench == 0 ? both.bench0 : both.bench1).standing++;
        both.used += 6;
    }

    static qalithonda_benches_edited accepted(qalithonda_benches_edited e, const char *call) {
        if (e.answer.number != 0) fail(std::string("bench ") + call + ": number " + std::to_string(e.answer.number));
        return e;
    }

    qalithonda_benches_edited open() {
        const uint32_t number = kind->open == qalithonda_jp2_open ? QALITHONDA_JP2 : QALITHONDA_UTF7_BODY;
        return accepted(qalithonda_benches_open(number, number, arrived[0].data(), arrived[0].size(), arrived[1].data(),
                                                arrived[1].size(), texts[0].data(), texts[0].size(), texts[1].data(),
                                                texts[1].size(), history.data(), history.size()),
                        "open");
    }

    qalithonda_benches_edited replace(size_t place) {
        return accepted(qalithonda_benches_replace(both, 0, place, 1, &kind->second, 1, texts[0].data(), texts[0].size(),
                                                   texts[1].data(), texts[1].size(), history.data(), history.size()),
                        "replace");
    }

    qalithonda_benches_edited undo(qalithonda_benches on) {
        const auto edited = accepted(qalithonda_benches_undo(on, 0, texts[0].data(), texts[0].size(), texts[1].data(),
                                                             texts[1].size(), history.data(), history.size()),
                                     "undo");
        if (texts[0][last] != kind->first) fail("bench undo: the cell is not back");
        return edited;
    }

    qalithonda_benches_edited redo(qalithonda_benches on) {
        const auto edited = accepted(qalithonda_benches_redo(on, 0, texts[0].data(), texts[0].size(), texts[1].data(),
                                                             texts[1].size(), history.data(), history.size()),
                                     "redo");
        if (texts[0][last] != kind->second) fail("bench redo: the cell is not there");
        return edited;
    }

    void save() {
        const auto answer = accepted(qalithonda_benches_save(both, 0, texts[0].data(), texts[0].size(), texts[1].data(),
                                                             texts[1].size(), history.data(), history.size(),
                                                             arrived[0].data(), arrived[0].size(), out.data(), out.size()),
                                     "save")
                                .answer;
        if (answer.place != both.bench0.length || out[last] != (both.bench0.standing > 0 ? '.' : 'a'))
            fail("bench save: not the text");
    }

    // Takes a step off by hand, at no cost, so that the same call can be made again.
    void take_off(size_t place) {
        for (size_t i = 0; i < 6; i++) history[both.used + i] = 0;
        texts[0][place] = kind->first;
    }
};

using SharedWorkshop = std::shared_ptr<Workshop>;

static std::function<void()> bench_replace(SharedWorkshop shop) {
    // No step falls there: lengths are powers of 2.
    return [shop, place = shop->texts[0].size() / 2 + 1] {
        shop->replace(place);
        shop->take_off(place);
    };
}

static std::function<void()> bench_undo(SharedWorkshop shop) {
    return [shop] {
        shop->undo(shop->both);
        shop->texts[0][shop->last] = shop->kind->second;
    };
}

static std::function<void()> bench_redo(SharedWorkshop shop) {
    const qalithonda_benches undone = shop->undo(shop->both).benches;
    return [shop, undone] {
        shop->redo(undone);
        shop->texts[0][shop->last] = shop->kind->first;
    };
}

// A call of bench 0, and the same call of the page that has all cells and all steps.
static Row against(const Workshop &shop, const Desk &desk, const std::string &size, const std::string &call,
                   std::function<void()> (*ours)(SharedWorkshop), std::function<void()> (*page)(SharedDesk)) {
    const size_t cells = shop.both.bench0.length + shop.both.bench1.length, bytes = 4 * (cells + shop.both.used);
    return {{shop.kind->name, size, "bench " + call, bytes, cells},
            {{"ours", ours(std::make_shared<Workshop>(shop))}, {"single page", page(copy_of(desk))}}};
}

static std::vector<Row> rows_on(const Workshop &shop, const Desk &desk, const std::string &size) {
    const auto save = [](SharedWorkshop shared) -> std::function<void()> { return [shared] { shared->save(); }; };
    std::vector<Row> rows = {against(shop, desk, size, "replace", bench_replace, one_replace),
                             against(shop, desk, size, "save", save, one_save)};
    if (desk.page.used == 0) {
        const auto open = [](SharedWorkshop shared) -> std::function<void()> { return [shared] { shared->open(); }; };
        rows.push_back(against(shop, desk, size, "open", open, one_open));
    } else {
        rows.push_back(against(shop, desk, size, "undo", bench_undo, one_undo));
        rows.push_back(against(shop, desk, size, "redo", bench_redo, one_redo));
    }
    return rows;
}

std::vector<Row> bench_rows() {
    std::vector<Row> rows;
    for (const PageKind &kind : KINDS)
        for (const size_t steps : {size_t(0), size_t(1), size_t(100000)}) {
            const Desk desk(kind, LIMIT, spread(steps));
            const std::string size = std::to_string(steps) + (steps == 1 ? " step" : " steps");
            for (const Row &row : rows_on(Workshop(kind, LIMIT, 0, steps), desk, size + ", one bench")) rows.push_back(row);
            for (const Row &row : rows_on(Workshop(kind, LIMIT / 2, LIMIT / 2, steps), desk, size + ", in turn"))
                rows.push_back(row);
        }
    return rows;
}
