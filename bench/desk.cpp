#include "desk.h"

#include <numeric>

#include "rng.h"

const PageKind KINDS[2] = {
    {"UTF-7 body", qalithonda_utf7_body_open, 'a', '.'},
    {"JP-2", qalithonda_jp2_open, 6 * 65536 + 'a', 6 * 65536 + '.'},
};

std::vector<size_t> spread(size_t steps) {
    std::vector<size_t> places(steps);
    for (size_t i = 0; i < steps; i++) places[i] = i * 6;
    return places;
}

std::vector<size_t> scattered(size_t cells) {
    std::vector<size_t> places(cells);
    std::iota(places.begin(), places.end(), 0);
    Rng rng(2152, "places");
    for (size_t i = cells; i > 1; i--) std::swap(places[i - 1], places[rng.between(0, i - 1)]);
    return places;
}

std::function<void()> one_open(SharedDesk desk) {
    return [desk] { desk->open(); };
}

std::function<void()> one_replace(SharedDesk desk) {
    // No step of a desk falls there: rooms are powers of 2.
    return [desk, place = desk->room / 2 + 1] {
        desk->replace(desk->page, place, 1, desk->kind->second);
        desk->take_off(place, desk->kind->first);
    };
}

std::function<void()> one_undo(SharedDesk desk) {
    return [desk] {
        desk->undo(desk->page);
        desk->text[desk->last] = desk->kind->second;
    };
}

std::function<void()> one_redo(SharedDesk desk) {
    const qalithonda_page undone = desk->undo(desk->page).page;
    return [desk, undone] {
        desk->redo(undone);
        desk->text[desk->last] = desk->kind->first;
    };
}

std::function<void()> one_save(SharedDesk desk) {
    return [desk] { desk->save(); };
}
