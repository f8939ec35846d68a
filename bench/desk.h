// A page with its buffers, as a host holds it.
#pragma once

#include <algorithm>
#include <functional>
#include <memory>
#include <string>
#include <vector>

#include "library.h"
#include "memory.h"
#include "peers.h"

using OpenCall = qalithonda_edited (*)(const uint8_t *, size_t, uint32_t *, size_t, uint32_t *, size_t);

struct PageKind {
    std::string name;
    OpenCall open;
    uint32_t first, second; // the cells of 'a', which the letter is full of, and of '.', which the steps put
};

extern const PageKind KINDS[2];

// Where steps fall, none twice: on every sixth cell.
std::vector<size_t> spread(size_t steps);

// On all of so many cells, in an order without order.
std::vector<size_t> scattered(size_t cells);

// A page with buffers of one length, and the steps that stand on it: each puts one cell for one. The arrived text is
// ASCII: only single bytes fill as many cells as there are bytes.
struct Desk {
    const PageKind *kind;
    size_t room;
    Bytes arrived, out;
    Cells text, history, work;
    qalithonda_page page;
    size_t last = 0; // the place of the last step

    Desk(const PageKind &the_kind, size_t length, const std::vector<size_t> &places, size_t the_room = LIMIT)
        : kind(&the_kind), room(the_room), arrived(length, 'a'), out(6 * room + 3), text(room), history(room), work(room) {
        page = open().page;
        if (places.empty()) return;
        last = places.back();
        for (size_t i = 0; i + 1 < places.size(); i++) put_down(places[i]);
        page = replace(page, last, 1, kind->second).page;
    }

    // Puts a step down by hand, since a call for each of many takes long. The call for the last judges them all.
    void put_down(size_t place) {
        const uint32_t record[] = {uint32_t(place), 1, 1, text[place], kind->second};
        std::copy(record, record + 5, history.begin() + long(page.used));
        text[place] = kind->second;
        page.done = page.used += 5;
    }

    static qalithonda_edited accepted(qalithonda_edited e, const char *call) {
        if (e.answer.number != 0) fail(std::string(call) + ": number " + std::to_string(e.answer.number));
        return e;
    }

    qalithonda_edited open() {
        return accepted(kind->open(arrived.data(), arrived.size(), text.data(), room, history.data(), room), "open");
    }

    qalithonda_edited replace(qalithonda_page on, size_t place, size_t count, uint32_t cell) {
        return accepted(qalithonda_replace(on, place, count, &cell, 1, text.data(), room, history.data(), room), "replace");
    }

    qalithonda_edited back(qalithonda_page on) {
        return accepted(qalithonda_undo(on, text.data(), room, history.data(), room), "undo");
    }

    qalithonda_edited forth(qalithonda_page on) {
        return accepted(qalithonda_redo(on, text.data(), room, history.data(), room), "redo");
    }

    qalithonda_edited undo(qalithonda_page on) {
        const auto edited = back(on);
        if (text[last] != kind->first) fail("undo: the cell is not back");
        return edited;
    }

    qalithonda_edited redo(qalithonda_page on) {
        const auto edited = forth(on);
        if (text[last] != kind->second) fail("redo: the cell is not there");
        return edited;
    }

    void squeeze(size_t steps) {
        const auto squeezed = accepted(
            qalithonda_squeeze(page, steps, text.data(), room, history.data(), room, work.data(), room), "squeeze");
        const auto added = work.begin() + 3 + long(page.opening), end = added + long(page.length);
        if (squeezed.page.used != page.used - 5 * steps + size_t(end - work.begin()) ||
            size_t(std::count(added, end, kind->second)) != steps)
            fail("squeeze: not the text after the steps");
    }

    void save() {
        const auto answer = accepted(qalithonda_save(page, text.data(), room, history.data(), room, arrived.data(),
                                                     arrived.size(), out.data(), out.size()),
                                     "save")
                                .answer;
        if (answer.place != page.length || out[last] != (page.done > 0 ? '.' : 'a')) fail("save: not the text");
    }

    // Takes a step off by hand, at no cost, so that the same call can be made again.
    void take_off(size_t place, uint32_t cell) {
        for (size_t i = 0; i < 5; i++) history[page.used + i] = 0;
        text[place] = cell;
    }
};

using SharedDesk = std::shared_ptr<Desk>;

// Each row has a desk of its own, a copy of one that was made once.
inline SharedDesk copy_of(const Desk &desk) { return std::make_shared<Desk>(desk); }

// One call, made so that it can be made again: what it did is put back by hand, at no cost. A replace puts one cell for
// one in the middle.
std::function<void()> one_open(SharedDesk desk);
std::function<void()> one_replace(SharedDesk desk);
std::function<void()> one_undo(SharedDesk desk);
std::function<void()> one_redo(SharedDesk desk);
std::function<void()> one_save(SharedDesk desk);
