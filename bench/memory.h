// Memory that starts at a cache line. Where it starts by chance, the widening loop runs at half its speed for one start in
// four, and a row's numbers would depend on what was allocated before.
#pragma once

#include <cstddef>
#include <cstdint>
#include <new>
#include <string>
#include <vector>

template <class Element> struct Aligned {
    using value_type = Element;

    Aligned() = default;
    template <class Other> Aligned(const Aligned<Other> &) {}

    Element *allocate(size_t count) {
        return static_cast<Element *>(::operator new(count * sizeof(Element), std::align_val_t(64)));
    }

    void deallocate(Element *memory, size_t) { ::operator delete(memory, std::align_val_t(64)); }

    template <class Other> bool operator==(const Aligned<Other> &) const { return true; }
    template <class Other> bool operator!=(const Aligned<Other> &) const { return false; }
};

using Bytes = std::vector<uint8_t, Aligned<uint8_t>>;
using Cells = std::vector<uint32_t, Aligned<uint32_t>>;
using Units = std::basic_string<char16_t, std::char_traits<char16_t>, Aligned<char16_t>>;
