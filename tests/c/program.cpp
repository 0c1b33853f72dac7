// A program in C++: a column in vectors, and H3's bare names beside the prefixed ones.
#define H3WHOLE_BARE_NAMES
#include "h3whole.h"
#include "check.h"
#include <cstdint>
#include <string>
#include <thread>
#include <vector>

static std::string text_of(H3Index index) {
    std::string text(17, '\0');
    CHECK(h3w_h3ToString(index, &text[0], text.size()) == E_SUCCESS);
    text.resize(text.find('\0'));
    return text;
}

int main() {
    const H3Index cell = 0x85283473fffffff;
    std::int64_t size = 0;
    CHECK(cellToChildrenSize(cell, 9, &size) == E_SUCCESS && size == 2401);
    std::vector<H3Index> cells(static_cast<std::size_t>(size)), parents(cells.size()), compacted(cells.size());
    CHECK(cellToChildren(cell, 9, cells.data()) == E_SUCCESS);
    std::size_t at = 0, count = 0;
    std::thread other([&] {
        CHECK(h3w_cellsToParents(cells.data(), cells.size(), 4, parents.data(), parents.size(), &at) == E_SUCCESS);
    });
    other.join();
    CHECK(at == cells.size() && text_of(parents.back()) == "8428347ffffffff");
    CHECK(h3w_compactCells(cells.data(), cells.size(), compacted.data(), compacted.size(), &count) == E_SUCCESS);
    CHECK(count == 1 && compacted[0] == cell);
    std::string text = text_of(cell);
    H3Index index = 0;
    CHECK(h3w_stringToH3(text.data(), text.size(), &index) == E_SUCCESS && index == cell);
    return counts();
}
