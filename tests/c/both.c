/* This library and one with H3's bare names, other.c, in one program. */
#include "h3whole.h"
#include "check.h"

H3Error cellToParent(H3Index cell, int parentRes, H3Index *out);
int isValidCell(H3Index h);
H3Error compactCells(const H3Index *cells, H3Index *out, int64_t n);

int main(void) {
    H3Index cell = 0x85283473fffffffU, out = 0;
    size_t count = 0;
    CHECK(h3w_cellToParent(cell, 4, &out) == E_SUCCESS && out == 0x8428347ffffffffU);
    CHECK(cellToParent(cell, 4, &out) == E_SUCCESS && out == cell + 4);
    CHECK(h3w_isValidCell(5) == 0 && isValidCell(5) == 1);
    CHECK(h3w_compactCells(&cell, 1, &out, 1, &count) == E_SUCCESS && count == 1 && out == cell);
    CHECK(compactCells(&cell, &out, 1) == E_SUCCESS && out == cell + 1);
    return counts();
}
