/* A library with H3's bare names, which returns other values. */
#include <stdint.h>

uint32_t cellToParent(uint64_t cell, int parentRes, uint64_t *out);
int isValidCell(uint64_t h);
uint32_t compactCells(const uint64_t *cells, uint64_t *out, int64_t n);

uint32_t cellToParent(uint64_t cell, int parentRes, uint64_t *out) {
    *out = cell + (uint64_t)parentRes;
    return 0;
}

int isValidCell(uint64_t h) { return h == 5; }

uint32_t compactCells(const uint64_t *cells, uint64_t *out, int64_t n) {
    *out = *cells + (uint64_t)n;
    return 0;
}
