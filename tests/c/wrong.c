/* Wrong input of each kind: indexes of nothing, numbers that are no resolution, no elements, too
 * little room, texts. Arrays are as long as they are said to be, in memory of their own, so that a
 * sanitizer sees an element outside. */
#include "h3whole.h"
#include "check.h"
#include <limits.h>
#include <stdlib.h>

#define HEXAGON     0x85283473fffffffU
#define PENTAGON    0x8009fffffffffffU
#define EDGE        0x115283473fffffffU
#define KEPT        0x1234567890abcdefU
#define ROOM(array) (sizeof(array) / sizeof *(array))

static const H3Index no_cells[] = {
    0,
    5,
    UINT64_MAX,
    0x81087ffffffffffU,               /* the deleted subsequence of a pentagon */
    0x80f5fffffffffffU,               /* base cell 122 */
    0x8109fffffffffffU,               /* a digit 7 within the resolution */
    0x85283473ffffff7U & ~(H3Index)8, /* a digit below 7 after it */
    0x885283473fffffffU,              /* the reserved bit */
    0x185283473fffffffU,              /* another mode */
    0x95283473fffffffU,               /* bits that depend on the mode */
    EDGE,
};
static const H3Index no_edges[] = {0,
                                   HEXAGON,
                                   PENTAGON,
                                   UINT64_MAX,
                                   0x11009fffffffffffU, /* direction 1 at a pentagon */
                                   0x105283473fffffffU,
                                   0x175283473fffffffU, /* no direction, direction 7 */
                                   0x915283473fffffffU,
                                   0x110f5fffffffffffU};
static const int no_resolutions[] = {-1, 16, INT_MIN, INT_MAX};

/* An array of n indexes, each KEPT. */
static H3Index *places(size_t n) {
    H3Index *made = (H3Index *)malloc(n * sizeof *made + (n == 0));
    size_t i;
    if (!made) exit(2);
    for (i = 0; i < n; i++) made[i] = KEPT;
    return made;
}

static int are_kept(const H3Index *places, size_t n) {
    size_t i = 0;
    while (i < n && places[i] == KEPT) i++;
    return i == n;
}

/* What each function of a cell and a resolution returns, one after another; nothing is written. */
static void expect_of_cell(H3Index cell, int res, H3Error parent, H3Error child) {
    H3Index *out = places(1);
    int64_t number = 77;
    CHECK(h3w_cellToParent(cell, res, out) == parent && h3w_cellToChildPos(cell, res, &number) == parent);
    CHECK(h3w_cellToCenterChild(cell, res, out) == child && h3w_cellToChildren(cell, res, out, 1) == child);
    CHECK(h3w_cellToLastChild(cell, res, out) == child);
    CHECK(h3w_cellToChildrenSize(cell, res, &number) == child);
    CHECK(are_kept(out, 1) && number == 77);
    free(out);
}

static void indexes(void) {
    H3Index *out = places(6), one;
    size_t i, count = 9;
    int res;
    for (i = 0; i < ROOM(no_cells); i++) {
        CHECK(h3w_isValidCell(no_cells[i]) == 0 && h3w_isPentagon(no_cells[i]) == 0 &&
              h3w_isResClassIII(no_cells[i]) == 0);
        CHECK(h3w_getResolution(no_cells[i]) == -1 && h3w_getBaseCellNumber(no_cells[i]) == -1);
        for (res = -2; res < 18; res++) {
            expect_of_cell(no_cells[i], res, E_CELL_INVALID, E_CELL_INVALID);
            CHECK(h3w_childPosToCell(0, no_cells[i], res, out) == E_CELL_INVALID);
        }
        CHECK(h3w_originToDirectedEdges(no_cells[i], out) == E_CELL_INVALID);
        one = no_cells[i];
        CHECK(h3w_compactCells(&one, 1, out, 6, &count) == E_CELL_INVALID && count == 9);
        CHECK(h3w_uncompactCells(&one, 1, out, 6, 16) == E_CELL_INVALID);
    }
    for (i = 0; i < ROOM(no_edges); i++) {
        CHECK(h3w_isValidDirectedEdge(no_edges[i]) == 0);
        CHECK(h3w_getDirectedEdgeOrigin(no_edges[i], out) == E_DIR_EDGE_INVALID);
    }
    CHECK(are_kept(out, 6));
    free(out);
}

static void resolutions(void) {
    H3Index *out = places(12), cell = HEXAGON;
    int64_t number = 77;
    size_t i;
    for (i = 0; i < ROOM(no_resolutions); i++) {
        expect_of_cell(HEXAGON, no_resolutions[i], E_RES_DOMAIN, E_RES_DOMAIN);
        CHECK(h3w_childPosToCell(-1, HEXAGON, no_resolutions[i], out) == E_RES_DOMAIN);
        CHECK(h3w_getNumCells(no_resolutions[i], &number) == E_RES_DOMAIN);
        CHECK(h3w_getPentagons(no_resolutions[i], out, 12) == E_RES_DOMAIN);
        CHECK(h3w_uncompactCells(&cell, 1, out, 12, no_resolutions[i]) == E_RES_DOMAIN);
    }
    CHECK(h3w_cellToParent(HEXAGON, 6, out) == E_RES_MISMATCH &&
          h3w_cellToChildPos(HEXAGON, 6, &number) == E_RES_MISMATCH);
    CHECK(h3w_cellToCenterChild(HEXAGON, 4, out) == E_RES_DOMAIN &&
          h3w_cellToChildren(HEXAGON, 4, out, 12) == E_RES_DOMAIN);
    CHECK(h3w_cellToChildrenSize(HEXAGON, 4, &number) == E_RES_DOMAIN);
    CHECK(h3w_childPosToCell(-1, HEXAGON, 4, out) == E_RES_MISMATCH);
    CHECK(h3w_uncompactCells(&cell, 1, out, 12, 4) == E_RES_MISMATCH);
    CHECK(h3w_childPosToCell(-1, HEXAGON, 5, out) == E_DOMAIN && h3w_childPosToCell(1, HEXAGON, 5, out) == E_DOMAIN);
    CHECK(h3w_childPosToCell(41, PENTAGON, 2, out) == E_DOMAIN);
    CHECK(h3w_childPosToCell(INT64_MIN, PENTAGON, 2, out) == E_DOMAIN);
    CHECK(h3w_childPosToCell(INT64_MAX, PENTAGON, 15, out) == E_DOMAIN);
    CHECK(are_kept(out, 12) && number == 77);
    free(out);
}

/* Functions that write a list. */
typedef H3Error Written(H3Index *out, size_t room);

static const H3Index two[] = {HEXAGON, PENTAGON};

static H3Error bases(H3Index *out, size_t room) { return h3w_getRes0Cells(out, room); }
static H3Error pentagons(H3Index *out, size_t room) { return h3w_getPentagons(9, out, room); }
static H3Error children(H3Index *out, size_t room) { return h3w_cellToChildren(PENTAGON, 2, out, room); }
static H3Error uncompacted(H3Index *out, size_t room) { return h3w_uncompactCells(two, 1, out, room, 7); }
static H3Error compacted(H3Index *out, size_t room) {
    size_t count = 9;
    H3Error error = h3w_compactCells(two, 2, out, room, &count);
    CHECK(count == 2);
    return error;
}

/* Of a list of n: where there is room for fewer, a beginning of it is written; where for more, the
 * rest stays. */
static void expect_written(Written *write, size_t n) {
    H3Index *whole = places(n + 3), *out;
    size_t room;
    CHECK(write(whole, n + 3) == E_SUCCESS && whole[n - 1] != KEPT && are_kept(whole + n, 3));
    for (room = 0; room <= n; room++) {
        out = places(room);
        CHECK(write(out, room) == (room < n ? E_MEMORY_BOUNDS : E_SUCCESS));
        CHECK(memcmp(out, whole, room * sizeof *out) == 0);
        free(out);
    }
    free(whole);
}

static H3Error united(H3Index *out, size_t room) {
    size_t count = 9;
    H3Error error = h3w_uniteCells(two, 2, out, room, &count);
    CHECK(count == 2);
    return error;
}
static H3Error intersected(H3Index *out, size_t room) {
    size_t count = 9;
    H3Error error = h3w_intersectCells(two, 2, two, 2, out, room, &count);
    CHECK(count == 2);
    return error;
}
static H3Error subtracted(H3Index *out, size_t room) {
    static const H3Index second[] = {0x8f2834700000000U};
    size_t count = 9;
    H3Error error = h3w_subtractCells(two, 2, second, 1, out, room, &count);
    CHECK(count == 61);
    return error;
}

static void rooms(void) {
    expect_written(bases, 122);
    expect_written(pentagons, 12);
    expect_written(children, 41);
    expect_written(uncompacted, 49);
    expect_written(compacted, 2);
    expect_written(united, 2);
    expect_written(intersected, 2);
    expect_written(subtracted, 61);
}

static void lists(void) {
    static const H3Index twice[] = {HEXAGON, PENTAGON, HEXAGON}, ancestor[] = {HEXAGON, 0x8428347ffffffffU};
    H3Index *none = places(0), *out = places(3), last[3] = {HEXAGON, PENTAGON, 5};
    size_t count = 9;
    CHECK(h3w_compactCells(none, 0, none, 0, &count) == E_SUCCESS && count == 0);
    CHECK(h3w_uncompactCells(none, 0, none, 0, 5) == E_SUCCESS);
    CHECK(h3w_uncompactCells(none, 0, none, 0, 16) == E_RES_DOMAIN);
    count = 9;
    CHECK(h3w_compactCells(twice, 3, out, 3, &count) == E_DUPLICATE_INPUT);
    CHECK(h3w_compactCells(ancestor, 2, out, 3, &count) == E_DUPLICATE_INPUT);
    CHECK(h3w_compactCells(last, 3, out, 3, &count) == E_CELL_INVALID);
    CHECK(h3w_uncompactCells(last, 3, out, 3, 5) == E_CELL_INVALID);
    last[2] = 0x8f2834700000000U;
    CHECK(h3w_uncompactCells(last, 3, out, 3, 14) == E_RES_MISMATCH);
    CHECK(are_kept(out, 3) && count == 9);
    free(out);
    free(none);
}

/* Regions: cells may repeat and overlap, and each index has to be a cell's. */
static void regions(void) {
    static const H3Index overlap[] = {HEXAGON, 0x8428347ffffffffU, HEXAGON};
    H3Index *none = places(0), *out = places(3), one;
    size_t count = 9, i;
    for (i = 0; i < ROOM(no_cells); i++) {
        one = no_cells[i];
        CHECK(h3w_uniteCells(&one, 1, out, 3, &count) == E_CELL_INVALID);
        CHECK(h3w_intersectCells(&one, 1, overlap, 3, out, 3, &count) == E_CELL_INVALID);
        CHECK(h3w_intersectCells(overlap, 3, &one, 1, out, 3, &count) == E_CELL_INVALID);
        CHECK(h3w_subtractCells(&one, 1, overlap, 3, out, 3, &count) == E_CELL_INVALID);
        CHECK(h3w_subtractCells(overlap, 3, &one, 1, out, 3, &count) == E_CELL_INVALID);
        CHECK(h3w_subtractCells(none, 0, &one, 1, none, 0, &count) == E_CELL_INVALID);
    }
    CHECK(are_kept(out, 3) && count == 9);
    CHECK(h3w_uniteCells(none, 0, none, 0, &count) == E_SUCCESS && count == 0);
    CHECK(h3w_intersectCells(none, 0, none, 0, none, 0, &count) == E_SUCCESS && count == 0);
    CHECK(h3w_subtractCells(none, 0, none, 0, none, 0, &count) == E_SUCCESS && count == 0);
    CHECK(h3w_subtractCells(none, 0, overlap, 3, none, 0, &count) == E_SUCCESS && count == 0);
    CHECK(h3w_uniteCells(overlap, 3, none, 0, &count) == E_MEMORY_BOUNDS && count == 1);
    CHECK(h3w_uniteCells(overlap, 3, out, 3, &count) == E_SUCCESS && count == 1);
    CHECK(out[0] == overlap[1] && are_kept(out + 1, 2));
    free(out);
    free(none);
}

/* In a table the errors are the same, in their order. */
static void zones_in_table(const H3Index *ready, const H3Index *none) {
    H3Index *out = places(2), cells[2] = {HEXAGON, 5};
    uint32_t *table = (uint32_t *)malloc(4 * sizeof *table), *no_table = (uint32_t *)malloc(1);
    int64_t counts[2] = {77, 77}, others = 77;
    int truths[2] = {77, 77};
    size_t at = 9;
    if (!table || !no_table) exit(2);
    h3w_zonesTable(none, 0, no_table, 0);
    h3w_zonesTable(ready, 2, table, 4);
    CHECK(h3w_cellsToZonesInTable(ready, 2, cells, 2, table, 4, out, 1, &at) == E_MEMORY_BOUNDS);
    CHECK(h3w_areCoveredCellsInTable(ready, 2, cells, 2, table, 4, truths, 1, &at) == E_MEMORY_BOUNDS);
    CHECK(h3w_countCellsInZonesInTable(ready, 2, cells, 2, table, 4, counts, 1, &others, &at) == E_MEMORY_BOUNDS);
    CHECK(are_kept(out, 2) && truths[0] == 77 && counts[0] == 77 && others == 77 && at == 9);
    CHECK(h3w_countCellsInZonesInTable(ready, 2, cells, 2, table, 4, counts, 2, &others, &at) == E_CELL_INVALID);
    CHECK(at == 1 && counts[0] == 77 && counts[1] == 77 && others == 77);
    CHECK(h3w_cellsToZonesInTable(ready, 2, cells, 2, table, 4, out, 2, &at) == E_CELL_INVALID && at == 1);
    CHECK(h3w_areCoveredCellsInTable(ready, 2, cells, 2, table, 4, truths, 2, &at) == E_CELL_INVALID && at == 1);
    CHECK(out[0] == HEXAGON && out[1] == H3_NULL && truths[0] == 1 && truths[1] == -1);
    CHECK(h3w_cellsToZonesInTable(none, 0, cells, 1, no_table, 0, out, 1, &at) == E_SUCCESS && out[0] == H3_NULL);
    free(no_table);
    free(table);
    free(out);
}

/* Zones may not overlap; the room is judged first, and an index before an overlap. */
static void zones(void) {
    static const H3Index overlap[] = {HEXAGON, 0x8428347ffffffffU}, last[] = {HEXAGON, HEXAGON, 5};
    H3Index *none = places(0), *out = places(3), *ready = places(2), cells[2] = {HEXAGON, 5};
    int64_t counts[3] = {77, 77, 77}, others = 77;
    int truths[2] = {77, 77};
    size_t at = 9, earlier = 9, i;
    CHECK(h3w_zones(overlap, 2, out, 3) == E_DUPLICATE_INPUT && h3w_zones(last, 2, out, 3) == E_DUPLICATE_INPUT);
    CHECK(h3w_zones(last, 3, out, 3) == E_CELL_INVALID && h3w_zones(last, 3, out, 2) == E_MEMORY_BOUNDS);
    CHECK(h3w_zones(two, 2, out, 1) == E_MEMORY_BOUNDS && h3w_zones(two, 1, none, 0) == E_MEMORY_BOUNDS);
    for (i = 0; i < ROOM(no_cells); i++) CHECK(h3w_zones(no_cells + i, 1, out, 3) == E_CELL_INVALID);
    CHECK(are_kept(out, 3));
    /* an index that is no cell's is judged before an overlap, wherever it stands */
    CHECK(h3w_findOverlap(last, 3, &at, &earlier) == E_CELL_INVALID && at == 2 && earlier == 9);
    for (i = 0; i < ROOM(no_cells); i++)
        CHECK(h3w_findOverlap(no_cells + i, 1, &at, &earlier) == E_CELL_INVALID && at == 0 && earlier == 9);
    CHECK(h3w_findOverlap(last, 2, &at, &earlier) == E_SUCCESS && at == 1 && earlier == 0);
    CHECK(h3w_findOverlap(two, 2, &at, &earlier) == E_SUCCESS && at == 2 && earlier == 2);
    CHECK(h3w_findOverlap(none, 0, &at, &earlier) == E_SUCCESS && at == 0 && earlier == 0);
    at = 9;
    CHECK(h3w_zones(none, 0, none, 0) == E_SUCCESS && h3w_zones(two, 2, ready, 2) == E_SUCCESS);
    CHECK(h3w_cellsToZones(ready, 2, cells, 2, out, 1, &at) == E_MEMORY_BOUNDS);
    CHECK(h3w_areCoveredCells(ready, 2, cells, 2, truths, 1, &at) == E_MEMORY_BOUNDS);
    CHECK(h3w_countCellsInZones(ready, 2, cells, 2, counts, 1, &others, &at) == E_MEMORY_BOUNDS);
    CHECK(are_kept(out, 3) && truths[0] == 77 && counts[0] == 77 && others == 77 && at == 9);
    CHECK(h3w_countCellsInZones(ready, 2, cells, 2, counts, 3, &others, &at) == E_CELL_INVALID && at == 1);
    CHECK(counts[0] == 77 && counts[1] == 77 && counts[2] == 77 && others == 77);
    for (i = 0; i < ROOM(no_cells); i++) {
        cells[1] = no_cells[i];
        CHECK(h3w_cellsToZones(ready, 2, cells, 2, out, 3, &at) == E_CELL_INVALID && at == 1);
        CHECK(out[0] == HEXAGON && out[1] == H3_NULL && out[2] == KEPT);
        CHECK(h3w_areCoveredCells(ready, 2, cells, 2, truths, 2, &at) == E_CELL_INVALID && at == 1);
        CHECK(truths[0] == 1 && truths[1] == -1);
    }
    zones_in_table(ready, none);
    /* no zones, and no cells */
    CHECK(h3w_cellsToZones(none, 0, cells, 1, out, 1, &at) == E_SUCCESS && at == 1 && out[0] == H3_NULL);
    CHECK(h3w_countCellsInZones(none, 0, cells, 1, counts, 0, &others, &at) == E_SUCCESS && others == 1);
    CHECK(h3w_countCellsInZones(ready, 2, none, 0, counts, 2, &others, &at) == E_SUCCESS && at == 0);
    CHECK(counts[0] == 0 && counts[1] == 0 && counts[2] == 77 && others == 0);
    free(ready);
    free(out);
    free(none);
}

static void expect_text(const char *text, size_t n, H3Error error, H3Index index) {
    /* a copy that ends where the text ends */
    char *copy = (char *)malloc(n + (n == 0));
    H3Index out = KEPT;
    if (!copy) exit(2);
    memcpy(copy, text, n);
    CHECK(h3w_stringToH3(copy, n, &out) == error && out == (error ? KEPT : index));
    free(copy);
}

static void texts(void) {
    static const char *wrong[] = {"",
                                  " ",
                                  " \t\r ",
                                  "x",
                                  "0x",
                                  "0X",
                                  "0x0x1",
                                  "x1",
                                  "-1",
                                  "+1",
                                  "g",
                                  "1 2",
                                  "1\n",
                                  "\n",
                                  "1.",
                                  "12345678123456781",
                                  "0x12345678123456781",
                                  "00085283473fffffff",
                                  "\xe2\x82\xac",
                                  "1\v"};
    char text[17], bounded[16];
    size_t i;
    int c;
    for (i = 0; i < ROOM(wrong); i++) expect_text(wrong[i], strlen(wrong[i]), E_FAILED, 0);
    expect_text("1\0", 2, E_FAILED, 0);
    expect_text("1", 1, E_SUCCESS, 1);
    expect_text("ffffffffffffffff", 16, E_SUCCESS, UINT64_MAX);
    expect_text("0xFFFFFFFFFFFFFFFF", 18, E_SUCCESS, UINT64_MAX);
    expect_text("  \t85283473fffffff\r \t", 21, E_SUCCESS, HEXAGON);
    expect_text("85283473fffffff", 14, E_SUCCESS, HEXAGON >> 4);
    expect_text("0", 1, E_SUCCESS, 0);
    expect_text("0x0", 3, E_SUCCESS, 0);
    for (c = 0; c < 256; c++) {
        int digit = c >= '0' && c <= '9'   ? c - '0'
                    : c >= 'a' && c <= 'f' ? c - 'a' + 10
                    : c >= 'A' && c <= 'F' ? c - 'A' + 10
                                           : -1;
        char one[3] = {'1', 0, '1'};
        one[1] = (char)c;
        expect_text(one, 3, digit < 0 ? E_FAILED : E_SUCCESS, 0x101 + 16 * (H3Index)(digit < 0 ? 0 : digit));
    }
    for (i = 0; i < 17; i++) {
        memset(bounded, 'k', sizeof bounded);
        CHECK(h3w_h3ToString(HEXAGON, bounded, i < 16 ? i : 16) == E_MEMORY_BOUNDS && bounded[0] == 'k' &&
              bounded[15] == 'k');
    }
    CHECK(h3w_h3ToString(HEXAGON, text, SIZE_MAX) == E_SUCCESS && strcmp(text, "85283473fffffff") == 0);
}

int main(void) {
    indexes();
    resolutions();
    rooms();
    lists();
    regions();
    zones();
    texts();
    return counts();
}
