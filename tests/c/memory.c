/* Each allocation of the functions that take memory is refused in turn: they return E_MEMORY_ALLOC,
 * write nothing, and free what they have taken. Linked with -Wl,--wrap= of malloc, calloc, realloc
 * and free. */
#include "h3whole.h"
#include "check.h"
#include "tables.h"
#include <stdlib.h>

#define KEPT 77

void *__real_malloc(size_t size);
void *__real_calloc(size_t count, size_t size);
void *__real_realloc(void *old, size_t size);
void __real_free(void *old);
void *__wrap_malloc(size_t size);
void *__wrap_calloc(size_t count, size_t size);
void *__wrap_realloc(void *old, size_t size);
void __wrap_free(void *old);

/* how many allocations there were, which one is refused, and how many are not freed */
static unsigned long made, refused;
static long held;

static void *counted(void *place) {
    if (place) held++;
    return place;
}

void *__wrap_malloc(size_t size) { return ++made == refused ? NULL : counted(__real_malloc(size)); }
void *__wrap_calloc(size_t count, size_t size) {
    return ++made == refused ? NULL : counted(__real_calloc(count, size));
}
void *__wrap_realloc(void *old, size_t size) {
    if (++made == refused) return NULL;
    if (old) held--;
    return counted(__real_realloc(old, size));
}
void __wrap_free(void *old) {
    if (old) held--;
    __real_free(old);
}

static H3Index cells[343], out[343];

static H3Error compacted(size_t *count) { return h3w_compactCells(cells, 343, out, 343, count); }
static H3Error uncompacted(size_t *count) {
    H3Error error = h3w_uncompactCells(cells, 49, out, 343, 9);
    if (!error) *count = 343;
    return error;
}

static H3Error united(size_t *count) { return h3w_uniteCells(cells, 343, out, 343, count); }
static H3Error intersected(size_t *count) { return h3w_intersectCells(cells, 343, cells + 49, 294, out, 343, count); }
/* lists of two runs each, the second half before the first, which are merged */
static H3Error merged(size_t *count) {
    static H3Index turned[343];
    memcpy(turned, cells + 171, 172 * sizeof *cells), memcpy(turned + 172, cells, 171 * sizeof *cells);
    return h3w_intersectCells(turned, 343, turned, 343, out, 343, count);
}
/* six cells at each of ten resolutions, for which the slots grow */
static H3Error subtracted(size_t *count) {
    static const H3Index finest[] = {0x8f2834700000000U};
    return h3w_subtractCells(&(H3Index){0x85283473fffffffU}, 1, finest, 1, out, 343, count);
}
static H3Error prepared(size_t *count) {
    H3Error error = h3w_zones(cells, 343, out, 343);
    if (!error) *count = 343;
    return error;
}

static H3Error areas(size_t *count) {
    static uint32_t places[343], numbers[343];
    size_t i;
    for (i = 0; i < 343; i++) places[i] = (uint32_t)i;
    return h3w_areas(cells, 343, places, 343, out, 343, numbers, 343, count);
}

static H3Error overlapping(size_t *count) {
    static uint32_t places[343], numbers[343];
    size_t i;
    for (i = 0; i < 343; i++) places[i] = (uint32_t)i;
    return h3w_cellsToAreas(cells, 343, places, 343, cells, 342, (int64_t *)out, 343, numbers, 342, count);
}

/* no two overlap, so both places are the number of cells */
static H3Error found(size_t *count) {
    size_t earlier = KEPT;
    H3Error error = h3w_findOverlap(cells, 343, count, &earlier);
    CHECK(earlier == (error ? KEPT : 343));
    return error;
}

/* Where all is granted, and with each allocation refused. */
static void expect(H3Error (*call)(size_t *), size_t wanted) {
    unsigned long allocations;
    size_t count = KEPT;
    made = refused = 0;
    CHECK(call(&count) == E_SUCCESS && count == wanted && held == 0);
    allocations = made;
    CHECK(allocations > 0);
    for (refused = 1; refused <= allocations; refused++) {
        made = 0, count = KEPT, out[0] = out[342] = KEPT;
        CHECK(call(&count) == E_MEMORY_ALLOC);
        CHECK(count == KEPT && out[0] == KEPT && out[342] == KEPT && held == 0);
    }
    refused = 0;
    printf("%lu allocations\n", allocations);
}

/* All other functions take none. */
static void expect_none(void) {
    H3Index index = 0;
    int64_t number = 0, starts[50];
    size_t at = 0;
    char text[17];
    made = 0;
    CHECK(h3w_cellToChildren(0x85283473fffffffU, 8, cells, 343) == E_SUCCESS);
    CHECK(h3w_cellToParent(cells[5], 0, &index) == E_SUCCESS && h3w_cellToChildPos(cells[5], 0, &number) == E_SUCCESS);
    CHECK(h3w_childPosToCell(5, cells[5], 15, &index) == E_SUCCESS && h3w_h3ToString(index, text, 17) == E_SUCCESS);
    CHECK(h3w_stringToH3(text, 15, &index) == E_SUCCESS && h3w_originToDirectedEdges(index, out) == E_SUCCESS);
    CHECK(h3w_cellsToParents(cells, 343, 5, out, 343, &at) == E_SUCCESS && h3w_getRes0Cells(out, 122) == E_SUCCESS);
    CHECK(h3w_cellsToChildrenStarts(cells, 49, 9, starts, 50, &at) == E_SUCCESS && starts[49] == 343);
    CHECK(h3w_cellsToChildren(cells, 49, 9, out, 343, &at) == E_SUCCESS);
    CHECK(h3w_cellsToZones(&index, 0, cells, 343, out, 343, &at) == E_SUCCESS);
    CHECK(h3w_countCellsInZones(&index, 0, cells, 343, &number, 0, &number, &at) == E_SUCCESS);
    CHECK(made == 0);
}

static char file[FILE_ROOM];
static size_t length;

/* A table is read; a refused allocation is its only fault. */
static void expect_table(void) {
    unsigned long allocations;
    H3wTableFault fault;
    H3wTable table, plain;
    length = write_table(file, PLAIN, 1);
    made = refused = 0;
    plain = h3w_readTable(file, length, &fault);
    CHECK(fault.code == H3W_TABLE_ACCEPTED && held == 0);
    allocations = made;
    CHECK(allocations > 0);
    for (refused = 1; refused <= allocations; refused++) {
        made = 0;
        table = h3w_readTable(file, length, &fault);
        CHECK(fault.code == H3W_TABLE_MEMORY && fault.at == 0 && fault.direction == 0 && held == 0);
        CHECK(h3w_gridDiskUnsafe(&table, 0x85283473fffffffU, 0, out, 1) == E_FAILED);
    }
    made = refused = 0;
    CHECK(h3w_gridDiskUnsafe(&plain, 0x85283473fffffffU, 5, out, 91) == E_SUCCESS && made == 0);
    printf("%lu allocations\n", allocations);
}

/* Zones are prepared with memory, and looked up without. */
static void expect_lookups(void) {
    static int truths[343];
    static int64_t counts[343];
    static uint32_t table[686];
    static H3Index zones[343];
    static uint32_t numbers[343];
    int64_t others = KEPT;
    size_t at = 0;
    CHECK(h3w_zones(cells, 343, out, 343) == E_SUCCESS && held == 0);
    made = 0;
    CHECK(h3w_areCoveredCells(out, 343, cells, 343, truths, 343, &at) == E_SUCCESS && truths[0] == 1);
    CHECK(h3w_countCellsInZones(out, 343, cells, 343, counts, 343, &others, &at) == E_SUCCESS && others == 0 &&
          counts[0] == 1 && counts[342] == 1);
    CHECK(h3w_areCoveredCellsByTable(out, 343, cells, 343, table, 686, truths, 343, &at) == E_SUCCESS &&
          truths[0] == 1);
    CHECK(h3w_cellsToZonesByTable(out, 343, cells, 343, table, 686, zones, 343, &at) == E_SUCCESS &&
          zones[342] == cells[342]);
    CHECK(h3w_countCellsInZonesByTable(out, 343, cells, 343, table, 686, counts, 343, &others, &at) == E_SUCCESS &&
          others == 0 && counts[0] == 1 && counts[342] == 1);
    h3w_zonesTable(out, 343, table, 686);
    CHECK(h3w_areCoveredCellsInTable(out, 343, cells, 343, table, 686, truths, 343, &at) == E_SUCCESS &&
          truths[342] == 1);
    CHECK(h3w_cellsToZonesInTable(out, 343, cells, 343, table, 686, zones, 343, &at) == E_SUCCESS &&
          zones[342] == cells[342]);
    CHECK(h3w_countCellsInZonesInTable(out, 343, cells, 343, table, 686, counts, 343, &others, &at) == E_SUCCESS &&
          others == 0 && counts[0] == 1 && counts[342] == 1);
    numbers[342] = 7;
    CHECK(h3w_cellsToZonesPlaces(out, 343, numbers, 343, out, 343, counts, 343, &at) == E_SUCCESS && counts[342] == 7);
    CHECK(h3w_cellsToZonesPlacesByTable(out, 343, numbers, 343, out, 343, table, 686, counts, 343, &at) == E_SUCCESS &&
          counts[342] == 7);
    CHECK(h3w_cellsToZonesPlacesInTable(out, 343, numbers, 343, out, 343, table, 686, counts, 343, &at) == E_SUCCESS &&
          counts[342] == 7);
    CHECK(made == 0);
}

/* What is judged before memory is taken, and what the first list's memory is taken for. */
static void expect_order(void) {
    H3Index no_cell = 5;
    size_t count = KEPT;
    made = 0, refused = 1;
    CHECK(h3w_zones(cells, 343, out, 342) == E_MEMORY_BOUNDS && made == 0);
    made = 0, refused = 2;
    CHECK(h3w_intersectCells(&no_cell, 1, cells, 343, out, 343, &count) == E_CELL_INVALID);
    made = 0, refused = 2;
    CHECK(h3w_subtractCells(&no_cell, 1, cells, 343, out, 343, &count) == E_CELL_INVALID);
    CHECK(made == 1 && held == 0 && count == KEPT);
    refused = 0;
}

int main(void) {
    expect_none();
    expect_table();
    expect(compacted, 1);
    expect(uncompacted, 343);
    expect(united, 1);
    expect(intersected, 6);
    expect(merged, 1);
    expect(subtracted, 60);
    expect(prepared, 343);
    expect(areas, 343);
    expect(overlapping, 342);
    expect(found, 343);
    expect_lookups();
    expect_order();
    /* a list that is refused */
    cells[342] = cells[0];
    CHECK(h3w_compactCells(cells, 343, out, 343, &(size_t){0}) == E_DUPLICATE_INPUT && held == 0);
    cells[342] = 5;
    CHECK(h3w_compactCells(cells, 343, out, 343, &(size_t){0}) == E_CELL_INVALID && held == 0);
    CHECK(h3w_uncompactCells(cells, 343, out, 343, 9) == E_CELL_INVALID && held == 0);
    return counts();
}
