/* Calls over memory that other threads write to. Any result will do, but the process must not end, and nothing outside
 * of the arrays may be read or written: each lies between two pages that end a process which touches them.
 *
 * The functions `over_..` call each function of the header but these, which are passed no array (tests/library/library
 * compares both with the header):
 *
 * without an array: h3w_version h3w_isValidCell h3w_getResolution h3w_getBaseCellNumber h3w_isPentagon
 * h3w_isResClassIII h3w_getNumCells h3w_cellToParent h3w_cellToCenterChild h3w_cellToLastChild h3w_cellToChildrenSize
 * h3w_cellToChildPos h3w_childPosToCell h3w_isValidDirectedEdge h3w_getDirectedEdgeOrigin */
#define _DEFAULT_SOURCE
#define H3WHOLE_BARE_NAMES
#include "h3whole.h"
#include "check.h"
#include "tables.h"
#include <pthread.h>
#include <stdlib.h>
#include <sys/mman.h>
#include <time.h>
#include <unistd.h>

/* how many cells and zones there are: each array is of whole pages */
#define N       4096
#define ROOM    (7 * (size_t)N)
#define TEXT    16
#define WRITTEN 17
#define WRITERS 2
#define SECONDS 8

#define PUT(place, value) __atomic_store_n(place, value, __ATOMIC_RELAXED)

static H3Index given[N], given_zones[N], *cells, *others, *zones, *out;
static int64_t *sizes;
static int *numbers;
static uint32_t *table, *beside;
static char given_file[FILE_ROOM], *file, *text, *written;
static size_t file_length;
/* (this one never changes) */
static H3wTable *links;
static int is_over, holds = 1;

/* Memory of whole pages between two that nothing may touch. */
static void *guarded(size_t size) {
    size_t page = (size_t)sysconf(_SC_PAGESIZE);
    char *memory = (char *)mmap(NULL, size + 2 * page, PROT_NONE, MAP_PRIVATE | MAP_ANONYMOUS, -1, 0);
    if (memory == MAP_FAILED || mprotect(memory + page, size, PROT_READ | PROT_WRITE)) exit(2);
    return memory + page;
}

static uint64_t next(uint64_t *state) {
    *state = *state * 6364136223846793005U + 1442695040888963407U;
    return *state >> 20;
}

/* Cells that are zones, in the library's order, and cells below them, in no order. */
static void fill(void) {
    uint64_t state = 1;
    H3wTableFault fault;
    size_t i;
    CHECK(h3w_cellToChildren(0x81283ffffffffffU, 6, given, N) == E_MEMORY_BOUNDS);
    CHECK(h3w_zones(given, N, given_zones, N) == E_SUCCESS);
    for (i = 0; i < N; i++)
        CHECK(h3w_childPosToCell((int64_t)(next(&state) % 49), given_zones[next(&state) % N], 8, &given[i]) ==
              E_SUCCESS);
    memcpy(cells, given, sizeof given);
    memcpy(others, given, sizeof given);
    memcpy(zones, given_zones, sizeof given_zones);
    h3w_zonesTable(zones, N, table, N);
    file_length = write_table(given_file, PLAIN, 1);
    memcpy(file, given_file, file_length);
    *links = h3w_readTable(file, file_length, &fault);
    CHECK(fault.code == H3W_TABLE_ACCEPTED);
}

/* Another number in the place of a cell: one without a cell, another cell, or any. */
static H3Index other(uint64_t *state) {
    switch (next(state) % 4) {
        case 0:
            return H3_NULL;
        case 1:
            return UINT64_MAX;
        case 2:
            return given[next(state) % N];
        default:
            return next(state) << 44 ^ next(state);
    }
}

/* Writes to one place of the column after another, and then puts the cell before back. */
static void *write_cells(void *own) {
    uint64_t state = (uint64_t)(uintptr_t)own;
    size_t last = 0;
    while (!__atomic_load_n(&is_over, __ATOMIC_RELAXED)) {
        size_t i = next(&state) % N;
        PUT(&cells[i], other(&state));
        PUT(&cells[last], given[last]);
        last = i;
    }
    return NULL;
}

/* The same of each array. */
static void *write_all(void *own) {
    static const char letters[] = "0189abcdefABCDEFgxX \t\r\n,";
    uint64_t state = (uint64_t)(uintptr_t)own;
    while (!__atomic_load_n(&is_over, __ATOMIC_RELAXED)) {
        size_t i = next(&state) % N, at = next(&state) % file_length;
        PUT(&cells[i], other(&state));
        PUT(&cells[i], given[i]);
        PUT(&others[i], other(&state));
        PUT(&others[i], given[i]);
        PUT(&zones[i], other(&state));
        PUT(&zones[i], given_zones[i]);
        PUT(&table[i], (uint32_t)next(&state));
        PUT(&beside[i], (uint32_t)next(&state));
        PUT(&out[i], other(&state));
        PUT(&sizes[i], (int64_t)other(&state));
        PUT(&numbers[i], (int)next(&state));
        PUT(&text[i % TEXT], letters[next(&state) % (sizeof letters - 1)]);
        PUT(&written[i % WRITTEN], letters[next(&state) % (sizeof letters - 1)]);
        PUT(&file[at], letters[next(&state) % (sizeof letters - 1)]);
        PUT(&file[at], given_file[at]);
    }
    return NULL;
}

/* what the calls write */
static size_t at, count;

/* An error has a place in a column of n indexes, and success is at its end. */
static void ends(H3Error error, size_t n) { holds = holds && (error ? error < 16 && at < n : at == n); }

/* A list has room, and as many cells as it has. */
static void lists(H3Error error) { holds = holds && error < 16 && (error || count <= ROOM); }

typedef H3Error Numbers(const H3Index *, size_t, int *, size_t, size_t *);
typedef H3Error Indexes(const H3Index *, size_t, int, H3Index *, size_t, size_t *);
typedef H3Error Counts(const H3Index *, size_t, int, int64_t *, size_t, size_t *);

static void over_columns(void) {
    static Numbers *const of_numbers[] = {h3w_areValidCells, h3w_getResolutions, h3w_getBaseCellNumbers,
                                          h3w_arePentagons,  h3w_areResClassIII, h3w_areValidDirectedEdges};
    static Indexes *const of_indexes[] = {h3w_cellsToParents, h3w_cellsToCenterChildren, h3w_cellsToLastChildren,
                                          h3w_cellsToChildren};
    static Counts *const of_counts[] = {h3w_cellsToChildrenSizes, h3w_cellsToChildPositions};
    size_t i;
    for (i = 0; i < 6; i++) ends(of_numbers[i](cells, N, numbers, N, &at), N);
    for (i = 0; i < 4; i++) ends(of_indexes[i](cells, N, i ? 9 : 5, out, ROOM, &at), N);
    for (i = 0; i < 2; i++) ends(of_counts[i](cells, N, i ? 5 : 9, sizes, N, &at), N);
    ends(h3w_cellsToChildrenStarts(cells, N - 1, 9, sizes, N, &at), N - 1);
    ends(h3w_getDirectedEdgeOrigins(cells, N, out, ROOM, &at), N);
    ends(h3w_gridDisksUnsafe(links, cells, N, 1, out, ROOM, &at), N);
}

static void over_lists(void) {
    int64_t size = 0;
    size_t earlier = 0;
    lists(h3w_compactCells(cells, N, out, ROOM, &count));
    lists(h3w_uniteCells(cells, N, out, ROOM, &count));
    lists(h3w_intersectCells(cells, N, others, N, out, ROOM, &count));
    lists(h3w_subtractCells(cells, N, others, N, out, ROOM, &count));
    lists(h3w_uncompactCells(cells, N, out, ROOM, 9));
    lists(h3w_zones(cells, N, out, ROOM));
    lists(h3w_areas(cells, N, table, N, out, ROOM, beside, N, &count));
    lists(h3w_cellsToAreas(others, N, table, N, cells, N - 1, sizes, N, beside, N, &at));
    lists(h3w_findOverlap(cells, N, &at, &earlier));
    lists(compactCells(cells, out, N));
    lists(uncompactCells(cells, N, out, ROOM, 9));
    lists(uncompactCellsSize(cells, N, 9, &size));
}

static void over_zones(void) {
    int64_t rest = 0;
    h3w_zonesTable(zones, N, table, N);
    ends(h3w_cellsToZones(zones, N, cells, N, out, ROOM, &at), N);
    ends(h3w_cellsToZonesByTable(zones, N, cells, N, table, N, out, ROOM, &at), N);
    ends(h3w_cellsToZonesInTable(zones, N, cells, N, table, N, out, ROOM, &at), N);
    ends(h3w_cellsToZonesPlaces(zones, N, beside, N, cells, N, sizes, N, &at), N);
    ends(h3w_cellsToZonesPlacesByTable(zones, N, beside, N, cells, N, table, N, sizes, N, &at), N);
    ends(h3w_cellsToZonesPlacesInTable(zones, N, beside, N, cells, N, table, N, sizes, N, &at), N);
    ends(h3w_areCoveredCells(zones, N, cells, N, numbers, N, &at), N);
    ends(h3w_areCoveredCellsByTable(zones, N, cells, N, table, N, numbers, N, &at), N);
    ends(h3w_areCoveredCellsInTable(zones, N, cells, N, table, N, numbers, N, &at), N);
    ends(h3w_countCellsInZones(zones, N, cells, N, sizes, N, &rest, &at), N);
    ends(h3w_countCellsInZones(zones, N, cells, N / 16, sizes, N, &rest, &at), N / 16);
    ends(h3w_countCellsInZonesByTable(zones, N, cells, N, table, N, sizes, N, &rest, &at), N);
    ends(h3w_countCellsInZonesInTable(zones, N, cells, N, table, N, sizes, N, &rest, &at), N);
}

static void over_bytes(void) {
    H3wTableFault fault;
    H3Index index;
    h3w_readTable(file, file_length, &fault);
    holds = holds && fault.code < 10 && h3w_stringToH3(text, TEXT, &index) <= E_FAILED;
    holds = holds && h3w_h3ToString(given[0], written, WRITTEN) == E_SUCCESS;
}

/* An error is one of H3's. */
static void is_error(H3Error error) { holds = holds && error < 16; }

/* The functions of one index that write to arrays, or read a table. */
static void over_results(void) {
    static size_t turn;
    H3Index origin = given[turn++ % N], edge;
    int are;
    is_error(h3w_getRes0Cells(out, ROOM));
    is_error(h3w_getPentagons(9, out, ROOM));
    is_error(h3w_cellToChildren(origin, 12, out, ROOM));
    is_error(h3w_originToDirectedEdges(origin, out));
    is_error(h3w_gridDiskUnsafe(links, origin, 36, out, ROOM));
    is_error(h3w_gridDiskDistancesUnsafe(links, origin, 36, out, ROOM, numbers, N));
    is_error(h3w_gridRingUnsafe(links, origin, 400, out, ROOM));
    is_error(h3w_areNeighborCells(links, origin, given[turn % N], &are));
    is_error(h3w_cellsToDirectedEdge(links, origin, given[turn % N], &edge));
    edge = (origin & ~(UINT64_C(15) << 59 | UINT64_C(7) << 56)) | UINT64_C(2) << 59 | (uint64_t)(turn % 8) << 56;
    is_error(h3w_getDirectedEdgeDestination(links, edge, &origin));
}

int main(void) {
    pthread_t writers[WRITERS];
    time_t end = time(NULL) + SECONDS;
    int i;
    cells = (H3Index *)guarded(N * sizeof *cells);
    others = (H3Index *)guarded(N * sizeof *others);
    zones = (H3Index *)guarded(N * sizeof *zones);
    out = (H3Index *)guarded(ROOM * sizeof *out);
    sizes = (int64_t *)guarded(N * sizeof *sizes);
    numbers = (int *)guarded(N * sizeof *numbers);
    table = (uint32_t *)guarded(N * sizeof *table);
    beside = (uint32_t *)guarded(N * sizeof *beside);
    file = (char *)guarded(FILE_ROOM);
    text = (char *)guarded(FILE_ROOM) + FILE_ROOM - TEXT;
    written = (char *)guarded(FILE_ROOM) + FILE_ROOM - WRITTEN;
    links = (H3wTable *)(void *)((char *)guarded(FILE_ROOM) + FILE_ROOM - sizeof *links);
    fill();
    for (i = 0; i < WRITERS; i++) CHECK(pthread_create(&writers[i], NULL, i ? write_all : write_cells, given + i) == 0);
    while (time(NULL) < end) {
        over_columns();
        over_lists();
        over_zones();
        over_bytes();
        over_results();
    }
    PUT(&is_over, 1);
    for (i = 0; i < WRITERS; i++) CHECK(pthread_join(writers[i], NULL) == 0);
    CHECK(holds);
    return counts();
}
