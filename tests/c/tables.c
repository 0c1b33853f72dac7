/* Base cell tables, and the functions over them: worked examples, refused files, wrong input, too little room, H3's
 * bare names, and a table that many threads share. */
#define H3WHOLE_BARE_NAMES
#define H3WHOLE_TABLE base_table
#include "h3whole.h"
#include "check.h"
#include "tables.h"
#include <limits.h>
#include <pthread.h>
#include <stdlib.h>

#define HEXAGON     0x85283473fffffffU
#define PENTAGON    0x8009fffffffffffU
#define NEAR        0x803dfffffffffffU
#define KEPT        0x1234567890abcdefU
#define ROOM(array) (sizeof(array) / sizeof *(array))

const H3wTable *base_table;

static H3wTable plain, twisted;

static const H3Index disk_of_hexagon[] = {0x85283473fffffffU, 0x85283447fffffffU, 0x8528347bfffffffU,
                                          0x85283463fffffffU, 0x85283477fffffffU, 0x8528340ffffffffU,
                                          0x8528340bfffffffU};
static const H3Index ring_of_hexagon[] = {0x8528340bfffffffU, 0x85283447fffffffU, 0x8528347bfffffffU,
                                          0x85283463fffffffU, 0x85283477fffffffU, 0x8528340ffffffffU};
static const H3Index disk_of_near[] = {0x803dfffffffffffU, 0x8055fffffffffffU, 0x8053fffffffffffU, 0x803bfffffffffffU,
                                       0x8025fffffffffffU, 0x8027fffffffffffU, 0x803ffffffffffffU, 0x8057fffffffffffU,
                                       0x806dfffffffffffU, 0x806bfffffffffffU, 0x8069fffffffffffU, 0x8051fffffffffffU,
                                       0x8039fffffffffffU, 0x8023fffffffffffU, 0x800dfffffffffffU, 0x800ffffffffffffU,
                                       0x8011fffffffffffU, 0x8029fffffffffffU, 0x8041fffffffffffU};
static const H3Index disk_turned[] = {0x813d3ffffffffffU, 0x81547ffffffffffU, 0x813dbffffffffffU, 0x813c3ffffffffffU,
                                      0x813d7ffffffffffU, 0x813e7ffffffffffU, 0x813efffffffffffU};

/* Reads a copy of the bytes that ends where they end. */
static H3wTable read_table(const char *file, size_t n, H3wTableFault *fault) {
    char *copy = (char *)malloc(n + (n == 0));
    H3wTable table;
    if (!copy) exit(2);
    memcpy(copy, file, n);
    memset(fault, 0x55, sizeof *fault);
    table = h3w_readTable(copy, n, fault);
    free(copy);
    return table;
}

static H3Index *places(size_t n) {
    H3Index *made = (H3Index *)malloc(n * sizeof *made + (n == 0));
    size_t i;
    if (!made) exit(2);
    for (i = 0; i < n; i++) made[i] = KEPT;
    return made;
}

static int are_same(const H3Index *some, const H3Index *others, size_t n) {
    return n == 0 || memcmp(some, others, n * sizeof *some) == 0;
}

/* A walk into exactly as much room as it needs, and into each that is too little. */
typedef H3Error Walk(const H3wTable *, H3Index, int, H3Index *, size_t);

static void expect_walk(Walk *walk, const H3wTable *table, H3Index origin, int k, const H3Index *wanted, size_t n,
                        H3Error error) {
    size_t room;
    for (room = 0; room <= n + 1; room++) {
        H3Index *out = places(room);
        CHECK(walk(table, origin, k, out, room) == (room < n ? (H3Error)E_MEMORY_BOUNDS : error));
        CHECK(are_same(out, wanted, room < n ? room : n) && (room <= n || out[n] == KEPT));
        free(out);
    }
}

/* The cells of a disk with their rings, and no more than both arrays have room for. */
static H3Error distances(const H3wTable *table, H3Index origin, int k, H3Index *out, size_t room) {
    size_t less = room ? room - 1 : 0, i;
    int *rings = (int *)malloc((room + 1) * sizeof *rings);
    H3Index *few = places(less);
    H3Error error;
    if (!rings) exit(2);
    for (i = 0; i <= room; i++) rings[i] = -7;
    h3w_gridDiskDistancesUnsafe(table, origin, k, few, less, rings, room);
    CHECK(rings[room] == -7 && (room == 0 || rings[room - 1] == -7));
    error = h3w_gridDiskDistancesUnsafe(table, origin, k, out, room, rings, room + 1);
    for (i = 0; i < room && out[i] != KEPT; i++) CHECK(rings[i] == (i == 0 ? 0 : i < 7 ? 1 : 2));
    CHECK(rings[i] == -7);
    free(few);
    free(rings);
    return error;
}

static void walks(void) {
    static const H3Index met[] = {0x800bfffffffffffU, 0x8023fffffffffffU, 0x8021fffffffffffU},
                         ring_met[] = {0x800dfffffffffffU, 0x8023fffffffffffU, 0x8021fffffffffffU},
                         pentagon[] = {PENTAGON}, inside[] = {0x8108bffffffffffU};
    H3Index ring_of_near[12];
    memcpy(ring_of_near + 1, disk_of_near + 7, 11 * sizeof *ring_of_near);
    ring_of_near[0] = disk_of_near[18];
    expect_walk(h3w_gridDiskUnsafe, &plain, HEXAGON, 1, disk_of_hexagon, 7, E_SUCCESS);
    expect_walk(h3w_gridDiskUnsafe, &plain, HEXAGON, 0, disk_of_hexagon, 1, E_SUCCESS);
    expect_walk(distances, &plain, HEXAGON, 1, disk_of_hexagon, 7, E_SUCCESS);
    expect_walk(distances, &plain, HEXAGON, 0, disk_of_hexagon, 1, E_SUCCESS);
    expect_walk(h3w_gridRingUnsafe, &plain, HEXAGON, 1, ring_of_hexagon, 6, E_SUCCESS);
    expect_walk(h3w_gridDiskUnsafe, &plain, NEAR, 2, disk_of_near, 19, E_SUCCESS);
    expect_walk(h3w_gridDiskUnsafe, &twisted, NEAR, 2, disk_of_near, 19, E_SUCCESS);
    expect_walk(distances, &twisted, NEAR, 2, disk_of_near, 19, E_SUCCESS);
    expect_walk(h3w_gridRingUnsafe, &plain, NEAR, 2, ring_of_near, 12, E_SUCCESS);
    expect_walk(h3w_gridRingUnsafe, &twisted, NEAR, 2, ring_of_near, 12, E_SUCCESS);
    expect_walk(h3w_gridDiskUnsafe, &twisted, 0x813d3ffffffffffU, 1, disk_turned, 7, E_SUCCESS);
    expect_walk(h3w_gridDiskUnsafe, &plain, 0x800bfffffffffffU, 1, met, 3, E_PENTAGON);
    expect_walk(h3w_gridDiskUnsafe, &plain, 0x800bfffffffffffU, INT_MAX, met, 3, E_PENTAGON);
    expect_walk(distances, &plain, 0x800bfffffffffffU, 1, met, 3, E_PENTAGON);
    expect_walk(h3w_gridRingUnsafe, &plain, 0x800bfffffffffffU, 1, ring_met, 3, E_PENTAGON);
    expect_walk(h3w_gridRingUnsafe, &plain, 0x800bfffffffffffU, INT_MAX, ring_met, 0, E_PENTAGON);
    expect_walk(h3w_gridDiskUnsafe, &plain, PENTAGON, 0, pentagon, 0, E_PENTAGON);
    expect_walk(h3w_gridRingUnsafe, &plain, PENTAGON, 0, pentagon, 1, E_SUCCESS);
    expect_walk(h3w_gridDiskUnsafe, &plain, 0x8108bffffffffffU, 0, inside, 1, E_SUCCESS);
    expect_walk(h3w_gridDiskUnsafe, &plain, 0x8108bffffffffffU, 1, inside, 0, E_PENTAGON);
}

/* The disks of two cells, and then of one whose walk is refused on its way, with all the room and with less. */
static void disks(void) {
    static const H3Index origins[] = {HEXAGON, 0x85283473fffffffU, 0x800bfffffffffffU, HEXAGON}, none[] = {NEAR, 5};
    H3Index wanted[17] = {0}, *out;
    size_t room, at;
    memcpy(wanted, disk_of_hexagon, sizeof disk_of_hexagon);
    memcpy(wanted + 7, disk_of_hexagon, sizeof disk_of_hexagon);
    wanted[14] = origins[2], wanted[15] = 0x8023fffffffffffU, wanted[16] = 0x8021fffffffffffU;
    for (room = 0; room < 20; room++) {
        H3Error error = room < 17 ? E_MEMORY_BOUNDS : E_PENTAGON;
        at = KEPT, out = places(room);
        CHECK(h3w_gridDisksUnsafe(&plain, origins, 4, 1, out, room, &at) == error && at == (room < 14 ? room / 7 : 2));
        CHECK(are_same(out, wanted, room < 17 ? room : 17) && (room < 18 || out[17] == KEPT));
        at = KEPT;
        error = room < 14 ? E_MEMORY_BOUNDS : E_SUCCESS;
        CHECK(h3w_gridDisksUnsafe(&plain, origins, 2, 1, out, room, &at) == error && at == (room < 14 ? room / 7 : 2));
        CHECK(are_same(out, wanted, room < 17 ? room : 17));
        free(out);
    }
    out = places(19), at = KEPT;
    CHECK(h3w_gridDisksUnsafe(&plain, none, 2, 2, out, 19, &at) == E_CELL_INVALID && at == 1);
    CHECK(are_same(out, disk_of_near, 19));
    CHECK(h3w_gridDisksUnsafe(&plain, none, 2, -1, out, 19, &at) == E_DOMAIN && at == 0);
    CHECK(h3w_gridDisksUnsafe(&plain, none, 0, -1, out, 19, &at) == E_SUCCESS && at == 0);
    CHECK(are_same(out, disk_of_near, 19));
    free(out);
}

/* A table over which a function is asked, and what is wrong in its words. */
static void expect_refused(const H3wTable *table, H3Index origin, int k, H3Error error) {
    expect_walk(h3w_gridDiskUnsafe, table, origin, k, NULL, 0, error);
    expect_walk(distances, table, origin, k, NULL, 0, error);
    expect_walk(h3w_gridRingUnsafe, table, origin, k, NULL, 0, error);
}

static void wrong_words(void) {
    static const int radii[] = {-1, -2, INT_MIN};
    static const H3Index none[] = {0, 5, UINT64_MAX, 0x81087ffffffffffU, 0x80f5fffffffffffU, 0x115283473fffffffU};
    H3Index out = KEPT;
    int is = 77;
    size_t i;
    for (i = 0; i < ROOM(radii); i++) expect_refused(&plain, HEXAGON, radii[i], E_DOMAIN);
    for (i = 0; i < ROOM(none); i++) {
        expect_refused(&plain, none[i], -1, E_CELL_INVALID);
        expect_refused(&plain, none[i], 1, E_CELL_INVALID);
        CHECK(h3w_areNeighborCells(&plain, none[i], HEXAGON, &is) == E_CELL_INVALID && is == 77);
        CHECK(h3w_areNeighborCells(&plain, HEXAGON, none[i], &is) == E_CELL_INVALID && is == 77);
        CHECK(h3w_cellsToDirectedEdge(&plain, HEXAGON, none[i], &out) == E_CELL_INVALID && out == KEPT);
        if (i < 5) CHECK(h3w_getDirectedEdgeDestination(&plain, none[i], &out) == E_DIR_EDGE_INVALID && out == KEPT);
    }
}

static void edges(void) {
    H3Index out = KEPT;
    int is = 77;
    CHECK(h3w_areNeighborCells(&plain, 0x8528340ffffffffU, HEXAGON, &is) == E_SUCCESS && is == 1);
    CHECK(h3w_areNeighborCells(&plain, 0x8528340ffffffffU, 0x8528347bfffffffU, &is) == E_SUCCESS && is == 0);
    is = 77;
    CHECK(h3w_areNeighborCells(&plain, 0x8528340ffffffffU, 0x8528340ffffffffU, &is) == E_SUCCESS && is == 0);
    is = 77;
    CHECK(h3w_areNeighborCells(&plain, PENTAGON, 0x8011fffffffffffU, &is) == E_PENTAGON && is == 77);
    CHECK(h3w_areNeighborCells(&plain, HEXAGON, NEAR, &is) == E_RES_MISMATCH && is == 77);
    CHECK(h3w_cellsToDirectedEdge(&plain, HEXAGON, HEXAGON, &out) == E_NOT_NEIGHBORS);
    CHECK(h3w_cellsToDirectedEdge(&plain, HEXAGON, 0x8428347ffffffffU, &out) == E_RES_MISMATCH);
    CHECK(h3w_cellsToDirectedEdge(&plain, 0x8528340ffffffffU, 0x8528347bfffffffU, &out) == E_NOT_NEIGHBORS);
    CHECK(h3w_getDirectedEdgeDestination(&plain, 0x11021fffffffffffU, &out) == E_PENTAGON && out == KEPT);
    CHECK(h3w_cellsToDirectedEdge(&plain, HEXAGON, 0x85283477fffffffU, &out) == E_SUCCESS &&
          out == 0x115283473fffffffU);
    CHECK(h3w_getDirectedEdgeDestination(&plain, 0x115283473fffffffU, &out) == E_SUCCESS && out == 0x85283477fffffffU);
}

/* A file that is refused, with its code, its place and its direction; nothing is asked of its table. */
static void expect_fault(const char *file, size_t n, uint32_t code, uint64_t at, uint32_t direction) {
    H3wTableFault fault;
    H3wTable table = read_table(file, n, &fault);
    const H3Index origin = HEXAGON;
    H3Index out = KEPT;
    size_t cell = 5;
    int is = 77;
    CHECK(h3w_gridDisksUnsafe(&table, &origin, 1, -1, &out, 1, &cell) == E_FAILED && cell == 0 && out == KEPT);
    CHECK(fault.code == code && fault.at == at && fault.direction == direction);
    expect_refused(&table, HEXAGON, 0, E_FAILED);
    expect_refused(&table, 5, -1, E_FAILED);
    CHECK(h3w_areNeighborCells(&table, HEXAGON, HEXAGON, &is) == E_FAILED && is == 77);
    CHECK(h3w_cellsToDirectedEdge(&table, HEXAGON, 0x85283477fffffffU, &out) == E_FAILED && out == KEPT);
    CHECK(h3w_getDirectedEdgeDestination(&table, 0x115283473fffffffU, &out) == E_FAILED && out == KEPT);
    CHECK(h3w_areNeighborCells(&table, 5, 5, &is) == E_FAILED && is == 77);
    CHECK(h3w_cellsToDirectedEdge(&table, 5, 5, &out) == E_FAILED && out == KEPT);
    CHECK(h3w_getDirectedEdgeDestination(&table, 5, &out) == E_FAILED && out == KEPT);
}

/* The plain table's file, with this in the place of its record in base cell 0's first direction. */
static void expect_changed(const char *first, uint32_t code, uint64_t at, uint32_t direction) {
    static const char old[] = "0,1,110,0\n";
    char file[FILE_ROOM], *changed = (char *)malloc(FILE_ROOM + 99);
    size_t n = write_table(file, PLAIN, 1), header = strlen("base,dir,to,rot\n"), length;
    if (!changed) exit(2);
    length = (size_t)sprintf(changed, "base,dir,to,rot\n%s", first);
    memcpy(changed + length, file + header + strlen(old), n - header - strlen(old));
    expect_fault(changed, length + n - header - strlen(old), code, at, direction);
    free(changed);
}

static void refused_files(void) {
    char file[FILE_ROOM];
    H3wTable zero;
    expect_fault("", 0, H3W_TABLE_FORM, 1, 0);
    expect_fault("base,dir,to\n", 12, H3W_TABLE_FORM, 1, 0);
    expect_fault("base,dir,to,rot\n", 16, H3W_TABLE_MISSING, 0, 0);
    expect_fault("base,dir,to,rot\n4,1,0,0\n", 24, H3W_TABLE_RANGE, 2, 0);
    expect_fault("base,dir,to,rot\n0001,1,110,0\n", 29, H3W_TABLE_FORM, 2, 0);
    expect_fault("base,dir,to,rot\n0,1,110,6\n", 26, H3W_TABLE_RANGE, 2, 0);
    expect_fault("base,dir,to,rot\n0,1,110,0\n0,1,110,0\n", 36, H3W_TABLE_REPEATED, 3, 0);
    expect_fault(file, write_table(file, SKEW, 1), H3W_TABLE_CORNER, 0, 1);
    expect_fault(file, write_table(file, SKEW, 2), H3W_TABLE_CORNER, 0, 1);
    expect_changed("", H3W_TABLE_MISSING, 0, 0);
    expect_changed("0,1,11,0\n", H3W_TABLE_NEIGHBORS, 0, 0);
    expect_changed("0,1,110,1\n", H3W_TABLE_REVERSAL, 0, 1);
    memset(&zero, 0, sizeof zero);
    expect_refused(&zero, HEXAGON, 1, E_FAILED);
}

static void accepted_files(void) {
    char file[FILE_ROOM];
    H3wTableFault fault;
    H3wTable other, *copy = (H3wTable *)malloc(sizeof *copy);
    H3Index out[7];
    if (!copy) exit(2);
    plain = read_table(file, write_table(file, PLAIN, 1), &fault);
    CHECK(fault.code == H3W_TABLE_ACCEPTED && fault.at == 0 && fault.direction == 0);
    twisted = read_table(file, write_table(file, TWISTED, 1), &fault);
    CHECK(fault.code == H3W_TABLE_ACCEPTED);
    other = read_table(file, write_table(file, PLAIN, 2), &fault);
    CHECK(fault.code == H3W_TABLE_ACCEPTED && memcmp(&other, &plain, sizeof plain) == 0);
    other = read_table(file, write_table(file, TWISTED, 2), &fault);
    CHECK(fault.code == H3W_TABLE_ACCEPTED && memcmp(&other, &twisted, sizeof twisted) == 0);
    memcpy(copy, &plain, sizeof plain);
    memset(&other, 0, sizeof other);
    CHECK(h3w_gridDiskUnsafe(copy, HEXAGON, 1, out, 7) == E_SUCCESS && are_same(out, disk_of_hexagon, 7));
    free(copy);
}

static void bare_names(void) {
    H3Index out[19];
    int rings[19], is = 0;
    base_table = &plain;
    CHECK(gridDiskUnsafe(NEAR, 2, out) == E_SUCCESS && are_same(out, disk_of_near, 19));
    CHECK(gridDiskDistancesUnsafe(NEAR, 2, out, rings) == E_SUCCESS && rings[0] == 0 && rings[6] == 1 &&
          rings[7] == 2 && rings[18] == 2);
    CHECK(gridRingUnsafe(HEXAGON, 1, out) == E_SUCCESS && are_same(out, ring_of_hexagon, 6));
    CHECK(gridRingUnsafe(HEXAGON, 0, out) == E_SUCCESS && out[0] == HEXAGON && out[1] == ring_of_hexagon[1]);
    CHECK(gridDiskUnsafe(HEXAGON, -1, out) == E_DOMAIN && gridRingUnsafe(HEXAGON, INT_MIN, out) == E_DOMAIN);
    CHECK(gridDiskUnsafe(HEXAGON, -1, NULL) == E_DOMAIN &&
          gridDiskDistancesUnsafe(HEXAGON, -1, NULL, NULL) == E_DOMAIN);
    out[18] = 0;
    CHECK(gridDiskDistancesUnsafe(NEAR, 2, out, NULL) == E_SUCCESS && are_same(out, disk_of_near, 19));
    CHECK(areNeighborCells(HEXAGON, 0x85283477fffffffU, &is) == E_SUCCESS && is == 1);
    CHECK(cellsToDirectedEdge(HEXAGON, 0x85283477fffffffU, out) == E_SUCCESS && out[0] == 0x115283473fffffffU);
    CHECK(getDirectedEdgeDestination(out[0], out) == E_SUCCESS && out[0] == 0x85283477fffffffU);
}

/* Walks over one table. Returns NULL where a result is wrong. */
static void *shared_walks(void *own) {
    H3Index out[19];
    int holds = 1, i;
    for (i = 0; holds && i < 500; i++)
        holds = !h3w_gridDiskUnsafe((const H3wTable *)own, NEAR, 2, out, 19) && are_same(out, disk_of_near, 19) &&
                !h3w_getDirectedEdgeDestination((const H3wTable *)own, 0x115283473fffffffU, out);
    return holds ? own : NULL;
}

static void threads(void) {
    pthread_t threads[8];
    int i;
    for (i = 0; i < 8; i++) CHECK(pthread_create(&threads[i], NULL, shared_walks, &twisted) == 0);
    for (i = 0; i < 8; i++) {
        void *own = NULL;
        CHECK(pthread_join(threads[i], &own) == 0 && own == (void *)&twisted);
    }
}

int main(void) {
    accepted_files();
    walks();
    disks();
    wrong_words();
    edges();
    refused_files();
    bare_names();
    threads();
    return counts();
}
