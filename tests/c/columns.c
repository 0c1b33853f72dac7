/* The functions for columns against those of one index, over columns of every kind of index. */
#include "h3whole.h"
#include "check.h"
#include <limits.h>
#include <stdlib.h>

#define N           600
#define KEPT        77
#define ROOM(array) (sizeof(array) / sizeof *(array))

typedef H3Error Numbers(const H3Index *, size_t, int *, size_t, size_t *);
typedef H3Error Cells(const H3Index *, size_t, int, H3Index *, size_t, size_t *);
typedef H3Error Counts(const H3Index *, size_t, int, int64_t *, size_t, size_t *);

static H3Index column[N];

/* Cells of all resolutions, pentagons, edges, and numbers of nothing. */
static void fill(void) {
    static const H3Index others[] = {0, 5, UINT64_MAX, 0x81087ffffffffffU, 0x115283473fffffffU, 0x11009fffffffffffU};
    uint64_t state = 1;
    int64_t size = 0;
    size_t i;
    for (i = 0; i < N; i++) {
        H3Index base = 0x8001fffffffffffU + ((state >> 20) % 122 << 45);
        int res = (int)(i % 16);
        state = state * 6364136223846793005U + 1442695040888963407U;
        if (i % 9 == 5) {
            column[i] = others[i / 9 % ROOM(others)];
        } else {
            CHECK(h3w_cellToChildrenSize(base, res, &size) == E_SUCCESS);
            CHECK(h3w_childPosToCell((int64_t)((state >> 2) % (uint64_t)size), base, res, &column[i]) == E_SUCCESS);
        }
        if (i % 9 == 7) CHECK(h3w_getPentagons(res, column + i, 1) == E_MEMORY_BOUNDS);
        if (i % 9 == 3) column[i] ^= (H3Index)0x3 << 59 | (H3Index)(1 + i % 6) << 56;
    }
}

/* The first error of those of n indexes, or E_SUCCESS, and its place, or n. */
static H3Error first(const H3Error *errors, size_t n, size_t *at) {
    for (*at = 0; *at < n; ++*at)
        if (errors[*at]) return errors[*at];
    return E_SUCCESS;
}

static H3Error of_cell(H3Index index) { return h3w_isValidCell(index) ? E_SUCCESS : E_CELL_INVALID; }
static H3Error of_any(H3Index index) {
    (void)index;
    return E_SUCCESS;
}

static void numbers(Numbers *all, int (*one)(H3Index), H3Error (*error_of)(H3Index), size_t n) {
    int *out = (int *)malloc((n + 1) * sizeof *out);
    H3Error errors[N] = {E_SUCCESS}, wanted;
    size_t at = KEPT, place, same = 0, i;
    if (!out) exit(2);
    for (i = 0; i <= n; i++) out[i] = KEPT;
    for (i = 0; i < n; i++) errors[i] = error_of(column[i]);
    wanted = first(errors, n, &place);
    CHECK(all(column, n, out, n, &at) == wanted && at == place);
    while (same < n && out[same] == (errors[same] ? -1 : one(column[same]))) same++;
    CHECK(same == n && out[n] == KEPT);
    if (n) {
        at = out[0] = KEPT;
        CHECK(all(column, n, out, n - 1, &at) == E_MEMORY_BOUNDS && at == KEPT && out[0] == KEPT);
    }
    free(out);
}

static void cells(Cells *all, H3Error (*one)(H3Index, int, H3Index *), int res, size_t n) {
    H3Index *out = (H3Index *)malloc((n + 1) * sizeof *out), results[N] = {0};
    H3Error errors[N] = {E_SUCCESS}, wanted;
    size_t at = KEPT, place, same = 0, i;
    if (!out) exit(2);
    for (i = 0; i <= n; i++) out[i] = KEPT;
    for (i = 0; i < n; i++) errors[i] = one(column[i], res, &results[i]);
    wanted = first(errors, n, &place);
    CHECK(all(column, n, res, out, n, &at) == wanted && at == place);
    while (same < n && out[same] == (errors[same] ? H3_NULL : results[same])) same++;
    CHECK(same == n && out[n] == KEPT);
    if (n) {
        at = out[0] = KEPT;
        CHECK(all(column, n, res, out, n - 1, &at) == E_MEMORY_BOUNDS && at == KEPT && out[0] == KEPT);
    }
    free(out);
}

static void sizes(Counts *all, H3Error (*one)(H3Index, int, int64_t *), int res, size_t n) {
    int64_t *out = (int64_t *)malloc((n + 1) * sizeof *out), results[N] = {0};
    H3Error errors[N] = {E_SUCCESS}, wanted;
    size_t at = KEPT, place, same = 0, i;
    if (!out) exit(2);
    for (i = 0; i <= n; i++) out[i] = KEPT;
    for (i = 0; i < n; i++) errors[i] = one(column[i], res, &results[i]);
    wanted = first(errors, n, &place);
    CHECK(all(column, n, res, out, n, &at) == wanted && at == place);
    while (same < n && out[same] == (errors[same] ? -1 : results[same])) same++;
    CHECK(same == n && out[n] == KEPT);
    if (n) {
        at = KEPT, out[0] = KEPT;
        CHECK(all(column, n, res, out, n - 1, &at) == E_MEMORY_BOUNDS && at == KEPT && out[0] == KEPT);
    }
    free(out);
}

/* The places where the children of each index begin: the sums of the sizes before, of which a refused index has 0. */
static int64_t starts[N + 2];
static void children_starts(int res, size_t n) {
    static int64_t found[N + 2];
    H3Error errors[N] = {E_SUCCESS}, wanted;
    size_t at = KEPT, place, same = 0, i;
    for (i = 0; i < N + 2; i++) found[i] = KEPT;
    for (i = starts[0] = 0; i < n; i++) {
        int64_t size = 0;
        errors[i] = h3w_cellToChildrenSize(column[i], res, &size);
        starts[i + 1] = starts[i] + (errors[i] ? 0 : size);
    }
    wanted = first(errors, n, &place);
    CHECK(h3w_cellsToChildrenStarts(column, n, res, found, n, &at) == E_MEMORY_BOUNDS && at == KEPT);
    CHECK(found[0] == KEPT && found[n] == KEPT);
    CHECK(h3w_cellsToChildrenStarts(column, n, res, found, n + 1, &at) == wanted && at == place);
    while (same <= n && found[same] == starts[same]) same++;
    CHECK(same == n + 1 && found[n + 1] == KEPT);
}

/* The children of each index, after those of the ones before; with less room as many as fit, and the place of the first
 * index whose children do not. */
static void children(int res, size_t n) {
    H3Index *wanted, *out;
    H3Error errors[N] = {E_SUCCESS}, error;
    size_t all, at, place, rooms[7], i, j;
    children_starts(res, n);
    all = (size_t)starts[n];
    wanted = (H3Index *)malloc((all + 2) * sizeof *wanted), out = (H3Index *)malloc((all + 2) * sizeof *out);
    if (!wanted || !out) exit(2);
    for (i = 0; i < n; i++)
        errors[i] = h3w_cellToChildren(column[i], res, wanted + starts[i], (size_t)(starts[i + 1] - starts[i]));
    error = first(errors, n, &place);
    rooms[0] = 0, rooms[1] = 1, rooms[2] = (size_t)starts[n / 2], rooms[3] = rooms[2] + 1;
    rooms[4] = all ? all - 1 : 0, rooms[5] = all, rooms[6] = all + 1;
    for (j = 0; j < ROOM(rooms); j++) {
        size_t room = rooms[j] <= all ? rooms[j] : all + 1, fit = room < all ? room : all, same = 0, last = 0;
        for (i = 0; i < all + 2; i++) out[i] = KEPT;
        at = KEPT;
        while (last < n && (size_t)starts[last + 1] <= room) last++;
        CHECK(h3w_cellsToChildren(column, n, res, out, room, &at) == (room < all ? (H3Error)E_MEMORY_BOUNDS : error));
        CHECK(at == (room < all ? last : place));
        while (same < fit && out[same] == wanted[same]) same++;
        CHECK(same == fit && out[fit] == KEPT);
    }
    free(wanted), free(out);
}

/* A column whose children end at places that no int64_t holds: an error of an index comes after. */
static void children_past_all_places(void) {
    const int64_t size = 4747561509943; /* 7^15 */
    const size_t n = 2000000, last = (size_t)(INT64_MAX / size);
    H3Index *many = (H3Index *)malloc(n * sizeof *many);
    int64_t *found = (int64_t *)malloc((n + 1) * sizeof *found);
    size_t at = KEPT, same = 0, i;
    if (!many || !found) exit(2);
    for (i = 0; i < n; i++) many[i] = i == 1 ? 5 : 0x8029fffffffffffU;
    for (i = 0; i <= n; i++) found[i] = KEPT;
    CHECK(h3w_cellsToChildrenStarts(many, n, 15, found, n + 1, &at) == E_MEMORY_BOUNDS && at == last + 1);
    while (same <= last + 1 && found[same] == (same ? (int64_t)(same - (same > 1)) * size : 0)) same++;
    CHECK(same == last + 2 && found[last + 2] == KEPT && found[n] == KEPT);
    many[1] = many[0];
    CHECK(h3w_cellsToChildrenStarts(many, last, 15, found, n + 1, &at) == E_SUCCESS && at == last);
    CHECK(found[last] == (int64_t)last * size);
    free(many), free(found);
}

/* An edge's origin, in the form of the functions with a resolution. */
static H3Error origin(H3Index edge, int res, H3Index *out) {
    (void)res;
    return h3w_getDirectedEdgeOrigin(edge, out);
}
static H3Error origins(const H3Index *edges, size_t n, int res, H3Index *out, size_t room, size_t *at) {
    (void)res;
    return h3w_getDirectedEdgeOrigins(edges, n, out, room, at);
}

/* Zones: two base cells, one a pentagon, and six of the children of a third. */
static H3Index zones[8];
static size_t zone_count;

static void make_zones(void) {
    H3Index given[8] = {0x8009fffffffffffU, 0x8029fffffffffffU};
    CHECK(h3w_cellToChildren(0x802bfffffffffffU, 1, given + 2, 6) == E_MEMORY_BOUNDS);
    zone_count = ROOM(given);
    CHECK(h3w_zones(given, zone_count, zones, zone_count) == E_SUCCESS);
}

/* The zone of a cell, by its parents. */
static H3Error zone_of(H3Index cell, int res, H3Index *out) {
    size_t i;
    H3Index parent = H3_NULL;
    (void)res;
    *out = H3_NULL;
    if (!h3w_isValidCell(cell)) return E_CELL_INVALID;
    for (i = 0; i < zone_count; i++)
        if (!h3w_cellToParent(cell, h3w_getResolution(zones[i]), &parent) && parent == zones[i]) *out = zones[i];
    return E_SUCCESS;
}
static H3Error zones_of(const H3Index *indexes, size_t n, int res, H3Index *out, size_t room, size_t *at) {
    (void)res;
    return h3w_cellsToZones(zones, zone_count, indexes, n, out, room, at);
}
/* tables of all sizes, in turn, that end where their memory does */
static uint32_t tables[33];
static size_t turn;
static uint32_t *lent(size_t *size) {
    *size = turn++ % (ROOM(tables) + 1);
    return tables + ROOM(tables) - *size;
}
static H3Error zones_by_table(const H3Index *indexes, size_t n, int res, H3Index *out, size_t room, size_t *at) {
    size_t size;
    uint32_t *table = lent(&size);
    (void)res;
    return h3w_cellsToZonesByTable(zones, zone_count, indexes, n, table, size, out, room, at);
}
/* Such a table, with what is written of the zones, or with other numbers. */
static const uint32_t *written(size_t *size) {
    uint32_t *table = lent(size);
    size_t i;
    for (i = 0; i < *size; i++) table[i] = turn % 2 ? UINT32_MAX - (uint32_t)i : (uint32_t)(turn / 2 * i);
    if (turn % 3 == 0) h3w_zonesTable(zones, zone_count, table, *size);
    return table;
}
static H3Error zones_in_table(const H3Index *indexes, size_t n, int res, H3Index *out, size_t room, size_t *at) {
    size_t size;
    const uint32_t *table = written(&size);
    (void)res;
    return h3w_cellsToZonesInTable(zones, zone_count, indexes, n, table, size, out, room, at);
}
static int is_covered(H3Index cell) {
    H3Index zone = H3_NULL;
    return zone_of(cell, 0, &zone) == E_SUCCESS && zone != H3_NULL;
}
static H3Error are_covered(const H3Index *indexes, size_t n, int *out, size_t room, size_t *at) {
    return h3w_areCoveredCells(zones, zone_count, indexes, n, out, room, at);
}
static H3Error are_covered_by_table(const H3Index *indexes, size_t n, int *out, size_t room, size_t *at) {
    size_t size;
    uint32_t *table = lent(&size);
    return h3w_areCoveredCellsByTable(zones, zone_count, indexes, n, table, size, out, room, at);
}
static H3Error are_covered_in_table(const H3Index *indexes, size_t n, int *out, size_t room, size_t *at) {
    size_t size;
    const uint32_t *table = written(&size);
    return h3w_areCoveredCellsInTable(zones, zone_count, indexes, n, table, size, out, room, at);
}

/* The cells of the column. */
static H3Index valid[N];
static size_t valid_count;

/* Counts are written where there is room for one of each zone and no error, and only then, without a table, by
 * one and in one. */
enum how { NEAR, BY_TABLE, IN_TABLE };
static void counted(const H3Index *indexes, size_t n, size_t room, enum how how) {
    int64_t counts[10], others = KEPT, wanted[10], none = 0;
    size_t at = KEPT, place = 0, i, j, size;
    H3Error error, found;
    uint32_t *table;
    for (i = 0; i < 10; i++) counts[i] = KEPT, wanted[i] = i < zone_count ? 0 : KEPT;
    for (i = 0; i < n; i++) {
        H3Index zone = H3_NULL;
        zone_of(indexes[i], 0, &zone);
        for (j = 0; j < zone_count; j++) wanted[j] += zones[j] == zone;
        none += zone == H3_NULL;
    }
    while (place < n && h3w_isValidCell(indexes[place])) place++;
    error = room < zone_count ? E_MEMORY_BOUNDS : place < n ? E_CELL_INVALID : E_SUCCESS;
    switch (how) {
        case NEAR:
            found = h3w_countCellsInZones(zones, zone_count, indexes, n, counts, room, &others, &at);
            break;
        case BY_TABLE:
            table = lent(&size);
            found =
                h3w_countCellsInZonesByTable(zones, zone_count, indexes, n, table, size, counts, room, &others, &at);
            break;
        default: {
            const uint32_t *ready = written(&size);
            found =
                h3w_countCellsInZonesInTable(zones, zone_count, indexes, n, ready, size, counts, room, &others, &at);
        }
    }
    CHECK(found == error);
    CHECK(at == (error == E_MEMORY_BOUNDS ? KEPT : place) && others == (error ? KEPT : none));
    for (i = 0; i < 10; i++) CHECK(counts[i] == (error ? KEPT : wanted[i]));
}

/* A number that is no resolution is judged before any index and the room, and where there are no indexes: nothing is
 * written. */
static void no_resolution(int res, size_t n) {
    static H3Index out[N];
    static int64_t numbers[N];
    size_t at = KEPT, i, kept = 0, room;
    for (i = 0; i < N; i++) out[i] = KEPT, numbers[i] = KEPT;
    for (room = n ? n - 1 : 0; room <= n; room++) {
        CHECK(h3w_cellsToParents(column, n, res, out, room, &at) == E_RES_DOMAIN);
        CHECK(h3w_cellsToCenterChildren(column, n, res, out, room, &at) == E_RES_DOMAIN);
        CHECK(h3w_cellsToLastChildren(column, n, res, out, room, &at) == E_RES_DOMAIN);
        CHECK(h3w_cellsToChildrenSizes(column, n, res, numbers, room, &at) == E_RES_DOMAIN);
        CHECK(h3w_cellsToChildPositions(column, n, res, numbers, room, &at) == E_RES_DOMAIN);
        CHECK(h3w_cellsToChildrenStarts(column, n, res, numbers, room, &at) == E_RES_DOMAIN);
        CHECK(h3w_cellsToChildren(column, n, res, out, room, &at) == E_RES_DOMAIN);
    }
    while (kept < N && out[kept] == KEPT && numbers[kept] == KEPT) kept++;
    CHECK(kept == N && at == KEPT);
}

int main(void) {
    static const int resolutions[] = {0, 1, 2, 3, 4, 5, 6, 7, 8, 9, 10, 11, 12, 13, 14, 15};
    static const int no_resolutions[] = {INT_MIN, -1, 16, INT_MAX};
    static const size_t lengths[] = {0, 1, 5, 6, N};
    size_t i, j;
    fill();
    make_zones();
    for (i = 0; i < N; i++)
        if (h3w_isValidCell(column[i])) valid[valid_count++] = column[i];
    CHECK(valid_count > N / 2 && valid_count < N);
    for (i = 0; i < ROOM(lengths); i++) {
        numbers(h3w_areValidCells, h3w_isValidCell, of_any, lengths[i]);
        numbers(h3w_areValidDirectedEdges, h3w_isValidDirectedEdge, of_any, lengths[i]);
        numbers(h3w_getResolutions, h3w_getResolution, of_cell, lengths[i]);
        numbers(h3w_getBaseCellNumbers, h3w_getBaseCellNumber, of_cell, lengths[i]);
        numbers(h3w_arePentagons, h3w_isPentagon, of_cell, lengths[i]);
        numbers(h3w_areResClassIII, h3w_isResClassIII, of_cell, lengths[i]);
        cells(origins, origin, 0, lengths[i]);
        cells(zones_of, zone_of, 0, lengths[i]);
        numbers(are_covered, is_covered, of_cell, lengths[i]);
        for (j = 0; j <= ROOM(tables); j++) {
            cells(zones_by_table, zone_of, 0, lengths[i]);
            numbers(are_covered_by_table, is_covered, of_cell, lengths[i]);
            cells(zones_in_table, zone_of, 0, lengths[i]);
            numbers(are_covered_in_table, is_covered, of_cell, lengths[i]);
        }
        for (j = zone_count - 1; j < zone_count + 2; j++) {
            counted(column, lengths[i], j, NEAR);
            counted(valid, lengths[i] < valid_count ? lengths[i] : valid_count, j, NEAR);
        }
        for (j = 0; j <= 2 * ROOM(tables); j++) {
            enum how how = j % 2 ? BY_TABLE : IN_TABLE;
            counted(column, lengths[i], zone_count - 1 + j % 3, how);
            counted(valid, lengths[i] < valid_count ? lengths[i] : valid_count, zone_count - 1 + j % 3, how);
        }
        for (j = 0; j < ROOM(no_resolutions); j++) no_resolution(no_resolutions[j], lengths[i]);
        for (j = 0; j < ROOM(resolutions); j++) {
            cells(h3w_cellsToParents, h3w_cellToParent, resolutions[j], lengths[i]);
            cells(h3w_cellsToCenterChildren, h3w_cellToCenterChild, resolutions[j], lengths[i]);
            cells(h3w_cellsToLastChildren, h3w_cellToLastChild, resolutions[j], lengths[i]);
            sizes(h3w_cellsToChildrenSizes, h3w_cellToChildrenSize, resolutions[j], lengths[i]);
            sizes(h3w_cellsToChildPositions, h3w_cellToChildPos, resolutions[j], lengths[i]);
            children_starts(resolutions[j], lengths[i]);
        }
        for (j = 0; j < 5; j++) children(resolutions[j], lengths[i]);
    }
    children_past_all_places();
    return counts();
}
