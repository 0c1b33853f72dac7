/* Measures the functions of libh3whole against the plain ones of plain_library.rs, and those over
 * columns, zones and descendants against the best forms known too: all in turn, several times, and the
 * ratios of the best times. What they write is compared.
 *
 * library [ROW ..]    the rows whose names contain a given word; all, if none is given */
#define _POSIX_C_SOURCE 200809L
#include "h3whole.h"
#include <stdio.h>
#include <stdlib.h>
#include <time.h>

int plain_isValidCell(H3Index cell);
int plain_getBaseCellNumber(H3Index cell);
H3Error plain_cellToParent(H3Index cell, int res, H3Index *out);
H3Error plain_cellToChildPos(H3Index cell, int res, int64_t *out);
H3Error plain_childPosToCell(int64_t position, H3Index cell, int res, H3Index *out);
H3Error plain_areValidCells(const H3Index *cells, size_t n, int *out);
H3Error plain_getResolutions(const H3Index *cells, size_t n, int *out);
H3Error plain_cellsToParents(const H3Index *cells, size_t n, int res, H3Index *out);
H3Error plain_cellsToChildPositions(const H3Index *cells, size_t n, int res, int64_t *out);
H3Error best_areValidCells(const H3Index *cells, size_t n, int *out);
H3Error best_getResolutions(const H3Index *cells, size_t n, int *out);
H3Error best_cellsToParents(const H3Index *cells, size_t n, int res, H3Index *out);
H3Error best_cellsToChildPositions(const H3Index *cells, size_t n, int res, int64_t *out);
size_t plain_compactCells(const H3Index *cells, size_t n, H3Index *out);
size_t plain_uncompactCells(const H3Index *cells, size_t n, H3Index *out, size_t room, int res);
size_t best_uncompactCells(const H3Index *cells, size_t n, H3Index *out, size_t room, int res);
void plain_zones(H3Index *zones, size_t n);
H3Error plain_cellsToZones(const H3Index *zones, size_t zoneCount, const H3Index *cells, size_t n, H3Index *out);
H3Error best_cellsToZones(const H3Index *zones, size_t zoneCount, const H3Index *cells, size_t n, H3Index *out);
H3Error plain_countCellsInZones(const H3Index *zones, size_t zoneCount, const H3Index *cells, size_t n, int64_t *counts,
                                int64_t *others);
size_t plain_intersectCells(const H3Index *first, size_t n, const H3Index *second, size_t m, H3Index *out, size_t room);
size_t plain_subtractCells(const H3Index *first, size_t n, const H3Index *second, size_t m, H3Index *out, size_t room);
size_t plain_uniteCells(const H3Index *cells, size_t n, H3Index *out, size_t room);
size_t best_uniteCells(const H3Index *cells, size_t n, H3Index *out, size_t room);
size_t best_intersectCells(const H3Index *first, size_t n, const H3Index *second, size_t m, H3Index *out, size_t room);
size_t best_subtractCells(const H3Index *first, size_t n, const H3Index *second, size_t m, H3Index *out, size_t room);

#define N     10000000
#define WORLD 0x8001fffffffffffU
/* the descendants of WORLD at resolution 8, in order and in none, and at resolution 9 those that N
 * has room for */
#define LIST   5764801
#define ROUNDS 5
/* cells of resolutions 5 to 7, of which no two overlap */
#define ZONES 100000
/* so many cells of resolutions 7 to 9 has each of two regions, less those that lie in others */
#define AREAS 1100000
/* and cells of resolution 5 */
#define MILLION 1000000
static H3Index *cells, *sorted, *ordered, *shuffled, *out, *zones, *plain_ones, *million, *plain_million, *areas[2],
    *mixed;
static size_t area[2];
static size_t at;

/* A function of one index, called for each of N: the sum of what it returns. */
#define LOOP(name, call)                                                                                               \
    static uint64_t name(void) {                                                                                       \
        uint64_t sum = 0;                                                                                              \
        size_t i;                                                                                                      \
        for (i = 0; i < N; i++) {                                                                                      \
            H3Index index = 0;                                                                                         \
            int64_t number = 0;                                                                                        \
            int found = 0;                                                                                             \
            call;                                                                                                      \
            sum += index + (uint64_t)(number + found);                                                                 \
        }                                                                                                              \
        return sum;                                                                                                    \
    }
/* A call that writes to `out`. */
#define CALL(name, call)                                                                                               \
    static uint64_t name(void) { return (uint64_t)(call); }

LOOP(valid, found = h3w_isValidCell(cells[i]))
LOOP(plain_valid, found = plain_isValidCell(cells[i]))
LOOP(base, found = h3w_getBaseCellNumber(cells[i]))
LOOP(plain_base, found = plain_getBaseCellNumber(cells[i]))
LOOP(parent, found = (int)h3w_cellToParent(cells[i], 4, &index))
LOOP(plain_parent, found = (int)plain_cellToParent(cells[i], 4, &index))
LOOP(position, found = (int)h3w_cellToChildPos(cells[i], 0, &number))
LOOP(plain_position, found = (int)plain_cellToChildPos(cells[i], 0, &number))
LOOP(child, found = (int)h3w_childPosToCell((int64_t)i, WORLD, 9, &index))
LOOP(plain_child, found = (int)plain_childPosToCell((int64_t)i, WORLD, 9, &index))

CALL(valids, h3w_areValidCells(cells, N, (int *)(void *)out, N, &at))
CALL(plain_valids, plain_areValidCells(cells, N, (int *)(void *)out))
CALL(best_valids, best_areValidCells(cells, N, (int *)(void *)out))
CALL(resolutions, h3w_getResolutions(cells, N, (int *)(void *)out, N, &at))
CALL(plain_resolutions, plain_getResolutions(cells, N, (int *)(void *)out))
CALL(best_resolutions, best_getResolutions(cells, N, (int *)(void *)out))
CALL(parents, h3w_cellsToParents(cells, N, 4, out, N, &at))
CALL(plain_parents, plain_cellsToParents(cells, N, 4, out))
CALL(best_parents, best_cellsToParents(cells, N, 4, out))
CALL(positions, h3w_cellsToChildPositions(cells, N, 0, (int64_t *)(void *)out, N, &at))
CALL(plain_positions, plain_cellsToChildPositions(cells, N, 0, (int64_t *)(void *)out))
CALL(best_positions, best_cellsToChildPositions(cells, N, 0, (int64_t *)(void *)out))

static uint64_t compacted(const H3Index *list, size_t n) {
    size_t count = 0;
    if (h3w_compactCells(list, n, out, n, &count)) exit(2);
    return count;
}
CALL(compact_ordered, compacted(ordered, LIST))
CALL(plain_compact_ordered, plain_compactCells(ordered, LIST, out))
CALL(compact_shuffled, compacted(shuffled, LIST))
CALL(plain_compact_shuffled, plain_compactCells(shuffled, LIST, out))
CALL(compact_part, compacted(shuffled, LIST - LIST / 160))
CALL(plain_compact_part, plain_compactCells(shuffled, LIST - LIST / 160, out))
CALL(uncompact, h3w_uncompactCells(ordered, N / 7, out, N / 7 * 7, 9) ? 0 : N / 7 * 7)
CALL(plain_uncompact, plain_uncompactCells(ordered, N / 7, out, N / 7 * 7, 9))
CALL(best_uncompact, best_uncompactCells(ordered, N / 7, out, N / 7 * 7, 9))
CALL(uncompact_two, h3w_uncompactCells(ordered, N / 49, out, N / 49 * 49, 10) ? 0 : N / 49 * 49)
CALL(plain_uncompact_two, plain_uncompactCells(ordered, N / 49, out, N / 49 * 49, 10))
CALL(best_uncompact_two, best_uncompactCells(ordered, N / 49, out, N / 49 * 49, 10))
CALL(children_of_each, h3w_cellsToChildren(ordered, N / 7, 9, out, N / 7 * 7, &at) ? 0 : N / 7 * 7)

CALL(uncompact_same, h3w_uncompactCells(ordered, LIST, out, LIST, 8) ? 0 : LIST)
CALL(plain_uncompact_same, plain_uncompactCells(ordered, LIST, out, LIST, 8))
CALL(best_uncompact_same, best_uncompactCells(ordered, LIST, out, LIST, 8))

static const H3Index world = WORLD;
CALL(children, h3w_cellToChildren(world, 8, out, LIST) ? 0 : LIST)
CALL(plain_children, plain_uncompactCells(&world, 1, out, LIST, 8))
CALL(best_children, best_uncompactCells(&world, 1, out, LIST, 8))

static uint64_t united(const H3Index *list, size_t n) {
    size_t count = 0;
    if (h3w_uniteCells(list, n, out, n, &count)) exit(2);
    return count;
}
CALL(unite_shuffled, united(shuffled, LIST))
CALL(best_unite_shuffled, best_uniteCells(shuffled, LIST, out, N))
/* in no order, with some below others */
CALL(unite_mixed, united(mixed, MILLION))
CALL(plain_unite_mixed, plain_uniteCells(mixed, MILLION, out, N))
CALL(best_unite_mixed, best_uniteCells(mixed, MILLION, out, N))
CALL(zones_of, h3w_cellsToZones(zones, ZONES, cells, N, out, N, &at))
CALL(plain_zones_of, plain_cellsToZones(plain_ones, ZONES, cells, N, out))
CALL(zones_of_sorted, h3w_cellsToZones(zones, ZONES, sorted, N, out, N, &at))
CALL(plain_zones_of_sorted, plain_cellsToZones(plain_ones, ZONES, sorted, N, out))
CALL(best_zones_of, best_cellsToZones(plain_ones, ZONES, cells, N, out))
CALL(zones_of_million, h3w_cellsToZones(million, MILLION, cells, N, out, N, &at))
CALL(plain_zones_of_million, plain_cellsToZones(plain_million, MILLION, cells, N, out))
CALL(best_zones_of_million, best_cellsToZones(plain_million, MILLION, cells, N, out))
static uint32_t *table;
CALL(million_by_table, h3w_cellsToZonesByTable(million, MILLION, cells, N, table, 2 * MILLION, out, N, &at))
CALL(zones_by_table, h3w_cellsToZonesByTable(zones, ZONES, cells, N, table, 2 * ZONES, out, N, &at))
CALL(zones_by_table_sorted, h3w_cellsToZonesByTable(zones, ZONES, sorted, N, table, 2 * ZONES, out, N, &at))
/* in a table that is written once, in parts */
static uint64_t zones_in_table(void) {
    const size_t part = 240000;
    size_t i;
    H3Error error = E_SUCCESS;
    h3w_zonesTable(zones, ZONES, table, 2 * ZONES);
    for (i = 0; !error && i < N; i += part) {
        size_t n = N - i < part ? N - i : part;
        error = h3w_cellsToZonesInTable(zones, ZONES, cells + i, n, table, 2 * ZONES, out + i, n, &at);
    }
    return (uint64_t)error;
}

/* The counts of both sides are in the orders of their zones: the number of those without a zone is compared. */
enum how { PLAIN, NEAR, BY_TABLE };
static uint64_t counted(const H3Index *list, enum how how) {
    static int64_t counts[ZONES];
    int64_t others = 0;
    H3Error error = E_SUCCESS;
    switch (how) {
        case PLAIN:
            error = plain_countCellsInZones(plain_ones, ZONES, list, N, counts, &others);
            break;
        case NEAR:
            error = h3w_countCellsInZones(zones, ZONES, list, N, counts, ZONES, &others, &at);
            break;
        case BY_TABLE:
            error = h3w_countCellsInZonesByTable(zones, ZONES, list, N, table, 2 * ZONES, counts, ZONES, &others, &at);
    }
    if (error) exit(2);
    return (uint64_t)others;
}
CALL(count, counted(cells, NEAR))
CALL(count_by_table, counted(cells, BY_TABLE))
CALL(plain_count, counted(cells, PLAIN))
CALL(count_sorted, counted(sorted, NEAR))
CALL(count_by_table_sorted, counted(sorted, BY_TABLE))
CALL(plain_count_sorted, counted(sorted, PLAIN))

typedef H3Error (*Combine)(const H3Index *, size_t, const H3Index *, size_t, H3Index *, size_t, size_t *);
static uint64_t combined(Combine combine) {
    size_t count = 0;
    if (combine(areas[0], area[0], areas[1], area[1], out, N, &count)) exit(2);
    return count;
}
CALL(intersect, combined(h3w_intersectCells))
CALL(plain_intersect, plain_intersectCells(areas[0], area[0], areas[1], area[1], out, N))
CALL(best_intersect, best_intersectCells(areas[0], area[0], areas[1], area[1], out, N))
CALL(subtract, combined(h3w_subtractCells))
CALL(plain_subtract, plain_subtractCells(areas[0], area[0], areas[1], area[1], out, N))
CALL(best_subtract, best_subtractCells(areas[0], area[0], areas[1], area[1], out, N))

static const struct {
    const char *name;
    uint64_t (*library)(void), (*plain)(void), (*best)(void);
} rows[] = {
    {"isValidCell of 10000000 cells, from C", valid, plain_valid, NULL},
    {"getBaseCellNumber of 10000000 cells, from C", base, plain_base, NULL},
    {"cellToParent of 10000000 cells, from C", parent, plain_parent, NULL},
    {"cellToChildPos of 10000000 cells, from C", position, plain_position, NULL},
    {"childPosToCell of 10000000 positions, from C", child, plain_child, NULL},
    {"areValidCells of 10000000 cells, from C", valids, plain_valids, best_valids},
    {"getResolutions of 10000000 cells, from C", resolutions, plain_resolutions, best_resolutions},
    {"cellsToParents of 10000000 cells, from C", parents, plain_parents, best_parents},
    {"cellsToChildPositions of 10000000 cells, from C", positions, plain_positions, best_positions},
    {"compactCells of 5764801 cells, ascending, from C", compact_ordered, plain_compact_ordered, NULL},
    {"compactCells of 5764801 cells, shuffled, from C", compact_shuffled, plain_compact_shuffled, NULL},
    {"compactCells of 159 of 160 cells, shuffled, from C", compact_part, plain_compact_part, NULL},
    {"uncompactCells of 1428571 cells, from C", uncompact, plain_uncompact, best_uncompact},
    {"uncompactCells of 204081 cells, two levels down, from C", uncompact_two, plain_uncompact_two, best_uncompact_two},
    {"uncompactCells of 5764801 cells, at their resolution, from C", uncompact_same, plain_uncompact_same,
     best_uncompact_same},
    {"cellsToChildren of 1428571 cells, from C", children_of_each, plain_uncompact, best_uncompact},
    {"cellToChildren, 5764801 of one cell, from C", children, plain_children, best_children},
    {"uniteCells of 5764801 cells, shuffled, against compactCells, from C", unite_shuffled, compact_shuffled,
     best_unite_shuffled},
    {"uniteCells of 1000000 cells of resolutions 5 to 9, from C", unite_mixed, plain_unite_mixed, best_unite_mixed},
    {"intersectCells of two regions of a million cells, from C", intersect, plain_intersect, best_intersect},
    {"subtractCells of two regions of a million cells, from C", subtract, plain_subtract, best_subtract},
    {"cellsToZones of 10000000 cells in 100000 zones, from C", zones_of, plain_zones_of, best_zones_of},
    {"cellsToZones of 10000000 cells in 1000000 zones, from C", zones_of_million, plain_zones_of_million,
     best_zones_of_million},
    {"cellsToZones of 10000000 cells in 100000 zones, ascending, from C", zones_of_sorted, plain_zones_of_sorted, NULL},
    {"cellsToZonesByTable of 10000000 cells in 100000 zones, from C", zones_by_table, plain_zones_of, best_zones_of},
    {"cellsToZonesByTable of 10000000 cells in 1000000 zones, from C", million_by_table, plain_zones_of_million,
     best_zones_of_million},
    {"cellsToZonesInTable of 10000000 cells in 100000 zones, 240000 at a time, from C", zones_in_table, plain_zones_of,
     NULL},
    {"cellsToZonesByTable of 10000000 cells in 100000 zones, ascending, from C", zones_by_table_sorted,
     plain_zones_of_sorted, NULL},
    {"countCellsInZones of 10000000 cells in 100000 zones, from C", count, plain_count, NULL},
    {"countCellsInZones of 10000000 cells in 100000 zones, ascending, from C", count_sorted, plain_count_sorted, NULL},
    {"countCellsInZonesByTable of 10000000 cells in 100000 zones, from C", count_by_table, plain_count, NULL},
    {"countCellsInZonesByTable of 10000000 cells in 100000 zones, ascending, from C", count_by_table_sorted,
     plain_count_sorted, NULL},
};

static double now(void) {
    struct timespec time;
    clock_gettime(CLOCK_PROCESS_CPUTIME_ID, &time);
    return (double)time.tv_sec + (double)time.tv_nsec * 1e-9;
}

/* What is in `out`, and what was returned. */
static uint64_t written(uint64_t returned) {
    size_t i;
    for (i = 0; i < N; i++) returned = (returned ^ out[i]) * 0x9e3779b97f4a7c15U;
    return returned;
}

/* Runs one side: its time, where that is less than `best`. */
static double run(uint64_t (*call)(void), double best, uint64_t *found) {
    double start, seconds;
    uint64_t returned;
    memset(out, 0, N * sizeof *out);
    start = now();
    returned = call();
    seconds = now() - start;
    *found = written(returned);
    return seconds < best ? seconds : best;
}

static void measure(size_t row) {
    double library = 1e9, plain = 1e9, best = 1e9;
    uint64_t found = 0, wanted = 0, best_found;
    int round;
    for (round = 0; round < ROUNDS; round++) {
        library = run(rows[row].library, library, &found);
        plain = run(rows[row].plain, plain, &wanted);
        best_found = wanted;
        if (rows[row].best) best = run(rows[row].best, best, &best_found);
        if (found != wanted || best_found != wanted) {
            fprintf(stderr, "%s: the results differ\n", rows[row].name);
            exit(1);
        }
    }
    printf("%s: %.1f ms / %.1f ms = %.2f", rows[row].name, library * 1e3, plain * 1e3, library / plain);
    if (rows[row].best) printf("; best form %.1f ms = %.2f", best * 1e3, library / best);
    printf("\n");
    fflush(stdout);
}

static H3Index *array(void) {
    H3Index *made = (H3Index *)malloc(N * sizeof *made);
    if (!made) exit(3);
    return made;
}

/* N cells of resolution 9 from all over the world, and the two lists. */
static void fill(void) {
    uint64_t state = 88172645463325252U;
    H3Index bases[122], cell;
    size_t i, j;
    cells = array(), ordered = array(), shuffled = array(), out = array();
    if (h3w_getRes0Cells(bases, 122) || h3w_cellToChildren(WORLD, 8, ordered, LIST)) exit(4);
    memcpy(shuffled, ordered, LIST * sizeof *ordered);
    for (i = 0; i < N; i++) {
        state ^= state << 13, state ^= state >> 7, state ^= state << 17;
        if (h3w_childPosToCell((int64_t)(state >> 8) % 33000000, bases[state % 122], 9, &cells[i])) exit(5);
    }
    for (i = LIST; i > 1; i--) {
        state ^= state << 13, state ^= state >> 7, state ^= state << 17;
        j = state % i, cell = shuffled[j], shuffled[j] = shuffled[i - 1], shuffled[i - 1] = cell;
    }
}

static int by_number(const void *a, const void *b) {
    H3Index x = *(const H3Index *)a, y = *(const H3Index *)b;
    return x < y ? -1 : x > y;
}

/* The cells in order, and zones: the coarsest of ancestors of the first ones. */
static void fill_zones(void) {
    static H3Index parents[2 * ZONES], region[2 * ZONES];
    size_t count = 0, i;
    sorted = array(), zones = array(), plain_ones = array();
    memcpy(sorted, cells, N * sizeof *sorted);
    qsort(sorted, N, sizeof *sorted, by_number);
    for (i = 0; i < 2 * ZONES; i++)
        if (h3w_cellToParent(cells[i], 5 + (int)(i % 3), &parents[i])) exit(6);
    if (h3w_uniteCells(parents, 2 * ZONES, region, 2 * ZONES, &count) || count < ZONES) exit(7);
    memcpy(plain_ones, region + count - ZONES, ZONES * sizeof *region);
    if (h3w_zones(plain_ones, ZONES, zones, ZONES)) exit(8);
    plain_zones(plain_ones, ZONES);
}

/* A million cells of resolution 5, as zones. */
static void fill_million(void) {
    size_t count, i;
    million = array(), plain_million = array();
    table = (uint32_t *)(void *)array();
    for (i = 0; i < N; i++)
        if (h3w_cellToParent(cells[i], 5, &out[i])) exit(11);
    qsort(out, N, sizeof *out, by_number);
    for (i = count = 0; i < N; i++)
        if (!i || out[i] != out[i - 1]) plain_million[count++] = out[i];
    if (count < MILLION || h3w_zones(plain_million, MILLION, million, MILLION)) exit(12);
    plain_zones(plain_million, MILLION);
}

/* Two regions of about a million cells, each of ancestors of other cells; and a million ancestors as they come. */
static void fill_areas(void) {
    size_t side, i;
    mixed = array();
    for (i = 0; i < MILLION; i++)
        if (h3w_cellToParent(cells[i], 5 + (int)(i % 5), &mixed[i])) exit(13);
    for (side = 0; side < 2; side++) {
        areas[side] = array();
        for (i = 0; i < AREAS; i++)
            if (h3w_cellToParent(cells[side * AREAS + i], 7 + (int)(i % 3), &out[i])) exit(9);
        if (h3w_uniteCells(out, AREAS, areas[side], N, &area[side]) || area[side] < 1000000) exit(10);
    }
}

int main(int count, char **words) {
    size_t row;
    int i;
    fill();
    fill_zones();
    fill_million();
    fill_areas();
    for (row = 0; row < sizeof rows / sizeof *rows; row++) {
        for (i = 1; i < count && !strstr(rows[row].name, words[i]); i++) {
        }
        if (count == 1 || i < count) measure(row);
    }
    return 0;
}
