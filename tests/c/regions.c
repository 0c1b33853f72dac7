/* Regions and zones of random lists, against sets of cells that are worked out here from the bits of
 * their numbers: of the cells of two base cells, a hexagon and a pentagon, down to one resolution, which
 * of that resolution a list covers. */
#include "h3whole.h"
#include "check.h"
#include <stdlib.h>

#define FINEST   3
#define HEXAGON  20
#define PENTAGON 4
/* those of the two base cells at each resolution: 2, 13, 90, 629 */
#define CELLS 734
#define LIST  40
/* what a difference can have: 90 cells more for each of the second list */
#define ROOM (91 * LIST)
#define KEPT 0x1234567890abcdefU

/* ---- cells, by their bits */

static int resolution(H3Index cell) { return (int)(cell >> 52 & 15); }

/* The cell without its digits above a resolution. */
static H3Index cut(H3Index cell, int res) {
    int r;
    for (r = res + 1; r <= 15; r++) cell |= (H3Index)7 << (45 - 3 * r);
    return (cell & ~((H3Index)15 << 52)) | (H3Index)res << 52;
}

static H3Index child(H3Index cell, int digit) {
    int res = resolution(cell) + 1;
    cell = (cell & ~((H3Index)15 << 52)) | (H3Index)res << 52;
    return (cell & ~((H3Index)7 << (45 - 3 * res))) | (H3Index)digit << (45 - 3 * res);
}

/* A cell is the other, or an ancestor of it. */
static int is_above(H3Index above, H3Index cell) {
    return resolution(above) <= resolution(cell) && cut(cell, resolution(above)) == above;
}

/* All of them, ascending; where those of the finest resolution begin; and which cells are above which. */
static H3Index cells[CELLS];
static size_t finest;
static char above[CELLS][CELLS];

static int by_number(const void *a, const void *b) {
    H3Index x = *(const H3Index *)a, y = *(const H3Index *)b;
    return x < y ? -1 : x > y;
}

static void make_cells(void) {
    size_t n = 0, i, j;
    int digit;
    cells[n++] = 0x8001fffffffffffU | (H3Index)PENTAGON << 45;
    cells[n++] = 0x8001fffffffffffU | (H3Index)HEXAGON << 45;
    for (i = 0; i < n; i++) {
        /* a cell in the center of a pentagon is one, and has no child of digit 1 */
        int pentagon = (cells[i] >> 45 & 127) == PENTAGON;
        for (digit = 1; digit <= resolution(cells[i]) && pentagon; digit++)
            pentagon = (cells[i] >> (45 - 3 * digit) & 7) == 0;
        for (digit = 0; digit < 7 && resolution(cells[i]) < FINEST; digit++)
            if (!pentagon || digit != 1) cells[n++] = child(cells[i], digit);
    }
    CHECK(n == CELLS);
    qsort(cells, CELLS, sizeof *cells, by_number);
    for (i = 0; i < CELLS; i++) {
        CHECK(h3w_isValidCell(cells[i]));
        if (resolution(cells[i]) < FINEST) finest = i + 1;
        for (j = 0; j < CELLS; j++) above[i][j] = (char)is_above(cells[i], cells[j]);
    }
    CHECK(CELLS - finest == 629);
}

/* ---- what lists cover, and regions */

typedef struct {
    H3Index cells[ROOM];
    size_t n;
} List;

typedef char Set[CELLS];

/* The cells of the finest resolution that a list covers. */
static void cover(const List *list, Set set) {
    size_t i, j;
    for (j = finest; j < CELLS; j++)
        for (set[j] = 0, i = 0; i < list->n && !set[j]; i++) set[j] = (char)is_above(list->cells[i], cells[j]);
}

static int is_full(size_t i, const Set set) {
    size_t j = finest;
    while (j < CELLS && (!above[i][j] || set[j])) j++;
    return j == CELLS;
}

/* The cells of which a set has all descendants, and not all of the parent. */
static void region(const Set set, List *list) {
    static char full[CELLS];
    size_t i, j;
    for (i = 0; i < CELLS; i++) full[i] = (char)is_full(i, set);
    for (list->n = 0, i = 0; i < CELLS; i++) {
        int in_full = 0;
        for (j = 0; j < CELLS; j++) in_full |= j != i && above[j][i] && full[j];
        if (full[i] && !in_full) list->cells[list->n++] = cells[i];
    }
}

static uint64_t state = 88172645463325252U;

static size_t below(size_t bound) {
    state ^= state << 13;
    state ^= state >> 7;
    state ^= state << 17;
    return (size_t)(state % bound);
}

/* Random cells, some twice, some with their siblings, and some above others. */
static void make_list(List *list, size_t n) {
    list->n = 0;
    while (list->n < n) {
        size_t i = below(3) ? finest + below(CELLS - finest) : below(finest);
        H3Index cell = cells[i];
        list->cells[list->n++] = cell;
        if (below(8) == 0 && list->n < n) list->cells[list->n++] = cell;
        if (below(4) || resolution(cell) == 0) continue;
        for (i = 0; i < CELLS && list->n < n; i++)
            if (resolution(cells[i]) == resolution(cell) && below(30) &&
                cut(cells[i], resolution(cell) - 1) == cut(cell, resolution(cell) - 1))
                list->cells[list->n++] = cells[i];
    }
}

/* ---- regions */

typedef H3Error Combine(const H3Index *, size_t, const H3Index *, size_t, H3Index *, size_t, size_t *);

static int holds(const H3Index *out, size_t room, const List *wanted) {
    size_t n = wanted->n < room ? wanted->n : room, i;
    if (memcmp(out, wanted->cells, n * sizeof *out)) return 0;
    for (i = n; i < room; i++)
        if (out[i] != KEPT) return 0;
    return 1;
}

/* With room for more than the cells, for just them, and for fewer. */
static void expect_region(Combine *combine, const List *first, const List *second, const List *wanted) {
    static H3Index out[ROOM];
    size_t rooms[3], count, i, j;
    rooms[0] = ROOM, rooms[1] = wanted->n, rooms[2] = below(wanted->n + 1);
    for (i = 0; i < 3; i++) {
        for (j = 0; j < ROOM; j++) out[j] = KEPT;
        count = 77;
        CHECK(combine(first->cells, first->n, second->cells, second->n, out, rooms[i], &count) ==
              (rooms[i] < wanted->n ? E_MEMORY_BOUNDS : E_SUCCESS));
        CHECK(count == wanted->n && holds(out, rooms[i], wanted) && out[ROOM - 1] == KEPT);
    }
}

static H3Error unite(const H3Index *first, size_t n, const H3Index *second, size_t m, H3Index *out, size_t room,
                     size_t *count) {
    static H3Index both[2 * LIST];
    memcpy(both, first, n * sizeof *both);
    memcpy(both + n, second, m * sizeof *both);
    return h3w_uniteCells(both, n + m, out, room, count);
}

static void regions(const List *first, const List *second) {
    static Set a, b, set;
    static List wanted;
    size_t i;
    cover(first, a);
    cover(second, b);
    for (i = finest; i < CELLS; i++) set[i] = a[i] || b[i];
    region(set, &wanted);
    expect_region(unite, first, second, &wanted);
    for (i = finest; i < CELLS; i++) set[i] = a[i] && b[i];
    region(set, &wanted);
    expect_region(h3w_intersectCells, first, second, &wanted);
    for (i = finest; i < CELLS; i++) set[i] = a[i] && !b[i];
    region(set, &wanted);
    expect_region(h3w_subtractCells, first, second, &wanted);
}

/* ---- zones */

static int overlaps(const List *list) {
    size_t i, j;
    for (i = 0; i < list->n; i++)
        for (j = 0; j < list->n; j++)
            if (i != j && is_above(list->cells[i], list->cells[j])) return 1;
    return 0;
}

/* The cells of a list that stand below no other, each once. */
static void coarsest(const List *list, List *zones) {
    size_t i, j;
    for (zones->n = 0, i = 0; i < list->n; i++) {
        for (j = 0; j < list->n; j++)
            if (is_above(list->cells[j], list->cells[i]) && (list->cells[j] != list->cells[i] || j < i)) break;
        if (j == list->n) zones->cells[zones->n++] = list->cells[i];
    }
}

/* The place of the zone of a cell, or n. */
static size_t zone_of(const H3Index *zones, size_t n, H3Index cell) {
    size_t i = 0;
    while (i < n && !is_above(zones[i], cell)) i++;
    return i;
}

/* What the functions over zones write, by a table or in one. */
static H3Index by_table[CELLS];
static int covered_by_table[CELLS];
static int64_t counts_by_table[LIST + 1], others_by_table;

static void expect_same(const H3Index *wanted, const int *wanted_truths, const int64_t *wanted_counts, size_t n) {
    CHECK(!memcmp(by_table, wanted, sizeof by_table));
    CHECK(!memcmp(covered_by_table, wanted_truths, sizeof covered_by_table));
    CHECK(!memcmp(counts_by_table, wanted_counts, n * sizeof *wanted_counts) && others_by_table == wanted_counts[n]);
}

static void look_up_in(const H3Index *zones, size_t n, const H3Index *column, const uint32_t *table, size_t size) {
    size_t at = 77;
    CHECK(!h3w_cellsToZonesInTable(zones, n, column, CELLS, table, size, by_table, CELLS, &at) && at == CELLS);
    CHECK(!h3w_areCoveredCellsInTable(zones, n, column, CELLS, table, size, covered_by_table, CELLS, &at) &&
          at == CELLS);
    CHECK(!h3w_countCellsInZonesInTable(zones, n, column, CELLS, table, size, counts_by_table, n, &others_by_table,
                                        &at) &&
          at == CELLS);
}

/* The same answers by a table of a random size, in it when it is written, and in what is no table of the zones: in
 * another room, and with random numbers, all of them or some. */
static void look_up_by_table(const H3Index *zones, size_t n, const H3Index *column, const H3Index *wanted,
                             const int *wanted_truths, const int64_t *wanted_counts) {
    static uint32_t table[4 * LIST], copy[4 * LIST];
    size_t at = 77, size = below(4 * LIST + 1), i, how;
    for (i = 0; i < 4 * LIST; i++) table[i] = copy[i] = (uint32_t)i;
    CHECK(!h3w_cellsToZonesByTable(zones, n, column, CELLS, table, size, by_table, CELLS, &at) && at == CELLS);
    CHECK(!h3w_areCoveredCellsByTable(zones, n, column, CELLS, table, size, covered_by_table, CELLS, &at));
    CHECK(!h3w_countCellsInZonesByTable(zones, n, column, CELLS, table, size, counts_by_table, n, &others_by_table,
                                        &at) &&
          at == CELLS);
    expect_same(wanted, wanted_truths, wanted_counts, n);
    h3w_zonesTable(zones, n, copy, size);
    CHECK(!memcmp(copy, table, sizeof copy));
    CHECK(size < 2 || n == 0 || (copy[0] == 0 && copy[1] >= 1));
    for (how = 0; how < 4; how++) {
        look_up_in(zones, n, column, copy, how == 1 ? below(4 * LIST + 1) : size);
        expect_same(wanted, wanted_truths, wanted_counts, n);
        for (i = 0; how > 0 && i < 4 * LIST; i++)
            if (how > 1 || below(3) == 0) copy[i] = (uint32_t)(below(2) ? below(LIST) : below(1000) * 4294967U);
    }
}

/* All cells are looked up, and counted in two parts and in one, in random order. */
static void look_up(const H3Index *zones, size_t n) {
    static H3Index column[CELLS], out[CELLS];
    static int covered[CELLS];
    static int64_t counts[LIST + 1], parts[2][LIST + 1], wanted[LIST + 1];
    int64_t others = 0, rest[2] = {0, 0};
    size_t at = 77, same = 0, i, half = below(CELLS);
    for (i = 0; i < CELLS; i++) column[i] = cells[below(CELLS)];
    for (i = 0; i <= n; i++) wanted[i] = 0, counts[i] = parts[0][i] = parts[1][i] = 77;
    CHECK(h3w_cellsToZones(zones, n, column, CELLS, out, CELLS, &at) == E_SUCCESS && at == CELLS);
    CHECK(h3w_areCoveredCells(zones, n, column, CELLS, covered, CELLS, &at) == E_SUCCESS);
    for (i = 0; i < CELLS; i++) {
        size_t zone = zone_of(zones, n, column[i]);
        same += out[i] == (zone < n ? zones[zone] : H3_NULL) && covered[i] == (zone < n);
        wanted[zone]++;
    }
    CHECK(same == CELLS);
    look_up_by_table(zones, n, column, out, covered, wanted);
    at = 77;
    CHECK(h3w_countCellsInZones(zones, n, column, CELLS, counts, n, &others, &at) == E_SUCCESS && at == CELLS);
    CHECK(memcmp(counts, wanted, n * sizeof *counts) == 0 && others == wanted[n] && counts[n] == 77);
    CHECK(!h3w_countCellsInZones(zones, n, column, half, parts[0], LIST + 1, &rest[0], &at) &&
          !h3w_countCellsInZones(zones, n, column + half, CELLS - half, parts[1], n, &rest[1], &at));
    for (same = 0, i = 0; i < n; i++) same += parts[0][i] + parts[1][i] == counts[i];
    CHECK(same == n && rest[0] + rest[1] == others && parts[0][n] == 77);
}

/* The first place before another whose cell overlaps the one there, or that place. */
static size_t first_overlapped(const List *list, size_t place) {
    size_t i = 0;
    while (i < place && !is_above(list->cells[i], list->cells[place]) && !is_above(list->cells[place], list->cells[i]))
        i++;
    return i;
}

/* The first cell that overlaps an earlier one, and the first that it overlaps. */
static void find(const List *list) {
    size_t place = 0, at = 77, earlier = 77;
    while (place < list->n && first_overlapped(list, place) == place) place++;
    CHECK((place < list->n) == overlaps(list));
    CHECK(h3w_findOverlap(list->cells, list->n, &at, &earlier) == E_SUCCESS);
    CHECK(at == place && earlier == (place < list->n ? first_overlapped(list, place) : list->n));
}

/* The cells as zones, and these again; looked up where they stand, and in a copy. */
static void prepare(const List *list) {
    static H3Index zones[LIST + 2], copy[LIST + 2];
    size_t i;
    for (i = 0; i < LIST + 2; i++) zones[i] = KEPT;
    if (overlaps(list)) {
        CHECK(h3w_zones(list->cells, list->n, zones, LIST) == E_DUPLICATE_INPUT && zones[0] == KEPT);
        return;
    }
    CHECK(h3w_zones(list->cells, list->n, zones + 1, list->n) == E_SUCCESS);
    CHECK(zones[0] == KEPT && zones[list->n + 1] == KEPT);
    look_up(zones + 1, list->n);
    CHECK(h3w_zones(zones + 1, list->n, copy, LIST + 2) == E_SUCCESS);
    CHECK(memcmp(copy, zones + 1, list->n * sizeof *copy) == 0);
    look_up(copy, list->n);
    qsort(copy, list->n, sizeof *copy, by_number);
    memcpy(zones, list->cells, list->n * sizeof *zones);
    qsort(zones, list->n, sizeof *zones, by_number);
    CHECK(memcmp(copy, zones, list->n * sizeof *copy) == 0);
}

/* ---- areas: numbers beside zones */

/* A number for each cell: that of the coarsest cell above it, of so many names; of one cell, rarely, any. */
static void give_names(const List *list, uint32_t *areas, size_t names) {
    size_t i, j;
    for (i = 0; i < list->n; i++) {
        size_t coarse = i;
        for (j = 0; j < list->n; j++)
            if (is_above(list->cells[j], list->cells[coarse])) coarse = j;
        areas[i] = (uint32_t)(list->cells[coarse] % 1000003 % names) * 3;
    }
    if (list->n && below(3) == 0) areas[below(list->n)] = 0;
}

static int areas_overlap(const List *list, const uint32_t *areas) {
    size_t i, j;
    for (i = 0; i < list->n; i++)
        for (j = 0; j < list->n; j++)
            if (areas[i] != areas[j] && is_above(list->cells[i], list->cells[j])) return 1;
    return 0;
}

/* The number of the area in which a cell lies, or -1. */
static int64_t area_of(const List *list, const uint32_t *areas, H3Index cell) {
    size_t i = 0;
    while (i < list->n && !is_above(list->cells[i], cell)) i++;
    return i < list->n ? (int64_t)areas[i] : -1;
}

/* The numbers beside the zones of all cells, in random order: without a table, by one, in one, and in what is none. */
static void look_up_areas(const List *list, const uint32_t *areas, const H3Index *zones, const uint32_t *numbers,
                          size_t n) {
    static H3Index column[CELLS];
    static int64_t wanted[CELLS], out[CELLS + 1];
    static uint32_t table[4 * LIST];
    size_t at = 77, i, how, size = below(4 * LIST + 1);
    for (i = 0; i < CELLS; i++) column[i] = cells[below(CELLS)], wanted[i] = area_of(list, areas, column[i]);
    for (how = 0; how < 4; how++) {
        for (i = 0; i <= CELLS; i++) out[i] = 77;
        if (how == 0) CHECK(!h3w_cellsToZonesPlaces(zones, n, numbers, n, column, CELLS, out, CELLS, &at));
        else if (how == 1)
            CHECK(
                !h3w_cellsToZonesPlacesByTable(zones, n, numbers, n, column, CELLS, table, size, out, CELLS + 1, &at));
        else CHECK(!h3w_cellsToZonesPlacesInTable(zones, n, numbers, n, column, CELLS, table, size, out, CELLS, &at));
        CHECK(at == CELLS && !memcmp(out, wanted, sizeof wanted) && out[CELLS] == 77);
        for (i = 0; how == 2 && i < 4 * LIST; i++) table[i] = (uint32_t)below(LIST);
    }
    CHECK(h3w_cellsToZonesPlaces(zones, n, numbers, n, column, CELLS, out, CELLS - 1, &at) == E_MEMORY_BOUNDS);
    if (n) CHECK(h3w_cellsToZonesPlaces(zones, n, numbers, n - 1, column, 2, out, 2, &at) == E_MEMORY_BOUNDS);
    column[1] = KEPT;
    CHECK(h3w_cellsToZonesPlaces(zones, n, numbers, n, column, 2, out, 2, &at) == E_CELL_INVALID && at == 1);
    CHECK(out[0] == wanted[0] && out[1] == -1);
}

/* The areas of a list, prepared into just enough room; nothing is written with an error. */
static void prepare_areas(const List *list, size_t names) {
    static H3Index zones[LIST + 1];
    static uint32_t areas[LIST + 1], numbers[LIST + 1];
    static List outer;
    size_t count = 77, i;
    give_names(list, areas, names);
    for (i = 0; i <= LIST; i++) zones[i] = KEPT, numbers[i] = 78;
    if (areas_overlap(list, areas)) {
        CHECK(h3w_areas(list->cells, list->n, areas, list->n, zones, LIST, numbers, LIST, &count) == E_DUPLICATE_INPUT);
        CHECK(count == 77 && zones[0] == KEPT && numbers[0] == 78);
        return;
    }
    if (list->n) {
        CHECK(h3w_areas(list->cells, list->n, areas, list->n - 1, zones, LIST, numbers, LIST, &count) ==
              E_MEMORY_BOUNDS);
        CHECK(h3w_areas(list->cells, list->n, areas, LIST, zones, list->n - 1, numbers, LIST, &count) ==
              E_MEMORY_BOUNDS);
        CHECK(h3w_areas(list->cells, list->n, areas, LIST, zones, LIST, numbers, list->n - 1, &count) ==
              E_MEMORY_BOUNDS);
        CHECK(count == 77 && zones[0] == KEPT && numbers[0] == 78);
    }
    CHECK(h3w_areas(list->cells, list->n, areas, list->n, zones, list->n, numbers, list->n, &count) == E_SUCCESS);
    coarsest(list, &outer);
    CHECK(count == outer.n && zones[count] == KEPT && numbers[count] == 78);
    look_up_areas(list, areas, zones, numbers, count);
}

/* Each zone as an area of its own: the place in the list. */
static void prepare_places(const List *list) {
    static H3Index zones[LIST + 1];
    static uint32_t places[LIST + 1], numbers[LIST + 1];
    size_t count = 77, i;
    H3Error error = overlaps(list) ? E_DUPLICATE_INPUT : E_SUCCESS;
    for (i = 0; i <= LIST; i++) places[i] = (uint32_t)i;
    CHECK(h3w_areas(list->cells, list->n, places, list->n, zones, LIST, numbers, LIST, &count) == error);
    if (error) return;
    CHECK(count == list->n);
    for (i = 0; i < count; i++) CHECK(zones[i] == list->cells[numbers[i]]);
    look_up_areas(list, places, zones, numbers, count);
}

/* ---- areas that may overlap */

/* how many numbers they have at most, from 0 on; the last one is the greatest of all */
#define AREAS 9

static uint32_t number_of(size_t area) { return area == AREAS - 1 ? UINT32_MAX : (uint32_t)area; }

/* The resolution of the coarsest cell of an area that is a cell or above it; 16 where there is none. */
static int coarsest_of(const List *list, const uint32_t *areas, uint32_t number, H3Index cell) {
    int res = 16;
    size_t i;
    for (i = 0; i < list->n; i++)
        if (areas[i] == number && is_above(list->cells[i], cell) && resolution(list->cells[i]) < res)
            res = resolution(list->cells[i]);
    return res;
}

/* The areas of a cell: by that resolution, and then by number. */
static size_t areas_of(const List *list, const uint32_t *areas, H3Index cell, uint32_t *found) {
    size_t n = 0, area;
    int res;
    for (res = 0; res <= FINEST; res++)
        for (area = 0; area < AREAS; area++)
            if (coarsest_of(list, areas, number_of(area), cell) == res) found[n++] = number_of(area);
    return n;
}

static int64_t starts[CELLS + 2];
static uint32_t listed[CELLS * AREAS + 1];
static H3Index asked[CELLS];

/* The error of a call with room for so many numbers; nothing is written after those, and after n + 1 starts. */
static H3Error list_areas(const List *list, const uint32_t *areas, size_t n, size_t room, size_t *at) {
    H3Error error;
    memset(starts, 77, sizeof starts), memset(listed, 78, sizeof listed), *at = 79;
    error = h3w_cellsToAreas(list->cells, list->n, areas, list->n, asked, n, starts, n + 1, listed, room, at);
    CHECK(starts[n + 1] == 0x4d4d4d4d4d4d4d4d && listed[room] == 0x4e4e4e4e);
    return error;
}

/* Nothing is written where the areas are refused, or where there is too little room for them or for starts. */
static void refuse_areas(const List *list, const uint32_t *areas) {
    static List wrong;
    size_t at = 79;
    memset(starts, 77, sizeof starts), memset(listed, 78, sizeof listed);
    CHECK(h3w_cellsToAreas(list->cells, list->n, areas, list->n, asked, 3, starts, 3, listed, 9, &at) ==
          E_MEMORY_BOUNDS);
    if (list->n) {
        CHECK(h3w_cellsToAreas(list->cells, list->n, areas, list->n - 1, asked, 3, starts, 4, listed, 9, &at) ==
              E_MEMORY_BOUNDS);
        wrong = *list, wrong.cells[list->n - 1] = KEPT;
        CHECK(h3w_cellsToAreas(wrong.cells, wrong.n, areas, wrong.n, asked, 3, starts, 4, listed, 9, &at) ==
              E_CELL_INVALID);
    }
    CHECK(at == 79 && starts[0] == 0x4d4d4d4d4d4d4d4d && listed[0] == 0x4e4e4e4e);
}

/* The areas of all cells, in random order, into just enough room and into less, and where an index is no cell's. */
static void overlapping_areas(const List *list, size_t names) {
    static uint32_t areas[LIST], wanted[CELLS * AREAS];
    static int64_t begins[CELLS + 1];
    size_t i, at, all = 0, room, fits = 0;
    for (i = 0; i < list->n; i++) areas[i] = number_of(AREAS - 1 - below(names));
    for (i = 0; i < CELLS; i++) {
        asked[i] = cells[below(CELLS)];
        all += areas_of(list, areas, asked[i], wanted + all);
        begins[i + 1] = (int64_t)all;
    }
    CHECK(list_areas(list, areas, CELLS, all, &at) == E_SUCCESS && at == CELLS);
    CHECK(!memcmp(starts, begins, sizeof begins) && !memcmp(listed, wanted, all * sizeof *wanted));
    room = all ? below(all) : 0;
    while (fits < CELLS && begins[fits + 1] <= (int64_t)room) fits++;
    CHECK(list_areas(list, areas, CELLS, room, &at) == (all ? E_MEMORY_BOUNDS : E_SUCCESS) && at == fits);
    CHECK(!memcmp(starts, begins, sizeof begins) && !memcmp(listed, wanted, room * sizeof *wanted));
    CHECK(list_areas(list, areas, 0, 0, &at) == E_SUCCESS && at == 0 && starts[0] == 0);
    asked[1] = KEPT;
    CHECK(list_areas(list, areas, 3, 3 * AREAS, &at) == E_CELL_INVALID && at == 1);
    CHECK(starts[0] == 0 && starts[1] == begins[1] && starts[2] == begins[1]);
    CHECK(starts[3] == begins[1] + begins[3] - begins[2]);
    CHECK(!memcmp(listed + starts[2], wanted + begins[2], (size_t)(begins[3] - begins[2]) * sizeof *wanted));
    refuse_areas(list, areas);
}

int main(void) {
    static List first, second, zones;
    int i;
    make_cells();
    for (i = 0; i < 150; i++) {
        make_list(&first, i < 3 ? (size_t)i : below(LIST) + 1);
        make_list(&second, i % 10 ? below(i % 3 ? LIST : 4) : 0);
        regions(&first, &second);
        prepare(&first);
        find(&first);
        prepare_areas(&first, below(6) + 1);
        prepare_places(&first);
        overlapping_areas(&first, below(AREAS) + 1);
        coarsest(&first, &zones);
        prepare(&zones);
        prepare_areas(&zones, below(6) + 1);
        prepare_places(&zones);
        find(&zones);
    }
    return counts();
}
