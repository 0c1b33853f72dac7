/* Worked examples. */
#include "h3whole.h"
#include "check.h"
#include <stdlib.h>

#define HEXAGON     0x85283473fffffffU
#define PENTAGON    0x8009fffffffffffU
#define ROOM(array) (sizeof(array) / sizeof *(array))

static const H3Index children[] = {0x862834707ffffffU, 0x86283470fffffffU, 0x862834717ffffffU, 0x86283471fffffffU,
                                   0x862834727ffffffU, 0x86283472fffffffU, 0x862834737ffffffU};
static const H3Index pentagon_children[] = {0x81083ffffffffffU, 0x8108bffffffffffU, 0x8108fffffffffffU,
                                            0x81093ffffffffffU, 0x81097ffffffffffU, 0x8109bffffffffffU};
static const H3Index pentagons[] = {0x8009fffffffffffU, 0x801dfffffffffffU, 0x8031fffffffffffU, 0x804dfffffffffffU,
                                    0x8063fffffffffffU, 0x8075fffffffffffU, 0x807ffffffffffffU, 0x8091fffffffffffU,
                                    0x80a7fffffffffffU, 0x80c3fffffffffffU, 0x80d7fffffffffffU, 0x80ebfffffffffffU};

static int are_same(const H3Index *some, const H3Index *others, size_t n) {
    return memcmp(some, others, n * sizeof *some) == 0;
}

static void fields(void) {
    CHECK(h3w_isValidCell(HEXAGON) == 1 && h3w_isValidCell(PENTAGON) == 1);
    CHECK(h3w_isValidCell(0x81087ffffffffffU) == 0);  /* the deleted subsequence of a pentagon */
    CHECK(h3w_isValidCell(0x80f5fffffffffffU) == 0);  /* base cell 122 */
    CHECK(h3w_isValidCell(0x8109fffffffffffU) == 0);  /* a digit 7 within the resolution */
    CHECK(h3w_isValidCell(0x885283473fffffffU) == 0); /* the reserved bit */
    CHECK(h3w_isValidCell(0x115283473fffffffU) == 0); /* an edge */
    CHECK(h3w_isValidCell(0) == 0);
    CHECK(h3w_getResolution(HEXAGON) == 5 && h3w_getResolution(PENTAGON) == 0);
    CHECK(h3w_getBaseCellNumber(HEXAGON) == 20 && h3w_getBaseCellNumber(PENTAGON) == 4);
    CHECK(h3w_isPentagon(HEXAGON) == 0 && h3w_isPentagon(PENTAGON) == 1);
    CHECK(h3w_isResClassIII(HEXAGON) == 1 && h3w_isResClassIII(PENTAGON) == 0);
}

static void resolutions(void) {
    int64_t count = 0;
    H3Index cells[122] = {0};
    CHECK(h3w_getNumCells(15, &count) == E_SUCCESS && count == 569707381193162);
    CHECK(h3w_getNumCells(0, &count) == E_SUCCESS && count == 122);
    CHECK(h3w_getRes0Cells(cells, 122) == E_SUCCESS && cells[0] == 0x8001fffffffffffU &&
          cells[121] == 0x80f3fffffffffffU);
    CHECK(h3w_getPentagons(0, cells, 12) == E_SUCCESS && are_same(cells, pentagons, 12));
}

static void hierarchy(void) {
    H3Index cells[7] = {0};
    int64_t size = 0;
    CHECK(h3w_cellToParent(HEXAGON, 4, cells) == E_SUCCESS && cells[0] == 0x8428347ffffffffU);
    CHECK(h3w_cellToParent(HEXAGON, 5, cells) == E_SUCCESS && cells[0] == HEXAGON);
    CHECK(h3w_cellToCenterChild(HEXAGON, 15, cells) == E_SUCCESS && cells[0] == 0x8f2834700000000U);
    CHECK(h3w_cellToLastChild(HEXAGON, 7, cells) == E_SUCCESS && cells[0] == 0x872834736ffffffU);
    CHECK(h3w_cellToLastChild(HEXAGON, 5, cells) == E_SUCCESS && cells[0] == HEXAGON);
    CHECK(h3w_cellToLastChild(PENTAGON, 1, cells) == E_SUCCESS && cells[0] == 0x8109bffffffffffU);
    CHECK(h3w_cellToChildren(HEXAGON, 6, cells, 7) == E_SUCCESS && are_same(cells, children, 7));
    CHECK(h3w_cellToChildren(PENTAGON, 1, cells, 6) == E_SUCCESS && are_same(cells, pentagon_children, 6));
    CHECK(h3w_cellToChildrenSize(0x8029fffffffffffU, 15, &size) == E_SUCCESS && size == 4747561509943);
    CHECK(h3w_cellToChildrenSize(PENTAGON, 15, &size) == E_SUCCESS && size == 3956301258286);
}

static void positions(void) {
    int64_t position = -1;
    H3Index cell = 0;
    CHECK(h3w_cellToChildPos(HEXAGON, 0, &position) == E_SUCCESS && position == 2279);
    CHECK(h3w_cellToChildPos(HEXAGON, 5, &position) == E_SUCCESS && position == 0);
    CHECK(h3w_cellToChildPos(0x8209b7fffffffffU, 0, &position) == E_SUCCESS && position == 40);
    CHECK(h3w_childPosToCell(2279, 0x8029fffffffffffU, 5, &cell) == E_SUCCESS && cell == HEXAGON);
}

static void texts(void) {
    char text[17];
    H3Index index = 7;
    CHECK(h3w_h3ToString(HEXAGON, text, 17) == E_SUCCESS && strcmp(text, "85283473fffffff") == 0);
    CHECK(h3w_h3ToString(0, text, 17) == E_SUCCESS && strcmp(text, "0") == 0);
    CHECK(h3w_h3ToString(UINT64_MAX, text, 17) == E_SUCCESS && strcmp(text, "ffffffffffffffff") == 0);
    CHECK(h3w_stringToH3("0X85283473FFFFFFF", 17, &index) == E_SUCCESS && index == HEXAGON);
    CHECK(h3w_stringToH3("0", 1, &index) == E_SUCCESS && index == 0);
}

static void edges(void) {
    H3Index edges[6] = {1, 1, 1, 1, 1, 1}, origin = 0;
    int i;
    CHECK(h3w_isValidDirectedEdge(0x115283473fffffffU) == 1 && h3w_isValidDirectedEdge(HEXAGON) == 0);
    CHECK(h3w_isValidDirectedEdge(0x11009fffffffffffU) == 0); /* direction 1 at a pentagon */
    CHECK(h3w_getDirectedEdgeOrigin(0x115283473fffffffU, &origin) == E_SUCCESS && origin == HEXAGON);
    CHECK(h3w_originToDirectedEdges(PENTAGON, edges) == E_SUCCESS && edges[0] == H3_NULL);
    for (i = 1; i < 6; i++) CHECK(edges[i] == 0x11009fffffffffffU + ((H3Index)i << 56));
    CHECK(h3w_originToDirectedEdges(HEXAGON, edges) == E_SUCCESS);
    for (i = 0; i < 6; i++) CHECK(edges[i] == 0x115283473fffffffU + ((H3Index)i << 56));
}

/* The children at resolution 2 of 8029fffffffffff but the last one. */
static void compaction_of_all_but_one(void) {
    static const H3Index wanted[] = {0x81283ffffffffffU, 0x81287ffffffffffU, 0x8128bffffffffffU, 0x8128fffffffffffU,
                                     0x81293ffffffffffU, 0x81297ffffffffffU, 0x822987fffffffffU, 0x82298ffffffffffU,
                                     0x822997fffffffffU, 0x82299ffffffffffU, 0x8229a7fffffffffU, 0x8229affffffffffU};
    H3Index cells[49], out[49];
    size_t count = 0;
    CHECK(h3w_cellToChildren(0x8029fffffffffffU, 2, cells, 49) == E_SUCCESS && cells[48] == 0x8229b7fffffffffU);
    CHECK(h3w_compactCells(cells, 49, out, 49, &count) == E_SUCCESS && count == 1 && out[0] == 0x8029fffffffffffU);
    CHECK(h3w_compactCells(cells, 48, out, 49, &count) == E_SUCCESS && count == ROOM(wanted));
    CHECK(are_same(out, wanted, ROOM(wanted)));
}

static void lists(void) {
    H3Index reversed[7], out[7], two[2] = {PENTAGON, 0x81283ffffffffffU};
    size_t count = 0, i;
    for (i = 0; i < 7; i++) reversed[i] = children[6 - i];
    CHECK(h3w_compactCells(reversed, 7, out, 7, &count) == E_SUCCESS && count == 1 && out[0] == HEXAGON);
    /* what is compacted needs no more room than it has, and nothing is written behind it */
    out[0] = out[1] = 5;
    CHECK(h3w_compactCells(reversed, 7, out, 1, &count) == E_SUCCESS && count == 1 && out[0] == HEXAGON);
    CHECK(h3w_compactCells(reversed, 7, out, 7, &count) == E_SUCCESS && out[0] == HEXAGON && out[1] == 5);
    CHECK(h3w_compactCells(pentagon_children, 6, out, 6, &count) == E_SUCCESS && count == 1 && out[0] == PENTAGON);
    CHECK(h3w_compactCells(pentagon_children, 5, out, 6, &count) == E_SUCCESS && count == 5);
    CHECK(are_same(out, pentagon_children, 5));
    CHECK(h3w_uncompactCells(two, 2, out, 7, 1) == E_SUCCESS && are_same(out, pentagon_children, 6) &&
          out[6] == two[1]);
    compaction_of_all_but_one();
}

static void columns(void) {
    static const H3Index cells[] = {HEXAGON, 5, PENTAGON};
    H3Index out[3];
    int64_t counts[3];
    int numbers[3];
    size_t at = 9;
    CHECK(h3w_areValidCells(cells, 3, numbers, 3, &at) == E_SUCCESS && at == 3);
    CHECK(numbers[0] == 1 && numbers[1] == 0 && numbers[2] == 1);
    CHECK(h3w_cellsToParents(cells, 3, 4, out, 3, &at) == E_CELL_INVALID && at == 1);
    CHECK(out[0] == 0x8428347ffffffffU && out[1] == H3_NULL && out[2] == H3_NULL);
    CHECK(h3w_cellsToParents(cells, 1, 4, out, 3, &at) == E_SUCCESS && at == 1);
    CHECK(h3w_cellsToChildrenSizes(cells, 3, 15, counts, 3, &at) == E_CELL_INVALID && at == 1);
    CHECK(counts[0] == 282475249 && counts[1] == -1 && counts[2] == 3956301258286);
}

static void columns_of_children(void) {
    static const H3Index cells[] = {0x8029fffffffffffU, 5, PENTAGON, HEXAGON, 0x81283ffffffffffU};
    static const H3Index own[] = {0x81283ffffffffffU, 0x81287ffffffffffU, 0x8128bffffffffffU, 0x8128fffffffffffU,
                                  0x81293ffffffffffU, 0x81297ffffffffffU, 0x8129bffffffffffU};
    int64_t starts[] = {9, 9, 9, 9, 9, 9, 9};
    H3Index out[15] = {0};
    size_t at = 9;
    CHECK(h3w_cellsToChildrenStarts(cells, 5, 1, starts, 6, &at) == E_CELL_INVALID && at == 1);
    CHECK(starts[0] == 0 && starts[1] == 7 && starts[2] == 7 && starts[3] == 13 && starts[4] == 13);
    CHECK(starts[5] == 14 && starts[6] == 9);
    CHECK(h3w_cellsToChildren(cells, 5, 1, out, 14, &at) == E_CELL_INVALID && at == 1);
    CHECK(are_same(out, own, 7) && are_same(out + 7, pentagon_children, 6) && out[13] == cells[4] && out[14] == 0);
    CHECK(h3w_cellsToChildren(cells + 2, 2, 1, out, 14, &at) == E_RES_DOMAIN && at == 1);
    CHECK(are_same(out, pentagon_children, 6) && out[6] == own[6]);
    CHECK(h3w_cellsToChildren(cells, 5, 1, out, 7, &at) == E_MEMORY_BOUNDS && at == 2 && are_same(out, own, 7));
    CHECK(h3w_cellsToChildrenStarts(cells, 0, 1, starts, 1, &at) == E_SUCCESS && at == 0 && starts[0] == 0);
    CHECK(h3w_cellsToChildren(cells, 0, 1, out, 0, &at) == E_SUCCESS && at == 0);
    CHECK(h3w_cellsToChildrenStarts(cells, 5, 15, starts, 6, &at) == E_CELL_INVALID && at == 1);
    CHECK(starts[1] == 4747561509943 && starts[3] == 4747561509943 + 3956301258286);
}

#define MOST 4451

/* Every descendant of cells at a resolution, asked for by its position. */
static size_t by_position(const H3Index *cells, size_t n, int res, H3Index *out) {
    size_t count = 0, i;
    for (i = 0; i < n; i++) {
        int64_t size = 0, position;
        CHECK(h3w_cellToChildrenSize(cells[i], res, &size) == E_SUCCESS && count + (size_t)size <= MOST);
        for (position = 0; position < size; position++) {
            if (h3w_childPosToCell(position, cells[i], res, &out[count++])) return 0;
        }
    }
    return count;
}

/* Whether the descendants that were asked for by position are in the first slots as far as there is room, and all after
 * them is as it was. */
static int are_first(const H3Index *wanted, size_t count, const H3Index *out, size_t room) {
    size_t kept = room < count ? room : count, i;
    for (i = kept; i < MOST + 2; i++)
        if (out[i] != 1) return 0;
    return are_same(out, wanted, kept);
}

static void clear(H3Index *out) {
    size_t i;
    for (i = 0; i < MOST + 2; i++) out[i] = 1;
}

static void expand(const H3Index *cells, size_t n, int res) {
    static H3Index wanted[MOST], out[MOST + 2];
    size_t count = by_position(cells, n, res, wanted), room, at;
    CHECK(count > 0);
    for (room = 0; room <= count + 1; room += room < 120 || room + 60 > count ? 1 : 37) {
        H3Error error = room < count ? E_MEMORY_BOUNDS : E_SUCCESS;
        clear(out);
        CHECK(h3w_uncompactCells(cells, n, out, room, res) == error && are_first(wanted, count, out, room));
        clear(out);
        CHECK(h3w_cellsToChildren(cells, n, res, out, room, &at) == error && are_first(wanted, count, out, room));
        clear(out);
        CHECK(n != 1 || (h3w_cellToChildren(*cells, res, out, room) == error && are_first(wanted, count, out, room)));
    }
}

/* A hexagon, a pentagon, a hexagon two levels below another one, and all of them, up to four levels down. */
static void expansions(void) {
    static const H3Index cells[] = {HEXAGON, 0x85080003fffffffU, 0x872834700ffffffU};
    int levels;
    for (levels = 0; levels <= 4; levels++) {
        expand(cells, 1, 5 + levels);
        expand(cells + 1, 1, 5 + levels);
        expand(&pentagons[levels], 1, levels);
        if (levels >= 2) expand(cells, 3, 5 + levels);
    }
}

#define PARENT 0x8428347ffffffffU

static const H3Index siblings[] = {
    0x85283463fffffffU, 0x85283467fffffffU, 0x8528346bfffffffU, 0x8528346ffffffffU, HEXAGON,
    0x85283477fffffffU, 0x8528347bfffffffU};

static void unions(void) {
    static const H3Index parts[] = {0x85283463fffffffU, 0x85283467fffffffU, 0x8528346bfffffffU, PARENT,
                                    0x85283463fffffffU, 0x85283467fffffffU};
    H3Index twice[14], out[14] = {0};
    size_t count = 0, i;
    for (i = 0; i < 14; i++) twice[i] = siblings[i / 2];
    CHECK(h3w_uniteCells(parts, 6, out, 6, &count) == E_SUCCESS && count == 1 && out[0] == PARENT);
    CHECK(h3w_uniteCells(twice, 14, out, 14, &count) == E_SUCCESS && count == 1 && out[0] == PARENT);
    CHECK(h3w_uniteCells(twice, 12, out, 14, &count) == E_SUCCESS && count == 6 && are_same(out, siblings, 6));
    CHECK(h3w_uniteCells(twice, 0, out, 0, &count) == E_SUCCESS && count == 0);
}

/* What is left of one cell where another is taken away. */
static void expect_left(H3Index first, H3Index second, const H3Index *wanted, size_t n) {
    H3Index out[12] = {0};
    size_t count = 77;
    CHECK(h3w_subtractCells(&first, 1, &second, 1, out, 12, &count) == E_SUCCESS && count == n);
    CHECK(are_same(out, wanted, n) && out[n < 12 ? n : 0] == (n < 12 ? 0 : wanted[0]));
}

static void differences(void) {
    static const H3Index others[] = {0x85283463fffffffU, 0x85283467fffffffU, 0x8528346bfffffffU, 0x8528346ffffffffU,
                                     0x85283477fffffffU, 0x8528347bfffffffU, 0x86283470fffffffU, 0x862834717ffffffU,
                                     0x86283471fffffffU, 0x862834727ffffffU, 0x86283472fffffffU, 0x862834737ffffffU};
    static const H3Index of_pentagon[] = {
        0x8108bffffffffffU, 0x8108fffffffffffU, 0x81093ffffffffffU, 0x81097ffffffffffU, 0x8109bffffffffffU,
        0x820817fffffffffU, 0x82081ffffffffffU, 0x820827fffffffffU, 0x82082ffffffffffU, 0x820837fffffffffU};
    static const H3Index two[] = {0x8029fffffffffffU, 0x8f2800000000000U};
    H3Index out[92] = {0};
    size_t count = 0;
    expect_left(PARENT, HEXAGON, others, 6);
    expect_left(PARENT, 0x862834707ffffffU, others, 12);
    expect_left(PARENT, PARENT, others, 0);
    expect_left(HEXAGON, PARENT, others, 0);
    expect_left(PENTAGON, 0x820807fffffffffU, of_pentagon, 10);
    /* the most that is left of two cells: six at each resolution from 1 to 15 */
    CHECK(h3w_subtractCells(two, 1, two + 1, 1, out, 92, &count) == E_SUCCESS && count == 90);
    CHECK(h3w_getResolution(out[0]) == 1 && h3w_getResolution(out[89]) == 15 && out[90] == 0);
    out[89] = 0;
    CHECK(h3w_subtractCells(two, 1, two + 1, 1, out, 89, &count) == E_MEMORY_BOUNDS && count == 90);
    CHECK(h3w_getResolution(out[88]) == 15 && out[89] == 0);
}

static void intersections(void) {
    static const H3Index parent[] = {PARENT}, region[] = {HEXAGON, 0x862834757ffffffU, 0x8528340ffffffffU};
    H3Index out[10] = {0};
    size_t count = 0;
    CHECK(h3w_intersectCells(parent, 1, region, 3, out, 10, &count) == E_SUCCESS && count == 2);
    CHECK(are_same(out, region, 2) && out[2] == 0);
    CHECK(h3w_intersectCells(siblings, 7, parent, 1, out, 10, &count) == E_SUCCESS && count == 1);
    CHECK(out[0] == PARENT);
    CHECK(h3w_intersectCells(siblings, 7, parent, 0, out, 10, &count) == E_SUCCESS && count == 0);
}

static void zones(void) {
    static const H3Index given[] = {HEXAGON, PENTAGON}, column[] = {HEXAGON, 0x862834707ffffffU, PARENT, PENTAGON},
                         counted[] = {HEXAGON, 0x862834707ffffffU, PARENT, HEXAGON};
    static const H3Index overlap[] = {PARENT, HEXAGON}, asked[] = {0x85283477fffffffU, 0x8528340ffffffffU};
    H3Index ready[2] = {0}, out[4], region[7];
    int covered[4];
    int64_t counts[2], others = 77;
    size_t at = 0, count = 0, hexagon;
    CHECK(h3w_zones(given, 2, ready, 2) == E_SUCCESS);
    hexagon = ready[0] == HEXAGON ? 0 : 1;
    CHECK(ready[hexagon] == HEXAGON && ready[1 - hexagon] == PENTAGON);
    CHECK(h3w_cellsToZones(ready, 2, column, 4, out, 4, &at) == E_SUCCESS && at == 4);
    CHECK(out[0] == HEXAGON && out[1] == HEXAGON && out[2] == H3_NULL && out[3] == PENTAGON);
    CHECK(h3w_countCellsInZones(ready, 2, counted, 4, counts, 2, &others, &at) == E_SUCCESS && at == 4);
    CHECK(counts[hexagon] == 3 && counts[1 - hexagon] == 0 && others == 1);
    /* zones that overlap; as a region they are looked up */
    CHECK(h3w_zones(overlap, 2, ready, 2) == E_DUPLICATE_INPUT);
    CHECK(h3w_uniteCells(overlap, 2, region, 7, &count) == E_SUCCESS &&
          h3w_zones(region, count, ready, 2) == E_SUCCESS);
    CHECK(h3w_areCoveredCells(ready, count, asked, 2, covered, 2, &at) == E_SUCCESS && covered[0] == 1 &&
          covered[1] == 0);
    /* the parent of seven zones has none; in their region it is one */
    CHECK(h3w_zones(siblings, 7, region, 7) == E_SUCCESS);
    CHECK(h3w_areCoveredCells(region, 7, column, 4, covered, 4, &at) == E_SUCCESS && covered[0] == 1 &&
          covered[1] == 1 && covered[2] == 0 && covered[3] == 0);
    CHECK(h3w_uniteCells(siblings, 7, region, 7, &count) == E_SUCCESS && count == 1 &&
          h3w_zones(region, 1, ready, 2) == E_SUCCESS);
    CHECK(h3w_areCoveredCells(ready, 1, column, 4, covered, 4, &at) == E_SUCCESS && covered[2] == 1);
}

/* The library's version is the header's. */
static void version(void) {
    char text[40];
    int number = h3w_version();
    sprintf(text, "%d.%d.%d", number / 10000, number / 100 % 100, number % 100);
    CHECK(strcmp(text, H3WHOLE_VERSION) == 0);
}

int main(void) {
    fields();
    resolutions();
    hierarchy();
    positions();
    texts();
    edges();
    lists();
    columns();
    columns_of_children();
    expansions();
    unions();
    differences();
    intersections();
    zones();
    version();
    return counts();
}
