/* H3's bare names and signatures. */
#define H3WHOLE_BARE_NAMES
#include "h3whole.h"
#include "check.h"

#define HEXAGON 0x85283473fffffffU

static void of_one_index(void) {
    H3Index cell = 0;
    int64_t number = 0;
    char text[17];
    CHECK(isValidCell(HEXAGON) == 1 && isValidCell(5) == 0 && getResolution(HEXAGON) == 5);
    CHECK(getBaseCellNumber(HEXAGON) == 20 && isPentagon(HEXAGON) == 0 && isResClassIII(HEXAGON) == 1);
    CHECK(getNumCells(0, &number) == E_SUCCESS && number == 122);
    CHECK(cellToParent(HEXAGON, 4, &cell) == E_SUCCESS && cell == 0x8428347ffffffffU);
    CHECK(cellToCenterChild(HEXAGON, 15, &cell) == E_SUCCESS && cell == 0x8f2834700000000U);
    CHECK(cellToChildPos(HEXAGON, 0, &number) == E_SUCCESS && number == 2279);
    CHECK(childPosToCell(2279, 0x8029fffffffffffU, 5, &cell) == E_SUCCESS && cell == HEXAGON);
    CHECK(h3ToString(HEXAGON, text, sizeof text) == E_SUCCESS && strcmp(text, "85283473fffffff") == 0);
    CHECK(stringToH3(text, &cell) == E_SUCCESS && cell == HEXAGON && stringToH3("", &cell) == E_FAILED);
    CHECK(stringToH3("8009fffffffffff\r\n", &cell) == E_SUCCESS && cell == 0x8009fffffffffffU);
    CHECK(stringToH3("\n", &cell) == E_FAILED && stringToH3("8009\nfff", &cell) == E_FAILED);
    CHECK(isValidDirectedEdge(0x115283473fffffffU) == 1);
    CHECK(getDirectedEdgeOrigin(0x115283473fffffffU, &cell) == E_SUCCESS && cell == HEXAGON);
}

static void of_several(void) {
    H3Index cells[122], edges[6];
    int64_t number = 0;
    CHECK(res0CellCount() == 122 && getRes0Cells(cells) == E_SUCCESS && cells[121] == 0x80f3fffffffffffU);
    CHECK(pentagonCount() == 12 && getPentagons(0, cells) == E_SUCCESS && cells[11] == 0x80ebfffffffffffU);
    CHECK(getPentagons(16, cells) == E_RES_DOMAIN);
    CHECK(cellToChildrenSize(HEXAGON, 6, &number) == E_SUCCESS && number == 7);
    CHECK(cellToChildren(HEXAGON, 6, cells) == E_SUCCESS && cells[6] == 0x862834737ffffffU);
    CHECK(cellToChildren(HEXAGON, 4, cells) == E_RES_DOMAIN && cellToChildren(5, 6, cells) == E_CELL_INVALID);
    CHECK(originToDirectedEdges(HEXAGON, edges) == E_SUCCESS && edges[5] == 0x165283473fffffffU);
}

static void of_lists(void) {
    H3Index cells[7], out[7], back[7];
    int i;
    CHECK(cellToChildren(HEXAGON, 6, cells) == E_SUCCESS);
    for (i = 0; i < 7; i++) out[i] = 1;
    CHECK(compactCells(cells, out, 7) == E_SUCCESS && out[0] == HEXAGON);
    for (i = 1; i < 7; i++) CHECK(out[i] == H3_NULL);
    CHECK(uncompactCells(out, 1, back, 7, 6) == E_SUCCESS && memcmp(cells, back, sizeof cells) == 0);
    CHECK(uncompactCells(out, 1, back, 6, 6) == E_MEMORY_BOUNDS &&
          uncompactCells(out, 1, back, 7, 4) == E_RES_MISMATCH);
    CHECK(compactCells(NULL, NULL, 0) == E_SUCCESS && uncompactCells(NULL, 0, NULL, 0, 6) == E_SUCCESS);
    CHECK(compactCells(cells, out, -1) == E_DOMAIN && compactCells(cells, out, INT64_MIN) == E_DOMAIN);
    CHECK(uncompactCells(out, -1, back, 7, 6) == E_DOMAIN && uncompactCells(out, 1, back, -1, 6) == E_DOMAIN);
    CHECK(uncompactCells(out, 1, NULL, 0, 6) == E_MEMORY_BOUNDS);
    cells[1] = cells[0];
    CHECK(compactCells(cells, out, 7) == E_DUPLICATE_INPUT);
}

/* H3_NULL, with which programs for H3 fill their arrays up. */
static void of_padded_lists(void) {
    H3Index cells[10] = {0}, out[10], back[7];
    int64_t size = 0;
    int i;
    CHECK(cellToChildren(HEXAGON, 6, cells + 2) == E_SUCCESS);
    cells[0] = cells[5];
    cells[5] = H3_NULL;
    CHECK(compactCells(cells, out, 10) == E_SUCCESS && out[0] == HEXAGON);
    for (i = 1; i < 10; i++) CHECK(out[i] == H3_NULL);
    CHECK(uncompactCellsSize(out, 10, 6, &size) == E_SUCCESS && size == 7);
    CHECK(uncompactCells(out, 10, back, size, 6) == E_SUCCESS && back[0] == 0x862834707ffffffU &&
          back[6] == 0x862834737ffffffU);
    CHECK(uncompactCells(out, 10, back, 6, 6) == E_MEMORY_BOUNDS);
    CHECK(uncompactCells(out + 1, 9, back, 0, 6) == E_SUCCESS);
    CHECK(compactCells(out + 1, back, 7) == E_SUCCESS && back[0] == H3_NULL);
    cells[1] = cells[2];
    CHECK(compactCells(cells, out, 10) == E_DUPLICATE_INPUT);
    cells[1] = 5;
    CHECK(compactCells(cells, out, 10) == E_CELL_INVALID && uncompactCells(cells, 10, out, 10, 6) == E_CELL_INVALID);
}

static void of_sizes(void) {
    H3Index cells[3] = {HEXAGON, H3_NULL, 0x8009fffffffffffU};
    H3Index many[2000];
    int64_t size = 77;
    int i;
    CHECK(uncompactCellsSize(cells, 3, 5, &size) == E_SUCCESS && size == 1 + 14006);
    CHECK(uncompactCellsSize(NULL, 0, 5, &size) == E_SUCCESS && size == 0);
    size = 77;
    CHECK(uncompactCellsSize(cells, 3, 4, &size) == E_RES_MISMATCH && size == 77);
    CHECK(uncompactCellsSize(cells, 3, 16, &size) == E_RES_DOMAIN && size == 77);
    CHECK(uncompactCellsSize(cells, -1, 5, &size) == E_DOMAIN && size == 77);
    cells[1] = 5;
    CHECK(uncompactCellsSize(cells, 3, 4, &size) == E_CELL_INVALID && size == 77);
    for (i = 0; i < 2000; i++) many[i] = 0x8029fffffffffffU;
    CHECK(uncompactCellsSize(many, 2000, 15, &size) == E_SUCCESS && size == 2000 * 4747561509943);
    CHECK(maxGridDiskSize(-1, &size) == E_DOMAIN && size == 2000 * 4747561509943);
    CHECK(maxGridDiskSize(0, &size) == E_SUCCESS && size == 1);
    CHECK(maxGridDiskSize(2, &size) == E_SUCCESS && size == 19);
    /* the greatest disk that is smaller than all cells of resolution 15, and the next */
    CHECK(maxGridDiskSize(13780509, &size) == E_SUCCESS && size == 569707326238771);
    CHECK(maxGridDiskSize(13780510, &size) == E_SUCCESS && size == 569707381193162);
    CHECK(maxGridDiskSize(2147483647, &size) == E_SUCCESS && size == 569707381193162);
}

/* More cells than an int64_t counts: 2^63 / 4747561509943 is 1942759 and some */
static void of_too_many(void) {
    enum { MOST = 1942759 };
    H3Index *cells = (H3Index *)malloc((MOST + 1) * sizeof *cells);
    int64_t size = 0;
    int i;
    if (!cells) exit(2);
    for (i = 0; i <= MOST; i++) cells[i] = 0x8029fffffffffffU;
    CHECK(uncompactCellsSize(cells, MOST, 15, &size) == E_SUCCESS && size == (int64_t)MOST * 4747561509943);
    CHECK(uncompactCellsSize(cells, MOST + 1, 15, &size) == E_MEMORY_BOUNDS);
    CHECK(size == (int64_t)MOST * 4747561509943);
    free(cells);
}

static void of_errors(void) {
    CHECK(strcmp(describeH3Error(E_SUCCESS), "Success") == 0);
    CHECK(strcmp(describeH3Error(E_CELL_INVALID), "Cell argument was not valid") == 0);
    CHECK(strcmp(describeH3Error(E_OPTION_INVALID), "Mode or flags argument was not valid") == 0);
    CHECK(strcmp(describeH3Error(16), "Invalid error code") == 0);
    CHECK(strcmp(describeH3Error(UINT32_MAX), "Invalid error code") == 0);
}

int main(void) {
    of_one_index();
    of_several();
    of_lists();
    of_padded_lists();
    of_sizes();
    of_too_many();
    of_errors();
    return counts();
}
