/* What the library returns over a base cell table for cells, one on a line of standard input, in the form of the
 * command h3:
 *
 * walks table plain|twisted 1|2
 *     writes the file of a table, in format 1 or 2
 * walks FILE FUNCTION K
 *     gridDiskUnsafe, gridDiskDistancesUnsafe, gridRingUnsafe: the walk around each cell
 * walks FILE pairs
 *     for each cell and its disk of radius 1: areNeighborCells, and cellsToDirectedEdge and back by
 *     getDirectedEdgeDestination; counts what agrees */
#include "h3whole.h"
#include "check.h"
#include "tables.h"
#include <stdlib.h>

static H3wTable table;

static void *granted(void *place) {
    if (!place) exit(3);
    return place;
}

static int read_table(const char *path) {
    char *bytes = (char *)granted(malloc(FILE_ROOM));
    FILE *file = fopen(path, "rb");
    H3wTableFault fault = {99, 0, 0};
    if (file) {
        table = h3w_readTable(bytes, fread(bytes, 1, FILE_ROOM, file), &fault);
        fclose(file);
    }
    free(bytes);
    return fault.code == H3W_TABLE_ACCEPTED;
}

static void print_cells(const H3Index *cells, const int *rings, size_t n) {
    size_t i;
    char text[17];
    for (i = 0; i < n && cells[i] != H3_NULL; i++) {
        if (h3w_h3ToString(cells[i], text, sizeof text)) exit(5);
        if (rings) printf("%s %d\n", text, rings[i]);
        else puts(text);
    }
}

/* The walks end with no error, or with that of a pentagon. */
static void walk(const char *name, H3Index cell, int k) {
    size_t room = 3 * (size_t)k * ((size_t)k + 1) + 1;
    H3Index *out = (H3Index *)granted(calloc(room, sizeof *out));
    int *rings = (int *)granted(calloc(room, sizeof *rings));
    H3Error error;
    if (strcmp(name, "gridRingUnsafe") == 0) error = h3w_gridRingUnsafe(&table, cell, k, out, room);
    else if (strcmp(name, "gridDiskUnsafe") == 0) error = h3w_gridDiskUnsafe(&table, cell, k, out, room);
    else error = h3w_gridDiskDistancesUnsafe(&table, cell, k, out, room, rings, room);
    print_cells(out, strcmp(name, "gridDiskDistancesUnsafe") == 0 ? rings : NULL, room);
    if (error) puts(error == E_PENTAGON ? "error 9: E_PENTAGON" : "another error");
    free(rings);
    free(out);
}

static void pairs(H3Index cell) {
    H3Index disk[7], edge = 0, back = 0;
    int are = 7, i, wanted;
    if (h3w_gridDiskUnsafe(&table, cell, 1, disk, 7)) return;
    for (i = 0; i < 7; i++) {
        wanted = i > 0;
        CHECK(h3w_areNeighborCells(&table, cell, disk[i], &are) == E_SUCCESS && are == wanted);
        CHECK(h3w_areNeighborCells(&table, disk[i], cell, &are) == E_SUCCESS && are == wanted);
        CHECK(h3w_cellsToDirectedEdge(&table, cell, disk[i], &edge) == (H3Error)(wanted ? E_SUCCESS : E_NOT_NEIGHBORS));
        if (!wanted) continue;
        CHECK(h3w_getDirectedEdgeOrigin(edge, &back) == E_SUCCESS && back == cell);
        CHECK(h3w_getDirectedEdgeDestination(&table, edge, &back) == E_SUCCESS && back == disk[i]);
    }
}

int main(int words, char **word) {
    char line[80], *file;
    H3Index cell;
    if (words == 4 && strcmp(word[1], "table") == 0) {
        file = (char *)granted(malloc(FILE_ROOM));
        fwrite(file, 1, write_table(file, strcmp(word[2], "plain") == 0 ? PLAIN : TWISTED, atoi(word[3])), stdout);
        free(file);
        return 0;
    }
    if (words < 3 || !read_table(word[1])) return 2;
    while (fgets(line, sizeof line, stdin)) {
        if (h3w_stringToH3(line, strcspn(line, "\n"), &cell)) return 4;
        if (words == 4) walk(word[2], cell, atoi(word[3]));
        else pairs(cell);
    }
    return words == 4 ? 0 : counts();
}
