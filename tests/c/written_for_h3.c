/* A program as H3's documentation has them: over the page h3api.h, with arrays that H3_NULL fills up. Each line of
 * standard input is a cell. It prints them compacted, uncompacted, and with their disks of one step, and each error in
 * words. */
#include "h3api.h"
#include <inttypes.h>
#include <stdio.h>
#include <stdlib.h>

#define MOST 64

static void end_with(const char *what, H3Error error) {
    printf("%s: %s\n", what, describeH3Error(error));
    exit(1);
}

static void print_cells(const char *name, const H3Index *cells, int64_t n) {
    int64_t i;
    printf("%s:", name);
    for (i = 0; i < n; i++) {
        char text[17];
        if (cells[i] == H3_NULL) continue;
        if (h3ToString(cells[i], text, sizeof text) == E_SUCCESS) printf(" %s", text);
    }
    printf("\n");
}

static void print_disk(H3Index origin, int k) {
    int64_t size;
    H3Index *disk, edge, ends[2];
    H3Error error = maxGridDiskSize(k, &size);
    if (error) end_with("maxGridDiskSize", error);
    disk = calloc((size_t)size, sizeof *disk);
    if (!disk) exit(2);
    error = gridDiskUnsafe(origin, k, disk);
    if (error) {
        printf("disk: %s\n", describeH3Error(error));
    } else {
        print_cells("disk", disk, size);
        error = cellsToDirectedEdge(origin, disk[1], &edge);
        if (!error) error = directedEdgeToCells(edge, ends);
        if (error) end_with("edge", error);
        print_cells("edge", ends, 2);
    }
    free(disk);
}

int main(void) {
    H3Index cells[MOST] = {0}, compacted[MOST] = {0}, *uncompacted;
    char line[80];
    int64_t n = 0, size = 0;
    H3Error error;
    while (n < MOST / 2 && fgets(line, sizeof line, stdin)) {
        /* every other place stays H3_NULL */
        error = stringToH3(line, &cells[2 * n++]);
        if (error) end_with("stringToH3", error);
    }
    error = compactCells(cells, compacted, MOST);
    if (error) end_with("compactCells", error);
    print_cells("compacted", compacted, MOST);
    error = uncompactCellsSize(compacted, MOST, 6, &size);
    if (error) end_with("uncompactCellsSize", error);
    printf("size: %" PRId64 "\n", size);
    uncompacted = calloc((size_t)size + 1, sizeof *uncompacted);
    if (!uncompacted) return 2;
    error = uncompactCells(compacted, MOST, uncompacted, size, 6);
    if (error) end_with("uncompactCells", error);
    print_cells("uncompacted", uncompacted, size);
    free(uncompacted);
    print_disk(cells[0], 1);
    return 0;
}
