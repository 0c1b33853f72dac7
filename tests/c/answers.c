/* What the library returns for lists of cells, one on a line of standard input, in the form of the
 * command h3:
 *
 * answers cells SEED COUNT RES
 *     makes a list: random cells of a resolution, of which some are pentagons
 * answers mixed SEED
 *     makes a list: random cells of several resolutions that do not overlap, in any order
 * answers compare RES LIST
 *     compares what `h3 uncompactCells -r RES` has written for LIST with what each function
 *     returns for the cells and for their descendants
 * answers FUNCTION [RES]
 *     compactCells, uniteCells, uncompactCells, and the functions for columns, an answer a line; an error as
 *     `error 5: E_CELL_INVALID` */
#include "h3whole.h"
#include "check.h"
#include <inttypes.h>
#include <stdlib.h>

#define ROOM(array) (sizeof(array) / sizeof *(array))

/* ---- lists */

typedef struct {
    H3Index *cells;
    size_t n, room;
} List;

static void *granted(void *place) {
    if (!place) exit(3);
    return place;
}

static void put(List *list, H3Index cell) {
    if (list->n == list->room) {
        list->room = 2 * list->room + 1024;
        list->cells = (H3Index *)granted(realloc(list->cells, list->room * sizeof *list->cells));
    }
    list->cells[list->n++] = cell;
}

static List read_list(FILE *from) {
    List list = {NULL, 0, 0};
    char line[80];
    put(&list, H3_NULL), list.n = 0; /* never null */
    while (fgets(line, sizeof line, from)) {
        H3Index index;
        if (h3w_stringToH3(line, strcspn(line, "\n"), &index)) exit(4);
        put(&list, index);
    }
    return list;
}

static void print_index(H3Index index) {
    char text[17];
    if (h3w_h3ToString(index, text, sizeof text)) exit(5);
    puts(text);
}

static void print_list(const H3Index *cells, size_t n) {
    size_t i;
    for (i = 0; i < n; i++) print_index(cells[i]);
}

static int print_error(H3Error error) {
    static const char *const names[] = {
        [E_SUCCESS] = "",
        [E_FAILED] = "E_FAILED",
        [E_DOMAIN] = "E_DOMAIN",
        [E_RES_DOMAIN] = "E_RES_DOMAIN",
        [E_CELL_INVALID] = "E_CELL_INVALID",
        [E_DIR_EDGE_INVALID] = "E_DIR_EDGE_INVALID",
        [E_DUPLICATE_INPUT] = "E_DUPLICATE_INPUT",
        [E_RES_MISMATCH] = "E_RES_MISMATCH",
        [E_MEMORY_ALLOC] = "E_MEMORY_ALLOC",
    };
    const char *name = error < ROOM(names) ? names[error] : NULL;
    if (error) printf("error %u: %s\n", error, name ? name : "");
    return error != E_SUCCESS;
}

/* ---- random lists */

static uint64_t state;

static uint64_t random_below(uint64_t bound) {
    state ^= state << 13;
    state ^= state >> 7;
    state ^= state << 17;
    return state % bound;
}

static H3Index random_cell(int res) {
    H3Index cells[122], cell;
    int64_t size = 0;
    if (h3w_getRes0Cells(cells, 122) || h3w_getPentagons(res, cells, 122)) exit(6);
    /* a pentagon of the resolution, or a descendant of a base cell */
    if (random_below(20) == 0) return cells[random_below(12)];
    if (h3w_getRes0Cells(cells, 122)) exit(6);
    cell = cells[random_below(122)];
    if (h3w_cellToChildrenSize(cell, res, &size) ||
        h3w_childPosToCell((int64_t)random_below((uint64_t)size), cell, res, &cell))
        exit(6);
    return cell;
}

/* Puts a cell, or in most cases the cells below it, of which a few are left out. */
static void put_below(List *list, H3Index cell, int levels) {
    H3Index children[7];
    int64_t size = 0, i;
    int res = h3w_getResolution(cell) + 1;
    if (levels == 0 || random_below(3) == 0) {
        if (random_below(60)) put(list, cell);
        return;
    }
    if (h3w_cellToChildrenSize(cell, res, &size) || h3w_cellToChildren(cell, res, children, 7)) exit(7);
    for (i = 0; i < size; i++) put_below(list, children[i], levels - 1);
}

static void shuffle(List *list) {
    size_t i;
    for (i = list->n; i > 1; i--) {
        size_t j = (size_t)random_below(i);
        H3Index cell = list->cells[i - 1];
        list->cells[i - 1] = list->cells[j];
        list->cells[j] = cell;
    }
}

static int mixed(void) {
    List list = {NULL, 0, 0};
    H3Index bases[122];
    size_t i;
    if (h3w_getRes0Cells(bases, 122)) return 1;
    for (i = 0; i < 122; i++) put_below(&list, bases[i], 5);
    shuffle(&list);
    print_list(list.cells, list.n);
    free(list.cells);
    return 0;
}

/* ---- answers */

/* Whether each function says that a cell of a resolution is at this position below another one. */
static int is_child(H3Index cell, int64_t position, H3Index child, int res) {
    H3Index index = 0;
    int64_t found = -1;
    char text[17];
    int above = h3w_getResolution(cell);
    return h3w_isValidCell(child) == 1 && h3w_getResolution(child) == res &&
           h3w_getBaseCellNumber(child) == h3w_getBaseCellNumber(cell) &&
           h3w_cellToParent(child, above, &index) == E_SUCCESS && index == cell &&
           h3w_cellToChildPos(child, above, &found) == E_SUCCESS && found == position &&
           h3w_childPosToCell(position, cell, res, &index) == E_SUCCESS && index == child &&
           h3w_h3ToString(child, text, 17) == E_SUCCESS && h3w_stringToH3(text, strlen(text), &index) == E_SUCCESS &&
           index == child;
}

/* Whether a list begins with the descendants of a cell; how many they are. */
static int begins_with_children(H3Index cell, int res, const H3Index *list, size_t n, int64_t *size) {
    H3Index center = 0, last = 0;
    int64_t position = 0;
    *size = 0;
    if (h3w_cellToChildrenSize(cell, res, size) || (uint64_t)*size > n) return 0;
    while (position < *size && is_child(cell, position, list[position], res)) position++;
    return position == *size && h3w_cellToCenterChild(cell, res, &center) == E_SUCCESS && center == list[0] &&
           h3w_cellToLastChild(cell, res, &last) == E_SUCCESS && last == list[*size - 1];
}

static int compare(int res, const char *path) {
    FILE *file = fopen(path, "r");
    List cells, descendants = read_list(stdin);
    int64_t size = 0;
    size_t i, at = 0;
    if (!file) return 2;
    cells = read_list(file);
    for (i = 0; i < cells.n; i++) {
        CHECK(begins_with_children(cells.cells[i], res, descendants.cells + at, descendants.n - at, &size));
        at += (size_t)size;
    }
    CHECK(at == descendants.n);
    fclose(file);
    free(cells.cells);
    free(descendants.cells);
    return counts();
}

typedef H3Error Region(const H3Index *, size_t, H3Index *, size_t, size_t *);

static int compacted(Region *region, const List *list) {
    H3Index *out = (H3Index *)granted(malloc(list->n * sizeof *out + 1));
    size_t count = 0;
    H3Error error = region(list->cells, list->n, out, list->n, &count);
    if (!error) print_list(out, count);
    free(out);
    return print_error(error);
}

/* As many descendants as there are: an int64_t is enough for those of lists that can be printed. */
static int uncompacted(const List *list, int res) {
    int64_t size = 0, all = 0;
    size_t i;
    H3Index *out;
    H3Error error;
    for (i = 0; i < list->n; i++)
        if (!h3w_cellToChildrenSize(list->cells[i], res, &size)) all += size;
    out = (H3Index *)granted(malloc((size_t)all * sizeof *out + 1));
    error = h3w_uncompactCells(list->cells, list->n, out, (size_t)all, res);
    if (!error) print_list(out, (size_t)all);
    free(out);
    return print_error(error);
}

typedef H3Error Numbers(const H3Index *, size_t, int *, size_t, size_t *);
typedef H3Error Cells(const H3Index *, size_t, int, H3Index *, size_t, size_t *);
typedef H3Error Counts(const H3Index *, size_t, int, int64_t *, size_t, size_t *);

static H3Error origins(const H3Index *edges, size_t n, int res, H3Index *out, size_t room, size_t *at) {
    (void)res;
    return h3w_getDirectedEdgeOrigins(edges, n, out, room, at);
}

static const struct {
    const char *name;
    Numbers *numbers;
    Cells *cells;
    Counts *counts;
    int is_truth;
} columns[] = {
    {"isValidCell", h3w_areValidCells, NULL, NULL, 1},
    {"isValidDirectedEdge", h3w_areValidDirectedEdges, NULL, NULL, 1},
    {"getResolution", h3w_getResolutions, NULL, NULL, 0},
    {"getBaseCellNumber", h3w_getBaseCellNumbers, NULL, NULL, 0},
    {"isPentagon", h3w_arePentagons, NULL, NULL, 1},
    {"isResClassIII", h3w_areResClassIII, NULL, NULL, 1},
    {"cellToParent", NULL, h3w_cellsToParents, NULL, 0},
    {"cellToCenterChild", NULL, h3w_cellsToCenterChildren, NULL, 0},
    {"cellToLastChild", NULL, h3w_cellsToLastChildren, NULL, 0},
    {"cellToChildrenSize", NULL, NULL, h3w_cellsToChildrenSizes, 0},
    {"cellToChildPos", NULL, NULL, h3w_cellsToChildPositions, 0},
    {"getDirectedEdgeOrigin", NULL, origins, NULL, 0},
};

/* The part of a column from `from` on up to the first error is printed, and then the error; returns
 * where it ends. */
static size_t column_from(size_t from, size_t which, const List *list, int res) {
    size_t n = list->n - from, at = 0, i;
    const H3Index *cells = list->cells + from;
    H3Index *out = (H3Index *)granted(malloc(n * sizeof *out));
    int *numbers = (int *)(void *)out;
    int64_t *sizes = (int64_t *)(void *)out;
    H3Error error = columns[which].numbers ? columns[which].numbers(cells, n, numbers, n, &at)
                    : columns[which].cells ? columns[which].cells(cells, n, res, out, n, &at)
                                           : columns[which].counts(cells, n, res, sizes, n, &at);
    for (i = 0; i < at; i++) {
        if (columns[which].cells) print_index(out[i]);
        else if (columns[which].counts) printf("%" PRId64 "\n", sizes[i]);
        else if (columns[which].is_truth) puts(numbers[i] ? "true" : "false");
        else printf("%d\n", numbers[i]);
    }
    print_error(error);
    free(out);
    return from + at + (error ? 1 : 0);
}

/* The error of a function of one index: a column is told of a number that is no resolution only
 * once, before its indexes. */
static H3Error error_of(const char *name, H3Index index, int res) {
    H3Index cell;
    int64_t count;
    return !strcmp(name, "cellToParent")         ? h3w_cellToParent(index, res, &cell)
           : !strcmp(name, "cellToCenterChild")  ? h3w_cellToCenterChild(index, res, &cell)
           : !strcmp(name, "cellToLastChild")    ? h3w_cellToLastChild(index, res, &cell)
           : !strcmp(name, "cellToChildrenSize") ? h3w_cellToChildrenSize(index, res, &count)
                                                 : h3w_cellToChildPos(index, res, &count);
}

static int column(const char *name, const List *list, int res) {
    size_t which = 0, at = 0;
    while (which < ROOM(columns) && strcmp(columns[which].name, name)) which++;
    if (which == ROOM(columns)) return 2;
    if (strncmp(name, "cellTo", 6) == 0 && (res < 0 || res > 15)) {
        for (at = 0; at < list->n; at++) print_error(error_of(name, list->cells[at], res));
        return 0;
    }
    while (at < list->n) at = column_from(at, which, list, res);
    return 0;
}

static int of_list(int count, char **words) {
    int res = count > 2 ? atoi(words[2]) : 0, status;
    List list = read_list(stdin);
    if (!strcmp(words[1], "compactCells")) status = compacted(h3w_compactCells, &list);
    else if (!strcmp(words[1], "uniteCells")) status = compacted(h3w_uniteCells, &list);
    else if (!strcmp(words[1], "uncompactCells")) status = uncompacted(&list, res);
    else status = column(words[1], &list, res);
    free(list.cells);
    return status;
}

int main(int count, char **words) {
    if (count == 5 && !strcmp(words[1], "cells")) {
        long left = atol(words[3]);
        for (state = (uint64_t)atol(words[2]) + 88172645463325252U; left > 0; left--)
            print_index(random_cell(atoi(words[4])));
        return 0;
    }
    if (count == 3 && !strcmp(words[1], "mixed")) {
        state = (uint64_t)atol(words[2]) + 88172645463325252U;
        return mixed();
    }
    if (count == 4 && !strcmp(words[1], "compare")) return compare(atoi(words[2]), words[3]);
    return count < 2 ? 2 : of_list(count, words);
}
