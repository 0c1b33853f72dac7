/* The whole-number functions of H3 version 4: cells, their hierarchy, compaction, regions and zones, and directed
 * edges.
 *
 * The library, libh3whole, is compiled from proved code: docs/PROVED.md says what the contract of each function
 * promises. Nothing checks a C caller against it: callers must follow the rules in this header.
 *
 * Names. Each function has H3's name after `h3w_`, so this library and one with H3's own names can be in one program.
 * Define H3WHOLE_BARE_NAMES before you include this header to get H3's bare names and signatures (at its end), for
 * programs that are written for h3api.h.
 *
 * Errors. A function that can fail returns an H3Error: E_SUCCESS, or the error of H3's table that says why. If more
 * than one applies, the first in the order of its comment is returned. Unless its comment says more, a function writes
 * its results on E_SUCCESS alone, and otherwise leaves the caller's memory as it was.
 *
 * Memory. An array is passed as its first element and its length. Each pointer points to that many elements
 * (an `int64_t *out` or the like: to one). It is never null, also if the length is 0. What a function writes to
 * overlaps nothing else that it is passed. If an array is too short for what is to be written, the error is
 * E_MEMORY_BOUNDS. No function keeps what it is passed. compactCells, uncompactCells, uniteCells, intersectCells,
 * subtractCells, zones, areas, cellsToAreas, findOverlap and readTable alone take memory, by malloc, and free it before
 * they return: E_MEMORY_ALLOC, or H3W_TABLE_MEMORY, if they get none. readTable uses up to 64 KiB of stack. For 512
 * cells or more, cellsToZones, areCoveredCells and countCellsInZones use up to 18 KiB, and cellsToZonesPlaces up to
 * 19 KiB.
 *
 * Threads. Each function may be called from any number of threads at once: the library has no variable that
 * changes. Two calls at once may read the same memory, and must not write to the same. Memory must stay as it is during
 * a call that reads it. If another thread writes to it, the call may return and write anything, also what no memory
 * could give, but it writes nothing outside of the arrays, and does not end the process. The bytes of an H3wTable are
 * the exception: they must never change.
 *
 * Units. A resolution is 0 to 15, a base cell 0 to 121. A position and a size count cells. */
#ifndef H3WHOLE_H
#define H3WHOLE_H
#include <stddef.h>
#include <stdint.h>
#include <stdlib.h>
#include <string.h>

/** The version of this header. h3w_version returns that of the library which runs. */
#define H3WHOLE_VERSION "1.3.0"

/* H3's own header has the same types and numbers: a program that includes both includes that one first. */
#ifndef H3API_H
typedef uint64_t H3Index;
typedef uint32_t H3Error;

#define H3_NULL 0

typedef enum {
    E_SUCCESS = 0,
    E_FAILED = 1,
    E_DOMAIN = 2,
    E_LATLNG_DOMAIN = 3, /* never returned here */
    E_RES_DOMAIN = 4,
    E_CELL_INVALID = 5,
    E_DIR_EDGE_INVALID = 6,
    E_UNDIR_EDGE_INVALID = 7, /* never returned here */
    E_VERTEX_INVALID = 8,     /* never returned here */
    E_PENTAGON = 9,
    E_DUPLICATE_INPUT = 10,
    E_NOT_NEIGHBORS = 11,
    E_RES_MISMATCH = 12,
    E_MEMORY_ALLOC = 13,
    E_MEMORY_BOUNDS = 14,
    E_OPTION_INVALID = 15 /* never returned here */
} H3ErrorCodes;
#endif

/** A base cell table: how the base cells lie beside each other. It is the caller's, on the stack, in a variable or in
 * allocated memory. There is nothing in it to free; it may be copied, and read from many threads at once. The bytes of
 * a table are those that h3w_readTable returned, or a copy of them, or all 0, which is as a refused table. With any
 * others the behavior is undefined: memory outside of the table may be read. So never store a table in a file or take
 * one from there; store the file that h3w_readTable reads. */
typedef struct {
    uint8_t bytes[1465];
} H3wTable;

/** Why a table file is refused, in the order in which the errors are found. `at` and `direction` of H3wTableFault are
 * 0 if the code names none. Record 1 is the header. */
typedef enum {
    H3W_TABLE_ACCEPTED = 0,
    H3W_TABLE_READ = 1,      /* never returned here */
    H3W_TABLE_MEMORY = 2,    /* no memory */
    H3W_TABLE_FORM = 3,      /* record `at` is malformed */
    H3W_TABLE_RANGE = 4,     /* record `at` has a number out of range */
    H3W_TABLE_REPEATED = 5,  /* record `at` repeats an earlier one */
    H3W_TABLE_MISSING = 6,   /* some base cell and direction have no link */
    H3W_TABLE_NEIGHBORS = 7, /* base cell `at` and its neighbors are not seven different base cells */
    H3W_TABLE_REVERSAL = 8,  /* the link of base cell `at` in `direction` is not undone by the link back */
    H3W_TABLE_CORNER = 9     /* the links around the corner of base cell `at` after `direction` do not agree */
} H3wTableCodes;

typedef struct {
    uint32_t code;
    uint32_t direction; /* 1 to 6 */
    uint64_t at;
} H3wTableFault;

#ifdef __cplusplus
extern "C" {
#endif

/** Returns the version of the library as a number: 10,000 * major + 100 * minor + patch. */
int h3w_version(void);

/* ---- Inspection */

/** Tests an index.
 * @return 1 if it is a valid cell, else 0 */
int h3w_isValidCell(H3Index h);

/** Returns the resolution of a cell. H3's own function returns the bits of any number.
 * @return 0 to 15, or -1 if `h` is not a valid cell */
int h3w_getResolution(H3Index h);

/** Returns the base cell of a cell. H3's own function returns the bits of any number.
 * @return 0 to 121, or -1 if `h` is not a valid cell */
int h3w_getBaseCellNumber(H3Index h);

/** Tests an index.
 * @return 1 if it is a valid pentagon, else 0 */
int h3w_isPentagon(H3Index h);

/** Tests an index.
 * @return 1 if it is a valid cell whose resolution is Class III, which is odd; else 0 */
int h3w_isResClassIII(H3Index h);

/* ---- Resolutions */

/** Counts the cells of a resolution.
 * @param out receives the number
 * @return E_SUCCESS; E_RES_DOMAIN: not a resolution */
H3Error h3w_getNumCells(int res, int64_t *out);

/** Lists the 122 cells of resolution 0, ascending.
 * @param room the length of `out`
 * @return E_SUCCESS; E_MEMORY_BOUNDS: room for fewer than 122; as many as fit are written */
H3Error h3w_getRes0Cells(H3Index *out, size_t room);

/** Lists the 12 pentagons of a resolution, ascending.
 * @param room the length of `out`
 * @return E_SUCCESS; E_RES_DOMAIN: not a resolution; E_MEMORY_BOUNDS: room for fewer than 12; as many as fit are
 * written */
H3Error h3w_getPentagons(int res, H3Index *out, size_t room);

/* ---- Hierarchy */

/** Finds the ancestor of a cell.
 * @param parentRes the ancestor's resolution
 * @param out receives the ancestor
 * @return E_SUCCESS; E_CELL_INVALID: not a valid cell; E_RES_DOMAIN: not a resolution; E_RES_MISMATCH: finer than the
 * cell's */
H3Error h3w_cellToParent(H3Index cell, int parentRes, H3Index *out);

/** Finds the descendant in the center of a cell.
 * @param childRes the descendant's resolution
 * @param out receives the descendant
 * @return E_SUCCESS; E_CELL_INVALID: not a valid cell; E_RES_DOMAIN: not a resolution, or coarser than the cell's */
H3Error h3w_cellToCenterChild(H3Index cell, int childRes, H3Index *out);

/** Finds the last descendant of a cell at a resolution, which has the greatest index. The cells of the resolution from
 * the one in the center to the last one, by their numbers, are the cell's descendants there, and no others. Not a
 * function of H3.
 * @param childRes the descendant's resolution
 * @param out receives the descendant
 * @return E_SUCCESS; E_CELL_INVALID: not a valid cell; E_RES_DOMAIN: not a resolution, or coarser than the cell's */
H3Error h3w_cellToLastChild(H3Index cell, int childRes, H3Index *out);

/** Counts the descendants of a cell at a resolution.
 * @param childRes the descendants' resolution
 * @param out receives the number
 * @return E_SUCCESS; E_CELL_INVALID: not a valid cell; E_RES_DOMAIN: not a resolution, or coarser than the cell's */
H3Error h3w_cellToChildrenSize(H3Index cell, int childRes, int64_t *out);

/** Lists the descendants of a cell at a resolution, ascending: as many as h3w_cellToChildrenSize returns.
 * @param childRes the descendants' resolution
 * @param room the length of `out`
 * @return E_SUCCESS; E_CELL_INVALID: not a valid cell; E_RES_DOMAIN: not a resolution, or coarser than the cell's;
 * E_MEMORY_BOUNDS: room for fewer; as many as fit are written */
H3Error h3w_cellToChildren(H3Index cell, int childRes, H3Index *out, size_t room);

/** Finds the position of a cell, from 0 on, among the descendants of its ancestor at a resolution.
 * @param parentRes the ancestor's resolution
 * @param out receives the position
 * @return E_SUCCESS; E_CELL_INVALID: not a valid cell; E_RES_DOMAIN: not a resolution; E_RES_MISMATCH: finer than the
 * cell's */
H3Error h3w_cellToChildPos(H3Index child, int parentRes, int64_t *out);

/** Finds the descendant of a cell at a position.
 * @param childPos the position, from 0 on
 * @param childRes the descendant's resolution
 * @param out receives the descendant
 * @return E_SUCCESS; E_CELL_INVALID: not a valid cell; E_RES_DOMAIN: not a resolution; E_RES_MISMATCH: coarser than the
 * cell's; E_DOMAIN: no descendant has this position, as none has one below 0 */
H3Error h3w_childPosToCell(int64_t childPos, H3Index parent, int childRes, H3Index *out);

/* ---- Texts */

/** Writes an index as lower-case hexadecimal, 1 to 16 digits, and a 0 byte. The first 17 bytes may change; what follows
 * the 0 byte in them is unspecified.
 * @param room the length of `str`
 * @return E_SUCCESS; E_MEMORY_BOUNDS: room for fewer than 17 bytes; nothing is written */
H3Error h3w_h3ToString(H3Index h, char *str, size_t room);

/** Parses n bytes of text as an index. Spaces, tabs and carriage returns at both ends are dropped, then an optional 0x
 * or 0X; what is left is 1 to 16 hexadecimal digits of either case.
 * @param out receives the index, which need not be that of a cell
 * @return E_SUCCESS; E_FAILED: any other text */
H3Error h3w_stringToH3(const char *text, size_t n, H3Index *out);

/* ---- Directed edges */

/** Tests an index.
 * @return 1 if it is a valid directed edge, else 0 */
int h3w_isValidDirectedEdge(H3Index edge);

/** Finds the cell that an edge leaves.
 * @param out receives the cell
 * @return E_SUCCESS; E_DIR_EDGE_INVALID: not a valid directed edge */
H3Error h3w_getDirectedEdgeOrigin(H3Index edge, H3Index *out);

/** Lists the six edges that leave a cell, in ascending direction. A pentagon has five, and H3_NULL for the first.
 * @param edges has room for six
 * @return E_SUCCESS; E_CELL_INVALID: not a valid cell */
H3Error h3w_originToDirectedEdges(H3Index origin, H3Index *edges);

/* ---- Over a base cell table. The first error of each function is E_FAILED: the table's file was refused. */

/** Reads a base cell table from the n bytes of a file, in one of the two formats that tools/h3-table writes and the
 * command h3 reads.
 * @param fault is always set: its code is H3W_TABLE_ACCEPTED, or says why the file is refused
 * @return the table; over that of a refused file the functions below return E_FAILED */
H3wTable h3w_readTable(const char *file, size_t n, H3wTableFault *fault);

/** Lists the 3k(k + 1) + 1 cells within k steps of a cell, in the order of the walk: the cell, and then ring by ring.
 * @param k the number of steps
 * @param room the length of `out`
 * @return E_SUCCESS; E_FAILED, as above; E_CELL_INVALID: not a valid cell; E_DOMAIN: k is below 0; E_PENTAGON: the cell
 * is a pentagon, or k is above 0 and its base cell is one; nothing is written. During the walk, whichever comes first:
 * E_MEMORY_BOUNDS: no room for the next cell; E_PENTAGON: the step to it meets a pentagon base cell. Then the cells
 * before are written. */
H3Error h3w_gridDiskUnsafe(const H3wTable *table, H3Index origin, int k, H3Index *out, size_t room);

/** Lists the cells within k steps of a cell, and the ring of each.
 * @param distances receives the ring, 0 to k, at the place of each cell in `out`
 * @param distancesRoom the length of `distances`; what has room in both arrays is written to both
 * @return as h3w_gridDiskUnsafe */
H3Error h3w_gridDiskDistancesUnsafe(const H3wTable *table, H3Index origin, int k, H3Index *out, size_t room,
                                    int *distances, size_t distancesRoom);

/** Lists the disks of n cells, one after another, each as h3w_gridDiskUnsafe lists it: without an error that of
 * cells[i] begins at i * (3k(k + 1) + 1). The first error ends them.
 * @param room the length of `out`
 * @param at receives n; or the place of the cell whose disk has the error
 * @return E_SUCCESS, and if n is 0, whatever the table and k are; or the first error of these disks, each with the room
 * that those before leave. The cells before it are written, also those of its own disk */
H3Error h3w_gridDisksUnsafe(const H3wTable *table, const H3Index *cells, size_t n, int k, H3Index *out, size_t room,
                            size_t *at);

/** Lists the 6k cells at k steps from a cell, in the order of the walk; for k = 0 the cell itself.
 * @param room the length of `out`
 * @return as h3w_gridDiskUnsafe, but a pentagon is refused for k above 0 alone; and E_PENTAGON after its cells if the
 * ring does not close */
H3Error h3w_gridRingUnsafe(const H3wTable *table, H3Index origin, int k, H3Index *out, size_t room);

/** Tests whether two cells are neighbors.
 * @param out receives 1 if a step leads from the one to the other, else 0
 * @return E_SUCCESS; E_FAILED, as above; E_CELL_INVALID: one is not a valid cell; E_RES_MISMATCH: their resolutions
 * differ; E_PENTAGON: they differ, and the base cell of one is a pentagon */
H3Error h3w_areNeighborCells(const H3wTable *table, H3Index origin, H3Index destination, int *out);

/** Finds the edge from a cell to a neighbor.
 * @param out receives the edge
 * @return E_SUCCESS; E_FAILED, as above; E_CELL_INVALID: one is not a valid cell; E_RES_MISMATCH: their resolutions
 * differ; E_NOT_NEIGHBORS: they are the same; E_PENTAGON: the base cell of one is a pentagon; E_NOT_NEIGHBORS: no step
 * leads from the one to the other */
H3Error h3w_cellsToDirectedEdge(const H3wTable *table, H3Index origin, H3Index destination, H3Index *out);

/** Finds the cell that an edge leads to.
 * @param out receives the cell
 * @return E_SUCCESS; E_FAILED, as above; E_DIR_EDGE_INVALID: not a valid directed edge; E_PENTAGON: the base cell of
 * the edge's origin, or of that cell, is a pentagon */
H3Error h3w_getDirectedEdgeDestination(const H3wTable *table, H3Index edge, H3Index *out);

/* ---- Sets of cells. Both take memory: 8 bytes for each of the n cells. */

/** Compacts n cells: writes the shortest list of cells that covers the same, ascending.
 * @param room the length of `out`
 * @param count receives the length of the compacted list, at most n
 * @return E_SUCCESS; E_MEMORY_ALLOC: no memory; E_CELL_INVALID: an index is not a valid cell; E_DUPLICATE_INPUT: a cell
 * is listed twice, or with an ancestor of it; E_MEMORY_BOUNDS: room for fewer; as many as fit are written, and `*count`
 * is how many there are */
H3Error h3w_compactCells(const H3Index *cells, size_t n, H3Index *out, size_t room, size_t *count);

/** Lists the descendants at a resolution of the first cell, ascending, then those of the second, and so on.
 * @param room the length of `out`
 * @param res the descendants' resolution
 * @return E_SUCCESS; E_MEMORY_ALLOC: no memory; E_CELL_INVALID: an index is not a valid cell; E_RES_DOMAIN: not a
 * resolution; E_RES_MISMATCH: a cell is finer; E_MEMORY_BOUNDS: room for fewer; as many as fit are written */
H3Error h3w_uncompactCells(const H3Index *cells, size_t n, H3Index *out, size_t room, int res);

/* ---- Regions: what lists of cells cover. A list may repeat cells, and its cells may overlap. What is written is the
 * shortest list of cells that covers the same, ascending: the compacted list. */

/** Writes the region of n cells: what they cover. It takes 8 bytes of memory for each of the n cells.
 * @param room the length of `out`
 * @param count receives the length of the compacted list, at most n
 * @return E_SUCCESS; E_MEMORY_ALLOC: no memory; E_CELL_INVALID: an index is not a valid cell; E_MEMORY_BOUNDS: room for
 * fewer; as many as fit are written, and `*count` is how many there are */
H3Error h3w_uniteCells(const H3Index *cells, size_t n, H3Index *out, size_t room, size_t *count);

/** Writes the region of what both lists of cells cover. It takes up to 16 bytes of memory for each cell of both, and 8
 * for each that is written.
 * @param room the length of `out`
 * @param count receives the length of the compacted list, at most n + m
 * @return E_SUCCESS; E_MEMORY_ALLOC: no memory; E_CELL_INVALID: an index is not a valid cell, of the first list and
 * then of the second; E_MEMORY_BOUNDS: as h3w_uniteCells */
H3Error h3w_intersectCells(const H3Index *first, size_t n, const H3Index *second, size_t m, H3Index *out, size_t room,
                           size_t *count);

/** Writes the region of what the first list of cells covers and the second does not. It takes up to 16 bytes of memory
 * for each cell of both, and 24 for each that is written.
 * @param room the length of `out`
 * @param count receives the length of the compacted list, at most n + 90 m
 * @return as h3w_intersectCells */
H3Error h3w_subtractCells(const H3Index *first, size_t n, const H3Index *second, size_t m, H3Index *out, size_t room,
                          size_t *count);

/* ---- Zones: cells of which no two overlap, in which other cells are looked up. They are prepared once, by
 * h3w_zones. The zone of a cell is the one that is the cell or an ancestor of it: a cell whose children are zones
 * has none. So to look up what a list of cells covers as a whole, prepare the region that h3w_uniteCells returns for
 * it. */

/** Puts n cells as zones into the first n places of `zones`: the same cells, in an order in which others are looked up.
 * It takes 8 bytes of memory for each of the n cells.
 * @param room the length of `zones`
 * @return E_SUCCESS; E_MEMORY_BOUNDS: room for fewer than n; E_MEMORY_ALLOC: no memory; E_CELL_INVALID: an index is not
 * a valid cell; E_DUPLICATE_INPUT: a cell is listed twice, or with an ancestor of it */
H3Error h3w_zones(const H3Index *cells, size_t n, H3Index *zones, size_t room);

/** Finds the first of n cells that overlaps an earlier one: the same cell, or an ancestor or a descendant of it. So it
 * says why h3w_zones or h3w_compactCells returned E_DUPLICATE_INPUT. It takes 16 bytes of memory for each of the n
 * cells.
 * @param at receives the place of that cell; n if no two overlap; with E_CELL_INVALID the place of the first such index
 * @param earlier receives the first place whose cell it overlaps; n if no two overlap; not written with an error
 * @return E_SUCCESS; E_MEMORY_ALLOC: no memory; E_CELL_INVALID: an index is not a valid cell */
H3Error h3w_findOverlap(const H3Index *cells, size_t n, size_t *at, size_t *earlier);

/* The `zoneCount` zones of each function below are all that h3w_zones, or h3w_areas, has written, or a copy of it.
 * With any others the behavior is undefined: memory outside of the arrays may be read or written. As of other arrays,
 * the pointer is not null if there are no zones. A copy is one that this program has made: of zones from a file, call
 * h3w_zones again. None of the functions takes memory. */

/** Finds the zone of each of n cells.
 * @param out receives the zones; H3_NULL for a cell that has none, or where there is an error
 * @param at, room as those of the columns below
 * @return E_SUCCESS; E_MEMORY_BOUNDS: room for fewer than n; nothing is written, `*at` neither; E_CELL_INVALID: an
 * index is not a valid cell */
H3Error h3w_cellsToZones(const H3Index *zones, size_t zoneCount, const H3Index *cells, size_t n, H3Index *out,
                         size_t room, size_t *at);

/** Says of each of n cells whether it has a zone.
 * @param out receives 1 if a cell has a zone, 0 if not, and -1 where there is an error
 * @param at, room as those of the columns below
 * @return as h3w_cellsToZones */
H3Error h3w_areCoveredCells(const H3Index *zones, size_t zoneCount, const H3Index *cells, size_t n, int *out,
                            size_t room, size_t *at);

/** Counts n cells by zones. The counts and `*others` add up to n, and those of the parts of a list to those of the
 * whole.
 * @param counts receives at the place of each zone how many of the cells have it
 * @param room the length of `counts`
 * @param others receives how many of the cells have none
 * @param at receives n, or the place of the first index that is not a valid cell
 * @return E_SUCCESS; E_MEMORY_BOUNDS: `room` is below zoneCount; nothing is written, `*at` neither; E_CELL_INVALID: an
 * index is not a valid cell; nothing but `*at` is written */
H3Error h3w_countCellsInZones(const H3Index *zones, size_t zoneCount, const H3Index *cells, size_t n, int64_t *counts,
                              size_t room, int64_t *others, size_t *at);

/* The same, by a table of the zones, for many cells in any order, in many zones: if the zones are spread evenly, a cell
 * is looked up in a few steps, however many they are. `table` is caller-provided memory of any size: two to four
 * numbers for each zone serve well. With room for fewer than two in all, or with more than 2^32 - 1 zones, each cell is
 * searched for as without a table. Its contents afterwards are unspecified, also if an error is returned. Writing the
 * table takes a pass over the zones and over the table, so it pays if there are at least a fourth as many cells as
 * zones. */
H3Error h3w_cellsToZonesByTable(const H3Index *zones, size_t zoneCount, const H3Index *cells, size_t n, uint32_t *table,
                                size_t tableRoom, H3Index *out, size_t room, size_t *at);
H3Error h3w_areCoveredCellsByTable(const H3Index *zones, size_t zoneCount, const H3Index *cells, size_t n,
                                   uint32_t *table, size_t tableRoom, int *out, size_t room, size_t *at);
H3Error h3w_countCellsInZonesByTable(const H3Index *zones, size_t zoneCount, const H3Index *cells, size_t n,
                                     uint32_t *table, size_t tableRoom, int64_t *counts, size_t room, int64_t *others,
                                     size_t *at);

/** Writes the table of the zones, once for many calls of the functions below: for a column that is looked up in parts.
 * It has no error. With room for fewer than two numbers, with no zones, or with more than 2^32 - 1, nothing is written.
 * @param table receives the table
 * @param tableRoom the length of `table`, as above */
void h3w_zonesTable(const H3Index *zones, size_t zoneCount, uint32_t *table, size_t tableRoom);

/* The same, in the table that h3w_zonesTable has written of these zones with the same `tableRoom`. It is only read, so
 * threads may share it. A table says where a search begins, and each answer is judged by the zones. With any other
 * numbers in it, as of other zones or another room, what is returned and written is the same, and nothing is read or
 * written outside of the arrays; but a search may take as long as without a table. */
H3Error h3w_cellsToZonesInTable(const H3Index *zones, size_t zoneCount, const H3Index *cells, size_t n,
                                const uint32_t *table, size_t tableRoom, H3Index *out, size_t room, size_t *at);
H3Error h3w_areCoveredCellsInTable(const H3Index *zones, size_t zoneCount, const H3Index *cells, size_t n,
                                   const uint32_t *table, size_t tableRoom, int *out, size_t room, size_t *at);
H3Error h3w_countCellsInZonesInTable(const H3Index *zones, size_t zoneCount, const H3Index *cells, size_t n,
                                     const uint32_t *table, size_t tableRoom, int64_t *counts, size_t room,
                                     int64_t *others, size_t *at);

/* ---- Numbers beside zones: the place of a cell's zone in the caller's own list of zones, by which an array of names
 * is read; or the number of the area in which a cell lies. An area has any cells, which may repeat and overlap; no two
 * areas overlap. */

/** Prepares the areas of n cells: puts the cells as zones into the first places of `zones`, in the order in which
 * others are looked up, and the number of each one's area at the same place of `numbers`. Left out are a cell below
 * another of the same area, and all but one of the same cells of an area. For zones each of which is an area of its
 * own, pass 0, 1, 2, .. as `areas`: then `numbers` has the place of each zone in `cells`. It takes 24 bytes of memory
 * for each of the n cells.
 * @param areas the number of the area that each cell is one of; any numbers
 * @param areaCount, room, numbersRoom the lengths of `areas`, `zones` and `numbers`
 * @param count receives how many zones there are, at most n
 * @return E_SUCCESS; E_MEMORY_BOUNDS: one of these three is below n; E_MEMORY_ALLOC: no memory; E_CELL_INVALID: an
 * index is not a valid cell; E_DUPLICATE_INPUT: two areas overlap: a cell of one is a cell of the other, or an ancestor
 * or a descendant of one */
H3Error h3w_areas(const H3Index *cells, size_t n, const uint32_t *areas, size_t areaCount, H3Index *zones, size_t room,
                  uint32_t *numbers, size_t numbersRoom, size_t *count);

/** Finds the number beside the zone of each of n cells. `places` has a number for each zone, any numbers: those that
 * h3w_areas has written, or others. The zones are those of h3w_areas or h3w_zones, as above.
 * @param placeCount the length of `places`
 * @param out receives the numbers; -1 for a cell that has no zone, or where there is an error
 * @param at, room as those of the columns below
 * @return E_SUCCESS; E_MEMORY_BOUNDS: `placeCount` is below zoneCount, or room for fewer than n; nothing is written,
 * `*at` neither; E_CELL_INVALID: an index is not a valid cell */
H3Error h3w_cellsToZonesPlaces(const H3Index *zones, size_t zoneCount, const uint32_t *places, size_t placeCount,
                               const H3Index *cells, size_t n, int64_t *out, size_t room, size_t *at);

/* The same by a table that the call writes, and in one that h3w_zonesTable has written. */
H3Error h3w_cellsToZonesPlacesByTable(const H3Index *zones, size_t zoneCount, const uint32_t *places, size_t placeCount,
                                      const H3Index *cells, size_t n, uint32_t *table, size_t tableRoom, int64_t *out,
                                      size_t room, size_t *at);
H3Error h3w_cellsToZonesPlacesInTable(const H3Index *zones, size_t zoneCount, const uint32_t *places, size_t placeCount,
                                      const H3Index *cells, size_t n, const uint32_t *table, size_t tableRoom,
                                      int64_t *out, size_t room, size_t *at);

/* ---- Areas that may overlap: a cell may lie in any number of them. */

/** Lists the areas in which each of n cells lies: those that have the cell or an ancestor of it, each once. They are in
 * the order of the resolution of each area's coarsest such cell; if these are the same, by number. The areas of cell i
 * are at numbers[starts[i]] to numbers[starts[i + 1] - 1], of which there may be none, and starts[n] is how many there
 * are in all. It takes 28 bytes of memory for each cell of the areas, and puts them in order in each call.
 * @param areaCells the cells of the areas, which may repeat and overlap, in any order
 * @param areas the number of the area that each of these cells is one of; any numbers
 * @param areaCount the length of `areas`
 * @param starts receives n + 1 places, from 0 on
 * @param startsRoom, room the lengths of `starts` and `numbers`
 * @param at receives n; or the place of the first error
 * @return E_SUCCESS; E_MEMORY_BOUNDS: `areaCount` is below areaCellCount, or `startsRoom` below n + 1; E_MEMORY_ALLOC:
 * no memory; E_CELL_INVALID: an index in `areaCells` is not a valid cell; with these errors nothing is written, `*at`
 * neither. E_MEMORY_BOUNDS: `room` is below starts[n]; as many numbers as fit are written, the starts up to INT64_MAX,
 * and `*at` is the place of the first cell whose areas do not all fit; E_CELL_INVALID: an index in `cells` is not a
 * valid cell; it lies in no area, and all that is asked of the others is written */
H3Error h3w_cellsToAreas(const H3Index *areaCells, size_t areaCellCount, const uint32_t *areas, size_t areaCount,
                         const H3Index *cells, size_t n, int64_t *starts, size_t startsRoom, uint32_t *numbers,
                         size_t room, size_t *at);

/* ---- Columns: one call for n indexes. They are named as the plural commands of h3.
 *
 * The result for each index is written at its place in `out`; if the function of one index returns an error, that is
 * H3_NULL, or -1 if the results are not indexes. h3w_arePentagons and h3w_areResClassIII write -1 and have
 * E_CELL_INVALID for an index that is not a valid cell, where the functions of one index return 0. The functions of one
 * index say what is written, and when there is an error.
 *
 * Returned is the first of these errors, and `*at` is its place; or E_SUCCESS, and `*at` is n. So a column with a few
 * refused indexes takes one call, and a caller who wants none checks the error. If `room` is below n it is
 * E_MEMORY_BOUNDS, and nothing is written. `out` from n on stays as it was.
 *
 * The functions at a resolution judge it first, also if n is 0: E_RES_DOMAIN if it is not a resolution, before any
 * other error. Then nothing is written, `*at` neither. */
H3Error h3w_areValidCells(const H3Index *cells, size_t n, int *out, size_t room, size_t *at); /* 1 or 0 */
H3Error h3w_getResolutions(const H3Index *cells, size_t n, int *out, size_t room, size_t *at);
H3Error h3w_getBaseCellNumbers(const H3Index *cells, size_t n, int *out, size_t room, size_t *at);
H3Error h3w_arePentagons(const H3Index *cells, size_t n, int *out, size_t room, size_t *at);   /* 1 or 0 */
H3Error h3w_areResClassIII(const H3Index *cells, size_t n, int *out, size_t room, size_t *at); /* 1 or 0 */
H3Error h3w_cellsToParents(const H3Index *cells, size_t n, int parentRes, H3Index *out, size_t room, size_t *at);
H3Error h3w_cellsToCenterChildren(const H3Index *cells, size_t n, int childRes, H3Index *out, size_t room, size_t *at);
H3Error h3w_cellsToLastChildren(const H3Index *cells, size_t n, int childRes, H3Index *out, size_t room, size_t *at);
H3Error h3w_cellsToChildrenSizes(const H3Index *cells, size_t n, int childRes, int64_t *out, size_t room, size_t *at);
H3Error h3w_cellsToChildPositions(const H3Index *cells, size_t n, int parentRes, int64_t *out, size_t room, size_t *at);
H3Error h3w_areValidDirectedEdges(const H3Index *edges, size_t n, int *out, size_t room, size_t *at); /* 1 or 0 */
H3Error h3w_getDirectedEdgeOrigins(const H3Index *edges, size_t n, H3Index *out, size_t room, size_t *at);

/* ---- Columns of lists: of n indexes one list, the children of the first index, ascending, then those of the second,
 * and so on, and the places where each one's begin. An index whose h3w_cellToChildrenSize is an error has none.
 *
 * Errors and `*at` are those of the columns at a resolution, but for E_MEMORY_BOUNDS: that comes before the error of an
 * index, and says at `*at` up to which index there was room. */

/** Finds where the children of each index begin: those of index i are at starts[i] to starts[i + 1] - 1, of which there
 * may be none, and starts[n] is how many there are in all. These are the offsets of an Arrow list array.
 * @param starts receives n + 1 places, from 0 on
 * @param room the length of `starts`
 * @param at receives n; or the place of the first error
 * @return E_SUCCESS; E_RES_DOMAIN: not a resolution, and nothing is written; E_MEMORY_BOUNDS: `room` is below n + 1,
 * and nothing is written, `*at` neither; E_MEMORY_BOUNDS: children end above INT64_MAX; then `*at` is the place of the
 * first index whose do, and the starts up to its own are written; or the first error of an index, as of
 * h3w_cellToChildrenSize */
H3Error h3w_cellsToChildrenStarts(const H3Index *cells, size_t n, int childRes, int64_t *starts, size_t room,
                                  size_t *at);

/** Lists the children of each index: as many as starts[n] of h3w_cellsToChildrenStarts.
 * @param room the length of `out`
 * @param at receives n; or the place of the first error
 * @return E_SUCCESS; E_RES_DOMAIN: not a resolution, and nothing is written; E_MEMORY_BOUNDS: room for fewer; as many
 * as fit are written, and `*at` is the place of the first index whose children do not all fit; or the first error of an
 * index, as of h3w_cellToChildren */
H3Error h3w_cellsToChildren(const H3Index *cells, size_t n, int childRes, H3Index *out, size_t room, size_t *at);

#ifdef __cplusplus
}
#endif

/* ---- H3's bare names: its signatures, which pass no lengths. The arrays need the room that H3 asks for. H3's own
 * functions have a table in them: define H3WHOLE_TABLE as the name of a `const H3wTable *` of your program to get those
 * that need one. */
#ifdef H3WHOLE_BARE_NAMES

static inline int isValidCell(H3Index h) { return h3w_isValidCell(h); }
static inline int getResolution(H3Index h) { return h3w_getResolution(h); }
static inline int getBaseCellNumber(H3Index h) { return h3w_getBaseCellNumber(h); }
static inline int isPentagon(H3Index h) { return h3w_isPentagon(h); }
static inline int isResClassIII(H3Index h) { return h3w_isResClassIII(h); }
static inline H3Error getNumCells(int res, int64_t *out) { return h3w_getNumCells(res, out); }
static inline int res0CellCount(void) { return 122; }
static inline H3Error getRes0Cells(H3Index *out) { return h3w_getRes0Cells(out, 122); }
static inline int pentagonCount(void) { return 12; }
static inline H3Error getPentagons(int res, H3Index *out) { return h3w_getPentagons(res, out, 12); }

static inline H3Error cellToParent(H3Index cell, int parentRes, H3Index *out) {
    return h3w_cellToParent(cell, parentRes, out);
}
static inline H3Error cellToCenterChild(H3Index cell, int childRes, H3Index *out) {
    return h3w_cellToCenterChild(cell, childRes, out);
}
static inline H3Error cellToChildrenSize(H3Index cell, int childRes, int64_t *out) {
    return h3w_cellToChildrenSize(cell, childRes, out);
}
/** `children` has room for as many as cellToChildrenSize returns. */
static inline H3Error cellToChildren(H3Index cell, int childRes, H3Index *children) {
    int64_t size;
    H3Error error = h3w_cellToChildrenSize(cell, childRes, &size);
    return error ? error : h3w_cellToChildren(cell, childRes, children, (size_t)size);
}
static inline H3Error cellToChildPos(H3Index child, int parentRes, int64_t *out) {
    return h3w_cellToChildPos(child, parentRes, out);
}
static inline H3Error childPosToCell(int64_t childPos, H3Index parent, int childRes, H3Index *out) {
    return h3w_childPosToCell(childPos, parent, childRes, out);
}

static inline H3Error h3ToString(H3Index h, char *str, size_t sz) { return h3w_h3ToString(h, str, sz); }
/** `str` ends with a 0 byte. Line feeds at its end are dropped, as of a line that fgets has read. */
static inline H3Error stringToH3(const char *str, H3Index *out) {
    size_t n = strlen(str);
    while (n > 0 && str[n - 1] == '\n') n--;
    return h3w_stringToH3(str, n, out);
}

static inline int isValidDirectedEdge(H3Index edge) { return h3w_isValidDirectedEdge(edge); }
static inline H3Error getDirectedEdgeOrigin(H3Index edge, H3Index *out) { return h3w_getDirectedEdgeOrigin(edge, out); }
static inline H3Error originToDirectedEdges(H3Index origin, H3Index *edges) {
    return h3w_originToDirectedEdges(origin, edges);
}

/** What an error is, in words. */
static inline const char *describeH3Error(H3Error err) {
    static const char *const texts[] = {
        "Success",
        "The operation failed but a more specific error is not available",
        "Argument was outside of acceptable range",
        "Latitude or longitude arguments were outside of acceptable range",
        "Resolution argument was outside of acceptable range",
        "Cell argument was not valid",
        "Directed edge argument was not valid",
        "Undirected edge argument was not valid",
        "Vertex argument was not valid",
        "Pentagon distortion was encountered",
        "Duplicate input",
        "Cell arguments were not neighbors",
        "Cell arguments had incompatible resolutions",
        "Memory allocation failed",
        "Bounds of provided memory were insufficient",
        "Mode or flags argument was not valid",
    };
    return err < sizeof texts / sizeof *texts ? texts[err] : "Invalid error code";
}

/** Counts the cells for which an array needs room to hold any disk of k steps: at most as many as resolution 15 has.
 * @return E_SUCCESS; E_DOMAIN: k is below 0 */
static inline H3Error maxGridDiskSize(int k, int64_t *out) {
    uint64_t size;
    H3Error error;
    if (k < 0) return E_DOMAIN;
    error = h3w_getNumCells(15, out);
    size = 3 * (uint64_t)k * ((uint64_t)k + 1) + 1;
    if (!error && size < (uint64_t)*out) *out = (int64_t)size;
    return error;
}

/** A list without its H3_NULLs, in memory that the caller frees; NULL if it has none of them, or if there is no
 * memory. `*count` is its length. */
static inline H3Index *h3w_withoutNulls(const H3Index *cells, size_t n, size_t *count) {
    H3Index *kept;
    size_t i, room;
    for (i = *count = 0; i < n; i++) *count += cells[i] != H3_NULL;
    if (*count == n) return NULL;
    kept = (H3Index *)malloc((*count + 1) * sizeof *kept);
    if (!kept) return NULL;
    for (room = *count, i = *count = 0; i < n && *count < room; i++)
        if (cells[i] != H3_NULL) kept[(*count)++] = cells[i];
    return kept;
}

/** The compacted cells, and after them H3_NULL up to n. H3_NULL among the given ones is passed over. E_DOMAIN: n is
 * below 0. Both pointers may be null where n is 0. */
static inline H3Error compactCells(const H3Index *cells, H3Index *out, const int64_t n) {
    H3Index *kept;
    size_t given = 0, count = 0;
    H3Error error;
    if (n < 0) return E_DOMAIN;
    if (n == 0) return E_SUCCESS;
    kept = h3w_withoutNulls(cells, (size_t)n, &given);
    if (!kept && given < (size_t)n) return E_MEMORY_ALLOC;
    error = h3w_compactCells(kept ? kept : cells, given, out, (size_t)n, &count);
    free(kept);
    if (!error) memset(out + count, 0, ((size_t)n - count) * sizeof *out);
    return error;
}
/** H3_NULL is passed over. E_DOMAIN: a length is below 0. A pointer may be null where its length is 0. */
static inline H3Error uncompactCells(const H3Index *cells, const int64_t n, H3Index *out, const int64_t room,
                                     const int res) {
    H3Index none = H3_NULL, *kept = NULL;
    size_t given = 0;
    H3Error error;
    if (n < 0 || room < 0) return E_DOMAIN;
    if (n > 0) kept = h3w_withoutNulls(cells, (size_t)n, &given);
    if (!kept && given < (size_t)n) return E_MEMORY_ALLOC;
    error = h3w_uncompactCells(kept ? kept : n ? cells : &none, given, room ? out : &none, (size_t)room, res);
    free(kept);
    return error;
}
/** The number of cells that uncompactCells writes. H3_NULL is passed over. E_DOMAIN: n is below 0. Then the first of
 * these: E_CELL_INVALID, E_RES_DOMAIN, E_RES_MISMATCH, as of h3w_uncompactCells; E_MEMORY_BOUNDS: a number of cells
 * that no int64_t holds. */
static inline H3Error uncompactCellsSize(const H3Index *cells, const int64_t n, const int res, int64_t *out) {
    int64_t all = 0, size = 0, i;
    H3Error error, first = E_SUCCESS;
    if (n < 0) return E_DOMAIN;
    for (i = 0; i < n; i++) {
        if (cells[i] == H3_NULL) continue;
        error = h3w_cellToChildrenSize(cells[i], res, &size);
        if (error == E_CELL_INVALID) return error;
        if (error && !first) first = E_RES_MISMATCH;
        if (!first && size > INT64_MAX - all) first = E_MEMORY_BOUNDS;
        if (!first) all += size;
    }
    error = h3w_getNumCells(res, &size);
    if (error || first) return error ? error : first;
    *out = all;
    return E_SUCCESS;
}

#ifdef H3WHOLE_TABLE
extern const H3wTable *H3WHOLE_TABLE;

/** The number of cells of a disk or of a ring, with which k below 0 is not asked for. */
static inline size_t h3w_diskRoom(int k) { return k < 0 ? 0 : 3 * (size_t)k * ((size_t)k + 1) + 1; }
static inline size_t h3w_ringRoom(int k) { return k < 1 ? 1 : 6 * (size_t)k; }

/** `out` may be null where k is below 0. */
static inline H3Error gridDiskUnsafe(H3Index origin, int k, H3Index *out) {
    H3Index none = H3_NULL;
    return h3w_gridDiskUnsafe(H3WHOLE_TABLE, origin, k, k < 0 ? &none : out, h3w_diskRoom(k));
}
/** `distances` may be null, and is then left out. */
static inline H3Error gridDiskDistancesUnsafe(H3Index origin, int k, H3Index *out, int *distances) {
    if (!distances || k < 0) return gridDiskUnsafe(origin, k, out);
    return h3w_gridDiskDistancesUnsafe(H3WHOLE_TABLE, origin, k, out, h3w_diskRoom(k), distances, h3w_diskRoom(k));
}
static inline H3Error gridRingUnsafe(H3Index origin, int k, H3Index *out) {
    return h3w_gridRingUnsafe(H3WHOLE_TABLE, origin, k, out, h3w_ringRoom(k));
}
static inline H3Error areNeighborCells(H3Index origin, H3Index destination, int *out) {
    return h3w_areNeighborCells(H3WHOLE_TABLE, origin, destination, out);
}
static inline H3Error cellsToDirectedEdge(H3Index origin, H3Index destination, H3Index *out) {
    return h3w_cellsToDirectedEdge(H3WHOLE_TABLE, origin, destination, out);
}
static inline H3Error getDirectedEdgeDestination(H3Index edge, H3Index *out) {
    return h3w_getDirectedEdgeDestination(H3WHOLE_TABLE, edge, out);
}
/** The cell that an edge leaves, and the one that it leads to. */
static inline H3Error directedEdgeToCells(H3Index edge, H3Index *originDestination) {
    H3Index destination = H3_NULL;
    H3Error error = h3w_getDirectedEdgeDestination(H3WHOLE_TABLE, edge, &destination);
    if (!error) error = h3w_getDirectedEdgeOrigin(edge, originDestination);
    if (!error) originDestination[1] = destination;
    return error;
}
/** The disks of `length` cells, one after another, each in as many places as maxGridDiskSize returns; the first error
 * ends them. */
static inline H3Error gridDisksUnsafe(H3Index *cells, int length, int k, H3Index *out) {
    int64_t size = 0;
    int i;
    H3Error error = maxGridDiskSize(k, &size);
    for (i = 0; !error && i < length; i++) error = gridDiskUnsafe(cells[i], k, out + i * size);
    return error;
}
#endif

#endif
#endif
