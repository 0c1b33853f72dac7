/* What the extensions for SQLite and PostgreSQL share: errors as texts, lists of cells in the
 * engine's memory, and the rows of functions that return sets of cells. Every answer is one of
 * libh3whole's. */
#ifndef H3SQL_COMMON_H
#define H3SQL_COMMON_H
#include <stdbool.h>
#include <stddef.h>
#include <stdint.h>

#include "h3whole.h"

/* The room of an error's text, and of what the error of a list is about. */
#define H3SQL_ERROR_ROOM 40
#define H3SQL_ABOUT_ROOM 120

/* Writes an error as the command h3 prints it: "error 5: E_CELL_INVALID". */
void h3sql_error_text(H3Error error, char text[H3SQL_ERROR_ROOM]);

/* Writes what an error of a list of cells is about: the first cell that is refused and which one it
 * is, from 1 on, as "5, cell 2 of 3"; else how many there are. `res` is the resolution at which the
 * cells were asked for, or any where they were not. */
void h3sql_about_list(char text[H3SQL_ABOUT_ROOM], H3Error error, const H3Index *cells, size_t count, int res);

/* Writes which two cells of a list overlap, the first one that overlaps an earlier one, with their places from 1 on:
 * "cell 3, 85283473fffffff, overlaps cell 1, 8428347ffffffff", or without, if the list is not the one that was given.
 * An empty text, if none do or there is no memory for the search. */
void h3sql_about_overlap(char text[H3SQL_ABOUT_ROOM], const H3Index *cells, size_t count, bool has_places);

/* The room of a text that says why a table is refused, and the most bytes that its file may have. */
#define H3SQL_FAULT_ROOM 40
#define H3SQL_TABLE_MOST 1048576

/* Reads a base cell table from the bytes of its file. E_MEMORY_ALLOC: there is no memory. E_FAILED:
 * it is refused, and `text` says why, as the command h3 does: "table: reversal 30 4". */
H3Error h3sql_read_table(H3wTable *table, const char *bytes, size_t count, char text[H3SQL_FAULT_ROOM]);

/* The engine's function that takes more memory for what it has given before (NULL: nothing). It
 * returns NULL where there is none, or it does not return. */
typedef void *(*h3sql_Resize)(void *engine, void *memory, size_t size);

/* A list of cells that grows. Its memory is the engine's; all bytes 0, it is empty. */
typedef struct {
    H3Index *cells;
    size_t count, room;
} h3sql_List;

/* Makes room for more cells. E_MEMORY_ALLOC: there is no memory; the list stays as it is. */
H3Error h3sql_reserve(h3sql_List *list, size_t more, h3sql_Resize resize, void *engine);

/* Puts a cell at the end. E_MEMORY_ALLOC: there is no memory; the list stays as it is. */
H3Error h3sql_push(h3sql_List *list, H3Index cell, h3sql_Resize resize, void *engine);

/* The first index of a list that is not a valid cell; H3_NULL if all are. */
H3Index h3sql_first_invalid(const h3sql_List *list);

/* Whether each index of a list is a cell's. */
bool h3sql_has_cells_only(const h3sql_List *list);

/* Compacts a list as h3w_compactCells does, into room for as many cells as it has, and one more. */
H3Error h3sql_compact(const h3sql_List *list, H3Index *out, size_t *count);

/* The region of a list, whose cells may repeat and overlap, as h3w_uniteCells: into the same room. */
H3Error h3sql_unite(const h3sql_List *list, H3Index *out, size_t *count);

/* What a region has in common with another, or beyond it: h3w_intersectCells or h3w_subtractCells. */
typedef H3Error h3sql_Operation(const H3Index *, size_t, const H3Index *, size_t, H3Index *, size_t, size_t *);

/* What an operation gives for two lists, whose cells may repeat and overlap. In every case `out` has
 * the memory that was taken, which is the engine's. */
H3Error h3sql_operate(h3sql_List *out, h3sql_Operation *operation, const h3sql_List *first, const h3sql_List *second,
                      h3sql_Resize resize, void *engine);

/* What a list is prepared as: zones, of which no two may overlap; a region, of cells that may; zones with the place of
 * each in the list; or a list of zones that may overlap. */
typedef enum { H3SQL_ZONES, H3SQL_REGION, H3SQL_PLACES, H3SQL_OVERLAPPING } h3sql_Kind;

/* Prepares a list for the look-ups below. With H3SQL_PLACES, `first` is the number of the first place, and a number for
 * each zone stands behind the zones. In every case `prepared` has the memory that was taken, which is the engine's. */
H3Error h3sql_prepare(h3sql_List *prepared, const h3sql_List *list, h3sql_Kind kind, int32_t first, h3sql_Resize resize,
                      void *engine);

/* How many bytes a list of so many zones has that was prepared. */
size_t h3sql_prepared_size(h3sql_Kind kind, size_t count);

/* Whether prepared cells cover a cell, and which of them does; H3_NULL where none does. They are zones, with places or
 * without, or a region. E_CELL_INVALID: the index is not a valid cell. */
H3Error h3sql_zone_of(const h3sql_List *prepared, H3Index cell, H3Index *zone);

/* The place of the zone of a cell in the list that was prepared, with H3SQL_PLACES, if it has one. Errors as above. */
H3Error h3sql_place_of(const h3sql_List *prepared, H3Index cell, bool *found, int32_t *place);

/* The most cells that are a cell or its ancestors. */
#define H3SQL_ANCESTORS 16

/* The zones that cover a cell, of those prepared as H3SQL_OVERLAPPING, each once, coarsest first. Errors as above. */
H3Error h3sql_zones_of(const h3sql_List *prepared, H3Index cell, H3Index out[H3SQL_ANCESTORS], size_t *count);

/* Prepared arrays or texts that are kept, and found by a hash of what was given. An engine's own type
 * begins with an h3sql_Kept. All bytes 0, the cache is empty. */
typedef struct h3sql_Kept {
    struct h3sql_Kept *next;
    uint64_t hash;
    /* what it takes of H3SQL_KEPT_CELLS */
    size_t weight;
} h3sql_Kept;

typedef struct {
    h3sql_Kept **chains;
    size_t chain_count, count, weight;
    uint64_t chance;
} h3sql_Cache;

/* The most cells that a cache keeps, beside the last ones that were put in, and how many one more array or
 * text counts as, for what it takes beside its cells. */
#define H3SQL_KEPT_CELLS (4 * 1024 * 1024)
#define H3SQL_KEPT_EXTRA 16

/* A hash of a length and at most 65 words of the bytes, so that it takes no longer for more bytes. */
uint64_t h3sql_hash(const void *bytes, size_t size);

/* The first of those that may have a hash; each has a `next`. NULL if there is none. */
h3sql_Kept *h3sql_chain(const h3sql_Cache *cache, uint64_t hash);

/* Puts `kept` in, whose hash is set, for an array or a text of so many cells. E_MEMORY_ALLOC: there is no
 * memory; the cache stays as it is. */
H3Error h3sql_keep(h3sql_Cache *cache, h3sql_Kept *kept, size_t cells, h3sql_Resize resize, void *engine);

/* Takes one out while the cache keeps more than `most` cells, other than `but`; NULL if there is none to take
 * out. Which one is chance: of arrays that a loop takes in turn a bit more than fit, most are found again,
 * where the oldest would always be the next one that is asked for. */
h3sql_Kept *h3sql_evict(h3sql_Cache *cache, size_t most, const h3sql_Kept *but);

/* A cell's ancestors and the cell itself, ascending. E_CELL_INVALID: the index is not a valid cell. */
H3Error h3sql_ancestors(H3Index cell, H3Index out[H3SQL_ANCESTORS], size_t *count);

/* The rows of a set, one after another. They take no memory but that of the cells which they come
 * from. */
typedef struct {
    const H3Index *cells;
    size_t count, at;
    /* whether the rows are the cells' descendants at a resolution, or the cells themselves */
    bool descend;
    int res;
    /* of the cell's descendants: which comes next, and how many there are */
    int64_t position, size;
    /* the cells of small sets */
    H3Index own[122];
    /* how far each cell is, where the rows are of such a walk */
    const int *distances;
} h3sql_Rows;

/* Begin the rows of a set. The errors are those of the functions of libh3whole that are named. What
 * `cells` points to must stay while rows are taken, and is never null. */
void h3sql_listed(h3sql_Rows *rows, const H3Index *cells, size_t count);
H3Error h3sql_res0_cells(h3sql_Rows *rows);                      /* h3w_getRes0Cells */
H3Error h3sql_pentagons(h3sql_Rows *rows, int res);              /* h3w_getPentagons */
H3Error h3sql_edges(h3sql_Rows *rows, H3Index origin);           /* h3w_originToDirectedEdges, no H3_NULL */
H3Error h3sql_children(h3sql_Rows *rows, H3Index cell, int res); /* h3w_cellToChildren */
H3Error h3sql_uncompacted(h3sql_Rows *rows, const H3Index *cells, size_t count, int res); /* h3w_uncompactCells */

/* The walks over a base cell table: a disk, a disk with the distance of each cell, and a ring. */
typedef enum { H3SQL_DISK, H3SQL_DISTANCES, H3SQL_RING } h3sql_Walk;

/* Begins the rows of a walk: h3w_gridDiskUnsafe, h3w_gridDiskDistancesUnsafe or h3w_gridRingUnsafe.
 * `*memory`, which is written in every case, is the engine's that has its cells, or null; it must
 * stay while rows are taken. */
H3Error h3sql_walk(h3sql_Rows *rows, h3sql_Walk walk, const H3wTable *table, H3Index origin, int k, h3sql_Resize resize,
                   void *engine, void **memory);

/* Takes the next row; `*found` is false where there is none. */
H3Error h3sql_next(h3sql_Rows *rows, H3Index *row, bool *found);

#endif
