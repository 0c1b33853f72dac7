#include "common.h"

#include <inttypes.h>
#include <stdio.h>
#include <string.h>

static const char *const error_names[] = {
    "E_SUCCESS",        "E_FAILED",       "E_DOMAIN",           "E_LATLNG_DOMAIN",
    "E_RES_DOMAIN",     "E_CELL_INVALID", "E_DIR_EDGE_INVALID", "E_UNDIR_EDGE_INVALID",
    "E_VERTEX_INVALID", "E_PENTAGON",     "E_DUPLICATE_INPUT",  "E_NOT_NEIGHBORS",
    "E_RES_MISMATCH",   "E_MEMORY_ALLOC", "E_MEMORY_BOUNDS",    "E_OPTION_INVALID",
};

void h3sql_error_text(H3Error error, char text[H3SQL_ERROR_ROOM]) {
    if (error < sizeof error_names / sizeof *error_names)
        snprintf(text, H3SQL_ERROR_ROOM, "error %u: %s", (unsigned)error, error_names[error]);
    else snprintf(text, H3SQL_ERROR_ROOM, "error %u", (unsigned)error);
}

/* The place of the first index of a list that is no cell's, or that of a cell which is finer than a
 * resolution; the length of the list where there is none. */
static size_t first_refused(H3Error error, const H3Index *cells, size_t count, int res) {
    size_t at = 0;
    while (at < count && (error == E_CELL_INVALID ? h3w_isValidCell(cells[at]) : h3w_getResolution(cells[at]) <= res))
        at++;
    return at;
}

void h3sql_about_list(char text[H3SQL_ABOUT_ROOM], H3Error error, const H3Index *cells, size_t count, int res) {
    bool is_finer = error == E_RES_MISMATCH;
    size_t at = is_finer || error == E_CELL_INVALID ? first_refused(error, cells, count, res) : count;
    int n;
    if (at == count) {
        snprintf(text, H3SQL_ABOUT_ROOM, "among %zu cells", count);
        return;
    }
    n = snprintf(text, H3SQL_ABOUT_ROOM, "%" PRIx64 ", cell %zu of %zu", cells[at], at + 1, count);
    if (is_finer) snprintf(text + n, H3SQL_ABOUT_ROOM - (size_t)n, ", at resolution %d", res);
}

void h3sql_about_overlap(char text[H3SQL_ABOUT_ROOM], const H3Index *cells, size_t count, bool has_places) {
    size_t at, earlier;
    text[0] = 0;
    if (count == 0 || h3w_findOverlap(cells, count, &at, &earlier) || at == count) return;
    if (has_places)
        snprintf(text, H3SQL_ABOUT_ROOM, "cell %zu, %" PRIx64 ", overlaps cell %zu, %" PRIx64, at + 1, cells[at],
                 earlier + 1, cells[earlier]);
    else snprintf(text, H3SQL_ABOUT_ROOM, "%" PRIx64 " overlaps %" PRIx64, cells[at], cells[earlier]);
}

H3Error h3sql_read_table(H3wTable *table, const char *bytes, size_t count, char text[H3SQL_FAULT_ROOM]) {
    static const char *const formats[] = {
        "table: refused",
        "table: read",
        "table: memory",
        "table: form %" PRIu64,
        "table: range %" PRIu64,
        "table: repeated %" PRIu64,
        "table: missing",
        "table: neighbours %" PRIu64,
        "table: reversal %" PRIu64 " %" PRIu32,
        "table: corner %" PRIu64 " %" PRIu32,
    };
    H3wTableFault fault;
    H3wTable found = h3w_readTable(bytes, count, &fault);
    size_t code = fault.code < sizeof formats / sizeof *formats ? fault.code : 0;
    if (fault.code == H3W_TABLE_ACCEPTED) {
        *table = found;
        return E_SUCCESS;
    }
    snprintf(text, H3SQL_FAULT_ROOM, formats[code], fault.at, fault.direction);
    return fault.code == H3W_TABLE_MEMORY ? E_MEMORY_ALLOC : E_FAILED;
}

H3Error h3sql_reserve(h3sql_List *list, size_t more, h3sql_Resize resize, void *engine) {
    size_t most = SIZE_MAX / 2 / sizeof *list->cells, room = list->room;
    void *cells;
    if (more <= room - list->count) return E_SUCCESS;
    if (more > most - list->count) return E_MEMORY_ALLOC;
    /* doubled, so that each cell is moved twice at most in the long run */
    room = room < most / 2 ? 2 * room : most;
    if (room < list->count + more) room = list->count + more;
    if (room < 16) room = 16;
    cells = resize(engine, list->cells, room * sizeof *list->cells);
    if (!cells) return E_MEMORY_ALLOC;
    list->cells = cells;
    list->room = room;
    return E_SUCCESS;
}

H3Error h3sql_push(h3sql_List *list, H3Index cell, h3sql_Resize resize, void *engine) {
    H3Error error = h3sql_reserve(list, 1, resize, engine);
    if (!error) list->cells[list->count++] = cell;
    return error;
}

H3Index h3sql_first_invalid(const h3sql_List *list) {
    size_t at = first_refused(E_CELL_INVALID, list->cells, list->count, 0);
    return at < list->count ? list->cells[at] : H3_NULL;
}

bool h3sql_has_cells_only(const h3sql_List *list) {
    return first_refused(E_CELL_INVALID, list->cells, list->count, 0) == list->count;
}

static const H3Index none = H3_NULL;

/* The cells of a list, by an address that is never null. */
static const H3Index *cells_of(const h3sql_List *list) { return list->count ? list->cells : &none; }

H3Error h3sql_compact(const h3sql_List *list, H3Index *out, size_t *count) {
    return h3w_compactCells(cells_of(list), list->count, out, list->count, count);
}

H3Error h3sql_unite(const h3sql_List *list, H3Index *out, size_t *count) {
    return h3w_uniteCells(cells_of(list), list->count, out, list->count, count);
}

/* A list with room for so many cells, and one more. */
static H3Error take_room(h3sql_List *list, size_t room, h3sql_Resize resize, void *engine) {
    memset(list, 0, sizeof *list);
    if (room == SIZE_MAX) return E_MEMORY_ALLOC;
    return h3sql_reserve(list, room + 1, resize, engine);
}

H3Error h3sql_operate(h3sql_List *out, h3sql_Operation *operation, const h3sql_List *first, const h3sql_List *second,
                      h3sql_Resize resize, void *engine) {
    /* what is left of a cell may be more cells than both lists have */
    size_t count = first->count + second->count;
    H3Error error = take_room(out, count, resize, engine);
    if (error) return error;
    error = operation(cells_of(first), first->count, cells_of(second), second->count, out->cells, out->room, &count);
    if (error == E_MEMORY_BOUNDS) {
        error = h3sql_reserve(out, count, resize, engine);
        if (!error)
            error = operation(cells_of(first), first->count, cells_of(second), second->count, out->cells, out->room,
                              &count);
    }
    if (!error) out->count = count;
    return error;
}

size_t h3sql_prepared_size(h3sql_Kind kind, size_t count) {
    return count * (sizeof(H3Index) + (kind == H3SQL_PLACES ? sizeof(uint32_t) : 0));
}

/* The numbers behind prepared zones. */
static uint32_t *places_of(const h3sql_List *prepared) { return (uint32_t *)(prepared->cells + prepared->count); }

/* The zones of a region, which stands behind the room for them. */
static H3Error prepare_region(h3sql_List *prepared, const h3sql_List *list) {
    H3Index *region = prepared->cells + list->count;
    size_t count;
    H3Error error = h3w_uniteCells(cells_of(list), list->count, region, list->count, &count);
    if (!error) error = h3w_zones(region, count, prepared->cells, count);
    if (!error) prepared->count = count;
    return error;
}

/* Zones, with the place of each behind all, and room for as many numbers behind these. */
static H3Error prepare_places(h3sql_List *prepared, const h3sql_List *list, int32_t first) {
    size_t count = list->count, i;
    uint32_t *places = (uint32_t *)(prepared->cells + count), *numbers = places + count;
    for (i = 0; i < count; i++) numbers[i] = (uint32_t)first + (uint32_t)i;
    return h3w_areas(cells_of(list), count, numbers, count, prepared->cells, count, places, count, &prepared->count);
}

static int by_number(const void *a, const void *b) {
    H3Index first = *(const H3Index *)a, second = *(const H3Index *)b;
    return (first > second) - (first < second);
}

/* Zones that may overlap, ascending. */
static H3Error prepare_overlapping(h3sql_List *prepared, const h3sql_List *list) {
    if (!h3sql_has_cells_only(list)) return E_CELL_INVALID;
    if (list->count) memcpy(prepared->cells, list->cells, list->count * sizeof *list->cells);
    qsort(prepared->cells, list->count, sizeof *list->cells, by_number);
    prepared->count = list->count;
    return E_SUCCESS;
}

static H3Error prepare_zones(h3sql_List *prepared, const h3sql_List *list) {
    H3Error error = h3w_zones(cells_of(list), list->count, prepared->cells, list->count);
    if (!error) prepared->count = list->count;
    return error;
}

H3Error h3sql_prepare(h3sql_List *prepared, const h3sql_List *list, h3sql_Kind kind, int32_t first, h3sql_Resize resize,
                      void *engine) {
    bool is_twice = kind == H3SQL_REGION || kind == H3SQL_PLACES;
    void *less;
    H3Error error = take_room(prepared, is_twice ? 2 * list->count : list->count, resize, engine);
    if (error) return error;
    switch (kind) {
        case H3SQL_REGION:
            error = prepare_region(prepared, list);
            break;
        case H3SQL_PLACES:
            error = prepare_places(prepared, list, first);
            break;
        case H3SQL_OVERLAPPING:
            error = prepare_overlapping(prepared, list);
            break;
        default:
            error = prepare_zones(prepared, list);
    }
    if (error) return error;
    less = resize(engine, prepared->cells, h3sql_prepared_size(kind, prepared->count) + sizeof *prepared->cells);
    if (less) prepared->cells = less;
    return E_SUCCESS;
}

H3Error h3sql_zone_of(const h3sql_List *prepared, H3Index cell, H3Index *zone) {
    size_t at;
    return h3w_cellsToZones(cells_of(prepared), prepared->count, &cell, 1, zone, 1, &at);
}

H3Error h3sql_place_of(const h3sql_List *prepared, H3Index cell, bool *found, int32_t *place) {
    static const uint32_t nothing = 0;
    const uint32_t *places = prepared->count ? places_of(prepared) : &nothing;
    int64_t number = -1;
    size_t at;
    H3Error error =
        h3w_cellsToZonesPlaces(cells_of(prepared), prepared->count, places, prepared->count, &cell, 1, &number, 1, &at);
    *found = number >= 0;
    *place = (int32_t)(uint32_t)number;
    return error;
}

H3Error h3sql_zones_of(const h3sql_List *prepared, H3Index cell, H3Index out[H3SQL_ANCESTORS], size_t *count) {
    H3Index ancestors[H3SQL_ANCESTORS];
    size_t all, i;
    H3Error error = h3sql_ancestors(cell, ancestors, &all);
    *count = 0;
    for (i = 0; !error && i < all; i++)
        if (bsearch(&ancestors[i], cells_of(prepared), prepared->count, sizeof *ancestors, by_number))
            out[(*count)++] = ancestors[i];
    return error;
}

/* Mixes a word into a hash: by odd constants, with the upper half folded into the lower one. */
static uint64_t mixed(uint64_t hash, uint64_t word) {
    hash = (hash ^ word) * UINT64_C(0x9e3779b97f4a7c15);
    return hash ^ hash >> 32;
}

uint64_t h3sql_hash(const void *bytes, size_t size) {
    const unsigned char *from = bytes;
    uint64_t word = 0, hash = mixed(0, size);
    size_t words = size / sizeof word, step = words / 64 + 1, i;
    for (i = 0; i < words; i += step) {
        memcpy(&word, from + i * sizeof word, sizeof word);
        hash = mixed(hash, word);
    }
    /* the end, which no step may meet */
    word = 0;
    i = size < sizeof word ? size : sizeof word;
    if (i > 0) memcpy(&word, from + size - i, i);
    return mixed(hash, word);
}

h3sql_Kept *h3sql_chain(const h3sql_Cache *cache, uint64_t hash) {
    return cache->chain_count ? cache->chains[hash % cache->chain_count] : NULL;
}

static void put_in(h3sql_Kept **chains, size_t chain_count, h3sql_Kept *kept) {
    h3sql_Kept **chain = &chains[kept->hash % chain_count];
    kept->next = *chain;
    *chain = kept;
}

/* Moves what is kept into twice as many chains. */
static H3Error spread(h3sql_Cache *cache, h3sql_Resize resize, void *engine) {
    size_t chain_count = cache->chain_count, i;
    h3sql_Kept *all = NULL, **chains;
    size_t more = chain_count ? 2 * chain_count : 4;
    if (more > SIZE_MAX / 2 / sizeof *chains) return E_MEMORY_ALLOC;
    chains = resize(engine, cache->chains, more * sizeof *chains);
    if (!chains) return E_MEMORY_ALLOC;
    for (i = 0; i < chain_count; i++)
        while (chains[i]) {
            h3sql_Kept *kept = chains[i];
            chains[i] = kept->next;
            kept->next = all;
            all = kept;
        }
    memset(chains, 0, more * sizeof *chains);
    cache->chains = chains;
    cache->chain_count = more;
    while (all) {
        h3sql_Kept *kept = all;
        all = kept->next;
        put_in(chains, more, kept);
    }
    return E_SUCCESS;
}

H3Error h3sql_keep(h3sql_Cache *cache, h3sql_Kept *kept, size_t cells, h3sql_Resize resize, void *engine) {
    if (cache->count == cache->chain_count) {
        H3Error error = spread(cache, resize, engine);
        if (error) return error;
    }
    kept->weight = cells + H3SQL_KEPT_EXTRA;
    put_in(cache->chains, cache->chain_count, kept);
    cache->count++;
    cache->weight += kept->weight;
    return E_SUCCESS;
}

/* The place of the first one of a chain, other than `but`; that of a null where there is none. */
static h3sql_Kept **other_than(h3sql_Kept **at, const h3sql_Kept *but) { return *at && *at == but ? &(*at)->next : at; }

h3sql_Kept *h3sql_evict(h3sql_Cache *cache, size_t most, const h3sql_Kept *but) {
    h3sql_Kept **at, *out;
    size_t i;
    if (cache->weight <= most || cache->count == (but != NULL)) return NULL;
    cache->chance = cache->chance * UINT64_C(6364136223846793005) + UINT64_C(1442695040888963407);
    i = (size_t)(cache->chance >> 33) % cache->chain_count;
    for (at = other_than(&cache->chains[i], but); !*at; at = other_than(&cache->chains[i], but))
        i = (i + 1) % cache->chain_count;
    out = *at;
    *at = out->next;
    cache->count--;
    cache->weight -= out->weight;
    return out;
}

H3Error h3sql_ancestors(H3Index cell, H3Index out[H3SQL_ANCESTORS], size_t *count) {
    int res, finest = h3w_getResolution(cell);
    *count = 0;
    if (finest < 0) return E_CELL_INVALID;
    for (res = 0; res <= finest; res++) {
        H3Error error = h3w_cellToParent(cell, res, &out[res]);
        if (error) return error;
    }
    *count = (size_t)finest + 1;
    return E_SUCCESS;
}

void h3sql_listed(h3sql_Rows *rows, const H3Index *cells, size_t count) {
    rows->cells = cells;
    rows->count = count;
    rows->at = 0;
    rows->descend = false;
    rows->distances = NULL;
}

/* The descendants of cells. */
static void descend(h3sql_Rows *rows, const H3Index *cells, size_t count, int res) {
    h3sql_listed(rows, cells, count);
    rows->descend = true;
    rows->res = res;
    rows->position = 0;
}

H3Error h3sql_res0_cells(h3sql_Rows *rows) {
    h3sql_listed(rows, rows->own, 122);
    return h3w_getRes0Cells(rows->own, 122);
}

H3Error h3sql_pentagons(h3sql_Rows *rows, int res) {
    h3sql_listed(rows, rows->own, 12);
    return h3w_getPentagons(res, rows->own, 12);
}

H3Error h3sql_edges(h3sql_Rows *rows, H3Index origin) {
    h3sql_listed(rows, rows->own, 6);
    return h3w_originToDirectedEdges(origin, rows->own);
}

H3Error h3sql_children(h3sql_Rows *rows, H3Index cell, int res) {
    rows->own[0] = cell;
    descend(rows, rows->own, 1, res);
    return h3w_cellToChildrenSize(cell, res, &rows->size);
}

H3Error h3sql_uncompacted(h3sql_Rows *rows, const H3Index *cells, size_t count, int res) {
    H3Index none;
    /* without room it says which error there is; the descendants are taken one by one */
    H3Error error = h3w_uncompactCells(cells, count, &none, 0, res);
    descend(rows, cells, count, res);
    return error == E_MEMORY_BOUNDS ? E_SUCCESS : error;
}

static H3Error walk_into(H3Index *out, int *distances, size_t room, h3sql_Walk walk, const H3wTable *table,
                         H3Index origin, int k) {
    switch (walk) {
        case H3SQL_DISK:
            return h3w_gridDiskUnsafe(table, origin, k, out, room);
        case H3SQL_DISTANCES:
            return h3w_gridDiskDistancesUnsafe(table, origin, k, out, room, distances, room);
        default:
            return h3w_gridRingUnsafe(table, origin, k, out, room);
    }
}

/* The number of cells of a walk. */
static uint64_t walk_count(h3sql_Walk walk, int k) {
    uint64_t steps = (uint64_t)k;
    if (walk == H3SQL_RING) return k ? 6 * steps : 1;
    return 3 * steps * (steps + 1) + 1;
}

H3Error h3sql_walk(h3sql_Rows *rows, h3sql_Walk walk, const H3wTable *table, H3Index origin, int k, h3sql_Resize resize,
                   void *engine, void **memory) {
    const size_t item = sizeof(H3Index) + sizeof(int);
    H3Index *cells, first;
    int *distances, distance;
    uint64_t count;
    /* with room for one cell it says which error there is, before memory is taken */
    H3Error error = walk_into(&first, &distance, 1, walk, table, origin, k);
    *memory = NULL;
    if (error && error != E_MEMORY_BOUNDS) return error;
    count = walk_count(walk, k);
    if (count > SIZE_MAX / 2 / item) return E_MEMORY_ALLOC;
    cells = *memory = resize(engine, NULL, (size_t)count * item);
    if (!cells) return E_MEMORY_ALLOC;
    distances = (int *)(cells + count);
    error = walk_into(cells, distances, (size_t)count, walk, table, origin, k);
    h3sql_listed(rows, cells, (size_t)count);
    if (walk == H3SQL_DISTANCES) rows->distances = distances;
    return error;
}

/* Takes the next cell itself, without H3_NULL. */
static void next_listed(h3sql_Rows *rows, H3Index *row, bool *found) {
    while (rows->at < rows->count && rows->cells[rows->at] == H3_NULL) rows->at++;
    *found = rows->at < rows->count;
    if (*found) *row = rows->cells[rows->at++];
}

H3Error h3sql_next(h3sql_Rows *rows, H3Index *row, bool *found) {
    H3Error error = E_SUCCESS;
    if (!rows->descend) {
        next_listed(rows, row, found);
        return E_SUCCESS;
    }
    *found = rows->at < rows->count;
    if (!*found) return E_SUCCESS;
    if (rows->position == 0) error = h3w_cellToChildrenSize(rows->cells[rows->at], rows->res, &rows->size);
    if (!error) error = h3w_childPosToCell(rows->position, rows->cells[rows->at], rows->res, row);
    if (error) return error;
    if (++rows->position == rows->size) {
        rows->at++;
        rows->position = 0;
    }
    return E_SUCCESS;
}
