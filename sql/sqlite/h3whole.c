/* H3's functions in SQLite: a loadable extension. A cell is an integer or a text, and what is returned is of the same
 * kind, but a zone is what the array has. docs/library/sql.md lists the functions. */
#include <errno.h>
#include <limits.h>
#include <stdio.h>

#include "common.h"
#include "sqlite3ext.h"
SQLITE_EXTENSION_INIT1

/* ---- Values */

/* The index that a text or an integer is. E_FAILED: neither. */
static H3Error index_of(sqlite3_value *value, H3Index *out) {
    const char *text;
    switch (sqlite3_value_type(value)) {
        case SQLITE_INTEGER:
            *out = (H3Index)sqlite3_value_int64(value);
            return E_SUCCESS;
        case SQLITE_TEXT:
            text = (const char *)sqlite3_value_text(value);
            if (!text) return E_MEMORY_ALLOC;
            return h3w_stringToH3(text, (size_t)sqlite3_value_bytes(value), out);
        default:
            return E_FAILED;
    }
}

static bool is_text(sqlite3_value *value) { return sqlite3_value_type(value) == SQLITE_TEXT; }

/* Below this each whole number is a real number of its own. */
#define WHOLE_REALS 9007199254740992.0

/* The whole number that a value is, also a real one, as R binds all numbers; -1 in place of any other value. */
static int64_t whole_of(sqlite3_value *value) {
    double real;
    switch (sqlite3_value_numeric_type(value)) {
        case SQLITE_INTEGER:
            return sqlite3_value_int64(value);
        case SQLITE_FLOAT:
            real = sqlite3_value_double(value);
            return real >= 0 && real < WHOLE_REALS && real == (double)(int64_t)real ? (int64_t)real : -1;
        default:
            return -1;
    }
}

/* What a value is in place of a resolution or a number of steps: the library refuses -1, and so it
 * does all that is no int. */
static int resolution_of(sqlite3_value *value) {
    int64_t res = whole_of(value);
    return res < 0 || res > INT_MAX ? -1 : (int)res;
}

static bool has_null(int count, sqlite3_value **values) {
    int i;
    for (i = 0; i < count; i++)
        if (sqlite3_value_type(values[i]) == SQLITE_NULL) return true;
    return false;
}

/* ---- Errors: H3's number and name, and what was refused. The texts are SQLite's memory, or NULL where
 * there is none. */

/* How many characters of a text an error shows. */
#define SHOWN "%!.40Q"

/* A value as it stands in a statement. */
static char *shown(sqlite3_value *value) {
    switch (sqlite3_value_type(value)) {
        case SQLITE_INTEGER:
            return sqlite3_mprintf("%lld", sqlite3_value_int64(value));
        case SQLITE_FLOAT:
            return sqlite3_mprintf("%!.15g", sqlite3_value_double(value));
        case SQLITE_BLOB:
            return sqlite3_mprintf("a blob of %d bytes", sqlite3_value_bytes(value));
        default:
            return sqlite3_mprintf(SHOWN, sqlite3_value_text(value));
    }
}

/* An index by its hexadecimal digits, or the value that is none. */
static char *named(sqlite3_value *value) {
    H3Index index;
    if (index_of(value, &index)) return shown(value);
    return sqlite3_mprintf("%llx", (sqlite3_uint64)index);
}

/* Two texts in a format, which are freed. */
static char *joined(const char *format, char *first, char *second) {
    char *text = first && second ? sqlite3_mprintf(format, first, second) : NULL;
    sqlite3_free(first);
    sqlite3_free(second);
    return text;
}

/* What an error of an index at a resolution is about. */
static char *at_resolution(H3Error error, sqlite3_value *index, sqlite3_value *res) {
    if (error == E_FAILED || error == E_CELL_INVALID) return named(index);
    return joined("%s at resolution %s", named(index), shown(res));
}

static char *resolution(sqlite3_value *res) { return joined("%s %s", sqlite3_mprintf("resolution"), shown(res)); }

/* What an error of the item of a list is about, whose items are counted from 1 on. */
static char *item(sqlite3_value *value, size_t number) {
    return joined("%s, cell %s", named(value), sqlite3_mprintf("%llu", (sqlite3_uint64)number));
}

/* What an error of a list of cells is about, of which each is one. */
static char *listed(H3Error error, const h3sql_List *list, int res) {
    char text[H3SQL_ABOUT_ROOM], overlap[H3SQL_ABOUT_ROOM] = "";
    h3sql_about_list(text, error, list->cells, list->count, res);
    if (error == E_DUPLICATE_INPUT) h3sql_about_overlap(overlap, list->cells, list->count, true);
    return sqlite3_mprintf(overlap[0] ? "%s: %s" : "%s", text, overlap);
}

/* The whole text of an error; what it is about is freed. */
static char *error_text(H3Error error, char *about) {
    char text[H3SQL_ERROR_ROOM];
    h3sql_error_text(error, text);
    return joined("%s: %s", sqlite3_mprintf("%s", text), about);
}

/* Ends a call with an error; what it is about is freed. */
static void put_error(sqlite3_context *context, H3Error error, char *about) {
    char *text = error_text(error, about);
    if (error == E_MEMORY_ALLOC || !text) sqlite3_result_error_nomem(context);
    else sqlite3_result_error(context, text, -1);
    sqlite3_free(text);
}

static void put_index(sqlite3_context *context, H3Index index, bool as_text) {
    char text[17];
    H3Error error;
    if (!as_text) {
        sqlite3_result_int64(context, (sqlite3_int64)index);
        return;
    }
    error = h3w_h3ToString(index, text, sizeof text);
    if (error) put_error(context, error, sqlite3_mprintf("%llx", (sqlite3_uint64)index));
    else sqlite3_result_text(context, text, -1, SQLITE_TRANSIENT);
}

/* ---- Functions of one index */

typedef void Call(sqlite3_context *, int, sqlite3_value **);

typedef struct {
    const char *name;
    int arity;
    Call *call;
    /* how much finer than the cell's the resolution is that is not given */
    int steps;
    union {
        int (*test)(H3Index);
        H3Error (*number)(const H3Index *, size_t, int *, size_t, size_t *);
        H3Error (*origin)(H3Index, H3Index *);
        H3Error (*cell)(H3Index, int, H3Index *);
        H3Error (*count)(H3Index, int, int64_t *);
        h3sql_Operation *operation;
    } of;
} Function;

static const Function *called(sqlite3_context *context) { return sqlite3_user_data(context); }

/* A test is false of what is no index, too. */
static void test(sqlite3_context *context, int count, sqlite3_value **values) {
    H3Index index;
    H3Error error;
    if (has_null(count, values)) return;
    error = index_of(values[0], &index);
    if (error == E_MEMORY_ALLOC) sqlite3_result_error_nomem(context);
    else sqlite3_result_int(context, !error && called(context)->of.test(index));
}

/* A number or a truth value, by the function for columns, which has an error for what is no cell.
 */
static void number(sqlite3_context *context, int count, sqlite3_value **values) {
    H3Index index;
    H3Error error;
    size_t at;
    int out = 0;
    if (has_null(count, values)) return;
    error = index_of(values[0], &index);
    if (!error) error = called(context)->of.number(&index, 1, &out, 1, &at);
    if (error) put_error(context, error, named(values[0]));
    else sqlite3_result_int(context, out);
}

static void origin(sqlite3_context *context, int count, sqlite3_value **values) {
    H3Index index, out = H3_NULL;
    H3Error error;
    if (has_null(count, values)) return;
    error = index_of(values[0], &index);
    if (!error) error = called(context)->of.origin(index, &out);
    if (error) put_error(context, error, named(values[0]));
    else put_index(context, out, is_text(values[0]));
}

static void cell(sqlite3_context *context, int count, sqlite3_value **values) {
    H3Index index, out = H3_NULL;
    H3Error error;
    if (has_null(count, values)) return;
    error = index_of(values[0], &index);
    if (!error) error = called(context)->of.cell(index, resolution_of(values[1]), &out);
    if (error) put_error(context, error, at_resolution(error, values[0], values[1]));
    else put_index(context, out, is_text(values[0]));
}

/* The same at the next resolution. */
static void cell_next(sqlite3_context *context, int count, sqlite3_value **values) {
    H3Index index, out = H3_NULL;
    H3Error error;
    int res = -1;
    if (has_null(count, values)) return;
    error = index_of(values[0], &index);
    if (!error) {
        res = h3w_getResolution(index) + called(context)->steps;
        error = called(context)->of.cell(index, res, &out);
    }
    if (error == E_RES_DOMAIN)
        put_error(context, error, joined("%s at resolution %s", named(values[0]), sqlite3_mprintf("%d", res)));
    else if (error) put_error(context, error, named(values[0]));
    else put_index(context, out, is_text(values[0]));
}

static void count_of(sqlite3_context *context, int count, sqlite3_value **values) {
    H3Index index;
    H3Error error;
    int64_t out = 0;
    if (has_null(count, values)) return;
    error = index_of(values[0], &index);
    if (!error) error = called(context)->of.count(index, resolution_of(values[1]), &out);
    if (error) put_error(context, error, at_resolution(error, values[0], values[1]));
    else sqlite3_result_int64(context, out);
}

/* What an error of a position is about. */
static char *at_position(H3Error error, sqlite3_value **values) {
    char *where = at_resolution(error, values[1], values[2]);
    if (error == E_FAILED || error == E_CELL_INVALID) return where;
    return joined("position %s in %s", shown(values[0]), where);
}

static void cell_at_position(sqlite3_context *context, int count, sqlite3_value **values) {
    H3Index index, out = H3_NULL;
    H3Error error;
    if (has_null(count, values)) return;
    error = index_of(values[1], &index);
    if (!error) error = h3w_childPosToCell(whole_of(values[0]), index, resolution_of(values[2]), &out);
    if (error) put_error(context, error, at_position(error, values));
    else put_index(context, out, is_text(values[1]));
}

static void cells_of_resolution(sqlite3_context *context, int count, sqlite3_value **values) {
    int64_t out = 0;
    H3Error error;
    if (has_null(count, values)) return;
    error = h3w_getNumCells(resolution_of(values[0]), &out);
    if (error) put_error(context, error, resolution(values[0]));
    else sqlite3_result_int64(context, out);
}

static void as_text(sqlite3_context *context, int count, sqlite3_value **values) {
    H3Index index;
    H3Error error;
    if (has_null(count, values)) return;
    error = index_of(values[0], &index);
    if (error) put_error(context, error, named(values[0]));
    else put_index(context, index, true);
}

static void as_integer(sqlite3_context *context, int count, sqlite3_value **values) {
    H3Index index;
    H3Error error;
    if (has_null(count, values)) return;
    error = index_of(values[0], &index);
    if (error) put_error(context, error, named(values[0]));
    else put_index(context, index, false);
}

static const Function functions[] = {
    {"h3_is_valid_cell", 1, test, 0, {.test = h3w_isValidCell}},
    {"h3_is_valid_directed_edge", 1, test, 0, {.test = h3w_isValidDirectedEdge}},
    {"h3_get_resolution", 1, number, 0, {.number = h3w_getResolutions}},
    {"h3_get_base_cell_number", 1, number, 0, {.number = h3w_getBaseCellNumbers}},
    {"h3_is_pentagon", 1, number, 0, {.number = h3w_arePentagons}},
    {"h3_is_res_class_iii", 1, number, 0, {.number = h3w_areResClassIII}},
    {"h3_get_directed_edge_origin", 1, origin, 0, {.origin = h3w_getDirectedEdgeOrigin}},
    {"h3_cell_to_parent", 2, cell, 0, {.cell = h3w_cellToParent}},
    {"h3_cell_to_center_child", 2, cell, 0, {.cell = h3w_cellToCenterChild}},
    {"h3_cell_to_last_child", 2, cell, 0, {.cell = h3w_cellToLastChild}},
    {"h3_cell_to_parent", 1, cell_next, -1, {.cell = h3w_cellToParent}},
    {"h3_cell_to_center_child", 1, cell_next, 1, {.cell = h3w_cellToCenterChild}},
    {"h3_cell_to_last_child", 1, cell_next, 1, {.cell = h3w_cellToLastChild}},
    {"h3_cell_to_children_size", 2, count_of, 0, {.count = h3w_cellToChildrenSize}},
    {"h3_cell_to_child_pos", 2, count_of, 0, {.count = h3w_cellToChildPos}},
    {"h3_child_pos_to_cell", 3, cell_at_position, 0, {0}},
    {"h3_get_num_cells", 1, cells_of_resolution, 0, {0}},
    {"h3_h3_to_string", 1, as_text, 0, {0}},
    {"h3_string_to_h3", 1, as_integer, 0, {0}},
};

/* ---- Lists of cells */

static void *resize(void *engine, void *memory, size_t size) {
    (void)engine;
    return sqlite3_realloc64(memory, size);
}

/* A cell as an array has it: a text, or NULL for an integer. */
typedef struct {
    H3Index cell;
    char *text;
} Item;

/* How an array has its cells, if that is to be kept: as texts that put_index writes so, or as integers; and the items
 * that it has otherwise. */
typedef struct {
    bool is_kept, are_texts;
    Item *items;
    size_t count;
} Given;

/* Cells that come one by one, as integers or texts; all bytes 0, there are none. */
typedef struct {
    h3sql_List list;
    bool any_text;
    Given given;
} Cells;

static H3Error take(Cells *cells, sqlite3_value *value) {
    H3Index index;
    H3Error error = index_of(value, &index);
    if (!error) error = h3sql_push(&cells->list, index, resize, NULL);
    cells->any_text |= is_text(value);
    return error;
}

static void forget(Given *given) {
    while (given->count > 0) sqlite3_free(given->items[--given->count].text);
    sqlite3_free(given->items);
}

static void release(Cells *cells) {
    sqlite3_free(cells->list.cells);
    forget(&cells->given);
    memset(cells, 0, sizeof *cells);
}

/* Writes cells as a JSON array, whose items are integers or texts; at most this many bytes for
 * each, and two more. */
#define JSON_ITEM 21

static H3Error write_json(char *out, size_t *length, const H3Index *cells, size_t count, bool as_texts) {
    size_t i, n = 0;
    out[n++] = '[';
    for (i = 0; i < count; i++) {
        char text[17];
        H3Error error = h3w_h3ToString(cells[i], text, sizeof text);
        if (error) return error;
        if (i > 0) out[n++] = ',';
        n += (size_t)(as_texts ? sprintf(out + n, "\"%s\"", text) : sprintf(out + n, "%lld", (long long)cells[i]));
    }
    out[n++] = ']';
    *length = n;
    return E_SUCCESS;
}

static void put_json(sqlite3_context *context, const H3Index *cells, size_t count, bool as_texts) {
    size_t length = 0;
    char *text = sqlite3_malloc64(count * JSON_ITEM + 3);
    H3Error error = text ? write_json(text, &length, cells, count, as_texts) : E_MEMORY_ALLOC;
    if (error) {
        sqlite3_free(text);
        sqlite3_result_error_nomem(context);
        return;
    }
    sqlite3_result_text64(context, text, length, sqlite3_free, SQLITE_UTF8);
}

/* Takes a row of the aggregates h3_compact_cells and h3_unite_cells: NULLs are left out. */
static void list_step(sqlite3_context *context, int count, sqlite3_value **values) {
    Cells *cells = sqlite3_aggregate_context(context, sizeof *cells);
    H3Error error;
    if (has_null(count, values)) return;
    if (!cells) {
        sqlite3_result_error_nomem(context);
        return;
    }
    error = take(cells, values[0]);
    if (error) put_error(context, error, item(values[0], cells->list.count + 1));
}

/* Ends an aggregate. (It is called to give the memory back after an error of a step, too.) */
static void final(sqlite3_context *context, H3Error (*made)(const h3sql_List *, H3Index *, size_t *)) {
    Cells none = {0}, *cells = sqlite3_aggregate_context(context, 0);
    H3Index *out;
    H3Error error = E_MEMORY_ALLOC;
    size_t count = 0;
    if (!cells) cells = &none;
    out = sqlite3_malloc64((cells->list.count + 1) * sizeof *out);
    if (out) error = made(&cells->list, out, &count);
    if (error) put_error(context, error, listed(error, &cells->list, 0));
    else put_json(context, out, count, cells->any_text);
    sqlite3_free(out);
    release(cells);
}

static void compact_final(sqlite3_context *context) { final(context, h3sql_compact); }

/* Whether a value is a JSON array, as h3_compact_cells returns one. */
static bool is_array(sqlite3_value *value) {
    const char *text = is_text(value) ? (const char *)sqlite3_value_text(value) : NULL;
    return text && text[strspn(text, " \t\r\n")] == '[';
}

/* Whether put_index writes a cell as a value has it. */
static bool is_written_so(sqlite3_value *value, H3Index cell, bool as_text) {
    char text[17];
    if (!is_text(value) || !as_text) return is_text(value) == as_text;
    return !h3w_h3ToString(cell, text, sizeof text) && !strcmp((const char *)sqlite3_value_text(value), text);
}

/* Keeps how an array has a cell. */
static H3Error keep_item(Given *given, sqlite3_value *value, H3Index cell) {
    size_t count = given->count;
    Item *items = given->items;
    char *text = is_text(value) ? sqlite3_mprintf("%s", sqlite3_value_text(value)) : NULL;
    if (is_text(value) && !text) return E_MEMORY_ALLOC;
    /* (the room is doubled: it is full whenever it is a power of two) */
    if ((count & (count - 1)) == 0) items = sqlite3_realloc64(items, (count ? 2 * count : 1) * sizeof *items);
    if (!items) {
        sqlite3_free(text);
        return E_MEMORY_ALLOC;
    }
    items[count].cell = cell;
    items[count].text = text;
    given->items = items;
    given->count++;
    return E_SUCCESS;
}

/* Takes a cell; where it is no index, `*refused` is what the error is about, in SQLite's memory. */
static H3Error take_item(Cells *cells, char **refused, sqlite3_value *value, bool is_alone) {
    Given *given = &cells->given;
    H3Error error = take(cells, value);
    H3Index cell;
    if (error == E_FAILED) *refused = is_alone ? named(value) : item(value, cells->list.count + 1);
    if (error || !given->is_kept) return error;
    cell = cells->list.cells[cells->list.count - 1];
    if (cells->list.count == 1) given->are_texts = is_text(value);
    return is_written_so(value, cell, given->are_texts) ? E_SUCCESS : keep_item(given, value, cell);
}

/* Takes the items of a JSON array, which SQLite reads. */
static H3Error take_items(Cells *cells, char **refused, sqlite3 *engine, sqlite3_value *array, int *code) {
    sqlite3_stmt *items = NULL;
    H3Error error = E_SUCCESS;
    *code = sqlite3_prepare_v2(engine, "SELECT value FROM json_each(?)", -1, &items, NULL);
    if (*code == SQLITE_OK) *code = sqlite3_bind_value(items, 1, array);
    while (*code == SQLITE_OK && !error && (*code = sqlite3_step(items)) == SQLITE_ROW) {
        /* (a column's value may be looked at only as a copy) */
        sqlite3_value *value = sqlite3_value_dup(sqlite3_column_value(items, 0));
        error = value ? take_item(cells, refused, value, false) : E_MEMORY_ALLOC;
        sqlite3_value_free(value);
        *code = SQLITE_OK;
    }
    if (*code == SQLITE_DONE) *code = SQLITE_OK;
    sqlite3_finalize(items);
    return error;
}

/* Takes the cells of a JSON array, or one cell. Where `*code` is not SQLITE_OK, that is the error. */
static H3Error take_array(Cells *cells, char **refused, sqlite3 *engine, sqlite3_value *value, int *code) {
    *code = SQLITE_OK;
    return is_array(value) ? take_items(cells, refused, engine, value, code) : take_item(cells, refused, value, true);
}

/* Ends a call with an error of SQLite, or of H3 for a list of cells; `refused` is freed. */
static void put_list_error(sqlite3_context *context, int code, H3Error error, const Cells *cells, char *refused) {
    sqlite3 *engine = sqlite3_context_db_handle(context);
    if (code == SQLITE_ERROR) sqlite3_result_error(context, sqlite3_errmsg(engine), -1);
    else if (code == SQLITE_NOMEM || error == E_MEMORY_ALLOC) sqlite3_result_error_nomem(context);
    else if (code != SQLITE_OK) sqlite3_result_error_code(context, code);
    else if (refused || error == E_FAILED) put_error(context, error, refused);
    else put_error(context, error, listed(error, &cells->list, 0));
    if (code != SQLITE_OK || error == E_MEMORY_ALLOC) sqlite3_free(refused);
}

/* ---- Regions */

/* The aggregate h3_unite_cells: as h3_compact_cells, of cells that may repeat and overlap. */
static void unite_final(sqlite3_context *context) { final(context, h3sql_unite); }

/* What two lists share, or one has beyond the other. */
static void operate(sqlite3_context *context, int count, sqlite3_value **values) {
    sqlite3 *engine = sqlite3_context_db_handle(context);
    Cells given[2] = {{{NULL, 0, 0}, false, {0}}, {{NULL, 0, 0}, false, {0}}};
    h3sql_List out = {NULL, 0, 0};
    char *refused = NULL;
    int code = SQLITE_OK, at = 0;
    H3Error error;
    if (has_null(count, values)) return;
    error = take_array(&given[0], &refused, engine, values[0], &code);
    if (!error && code == SQLITE_OK) error = take_array(&given[1], &refused, engine, values[1], &code);
    if (!error && code == SQLITE_OK)
        error = h3sql_operate(&out, called(context)->of.operation, &given[0].list, &given[1].list, resize, NULL);
    if (error == E_CELL_INVALID) at = h3sql_has_cells_only(&given[0].list);
    if (error || code != SQLITE_OK) put_list_error(context, code, error, &given[at], refused);
    else put_json(context, out.cells, out.count, given[0].any_text || given[1].any_text);
    sqlite3_free(out.cells);
    release(&given[0]);
    release(&given[1]);
}

static const Function operations[] = {
    {"h3_intersect_cells", 2, operate, 0, {.operation = h3w_intersectCells}},
    {"h3_subtract_cells", 2, operate, 0, {.operation = h3w_subtractCells}},
};

/* ---- What a connection has: a base cell table, and cells that are prepared */

/* The most values of h3_prepare_zones and h3_prepare_region that a connection keeps. */
#define MOST_NAMED 1024

/* Cells of a text, prepared, so that others are looked up in them. Who has them holds them. */
typedef struct {
    h3sql_Kept kept;
    int holders;
    h3sql_Kind kind;
    /* of those that have a name: its number, which no other one has, its place, and when it was last used */
    uint64_t number, used;
    size_t place, weight;
    char *text;
    size_t length;
    h3sql_List zones;
    Given given;
} Prepared;

static void drop(void *held) {
    Prepared *prepared = held;
    if (--prepared->holders > 0) return;
    sqlite3_free(prepared->zones.cells);
    forget(&prepared->given);
    sqlite3_free(prepared->text);
    sqlite3_free(prepared);
}

typedef struct Set Set;

/* A function that returns a set, in a connection. */
typedef struct {
    const Set *set;
    struct Connection *connection;
} Module;

#define SETS 13

/* What the functions of one connection share. Each that has it holds it. */
typedef struct Connection {
    int holders;
    bool has_table;
    H3wTable table;
    /* what is prepared, and the one of it that was asked for last */
    h3sql_Cache cache;
    Prepared *last;
    /* what has a name, and how many uses and names there were */
    Prepared *named[MOST_NAMED];
    uint64_t uses, names;
    /* a number at random, which is in all names: those of another connection have another one */
    uint64_t chance[2];
    Module modules[SETS];
} Connection;

static void let_go(void *held) {
    Connection *connection = held;
    h3sql_Kept *old;
    size_t i;
    if (--connection->holders > 0) return;
    for (i = 0; i < MOST_NAMED; i++)
        if (connection->named[i]) drop(connection->named[i]);
    while ((old = h3sql_evict(&connection->cache, 0, NULL))) drop(old);
    sqlite3_free(connection->cache.chains);
    sqlite3_free(connection);
}

static void let_go_of_module(void *module) { let_go(((Module *)module)->connection); }

/* The bytes of a file, at most one more than a table's may have; or NULL, and a message, or none
 * where there is no memory. */
static char *read_file(const char *path, size_t *count, char **message) {
    FILE *file = fopen(path, "rb");
    char *bytes = NULL;
    *message = NULL;
    if (!file) {
        *message = sqlite3_mprintf("table: open: %s: %s", path, strerror(errno));
        return NULL;
    }
    bytes = sqlite3_malloc64(H3SQL_TABLE_MOST + 1);
    if (bytes) *count = fread(bytes, 1, H3SQL_TABLE_MOST + 1, file);
    if (bytes && ferror(file)) {
        *message = sqlite3_mprintf("table: read: %s: %s", path, strerror(errno));
        sqlite3_free(bytes);
        bytes = NULL;
    }
    fclose(file);
    return bytes;
}

/* Ends a call with a message, which is freed; without one there was no memory for it. */
static void put_message(sqlite3_context *context, char *message) {
    if (message) sqlite3_result_error(context, message, -1);
    else sqlite3_result_error_nomem(context);
    sqlite3_free(message);
}

static void take_table(sqlite3_context *context, const char *bytes, size_t count) {
    Connection *connection = sqlite3_user_data(context);
    char text[H3SQL_FAULT_ROOM] = "table: more than a megabyte";
    H3Error error = E_FAILED;
    if (count <= H3SQL_TABLE_MOST) error = h3sql_read_table(&connection->table, bytes, count, text);
    if (error) {
        put_message(context, error == E_MEMORY_ALLOC ? NULL : sqlite3_mprintf("%s", text));
        return;
    }
    connection->has_table = true;
    sqlite3_result_int(context, 1);
}

/* h3_use_table: the table of a file, by its name, or of the bytes of one. The one that the
 * connection has stays where it is refused. */
static void use_table(sqlite3_context *context, int arity, sqlite3_value **values) {
    int type = sqlite3_value_type(values[0]);
    const char *path;
    char *bytes, *message;
    size_t count = 0;
    (void)arity;
    if (type == SQLITE_BLOB) {
        bytes = (char *)sqlite3_value_blob(values[0]);
        take_table(context, bytes ? bytes : "", (size_t)sqlite3_value_bytes(values[0]));
        return;
    }
    if (type != SQLITE_TEXT) {
        put_message(context, sqlite3_mprintf("h3_use_table takes a file's name, or its bytes"));
        return;
    }
    path = (const char *)sqlite3_value_text(values[0]);
    bytes = path ? read_file(path, &count, &message) : (message = NULL);
    if (bytes) take_table(context, bytes, count);
    else put_message(context, message);
    sqlite3_free(bytes);
}

static char *no_table(const char *function) {
    return sqlite3_mprintf("%s takes a base cell table: SELECT h3_use_table('FILE') first", function);
}

/* The table of the connection; NULL where there is none, and the call has ended. */
static const H3wTable *table_of(sqlite3_context *context, const char *function) {
    Connection *connection = sqlite3_user_data(context);
    if (connection->has_table) return &connection->table;
    put_message(context, no_table(function));
    return NULL;
}

/* The indexes that two values are. */
static H3Error pair_of(sqlite3_value **values, H3Index pair[2]) {
    H3Error error = index_of(values[0], &pair[0]);
    return error ? error : index_of(values[1], &pair[1]);
}

/* What an error of a pair of cells is about: the first that is refused, or both. */
static char *about_pair(H3Error error, sqlite3_value **values) {
    H3Index first;
    bool is_index = index_of(values[0], &first) == E_SUCCESS;
    if (error == E_FAILED) return named(values[is_index ? 1 : 0]);
    if (error == E_CELL_INVALID) return named(values[h3w_isValidCell(first) ? 1 : 0]);
    return joined("%s and %s", named(values[0]), named(values[1]));
}

static void are_neighbors(sqlite3_context *context, int count, sqlite3_value **values) {
    const H3wTable *table = table_of(context, "h3_are_neighbor_cells");
    H3Index pair[2];
    int out = 0;
    H3Error error;
    if (!table || has_null(count, values)) return;
    error = pair_of(values, pair);
    if (!error) error = h3w_areNeighborCells(table, pair[0], pair[1], &out);
    if (error) put_error(context, error, about_pair(error, values));
    else sqlite3_result_int(context, out);
}

static void edge_between(sqlite3_context *context, int count, sqlite3_value **values) {
    const H3wTable *table = table_of(context, "h3_cells_to_directed_edge");
    H3Index pair[2], out = H3_NULL;
    H3Error error;
    if (!table || has_null(count, values)) return;
    error = pair_of(values, pair);
    if (!error) error = h3w_cellsToDirectedEdge(table, pair[0], pair[1], &out);
    if (error) put_error(context, error, about_pair(error, values));
    else put_index(context, out, is_text(values[0]));
}

static void destination(sqlite3_context *context, int count, sqlite3_value **values) {
    const H3wTable *table = table_of(context, "h3_get_directed_edge_destination");
    H3Index edge, out = H3_NULL;
    H3Error error;
    if (!table || has_null(count, values)) return;
    error = index_of(values[0], &edge);
    if (!error) error = h3w_getDirectedEdgeDestination(table, edge, &out);
    if (error) put_error(context, error, named(values[0]));
    else put_index(context, out, is_text(values[0]));
}

static bool is_same(const Prepared *prepared, const char *text, size_t length, h3sql_Kind kind) {
    return prepared->kind == kind && prepared->length == length && !memcmp(prepared->text, text, length);
}

static uint64_t hash_of(const char *text, size_t length, h3sql_Kind kind) {
    return h3sql_hash(text, length) ^ (uint64_t)kind;
}

/* Finds what was prepared of a text: of the last call, or by the hash; NULL if it was not. */
static Prepared *find(Connection *connection, const char *text, size_t length, h3sql_Kind kind) {
    Prepared *last = connection->last;
    uint64_t hash;
    h3sql_Kept *found;
    if (last && is_same(last, text, length, kind)) return last;
    hash = hash_of(text, length, kind);
    found = h3sql_chain(&connection->cache, hash);
    while (found && !(found->hash == hash && is_same((Prepared *)found, text, length, kind))) found = found->next;
    if (found) connection->last = (Prepared *)found;
    return (Prepared *)found;
}

/* Keeps what was prepared of a text of so many cells. E_MEMORY_ALLOC: there is no memory. */
static H3Error keep(Connection *connection, Prepared *prepared, const char *text, size_t length, size_t cells) {
    h3sql_Kept *old;
    H3Error error;
    prepared->text = text ? sqlite3_malloc64(length + 1) : NULL;
    if (!prepared->text) return E_MEMORY_ALLOC;
    memcpy(prepared->text, text, length);
    prepared->length = length;
    prepared->kept.hash = hash_of(text, length, prepared->kind);
    error = h3sql_keep(&connection->cache, &prepared->kept, cells, resize, NULL);
    if (error) return error;
    prepared->holders++;
    connection->last = prepared;
    while ((old = h3sql_evict(&connection->cache, H3SQL_KEPT_CELLS, &prepared->kept))) drop(old);
    return E_SUCCESS;
}

static int by_cell(const void *a, const void *b) {
    H3Index first = *(const H3Index *)a, second = *(const H3Index *)b;
    return (first > second) - (first < second);
}

/* Moves how the zones were given to what is prepared of them, in order. */
static void move_given(Given *to, Given *from) {
    if (from->count) qsort(from->items, from->count, sizeof *from->items, by_cell);
    *to = *from;
    memset(from, 0, sizeof *from);
}

/* Returns a zone as the array has it, so it equals what the array was made of. */
static void put_zone(sqlite3_context *context, const Given *given, H3Index zone) {
    const Item *found = NULL;
    if (given->count) found = bsearch(&zone, given->items, given->count, sizeof *given->items, by_cell);
    if (found && found->text) sqlite3_result_text(context, found->text, -1, SQLITE_TRANSIENT);
    else put_index(context, zone, given->are_texts && !found);
}

/* Prepares the cells of a value, and keeps those of a text; the caller holds what is returned. NULL where they are
 * refused: then `*error` or `*code` says why, and so do the cells and `*refused`. The caller gives these back. */
static Prepared *made_of(Connection *connection, sqlite3 *engine, sqlite3_value *value, h3sql_Kind kind, Cells *cells,
                         char **refused, H3Error *error, int *code) {
    Prepared *made = sqlite3_malloc64(sizeof *made);
    *error = E_MEMORY_ALLOC;
    *code = SQLITE_OK;
    if (!made) return NULL;
    memset(made, 0, sizeof *made);
    made->holders = 1;
    made->kind = kind;
    cells->given.is_kept = kind != H3SQL_REGION;
    *error = take_array(cells, refused, engine, value, code);
    if (!*error && *code == SQLITE_OK) *error = h3sql_prepare(&made->zones, &cells->list, kind, 0, resize, NULL);
    move_given(&made->given, &cells->given);
    /* (an item that is kept takes as much as four cells) */
    made->weight = cells->list.count + 4 * made->given.count + H3SQL_KEPT_EXTRA;
    if (!*error && *code == SQLITE_OK && is_text(value))
        *error = keep(connection, made, (const char *)sqlite3_value_text(value), (size_t)sqlite3_value_bytes(value),
                      cells->list.count + 4 * made->given.count);
    if (!*error && *code == SQLITE_OK) return made;
    drop(made);
    return NULL;
}

/* The same of an argument of a call, which has ended where the cells are refused. */
static Prepared *prepare(sqlite3_context *context, sqlite3_value *value, h3sql_Kind kind) {
    Cells cells = {0};
    char *refused = NULL;
    int code;
    H3Error error;
    Prepared *made = made_of(sqlite3_user_data(context), sqlite3_context_db_handle(context), value, kind, &cells,
                             &refused, &error, &code);
    if (!made) put_list_error(context, code, error, &cells, refused);
    release(&cells);
    return made;
}

/* A value that stands for what is prepared, so no text is read for each row: h3_prepare_zones and h3_prepare_region
 * return its bytes. */
typedef struct {
    uint64_t chance[2], number, place;
} Name;

/* What a value names, which the caller holds; NULL if it is none of what is kept, and the call has ended. */
static Prepared *named_by(sqlite3_context *context, sqlite3_value *value, h3sql_Kind kind) {
    Connection *connection = sqlite3_user_data(context);
    const void *bytes = sqlite3_value_blob(value);
    bool is_name = bytes && sqlite3_value_bytes(value) == (int)sizeof(Name);
    Name name = {{0, 0}, 0, MOST_NAMED};
    Prepared *found = NULL;
    if (is_name) memcpy(&name, bytes, sizeof name);
    if (name.place < MOST_NAMED && !memcmp(name.chance, connection->chance, sizeof name.chance))
        found = connection->named[name.place];
    if (found && found->number == name.number && (found->kind == H3SQL_REGION) == (kind == H3SQL_REGION)) {
        found->used = ++connection->uses;
        found->holders++;
        return found;
    }
    put_error(context, E_FAILED,
              is_name
                  ? sqlite3_mprintf("not a value that h3_prepare_%s keeps", kind == H3SQL_REGION ? "region" : "zones")
                  : shown(value));
    return NULL;
}

/* The place of the name that was used longest ago. */
static size_t oldest_of(const Connection *connection) {
    size_t oldest = 0, i;
    for (i = 1; i < MOST_NAMED; i++) {
        const Prepared *one = connection->named[i], *best = connection->named[oldest];
        if (one && (!best || one->used < best->used)) oldest = i;
    }
    return oldest;
}

/* A place for the name of so many cells more: MOST_NAMED if what is kept has to go for it. */
static size_t free_place(const Connection *connection, size_t cells) {
    size_t place = MOST_NAMED, kept = 0, i;
    for (i = 0; i < MOST_NAMED; i++) {
        if (connection->named[i]) kept += connection->named[i]->weight;
        else place = i;
    }
    return kept == 0 || kept + cells <= H3SQL_KEPT_CELLS ? place : MOST_NAMED;
}

/* Gives a name; those that were used longest ago lose theirs for it. */
static void give_name(Connection *connection, Prepared *prepared) {
    size_t place;
    while ((place = free_place(connection, prepared->weight)) == MOST_NAMED) {
        size_t oldest = oldest_of(connection);
        connection->named[oldest]->number = 0;
        drop(connection->named[oldest]);
        connection->named[oldest] = NULL;
    }
    prepared->number = ++connection->names;
    prepared->place = place;
    prepared->holders++;
    connection->named[place] = prepared;
}

/* The prepared cells of an argument, which the caller holds; NULL where they are refused, and the call
 * has ended. SQLite keeps them where the argument is a constant. Any other text is looked for by its
 * bytes. */
static Prepared *prepared_of(sqlite3_context *context, int argument, sqlite3_value *value, h3sql_Kind kind) {
    Connection *connection = sqlite3_user_data(context);
    Prepared *found = sqlite3_get_auxdata(context, argument);
    const char *text;
    if (found) {
        found->holders++;
        return found;
    }
    if (sqlite3_value_type(value) == SQLITE_BLOB) return named_by(context, value, kind);
    text = is_text(value) ? (const char *)sqlite3_value_text(value) : NULL;
    if (text) found = find(connection, text, (size_t)sqlite3_value_bytes(value), kind);
    if (found) found->holders++;
    else found = prepare(context, value, kind);
    if (!found) return NULL;
    found->holders++;
    sqlite3_set_auxdata(context, argument, found, drop);
    return found;
}

/* The cell of the first argument, and the cells of the second, prepared, which the caller holds; NULL where an argument
 * is NULL or there is an error, with which the call ends. */
static Prepared *look_up(sqlite3_context *context, int count, sqlite3_value **values, h3sql_Kind kind, H3Index *cell) {
    Prepared *prepared = has_null(count, values) ? NULL : prepared_of(context, 1, values[1], kind);
    H3Error error;
    if (!prepared) return NULL;
    error = index_of(values[0], cell);
    if (!error) return prepared;
    drop(prepared);
    put_error(context, error, named(values[0]));
    return NULL;
}

static void is_covered(sqlite3_context *context, int count, sqlite3_value **values) {
    H3Index cell, zone = H3_NULL;
    Prepared *region = look_up(context, count, values, H3SQL_REGION, &cell);
    H3Error error = region ? h3sql_zone_of(&region->zones, cell, &zone) : E_SUCCESS;
    if (!region) return;
    drop(region);
    if (error) put_error(context, error, named(values[0]));
    else sqlite3_result_int(context, zone != H3_NULL);
}

/* NULL where the cell has no zone */
static void zone_of(sqlite3_context *context, int count, sqlite3_value **values) {
    H3Index cell, zone = H3_NULL;
    Prepared *zones = look_up(context, count, values, H3SQL_ZONES, &cell);
    H3Error error = zones ? h3sql_zone_of(&zones->zones, cell, &zone) : E_SUCCESS;
    if (!zones) return;
    if (error) put_error(context, error, named(values[0]));
    else if (zone != H3_NULL) put_zone(context, &zones->given, zone);
    drop(zones);
}

/* The place in the array, from 0 on, as json_each and -> have it; NULL where the cell has no zone */
static void place_of(sqlite3_context *context, int count, sqlite3_value **values) {
    H3Index cell;
    bool found = false;
    int32_t place = 0;
    Prepared *zones = look_up(context, count, values, H3SQL_PLACES, &cell);
    H3Error error = zones ? h3sql_place_of(&zones->zones, cell, &found, &place) : E_SUCCESS;
    if (!zones) return;
    drop(zones);
    if (error) put_error(context, error, named(values[0]));
    else if (found) sqlite3_result_int(context, place);
}

/* Prepares cells, and returns their name. */
static void put_name(sqlite3_context *context, sqlite3_value *value, h3sql_Kind kind) {
    Connection *connection = sqlite3_user_data(context);
    Prepared *prepared = prepared_of(context, 0, value, kind);
    Name name = {{connection->chance[0], connection->chance[1]}, 0, 0};
    if (!prepared) return;
    if (!prepared->number) give_name(connection, prepared);
    prepared->used = ++connection->uses;
    name.number = prepared->number;
    name.place = prepared->place;
    drop(prepared);
    sqlite3_result_blob(context, &name, sizeof name, SQLITE_TRANSIENT);
}

static void prepare_region(sqlite3_context *context, int count, sqlite3_value **values) {
    if (!has_null(count, values)) put_name(context, values[0], H3SQL_REGION);
}

/* (with places, for h3_place_of as for h3_zone_of) */
static void prepare_zones(sqlite3_context *context, int count, sqlite3_value **values) {
    if (!has_null(count, values)) put_name(context, values[0], H3SQL_PLACES);
}

/* The functions of a connection: over its table, which another one may replace, and over what it
 * has prepared. */
static const struct {
    const char *name;
    int arity, flags;
    Call *call;
} of_connection[] = {
    {"h3_use_table", 1, SQLITE_DIRECTONLY, use_table},
    {"h3_are_neighbor_cells", 2, SQLITE_INNOCUOUS, are_neighbors},
    {"h3_cells_to_directed_edge", 2, SQLITE_INNOCUOUS, edge_between},
    {"h3_get_directed_edge_destination", 1, SQLITE_INNOCUOUS, destination},
    {"h3_is_covered", 2, SQLITE_INNOCUOUS | SQLITE_DETERMINISTIC, is_covered},
    {"h3_zone_of", 2, SQLITE_INNOCUOUS | SQLITE_DETERMINISTIC, zone_of},
    {"h3_place_of", 2, SQLITE_INNOCUOUS | SQLITE_DETERMINISTIC, place_of},
    {"h3_prepare_region", 1, SQLITE_INNOCUOUS, prepare_region},
    {"h3_prepare_zones", 1, SQLITE_INNOCUOUS, prepare_zones},
};

/* ---- Functions that return sets: tables of one column or two, whose hidden columns are the arguments. A
 * hidden column is seen by its name wherever the table is, so a name that a user's column has would
 * stand for that column in silence: no one has columns of these names. */

#define MOST_ARGUMENTS 2

typedef struct {
    sqlite3_vtab_cursor base;
    h3sql_Rows rows;
    Cells cells;
    sqlite3_value *arguments[MOST_ARGUMENTS];
    /* what the error of an item is about */
    char *refused;
    /* the memory of a walk, and zones that are held */
    void *walked;
    Prepared *zones;
    bool as_texts, found;
    /* what the second argument is, if it is not given */
    bool is_default;
    int second;
    H3Index row;
    sqlite3_int64 place;
} Cursor;

struct Set {
    const char *name, *schema;
    /* how many columns are seen, how many are hidden, and how many of these have to be given */
    int columns, arity, least;
    /* begins the rows; what it returns is an error of H3, or E_SUCCESS, and `*code` is one of
     * SQLite */
    H3Error (*begin)(Cursor *cursor, sqlite3 *engine, sqlite3_value **values, int *code);
    /* what an error of that is about */
    char *(*about)(H3Error error, Cursor *cursor, sqlite3_value **values);
    /* whether a base cell table is needed, and whether a pentagon on the way gives no rows, and no error */
    bool is_over_table, is_or_none;
};

typedef struct {
    sqlite3_vtab base;
    sqlite3 *engine;
    const Set *set;
    Connection *connection;
} Table;

static H3Error begin_res0_cells(Cursor *cursor, sqlite3 *engine, sqlite3_value **values, int *code) {
    (void)engine, (void)values, (void)code;
    return h3sql_res0_cells(&cursor->rows);
}

static char *about_nothing(H3Error error, Cursor *cursor, sqlite3_value **values) {
    (void)error, (void)cursor, (void)values;
    return sqlite3_mprintf("resolution 0");
}

static char *about_resolution(H3Error error, Cursor *cursor, sqlite3_value **values) {
    (void)error, (void)cursor;
    return resolution(values[0]);
}

static char *about_index(H3Error error, Cursor *cursor, sqlite3_value **values) {
    (void)error, (void)cursor;
    return named(values[0]);
}

static char *about_children(H3Error error, Cursor *cursor, sqlite3_value **values) {
    if (!cursor->is_default) return at_resolution(error, values[0], values[1]);
    if (error == E_FAILED || error == E_CELL_INVALID) return named(values[0]);
    return joined("%s at resolution %s", named(values[0]), sqlite3_mprintf("%d", cursor->second));
}

/* The second argument, or what it is if it is not given. */
static int second_of(const Cursor *cursor, sqlite3_value **values) {
    return cursor->is_default ? cursor->second : resolution_of(values[1]);
}

static char *about_uncompacted(H3Error error, Cursor *cursor, sqlite3_value **values) {
    if (cursor->refused) return sqlite3_mprintf("%s", cursor->refused);
    if (error == E_RES_DOMAIN) return resolution(values[1]);
    return listed(error, &cursor->cells.list, second_of(cursor, values));
}

static H3Error begin_pentagons(Cursor *cursor, sqlite3 *engine, sqlite3_value **values, int *code) {
    (void)engine, (void)code;
    return h3sql_pentagons(&cursor->rows, resolution_of(values[0]));
}

static H3Error begin_edges(Cursor *cursor, sqlite3 *engine, sqlite3_value **values, int *code) {
    H3Index index;
    H3Error error = index_of(values[0], &index);
    (void)engine, (void)code;
    cursor->as_texts = is_text(values[0]);
    return error ? error : h3sql_edges(&cursor->rows, index);
}

static H3Error begin_ancestors(Cursor *cursor, sqlite3 *engine, sqlite3_value **values, int *code) {
    H3Index index;
    size_t count = 0;
    H3Error error = index_of(values[0], &index);
    (void)engine, (void)code;
    cursor->as_texts = is_text(values[0]);
    if (!error) error = h3sql_ancestors(index, cursor->rows.own, &count);
    h3sql_listed(&cursor->rows, cursor->rows.own, count);
    return error;
}

static H3Error begin_children(Cursor *cursor, sqlite3 *engine, sqlite3_value **values, int *code) {
    H3Index index;
    H3Error error = index_of(values[0], &index);
    (void)engine, (void)code;
    cursor->as_texts = is_text(values[0]);
    if (error) return error;
    cursor->second = h3w_getResolution(index) + 1;
    return h3sql_children(&cursor->rows, index, second_of(cursor, values));
}

/* The resolution that follows the finest of some cells; of resolution 15 that itself. */
static int next_of(const h3sql_List *list) {
    int finest = -1;
    size_t i;
    for (i = 0; i < list->count; i++) {
        int res = h3w_getResolution(list->cells[i]);
        if (res > finest) finest = res;
    }
    return finest < 15 ? finest + 1 : 15;
}

static H3Error begin_uncompacted(Cursor *cursor, sqlite3 *engine, sqlite3_value **values, int *code) {
    static const H3Index none = H3_NULL;
    Cells *cells = &cursor->cells;
    H3Error error = take_array(cells, &cursor->refused, engine, values[0], code);
    cursor->as_texts = cells->any_text;
    if (error || *code != SQLITE_OK) return error;
    cursor->second = next_of(&cells->list);
    return h3sql_uncompacted(&cursor->rows, cells->list.count ? cells->list.cells : &none, cells->list.count,
                             second_of(cursor, values));
}

static char *about_walk(H3Error error, Cursor *cursor, sqlite3_value **values) {
    if (error == E_FAILED || error == E_CELL_INVALID) return named(values[0]);
    return joined("%s steps from %s", cursor->is_default ? sqlite3_mprintf("1") : shown(values[1]), named(values[0]));
}

static H3Error begin_walk(Cursor *cursor, h3sql_Walk walk, sqlite3_value **values) {
    const Connection *connection = ((Table *)cursor->base.pVtab)->connection;
    H3Index origin;
    H3Error error = index_of(values[0], &origin);
    cursor->as_texts = is_text(values[0]);
    if (error) return error;
    cursor->second = 1;
    return h3sql_walk(&cursor->rows, walk, &connection->table, origin, second_of(cursor, values), resize, NULL,
                      &cursor->walked);
}

static H3Error begin_disk(Cursor *cursor, sqlite3 *engine, sqlite3_value **values, int *code) {
    (void)engine, (void)code;
    return begin_walk(cursor, H3SQL_DISK, values);
}

static H3Error begin_distances(Cursor *cursor, sqlite3 *engine, sqlite3_value **values, int *code) {
    (void)engine, (void)code;
    return begin_walk(cursor, H3SQL_DISTANCES, values);
}

static H3Error begin_ring(Cursor *cursor, sqlite3 *engine, sqlite3_value **values, int *code) {
    (void)engine, (void)code;
    return begin_walk(cursor, H3SQL_RING, values);
}

/* The zones of a value, prepared, which the cursor holds; NULL where there is an error. */
static Prepared *zones_of(Cursor *cursor, sqlite3 *engine, sqlite3_value *value, H3Error *error, int *code) {
    Connection *connection = ((Table *)cursor->base.pVtab)->connection;
    const char *text = is_text(value) ? (const char *)sqlite3_value_text(value) : NULL;
    Prepared *found = NULL;
    if (text) found = find(connection, text, (size_t)sqlite3_value_bytes(value), H3SQL_OVERLAPPING);
    if (found) found->holders++;
    else found = made_of(connection, engine, value, H3SQL_OVERLAPPING, &cursor->cells, &cursor->refused, error, code);
    cursor->zones = found;
    return found;
}

static H3Error begin_zones(Cursor *cursor, sqlite3 *engine, sqlite3_value **values, int *code) {
    H3Index index;
    size_t count = 0;
    H3Error error = E_SUCCESS;
    Prepared *zones = zones_of(cursor, engine, values[1], &error, code);
    h3sql_listed(&cursor->rows, cursor->rows.own, 0);
    if (!zones) return error;
    error = index_of(values[0], &index);
    if (!error) error = h3sql_zones_of(&zones->zones, index, cursor->rows.own, &count);
    cursor->rows.count = count;
    return error;
}

/* (the array is judged first) */
static char *about_zones(H3Error error, Cursor *cursor, sqlite3_value **values) {
    if (cursor->zones) return named(values[0]);
    if (cursor->refused) return sqlite3_mprintf("%s", cursor->refused);
    return listed(error, &cursor->cells.list, 0);
}

#define ARGUMENTS_OF_WALK "\"h3whole.origin\" HIDDEN, \"h3whole.k\" HIDDEN)"

static const Set sets[SETS] = {
    {"h3_get_res_0_cells", "CREATE TABLE x(value)", 1, 0, 0, begin_res0_cells, about_nothing, false, false},
    {"h3_get_pentagons", "CREATE TABLE x(value, \"h3whole.resolution\" HIDDEN)", 1, 1, 1, begin_pentagons,
     about_resolution, false, false},
    {"h3_origin_to_directed_edges", "CREATE TABLE x(value, \"h3whole.origin\" HIDDEN)", 1, 1, 1, begin_edges,
     about_index, false, false},
    {"h3_cell_to_ancestors", "CREATE TABLE x(value, \"h3whole.cell\" HIDDEN)", 1, 1, 1, begin_ancestors, about_index,
     false, false},
    {"h3_cell_to_children", "CREATE TABLE x(value, \"h3whole.cell\" HIDDEN, \"h3whole.resolution\" HIDDEN)", 1, 2, 1,
     begin_children, about_children, false, false},
    {"h3_zones_of", "CREATE TABLE x(value, \"h3whole.cell\" HIDDEN, \"h3whole.zones\" HIDDEN)", 1, 2, 2, begin_zones,
     about_zones, false, false},
    {"h3_uncompact_cells", "CREATE TABLE x(value, \"h3whole.cells\" HIDDEN, \"h3whole.resolution\" HIDDEN)", 1, 2, 1,
     begin_uncompacted, about_uncompacted, false, false},
    {"h3_grid_disk_unsafe", "CREATE TABLE x(value, " ARGUMENTS_OF_WALK, 1, 2, 1, begin_disk, about_walk, true, false},
    {"h3_grid_disk_distances_unsafe", "CREATE TABLE x(value, distance, " ARGUMENTS_OF_WALK, 2, 2, 1, begin_distances,
     about_walk, true, false},
    {"h3_grid_ring_unsafe", "CREATE TABLE x(value, " ARGUMENTS_OF_WALK, 1, 2, 1, begin_ring, about_walk, true, false},
    {"h3_grid_disk_unsafe_or_none", "CREATE TABLE x(value, " ARGUMENTS_OF_WALK, 1, 2, 1, begin_disk, about_walk, true,
     true},
    {"h3_grid_disk_distances_unsafe_or_none", "CREATE TABLE x(value, distance, " ARGUMENTS_OF_WALK, 2, 2, 1,
     begin_distances, about_walk, true, true},
    {"h3_grid_ring_unsafe_or_none", "CREATE TABLE x(value, " ARGUMENTS_OF_WALK, 1, 2, 1, begin_ring, about_walk, true,
     true},
};

static int connect(sqlite3 *engine, void *data, int argc, const char *const *argv, sqlite3_vtab **out, char **message) {
    const Module *module = data;
    Table *table;
    int code = sqlite3_declare_vtab(engine, module->set->schema);
    (void)argc, (void)argv, (void)message;
    if (code != SQLITE_OK) return code;
    sqlite3_vtab_config(engine, SQLITE_VTAB_INNOCUOUS);
    table = sqlite3_malloc64(sizeof *table);
    if (!table) return SQLITE_NOMEM;
    memset(table, 0, sizeof *table);
    table->engine = engine;
    table->set = module->set;
    table->connection = module->connection;
    *out = &table->base;
    return SQLITE_OK;
}

static int disconnect(sqlite3_vtab *table) {
    sqlite3_free(table);
    return SQLITE_OK;
}

/* Ends a call with a text, which SQLite frees. */
static int say(sqlite3_vtab *table, int code, char *text) {
    sqlite3_free(table->zErrMsg);
    table->zErrMsg = text;
    return text ? code : SQLITE_NOMEM;
}

/* Asks for each argument once, by `column = value`. */
static int best_index(sqlite3_vtab *base, sqlite3_index_info *info) {
    const Set *set = ((Table *)base)->set;
    int i, asked = 0, count = 0;
    for (i = 0; i < info->nConstraint; i++) {
        int column = info->aConstraint[i].iColumn - set->columns + 1;
        if (column < 1 || info->aConstraint[i].op != SQLITE_INDEX_CONSTRAINT_EQ || asked & 1 << column) continue;
        if (!info->aConstraint[i].usable) return SQLITE_CONSTRAINT;
        info->aConstraintUsage[i].argvIndex = column;
        info->aConstraintUsage[i].omit = 1;
        asked |= 1 << column;
        count++;
    }
    if (count < set->least || (set->least > 0 && !(asked & 1 << 1)))
        return say(base, SQLITE_ERROR,
                   sqlite3_mprintf("%s takes %d argument%s", set->name, set->least, set->least == 1 ? "" : "s"));
    info->estimatedCost = 1000;
    info->estimatedRows = 1000;
    return SQLITE_OK;
}

static int open(sqlite3_vtab *table, sqlite3_vtab_cursor **out) {
    Cursor *cursor = sqlite3_malloc64(sizeof *cursor);
    (void)table;
    if (!cursor) return SQLITE_NOMEM;
    memset(cursor, 0, sizeof *cursor);
    *out = &cursor->base;
    return SQLITE_OK;
}

/* Gives back what the last rows took. */
static void clear(Cursor *cursor) {
    int i;
    release(&cursor->cells);
    sqlite3_free(cursor->refused);
    cursor->refused = NULL;
    sqlite3_free(cursor->walked);
    cursor->walked = NULL;
    if (cursor->zones) drop(cursor->zones);
    cursor->zones = NULL;
    for (i = 0; i < MOST_ARGUMENTS; i++) {
        sqlite3_value_free(cursor->arguments[i]);
        cursor->arguments[i] = NULL;
    }
    cursor->found = false;
    cursor->as_texts = false;
    cursor->place = 0;
}

static int close(sqlite3_vtab_cursor *base) {
    clear((Cursor *)base);
    sqlite3_free(base);
    return SQLITE_OK;
}

/* Ends a call with an error; what it is about is freed. */
static int refuse(sqlite3_vtab *table, H3Error error, char *about) {
    char *text = error_text(error, about);
    if (error != E_MEMORY_ALLOC) return say(table, SQLITE_ERROR, text);
    sqlite3_free(text);
    return SQLITE_NOMEM;
}

static int next(sqlite3_vtab_cursor *base) {
    Cursor *cursor = (Cursor *)base;
    H3Error error = h3sql_next(&cursor->rows, &cursor->row, &cursor->found);
    cursor->place++;
    return error ? refuse(base->pVtab, error, sqlite3_mprintf("row %lld", cursor->place)) : SQLITE_OK;
}

static int keep_arguments(Cursor *cursor, int count, sqlite3_value **values) {
    int i;
    for (i = 0; i < count; i++) {
        cursor->arguments[i] = sqlite3_value_dup(values[i]);
        if (!cursor->arguments[i]) return SQLITE_NOMEM;
    }
    return SQLITE_OK;
}

static int filter(sqlite3_vtab_cursor *base, int plan, const char *words, int count, sqlite3_value **values) {
    Cursor *cursor = (Cursor *)base;
    Table *table = (Table *)base->pVtab;
    H3Error error;
    int code;
    (void)plan, (void)words;
    clear(cursor);
    if (has_null(count, values)) return SQLITE_OK;
    if (table->set->is_over_table && !table->connection->has_table)
        return say(base->pVtab, SQLITE_ERROR, no_table(table->set->name));
    cursor->is_default = count < table->set->arity;
    code = keep_arguments(cursor, count, values);
    if (code != SQLITE_OK) return code;
    error = table->set->begin(cursor, table->engine, values, &code);
    if (code == SQLITE_ERROR) return say(base->pVtab, code, sqlite3_mprintf("%s", sqlite3_errmsg(table->engine)));
    if (code != SQLITE_OK) return code;
    if (error == E_PENTAGON && table->set->is_or_none) return SQLITE_OK;
    if (error == E_MEMORY_ALLOC || !error) return error ? SQLITE_NOMEM : next(base);
    return refuse(base->pVtab, error, table->set->about(error, cursor, values));
}

static int at_end(sqlite3_vtab_cursor *base) { return !((Cursor *)base)->found; }

static int column(sqlite3_vtab_cursor *base, sqlite3_context *context, int number) {
    Cursor *cursor = (Cursor *)base;
    int columns = ((Table *)base->pVtab)->set->columns;
    if (number == 0 && cursor->zones) put_zone(context, &cursor->zones->given, cursor->row);
    else if (number == 0) put_index(context, cursor->row, cursor->as_texts);
    else if (number < columns) sqlite3_result_int(context, cursor->rows.distances[cursor->rows.at - 1]);
    else if (cursor->arguments[number - columns]) sqlite3_result_value(context, cursor->arguments[number - columns]);
    return SQLITE_OK;
}

static int row_id(sqlite3_vtab_cursor *base, sqlite3_int64 *out) {
    *out = ((Cursor *)base)->place;
    return SQLITE_OK;
}

static const sqlite3_module module = {
    .xConnect = connect,
    .xBestIndex = best_index,
    .xDisconnect = disconnect,
    .xOpen = open,
    .xClose = close,
    .xFilter = filter,
    .xNext = next,
    .xEof = at_end,
    .xColumn = column,
    .xRowid = row_id,
};

/* ---- The extension */

#define OWN_ANSWERS (SQLITE_UTF8 | SQLITE_DETERMINISTIC | SQLITE_INNOCUOUS)

static int add_listed(sqlite3 *engine, const Function *listed_functions, size_t count) {
    int code = SQLITE_OK;
    size_t i;
    for (i = 0; code == SQLITE_OK && i < count; i++) {
        const Function *one = &listed_functions[i];
        code = sqlite3_create_function_v2(engine, one->name, one->arity, OWN_ANSWERS, (void *)one, one->call, NULL,
                                          NULL, NULL);
    }
    return code;
}

static int add_functions(sqlite3 *engine) {
    int code = add_listed(engine, functions, sizeof functions / sizeof *functions);
    if (code == SQLITE_OK) code = add_listed(engine, operations, sizeof operations / sizeof *operations);
    if (code == SQLITE_OK)
        code = sqlite3_create_function_v2(engine, "h3_compact_cells", 1, OWN_ANSWERS, NULL, NULL, list_step,
                                          compact_final, NULL);
    if (code == SQLITE_OK)
        code = sqlite3_create_function_v2(engine, "h3_unite_cells", 1, OWN_ANSWERS, NULL, NULL, list_step, unite_final,
                                          NULL);
    return code;
}

/* (SQLite calls what lets go also where it refuses the function) */
static int add_of_connection(sqlite3 *engine, Connection *connection) {
    int code = SQLITE_OK;
    size_t i;
    for (i = 0; code == SQLITE_OK && i < sizeof of_connection / sizeof *of_connection; i++) {
        connection->holders++;
        code = sqlite3_create_function_v2(engine, of_connection[i].name, of_connection[i].arity,
                                          SQLITE_UTF8 | of_connection[i].flags, connection, of_connection[i].call, NULL,
                                          NULL, let_go);
    }
    return code;
}

static int add_sets(sqlite3 *engine, Connection *connection) {
    int code = SQLITE_OK, i;
    for (i = 0; code == SQLITE_OK && i < SETS; i++) {
        Module *own = &connection->modules[i];
        own->set = &sets[i];
        own->connection = connection;
        connection->holders++;
        code = sqlite3_create_module_v2(engine, sets[i].name, &module, own, let_go_of_module);
    }
    return code;
}

/* (SQLite looks for the name of the file, without digits) */
__attribute__((visibility("default"))) int sqlite3_hwhole_init(sqlite3 *engine, char **message,
                                                               const sqlite3_api_routines *api) {
    Connection *connection;
    int code;
    SQLITE_EXTENSION_INIT2(api);
    (void)message, (void)api;
    connection = sqlite3_malloc64(sizeof *connection);
    if (!connection) return SQLITE_NOMEM;
    memset(connection, 0, sizeof *connection);
    sqlite3_randomness(sizeof connection->chance, connection->chance);
    connection->holders = 1;
    code = add_functions(engine);
    if (code == SQLITE_OK) code = add_of_connection(engine, connection);
    if (code == SQLITE_OK) code = add_sets(engine, connection);
    let_go(connection);
    return code;
}
