/* The extension for SQLite with each allocation refused in turn, SQLite's own and those of
 * libh3whole: a statement then ends with SQLITE_NOMEM, or with its answer where SQLite does
 * without. Nothing is left behind. The word that it takes is the path of a base cell table. */
#include <sqlite3.h>
#include <stdbool.h>
#include <stdio.h>
#include <stdlib.h>
#include <string.h>

int sqlite3_hwhole_init(sqlite3 *, char **, const void *);

static const char *const statements[] = {
    "SELECT h3_cell_to_parent('85283473fffffff', 4)",
    "SELECT h3_cell_to_parent(599686042433355775, 4)",
    "SELECT h3_get_resolution('8009fffffffffff') + h3_cell_to_child_pos('85283473fffffff', 0)",
    "SELECT h3_child_pos_to_cell(2279, '8029fffffffffff', 5), h3_is_valid_cell('xyz')",
    "SELECT group_concat(value) FROM h3_cell_to_children('85283473fffffff', 6)",
    "SELECT group_concat(value) FROM h3_origin_to_directed_edges('8009fffffffffff')",
    "SELECT sum(value) FROM h3_get_pentagons(3)",
    "SELECT count(*) FROM h3_get_res_0_cells()",
    "SELECT h3_compact_cells(value) FROM h3_cell_to_children('85283473fffffff', 8)",
    "SELECT h3_compact_cells(value) FROM h3_get_res_0_cells()",
    "SELECT count(*) FROM h3_uncompact_cells('[\"85283473fffffff\",576636674163867647]', 5)",
    "SELECT group_concat(value) FROM h3_uncompact_cells((SELECT h3_compact_cells(value)"
    " FROM h3_cell_to_children('85283473fffffff', 6)), 6)",
    "SELECT h3_unite_cells(value) FROM (SELECT '85283473fffffff' AS value UNION ALL"
    " SELECT value FROM h3_cell_to_children('85283473fffffff', 8))",
    "SELECT h3_intersect_cells('[\"8428347ffffffff\"]', '[\"85283473fffffff\",576636674163867647]')",
    "SELECT h3_subtract_cells('8428347ffffffff', h3_cell_to_center_child('8428347ffffffff', 15))",
    "SELECT sum(h3_is_covered(value, '[\"862834707ffffff\",\"8009fffffffffff\"]'))"
    " FROM h3_cell_to_children('85283473fffffff', 7)",
    "SELECT group_concat(h3_zone_of(value, (SELECT h3_compact_cells(value)"
    " FROM h3_cell_to_children('85283473fffffff', 6)))) FROM h3_cell_to_children('85283473fffffff', 6)",
    /* (seven texts, of which the cache has chains for four at first) */
    "SELECT sum(h3_is_covered('85283473fffffff', '[' || value || ']')),"
    " h3_zone_of('85283473fffffff', 599686042433355775) FROM h3_cell_to_children(599686042433355775, 6)",
    "SELECT h3_cell_to_parent('85283473fffffff'), count(value) FROM h3_cell_to_children('85283473fffffff')",
    "SELECT group_concat(value) FROM h3_cell_to_ancestors('85283473fffffff')",
    "SELECT h3_zone_of('862834707ffffff', '[\"0x85283473FFFFFFF\", 576636674163867647, \" 8007fffffffffff\"]')",
    "SELECT group_concat(h3_zone_of(value, (SELECT h3_prepare_zones(h3_compact_cells(value))"
    " FROM h3_cell_to_children('85283473fffffff', 6)))) FROM h3_cell_to_children('85283473fffffff', 6)",
    "SELECT sum(h3_is_covered(value, h3_prepare_region('[' || value || ']'))), typeof(h3_prepare_zones(value)),"
    " h3_is_covered(value, h3_prepare_region('[\"862834707ffffff\"]')) FROM"
    " h3_cell_to_children(599686042433355775, 6)",
};

/* over the table that a statement reads, which is 1 */
static const char *const walks[] = {
    "SELECT group_concat(distance) FROM (SELECT h3_use_table('%s') AS table1),"
    " h3_grid_disk_distances_unsafe('85283473fffffff', table1)",
    "SELECT group_concat(value) FROM (SELECT h3_use_table('%s') AS table1),"
    " h3_grid_ring_unsafe('85283473fffffff', table1)",
    "SELECT h3_use_table('%s'), h3_are_neighbor_cells('85283473fffffff', '85283447fffffff'),"
    " h3_get_directed_edge_destination("
    "h3_cells_to_directed_edge('85283473fffffff', '85283447fffffff'))",
};

/* how many allocations there were, the number of the one that is refused, and whether those after
 * it are, too */
static long allocations, refused;
static bool all_after;

static bool is_refused(void) {
    allocations++;
    return refused && (allocations == refused || (all_after && allocations > refused));
}

void *__real_malloc(size_t size);
void *__wrap_malloc(size_t size);
void *__wrap_malloc(size_t size) { return is_refused() ? NULL : __real_malloc(size); }

static sqlite3_mem_methods plain;
static void *take(int size) { return is_refused() ? NULL : plain.xMalloc(size); }
static void *take_more(void *memory, int size) { return is_refused() ? NULL : plain.xRealloc(memory, size); }

/* Runs a statement, whose one row's values go into `answer`. */
static int run(sqlite3 *engine, const char *text, char *answer, size_t room) {
    sqlite3_stmt *statement = NULL;
    int code = sqlite3_prepare_v2(engine, text, -1, &statement, NULL), i;
    *answer = 0;
    if (code == SQLITE_OK) code = sqlite3_step(statement);
    for (i = 0; code == SQLITE_ROW && i < sqlite3_column_count(statement); i++) {
        bool is_null = sqlite3_column_type(statement, i) == SQLITE_NULL;
        const char *value = (const char *)sqlite3_column_text(statement, i);
        if (!value && !is_null) code = SQLITE_NOMEM;
        snprintf(answer + strlen(answer), room - strlen(answer), "%s|", value ? value : "");
    }
    if (code == SQLITE_ROW) code = SQLITE_OK;
    sqlite3_finalize(statement);
    return code;
}

/* A connection of its own, with the extension, and one statement. */
static int run_alone(const char *text, char *answer, size_t room) {
    sqlite3 *engine = NULL;
    int code = sqlite3_open(":memory:", &engine);
    if (code == SQLITE_OK) code = sqlite3_hwhole_init(engine, NULL, NULL);
    if (code == SQLITE_OK) code = run(engine, text, answer, room);
    sqlite3_close(engine);
    return code;
}

static int passed, failed;

static void judge(bool is_so, const char *text, long at, int code, const char *answer) {
    if (is_so) {
        passed++;
        return;
    }
    failed++;
    printf("%s, allocation %ld: %d, '%s'\n", text, at, code, answer);
}

static void try_statement(const char *text) {
    static char wanted[8192], found[8192];
    long all, at;
    int code;
    refused = allocations = 0;
    code = run_alone(text, wanted, sizeof wanted);
    all = allocations;
    judge(code == SQLITE_OK && wanted[0], text, 0, code, wanted);
    for (at = 1; at <= all; at++) {
        allocations = 0;
        refused = at;
        code = run_alone(text, found, sizeof found);
        refused = 0;
        judge(code == SQLITE_NOMEM || (code == SQLITE_OK && !strcmp(found, wanted)), text, at, code, found);
        judge(sqlite3_memory_used() == 0, "memory that is left", at, code, text);
    }
}

int main(int count, char **words) {
    sqlite3_mem_methods counted;
    char text[1024];
    size_t i;
    if (count != 2) return 2;
    sqlite3_config(SQLITE_CONFIG_GETMALLOC, &plain);
    counted = plain;
    counted.xMalloc = take;
    counted.xRealloc = take_more;
    sqlite3_config(SQLITE_CONFIG_MALLOC, &counted);
    sqlite3_config(SQLITE_CONFIG_LOOKASIDE, 0, 0);
    sqlite3_initialize();
    for (i = 0; i < 2 * sizeof statements / sizeof *statements; i++) {
        all_after = i % 2 == 1;
        try_statement(statements[i / 2]);
    }
    for (i = 0; i < 2 * sizeof walks / sizeof *walks; i++) {
        all_after = i % 2 == 1;
        snprintf(text, sizeof text, walks[i / 2], words[1]);
        try_statement(text);
    }
    printf("%d passed, %d failed\n", passed, failed);
    return failed > 0;
}
