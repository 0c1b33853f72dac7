/* The native methods over a JVM that is made up: each call of it that can fail, and each allocation, is refused in
 * turn. Then an exception is pending or the error is returned, no further call of the JVM is made, and all memory
 * is freed. Linked with -Wl,--wrap= of malloc, calloc, realloc and free. */
#include "../native/h3whole_java.c"
#include "../../tests/c/check.h"

void *__real_malloc(size_t size);
void *__real_calloc(size_t count, size_t size);
void *__real_realloc(void *old, size_t size);
void __real_free(void *old);
void *__wrap_malloc(size_t size);
void *__wrap_calloc(size_t count, size_t size);
void *__wrap_realloc(void *old, size_t size);
void __wrap_free(void *old);

/* how many allocations and calls there were, which is refused of both, and how many allocations are not freed */
static unsigned long made, refused_at;
static long held;
static jboolean pending;
static int misused;
/* how many arrays are lent */
static int lent;

static int is_refused(void) { return ++made == refused_at; }

static void *counted(void *place) {
    if (place) held++;
    return place;
}

void *__wrap_malloc(size_t size) { return is_refused() ? NULL : counted(__real_malloc(size)); }
void *__wrap_calloc(size_t count, size_t size) { return is_refused() ? NULL : counted(__real_calloc(count, size)); }
void *__wrap_realloc(void *old, size_t size) {
    if (is_refused()) return NULL;
    if (old) held--;
    return counted(__real_realloc(old, size));
}
void __wrap_free(void *old) {
    if (old) held--;
    __real_free(old);
}

/* An array of the JVM, with room for a column of two spans. */
#define LONG 70000
typedef struct {
    jsize length;
    union {
        jlong longs[LONG];
        jint ints[LONG];
        jbyte bytes[8 * LONG];
        jboolean truths[LONG];
    } items;
} Array;

static Array *array_at(jobject array) { return (Array *)(void *)array; }
static jobject object_of(Array *array) { return (jobject)(void *)array; }

/* (no call of the JVM but this one may be made while an exception is pending) */
static jboolean JNICALL exception_check(JNIEnv *env) {
    (void)env;
    return pending;
}

/* Whether a call may go on: it is not refused, and within the array. */
static int goes_on(jobject array, jsize start, jsize count) {
    if (pending || lent) misused++;
    if (array && (start < 0 || count < 0 || start > array_at(array)->length - count)) misused++, pending = JNI_TRUE;
    if (is_refused()) pending = JNI_TRUE;
    return !pending;
}

static jsize JNICALL get_length(JNIEnv *env, jarray array) {
    (void)env;
    if (pending || lent) misused++;
    return array_at(array)->length;
}

#define REGIONS(Name, type, member)                                                                                    \
    static void JNICALL get_##member(JNIEnv *env, Name##Array array, jsize start, jsize count, type *to) {             \
        (void)env;                                                                                                     \
        if (goes_on(array, start, count)) memcpy(to, array_at(array)->items.member + start, count * sizeof *to);       \
    }                                                                                                                  \
    static void JNICALL set_##member(JNIEnv *env, Name##Array array, jsize start, jsize count, const type *from) {     \
        (void)env;                                                                                                     \
        if (goes_on(array, start, count)) memcpy(array_at(array)->items.member + start, from, count * sizeof *from);   \
    }
REGIONS(jlong, jlong, longs)
REGIONS(jint, jint, ints)
REGIONS(jbyte, jbyte, bytes)
REGIONS(jboolean, jboolean, truths)

static Array answered;
static jlongArray JNICALL new_longs(JNIEnv *env, jsize length) {
    (void)env;
    if (!goes_on(NULL, 0, 0)) return NULL;
    CHECK(length <= LONG);
    answered.length = length;
    return object_of(&answered);
}

static jintArray JNICALL new_ints(JNIEnv *env, jsize length) { return new_longs(env, length); }

/* Lends an array, or a copy of it: meanwhile no other call may be made. */
static jboolean lends_copies;
static void *copies[2];
static void *JNICALL lend(JNIEnv *env, jarray array, jboolean *is_copy) {
    (void)env;
    if (is_refused()) return NULL;
    if (pending) misused++;
    *is_copy = lends_copies;
    if (!lends_copies) return lent++, &array_at(array)->items;
    copies[lent] = __real_malloc(sizeof array_at(array)->items);
    return memcpy(copies[lent++], &array_at(array)->items, sizeof array_at(array)->items);
}

static void JNICALL give_back(JNIEnv *env, jarray array, void *items, jint mode) {
    void *whole = &array_at(array)->items;
    (void)env;
    if (--lent < 0 || (items != whole && items != copies[lent])) misused++;
    if (items == whole) return;
    if (mode == 0) memcpy(whole, items, sizeof array_at(array)->items);
    __real_free(items);
}

static char said[32];
static jstring JNICALL new_string(JNIEnv *env, const char *text) {
    (void)env;
    if (!goes_on(NULL, 0, 0)) return NULL;
    strcpy(said, text);
    return object_of(&answered);
}

static struct JNINativeInterface_ table;
static const struct JNINativeInterface_ *machine = &table;
static JNIEnv *const env = &machine;

static void make_machine(void) {
    table.ExceptionCheck = exception_check;
    table.GetArrayLength = get_length;
    table.GetLongArrayRegion = get_longs, table.SetLongArrayRegion = set_longs;
    table.GetByteArrayRegion = get_bytes, table.SetByteArrayRegion = set_bytes;
    table.SetIntArrayRegion = set_ints, table.SetBooleanArrayRegion = set_truths;
    table.GetPrimitiveArrayCritical = lend, table.ReleasePrimitiveArrayCritical = give_back;
    table.GetIntArrayRegion = get_ints;
    table.NewLongArray = new_longs, table.NewIntArray = new_ints, table.NewStringUTF = new_string;
    (void)get_truths;
}

/* ---- The calls: each returns a number by which its answers are compared, or minus the error of its status */

#define CELL   0x85283473fffffff
#define PARENT 0x8428347ffffffff
static Array cells, others, column, status, out, file, made_table, text, numbers;
static jlong zones_address, areas_address;

static jlong sum(jlong value, const Array *array) {
    uint64_t all = (uint64_t)value;
    jsize i;
    for (i = 0; i < array->length; i++) all = 31 * all + (uint64_t)array->items.longs[i];
    return (jlong)(all & INT64_MAX);
}

static jlong listed(jlongArray list) { return list ? sum(7, &answered) : -status.items.longs[0]; }

#define N(name) Java_h3whole_Native_##name
#define STATUS  object_of(&status)
static jlong res0(void) { return listed(N(getRes0Cells)(env, NULL, STATUS)); }
static jlong pentagons(void) { return listed(N(getPentagons)(env, NULL, 3, STATUS)); }
static jlong edges(void) { return listed(N(originToDirectedEdges)(env, NULL, CELL, STATUS)); }
static jlong children(void) { return listed(N(cellToChildren)(env, NULL, CELL, 8, STATUS)); }
static jlong compacted(void) { return listed(N(compactCells)(env, NULL, object_of(&cells), STATUS)); }
static jlong united(void) { return listed(N(uniteCells)(env, NULL, object_of(&cells), STATUS)); }
static jlong overlapping(void) {
    out.length = 2;
    return N(findOverlap)(env, NULL, object_of(&cells), object_of(&out)) ? -E_MEMORY_ALLOC : sum(0, &out);
}
static jlong uncompacted(void) { return listed(N(uncompactCells)(env, NULL, object_of(&cells), 8, STATUS)); }
static jlong shared(void) {
    return listed(N(intersectCells)(env, NULL, object_of(&cells), object_of(&others), STATUS));
}
/* (with more cells than both lists: there is room at the second time) */
static jlong subtracted(void) {
    return listed(N(subtractCells)(env, NULL, object_of(&others), object_of(&text), STATUS));
}
static jlong parsed(void) {
    jint error = N(stringToH3)(env, NULL, object_of(&file), object_of(&out));
    return error ? -error : out.items.longs[0];
}
static jlong spelled(void) { return N(h3ToString)(env, NULL, CELL) ? strlen(said) : 0; }
static jlong disk(void) { return listed(N(walk)(env, NULL, JNI_FALSE, object_of(&made_table), CELL, 3, STATUS)); }
static jlong ring(void) { return listed(N(walk)(env, NULL, JNI_TRUE, object_of(&made_table), CELL, 3, STATUS)); }
static jlong distances(void) {
    out.length = 37;
    return listed(N(gridDiskDistances)(env, NULL, object_of(&made_table), CELL, 3, object_of(&out), STATUS));
}
static jlong neighbors(void) { return N(areNeighborCells)(env, NULL, object_of(&made_table), CELL, 0x85283477fffffff); }
static jlong edge(void) { return N(cellsToDirectedEdge)(env, NULL, object_of(&made_table), CELL, 0x85283477fffffff); }
static jlong destination(void) {
    return N(getDirectedEdgeDestination)(env, NULL, object_of(&made_table), 0x115283473fffffff);
}
static jlong filled(jint function, jint length) {
    jlong first;
    out.length = length;
    memset(&out.items, 0, sizeof out.items);
    first = N(fillColumn)(env, NULL, function, object_of(&column), 2, object_of(&out));
    return first >> 32 ? -(first >> 32) : sum(first, &out);
}
static jlong longs(void) { return filled(7, LONG); }
static jlong ints(void) { return filled(4, LONG); }
static jlong truths(void) { return filled(0, LONG); }
static jlong zoned(void) {
    memset(&out.items, 0, sizeof out.items), out.length = LONG;
    return sum(N(fillByZones)(env, NULL, 11, zones_address, object_of(&column), object_of(&out)), &out);
}
static jlong covered(void) {
    memset(&out.items, 0, sizeof out.items), out.length = LONG;
    return sum(N(fillByZones)(env, NULL, 12, zones_address, object_of(&column), object_of(&out)), &out);
}
static jlong placed(void) {
    memset(&out.items, 0, sizeof out.items), out.length = LONG;
    return sum(N(fillByZones)(env, NULL, 14, zones_address, object_of(&column), object_of(&out)), &out);
}
static jlong counted_by(void) {
    jlong first;
    out.length = (jsize)zones_at(zones_address)->count + 1;
    first = N(countByZones)(env, NULL, zones_address, object_of(&column), object_of(&out));
    return first >> 32 ? -(first >> 32) : sum(first, &out);
}
static jlong ordered(void) { return listed(N(zonesInOrder)(env, NULL, zones_address, STATUS)); }
static jlong prepare(jboolean has_places) {
    jlong zones = N(zones)(env, NULL, object_of(&cells), has_places, STATUS);
    jlong count = zones ? (jlong)zones_at(zones)->count : -status.items.longs[0];
    if (zones) N(freeZones)(env, NULL, zones);
    return count;
}
static jlong prepared(void) { return prepare(JNI_FALSE); }
static jlong prepared_with_places(void) { return prepare(JNI_TRUE); }
static jlong prepared_areas(void) {
    jlong areas = N(areas)(env, NULL, object_of(&cells), object_of(&numbers), STATUS);
    jlong count = areas ? (jlong)zones_at(areas)->count : -status.items.longs[0];
    if (areas) N(freeZones)(env, NULL, areas);
    return count;
}
static jlong sum_ints(jlong value, const Array *array) {
    uint64_t all = (uint64_t)value;
    jsize i;
    for (i = 0; i < array->length; i++) all = 31 * all + (uint32_t)array->items.ints[i];
    return (jlong)(all & INT64_MAX);
}
static jintArray areas_of_column(jsize length) {
    column.length = length, out.length = length + 1;
    return N(cellsToAreas)(env, NULL, areas_address, object_of(&column), object_of(&out), STATUS);
}
/* (nearly each cell is in three areas, so there is room at the second time) */
static jlong areas_of(void) {
    jintArray found = areas_of_column(2000);
    if (!found) return -(status.items.longs[0] >> 32);
    return sum_ints(sum_ints(status.items.longs[0], &answered), &out);
}
static jlong read_table(void) {
    static Array other;
    other.length = 1465, status.length = 3;
    N(readTable)(env, NULL, object_of(&file), object_of(&other), STATUS);
    return status.items.longs[0] == H3W_TABLE_MEMORY ? -E_MEMORY_ALLOC : sum(status.items.longs[0], &status);
}

/* Where all is granted, and with each call and each allocation refused. */
static void try_each(const char *name, jlong (*call)(void)) {
    unsigned long all;
    long before = held;
    jlong wanted, found;
    made = refused_at = 0, pending = JNI_FALSE, status.items.longs[0] = 0;
    wanted = call();
    all = made;
    check(wanted >= 0 && !pending && !misused && held == before, name, __FILE__, __LINE__);
    check(all > 0, name, __FILE__, __LINE__);
    for (refused_at = 1; refused_at <= all; refused_at++) {
        made = 0, pending = JNI_FALSE, misused = 0, status.items.longs[0] = 0;
        found = call();
        check(pending || found == -E_MEMORY_ALLOC || found == wanted, name, __FILE__, __LINE__);
        check(!misused && held == before, name, __FILE__, __LINE__);
    }
    refused_at = 0, pending = JNI_FALSE;
}

static void take(Array *array, const char *bytes) {
    array->length = (jsize)strlen(bytes);
    memcpy(array->items.bytes, bytes, strlen(bytes));
}

/* A table whose links fit together. */
static void make_table(void) {
    static const int steps[] = {110, 11, 121, 1, 111, 12};
    static char csv[24000];
    char *end = csv + sprintf(csv, "base,dir,to,rot\n");
    int base, direction;
    for (base = 0; base < 122; base++)
        for (direction = 1; direction <= 6 && !h3w_isPentagon(0x8001fffffffffff | (H3Index)base << 45); direction++)
            end += sprintf(end, "%d,%d,%d,0\n", base, direction, (base + steps[direction - 1]) % 122);
    take(&file, csv);
    made_table.length = 1465, status.length = 3;
    N(readTable)(env, NULL, object_of(&file), object_of(&made_table), STATUS);
    CHECK(status.items.longs[0] == H3W_TABLE_ACCEPTED);
}

/* Two areas of each of the cells but the first, and one above all of them. The numbers of five places are the same. */
static void make_areas(void) {
    int i;
    out.length = numbers.length = 686;
    for (i = 0; i < 686; i++) out.items.longs[i] = cells.items.longs[i % 343], numbers.items.ints[i] = i % 5 - i;
    out.items.longs[0] = PARENT;
    areas_address = N(areas)(env, NULL, object_of(&out), object_of(&numbers), STATUS);
    CHECK(areas_address != 0);
}

static void make_lists(void) {
    int i;
    status.length = 1;
    out.length = 1;
    cells.length = 343;
    CHECK(h3w_cellToChildren(CELL, 8, (H3Index *)cells.items.longs, 343) == E_SUCCESS);
    others.length = 1, others.items.longs[0] = PARENT;
    text.length = 1, text.items.longs[0] = 0x8f2834700000000;
    column.length = LONG;
    for (i = 0; i < LONG; i++) column.items.longs[i] = cells.items.longs[i * 5 % 343];
    zones_address = N(zones)(env, NULL, object_of(&cells), JNI_TRUE, STATUS);
    CHECK(zones_address != 0);
    make_areas();
}

static void try_lists(void) {
    try_each("getRes0Cells", res0), try_each("getPentagons", pentagons), try_each("originToDirectedEdges", edges);
    try_each("cellToChildren", children), try_each("compactCells", compacted), try_each("uniteCells", united);
    try_each("uncompactCells", uncompacted), try_each("intersectCells", shared);
    try_each("subtractCells", subtracted), try_each("findOverlap", overlapping), try_each("h3ToString", spelled);
}

static void try_columns(void) {
    for (lends_copies = JNI_FALSE; lends_copies <= JNI_TRUE; lends_copies++)
        try_each("longs", longs), try_each("ints", ints), try_each("truths", truths);
    lends_copies = JNI_FALSE;
    try_each("cellsToZones", zoned), try_each("areCoveredCells", covered), try_each("countCellsInZones", counted_by);
    try_each("zonesInOrder", ordered), try_each("zones", prepared), try_each("places", prepared_with_places);
    try_each("cellsToZonesPlaces", placed);
    column.items.longs[4000] = column.items.longs[5] = 5;
    out.length = LONG;
    CHECK(N(fillColumn)(env, NULL, 7, object_of(&column), 2, object_of(&out)) == ((jlong)E_CELL_INVALID << 32 | 5));
    out.length = 344;
    CHECK(N(countByZones)(env, NULL, zones_address, object_of(&column), object_of(&out)) ==
          ((jlong)E_CELL_INVALID << 32 | 5));
    CHECK(N(fillColumn)(env, NULL, 7, object_of(&column), 16, object_of(&out)) ==
          ((jlong)E_RES_DOMAIN << 32 | NOWHERE));
}

static int is_ints(const Array *found, jsize length, const jint *wanted) {
    return found->length == length && !memcmp(found->items.ints, wanted, (size_t)length * sizeof *wanted);
}

/* The area of the coarsest cell comes first, and of the others those below 0. */
static void try_areas(void) {
    static const jint starts[] = {0, 3, 3, 4}, wanted[] = {0, -345, -5, 0};
    try_each("areas", prepared_areas), try_each("cellsToAreas", areas_of);
    column.items.longs[0] = cells.items.longs[5], column.items.longs[1] = 5, column.items.longs[2] = PARENT;
    CHECK(areas_of_column(3) && status.items.longs[0] == ((jlong)E_CELL_INVALID << 32 | 1));
    CHECK(is_ints(&out, 4, starts) && is_ints(&answered, 4, wanted));
    CHECK(areas_of_column(0) && status.items.longs[0] == 0 && is_ints(&out, 1, starts) && answered.length == 0);
    cells.items.longs[342] = 5;
    CHECK(N(areas)(env, NULL, object_of(&cells), object_of(&numbers), STATUS) == 0);
    CHECK(status.items.longs[0] == E_CELL_INVALID);
    N(freeZones)(env, NULL, areas_address);
}

static void try_tables(void) {
    try_each("readTable", read_table);
    status.length = 1;
    try_each("gridDisk", disk), try_each("gridRing", ring), try_each("gridDiskDistances", distances);
    try_each("areNeighborCells", neighbors), try_each("cellsToDirectedEdge", edge);
    try_each("getDirectedEdgeDestination", destination);
    take(&file, " 0x85283473fffffff\r"), out.length = 1;
    try_each("stringToH3", parsed);
}

int main(void) {
    make_machine();
    make_table();
    make_lists();
    try_lists();
    try_columns();
    try_areas();
    try_tables();
    N(freeZones)(env, NULL, zones_address);
    CHECK(held == 0);
    return counts();
}
