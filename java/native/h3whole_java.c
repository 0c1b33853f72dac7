/* The native methods of h3whole.Native, over libh3whole.
 *
 * The library asks for memory that stays as it is, and another thread may write to an array of Java meanwhile. So it
 * reads copies alone. What a column becomes is written straight into the array of Java: a span of it at a time, in
 * which the JVM lends both arrays, and a collection of garbage waits for a millisecond at most. By zones each cell
 * takes longer and the pieces are longer, so their results are copied too, and no array is lent.
 *
 * A method of one index returns the result, which is never negative, or minus H3's error. One that returns a list
 * returns null with the error in status[0]. One over a column returns the first error, times 2^32, plus its place.
 * Where a call of the JVM has failed, its exception is pending and the result is not used. */
#include "h3whole_Native.h"
#include "h3whole.h"

#define METHOD(type, name) JNIEXPORT type JNICALL Java_h3whole_Native_##name
#define NOWHERE            0xffffffffU /* the place of an error that has none */

static int is_pending(JNIEnv *env) { return (*env)->ExceptionCheck(env) == JNI_TRUE; }

static jlong result(H3Error error, jlong value) { return error ? -(jlong)error : value; }

static jlong at_place(H3Error error, size_t place) { return (jlong)error << 32 | (jlong)place; }

/* ---- One index */

METHOD(jint, version)(JNIEnv *env, jclass own) {
    (void)env, (void)own;
    return h3w_version();
}

#define TRUTH(name)                                                                                                    \
    METHOD(jboolean, name)(JNIEnv * env, jclass own, jlong h) {                                                        \
        (void)env, (void)own;                                                                                          \
        return h3w_##name((H3Index)h) ? JNI_TRUE : JNI_FALSE;                                                          \
    }
TRUTH(isValidCell)
TRUTH(isValidDirectedEdge)

/* (-1 where the index is no cell's) */
#define TRUTH_OF_CELL(name)                                                                                            \
    METHOD(jint, name)(JNIEnv * env, jclass own, jlong h) {                                                            \
        (void)env, (void)own;                                                                                          \
        return h3w_##name((H3Index)h) ? 1 : h3w_isValidCell((H3Index)h) - 1;                                           \
    }
TRUTH_OF_CELL(isPentagon)
TRUTH_OF_CELL(isResClassIII)

#define FIELD(name)                                                                                                    \
    METHOD(jint, name)(JNIEnv * env, jclass own, jlong h) {                                                            \
        (void)env, (void)own;                                                                                          \
        return h3w_##name((H3Index)h);                                                                                 \
    }
FIELD(getResolution)
FIELD(getBaseCellNumber)

#define AT_RESOLUTION(name, type)                                                                                      \
    METHOD(jlong, name)(JNIEnv * env, jclass own, jlong h, jint res) {                                                 \
        type out = 0;                                                                                                  \
        H3Error error = h3w_##name((H3Index)h, res, &out);                                                             \
        (void)env, (void)own;                                                                                          \
        return result(error, (jlong)out);                                                                              \
    }
AT_RESOLUTION(cellToParent, H3Index)
AT_RESOLUTION(cellToCenterChild, H3Index)
AT_RESOLUTION(cellToLastChild, H3Index)
AT_RESOLUTION(cellToChildrenSize, int64_t)
AT_RESOLUTION(cellToChildPos, int64_t)

METHOD(jlong, childPosToCell)(JNIEnv *env, jclass own, jlong position, jlong parent, jint res) {
    H3Index out = H3_NULL;
    H3Error error = h3w_childPosToCell(position, (H3Index)parent, res, &out);
    (void)env, (void)own;
    return result(error, (jlong)out);
}

METHOD(jlong, getNumCells)(JNIEnv *env, jclass own, jint res) {
    int64_t out = 0;
    H3Error error = h3w_getNumCells(res, &out);
    (void)env, (void)own;
    return result(error, out);
}

METHOD(jlong, getDirectedEdgeOrigin)(JNIEnv *env, jclass own, jlong edge) {
    H3Index out = H3_NULL;
    H3Error error = h3w_getDirectedEdgeOrigin((H3Index)edge, &out);
    (void)env, (void)own;
    return result(error, (jlong)out);
}

/* ---- Memory and arrays */

/* So many places of so many bytes, one at least; NULL where there is no memory. */
static void *places(size_t count, size_t size) { return count < SIZE_MAX / size ? malloc((count + 1) * size) : NULL; }

typedef struct {
    H3Index *cells;
    size_t n;
} List;

/* A copy of an array. Its memory is to be freed, also where there is an error. */
static H3Error copy(JNIEnv *env, jlongArray array, List *list) {
    jsize n = (*env)->GetArrayLength(env, array);
    list->n = (size_t)n;
    list->cells = places(list->n, sizeof *list->cells);
    if (!list->cells) return E_MEMORY_ALLOC;
    (*env)->GetLongArrayRegion(env, array, 0, n, (jlong *)list->cells);
    return is_pending(env) ? E_FAILED : E_SUCCESS;
}

/* Null, with the error in status[0]. */
static jlongArray refused(JNIEnv *env, jlongArray status, H3Error error) {
    jlong number = error;
    if (!is_pending(env)) (*env)->SetLongArrayRegion(env, status, 0, 1, &number);
    return NULL;
}

/* The cells as a new array. */
static jlongArray array_of(JNIEnv *env, const H3Index *cells, size_t n, jlongArray status) {
    jlongArray array;
    if (n > INT32_MAX) return refused(env, status, E_MEMORY_ALLOC);
    array = (*env)->NewLongArray(env, (jsize)n);
    if (!array) return NULL;
    (*env)->SetLongArrayRegion(env, array, 0, (jsize)n, (const jlong *)cells);
    return is_pending(env) ? NULL : array;
}

static jlongArray answer(JNIEnv *env, H3Error error, const H3Index *cells, size_t n, jlongArray status) {
    return error ? refused(env, status, error) : array_of(env, cells, n, status);
}

/* ---- Lists */

METHOD(jlongArray, getRes0Cells)(JNIEnv *env, jclass own, jlongArray status) {
    H3Index out[122];
    H3Error error = h3w_getRes0Cells(out, 122);
    (void)own;
    return answer(env, error, out, 122, status);
}

METHOD(jlongArray, getPentagons)(JNIEnv *env, jclass own, jint res, jlongArray status) {
    H3Index out[12];
    H3Error error = h3w_getPentagons(res, out, 12);
    (void)own;
    return answer(env, error, out, 12, status);
}

/* (a pentagon has no first edge) */
METHOD(jlongArray, originToDirectedEdges)(JNIEnv *env, jclass own, jlong origin, jlongArray status) {
    H3Index edges[6] = {H3_NULL};
    H3Error error = h3w_originToDirectedEdges((H3Index)origin, edges);
    size_t none = edges[0] == H3_NULL;
    (void)own;
    return answer(env, error, edges + none, 6 - none, status);
}

METHOD(jlongArray, cellToChildren)(JNIEnv *env, jclass own, jlong cell, jint res, jlongArray status) {
    int64_t size = 0;
    H3Index *out;
    jlongArray array;
    H3Error error = h3w_cellToChildrenSize((H3Index)cell, res, &size);
    (void)own;
    if (error) return refused(env, status, error);
    out = size > INT32_MAX ? NULL : places((size_t)size, sizeof *out);
    if (!out) return refused(env, status, E_MEMORY_ALLOC);
    error = h3w_cellToChildren((H3Index)cell, res, out, (size_t)size);
    array = answer(env, error, out, (size_t)size, status);
    free(out);
    return array;
}

/* A function that writes what one list becomes, which is never longer. */
typedef H3Error OfList(const H3Index *, size_t, H3Index *, size_t, size_t *);

static jlongArray of_list(JNIEnv *env, OfList *function, jlongArray cells, jlongArray status) {
    List given;
    size_t count = 0;
    jlongArray array = NULL;
    H3Error error = copy(env, cells, &given);
    H3Index *out = error ? NULL : places(given.n, sizeof *out);
    if (!error) error = out ? function(given.cells, given.n, out, given.n, &count) : E_MEMORY_ALLOC;
    array = answer(env, error, out, count, status);
    free(out), free(given.cells);
    return array;
}

METHOD(jlongArray, compactCells)(JNIEnv *env, jclass own, jlongArray cells, jlongArray status) {
    (void)own;
    return of_list(env, h3w_compactCells, cells, status);
}

METHOD(jlongArray, uniteCells)(JNIEnv *env, jclass own, jlongArray cells, jlongArray status) {
    (void)own;
    return of_list(env, h3w_uniteCells, cells, status);
}

/* Writes the place of the first cell that overlaps an earlier one, and the first place whose cell it overlaps; both are
 * the length of the list where no two do. Returns the error. */
METHOD(jlong, findOverlap)(JNIEnv *env, jclass own, jlongArray cells, jlongArray places) {
    List given;
    size_t at = 0, earlier = 0;
    H3Error error = copy(env, cells, &given);
    jlong found[2];
    (void)own;
    if (!error) error = h3w_findOverlap(given.cells, given.n, &at, &earlier);
    free(given.cells);
    found[0] = (jlong)at, found[1] = (jlong)earlier;
    if (!error) (*env)->SetLongArrayRegion(env, places, 0, 2, found);
    return error;
}

/* How many descendants the cells have; 0 where one of them, or the resolution, is refused. */
static uint64_t descendants(const List *given, int res) {
    uint64_t all = 0;
    size_t i;
    for (i = 0; i < given->n && all <= INT32_MAX; i++) {
        int64_t size = 0;
        if (h3w_cellToChildrenSize(given->cells[i], res, &size)) return 0;
        all += (uint64_t)size;
    }
    return all;
}

/* (with room for none, the library says what is refused) */
static H3Error uncompact(const List *given, int res, H3Index **out, size_t *room) {
    H3Index none;
    uint64_t size = descendants(given, res);
    H3Error error;
    *room = size > INT32_MAX ? 0 : (size_t)size;
    *out = *room ? places(*room, sizeof **out) : NULL;
    error = h3w_uncompactCells(given->cells, given->n, *out ? *out : &none, *out ? *room : 0, res);
    return error == E_MEMORY_BOUNDS ? E_MEMORY_ALLOC : error;
}

METHOD(jlongArray, uncompactCells)(JNIEnv *env, jclass own, jlongArray cells, jint res, jlongArray status) {
    List given;
    size_t room = 0;
    H3Index *out = NULL;
    jlongArray array;
    H3Error error = copy(env, cells, &given);
    (void)own;
    if (!error) error = uncompact(&given, res, &out, &room);
    array = answer(env, error, out, room, status);
    free(out), free(given.cells);
    return array;
}

/* A function that writes what two lists become: with too little room, it says how much there has to be. */
typedef H3Error OfLists(const H3Index *, size_t, const H3Index *, size_t, H3Index *, size_t, size_t *);

static H3Error combine(OfLists *function, const List *first, const List *second, H3Index **out, size_t *count) {
    size_t room = first->n + second->n;
    H3Error error = E_MEMORY_BOUNDS;
    *out = NULL;
    while (error == E_MEMORY_BOUNDS) {
        free(*out);
        *out = places(room, sizeof **out);
        if (!*out) return E_MEMORY_ALLOC;
        error = function(first->cells, first->n, second->cells, second->n, *out, room, count);
        room = *count;
    }
    return error;
}

static jlongArray of_lists(JNIEnv *env, OfLists *function, jlongArray one, jlongArray other, jlongArray status) {
    List first = {NULL, 0}, second = {NULL, 0};
    H3Index *out = NULL;
    size_t count = 0;
    jlongArray array;
    H3Error error = copy(env, one, &first);
    if (!error) error = copy(env, other, &second);
    if (!error) error = combine(function, &first, &second, &out, &count);
    array = answer(env, error, out, count, status);
    free(out), free(second.cells), free(first.cells);
    return array;
}

METHOD(jlongArray, intersectCells)(JNIEnv *env, jclass own, jlongArray one, jlongArray other, jlongArray status) {
    (void)own;
    return of_lists(env, h3w_intersectCells, one, other, status);
}

METHOD(jlongArray, subtractCells)(JNIEnv *env, jclass own, jlongArray one, jlongArray other, jlongArray status) {
    (void)own;
    return of_lists(env, h3w_subtractCells, one, other, status);
}

/* ---- Texts */

METHOD(jint, stringToH3)(JNIEnv *env, jclass own, jbyteArray text, jlongArray out) {
    jsize n = (*env)->GetArrayLength(env, text);
    char *bytes = places((size_t)n, 1);
    H3Index index = H3_NULL;
    H3Error error = bytes ? E_SUCCESS : E_MEMORY_ALLOC;
    (void)own;
    if (bytes) (*env)->GetByteArrayRegion(env, text, 0, n, (jbyte *)bytes);
    if (bytes && !is_pending(env)) error = h3w_stringToH3(bytes, (size_t)n, &index);
    free(bytes);
    if (!error && !is_pending(env)) (*env)->SetLongArrayRegion(env, out, 0, 1, (const jlong *)&index);
    return (jint)error;
}

/* (null where there is no memory: then an OutOfMemoryError is pending) */
METHOD(jstring, h3ToString)(JNIEnv *env, jclass own, jlong h) {
    char text[17] = "";
    (void)own;
    h3w_h3ToString((H3Index)h, text, sizeof text);
    return (*env)->NewStringUTF(env, text);
}

/* ---- Over a base cell table, which is the bytes of an H3wTable in an array of Java */

METHOD(void, readTable)(JNIEnv *env, jclass own, jbyteArray file, jbyteArray table, jlongArray fault) {
    jsize n = (*env)->GetArrayLength(env, file);
    char *bytes = places((size_t)n, 1);
    H3wTableFault found = {H3W_TABLE_MEMORY, 0, 0};
    jlong numbers[3];
    H3wTable made;
    (void)own;
    memset(&made, 0, sizeof made);
    if (bytes) (*env)->GetByteArrayRegion(env, file, 0, n, (jbyte *)bytes);
    if (bytes && !is_pending(env)) made = h3w_readTable(bytes, (size_t)n, &found);
    free(bytes);
    if (is_pending(env)) return;
    numbers[0] = found.code, numbers[1] = (jlong)found.at, numbers[2] = found.direction;
    (*env)->SetByteArrayRegion(env, table, 0, sizeof made.bytes, (const jbyte *)made.bytes);
    if (!is_pending(env)) (*env)->SetLongArrayRegion(env, fault, 0, 3, numbers);
}

/* Whether the table could be copied; where it could not, an exception is pending. */
static int is_table(JNIEnv *env, jbyteArray bytes, H3wTable *table) {
    (*env)->GetByteArrayRegion(env, bytes, 0, sizeof table->bytes, (jbyte *)table->bytes);
    return !is_pending(env);
}

/* How many cells a disk or a ring has; 0 where no array has room for them, or the radius is refused. */
static size_t room_of(jboolean is_ring, jint k) {
    uint64_t radius = (uint64_t)k, room = is_ring ? (k ? 6 * radius : 1) : 3 * radius * (radius + 1) + 1;
    return k < 0 || room > INT32_MAX ? 0 : (size_t)room;
}

METHOD(jlongArray, walk)
(JNIEnv *env, jclass own, jboolean is_ring, jbyteArray bytes, jlong origin, jint k, jlongArray status) {
    H3wTable table;
    size_t room = room_of(is_ring, k);
    H3Index *out;
    jlongArray array;
    H3Error error;
    (void)own;
    if (!is_table(env, bytes, &table)) return NULL;
    out = places(room, sizeof *out);
    if (!out) return refused(env, status, E_MEMORY_ALLOC);
    error = (is_ring ? h3w_gridRingUnsafe : h3w_gridDiskUnsafe)(&table, (H3Index)origin, k, out, room);
    array = answer(env, error == E_MEMORY_BOUNDS ? E_MEMORY_ALLOC : error, out, room, status);
    free(out);
    return array;
}

/* Writes the distances into an array that has room for those of the disk, and returns its cells. */
METHOD(jlongArray, gridDiskDistances)
(JNIEnv *env, jclass own, jbyteArray bytes, jlong origin, jint k, jintArray distances, jlongArray status) {
    H3wTable table;
    size_t room = room_of(JNI_FALSE, k);
    H3Index *out;
    int *rings;
    jlongArray array = NULL;
    H3Error error = E_MEMORY_ALLOC;
    (void)own;
    if (!is_table(env, bytes, &table)) return NULL;
    out = places(room, sizeof *out), rings = places(room, sizeof *rings);
    if (out && rings) error = h3w_gridDiskDistancesUnsafe(&table, (H3Index)origin, k, out, room, rings, room);
    if (!error) (*env)->SetIntArrayRegion(env, distances, 0, (jsize)room, rings);
    if (!is_pending(env)) array = answer(env, error == E_MEMORY_BOUNDS ? E_MEMORY_ALLOC : error, out, room, status);
    free(rings), free(out);
    return array;
}

METHOD(jlong, areNeighborCells)(JNIEnv *env, jclass own, jbyteArray bytes, jlong origin, jlong destination) {
    H3wTable table;
    int out = 0;
    H3Error error;
    (void)own;
    if (!is_table(env, bytes, &table)) return 0;
    error = h3w_areNeighborCells(&table, (H3Index)origin, (H3Index)destination, &out);
    return result(error, out);
}

METHOD(jlong, cellsToDirectedEdge)(JNIEnv *env, jclass own, jbyteArray bytes, jlong origin, jlong destination) {
    H3wTable table;
    H3Index out = H3_NULL;
    H3Error error;
    (void)own;
    if (!is_table(env, bytes, &table)) return 0;
    error = h3w_cellsToDirectedEdge(&table, (H3Index)origin, (H3Index)destination, &out);
    return result(error, (jlong)out);
}

METHOD(jlong, getDirectedEdgeDestination)(JNIEnv *env, jclass own, jbyteArray bytes, jlong edge) {
    H3wTable table;
    H3Index out = H3_NULL;
    H3Error error;
    (void)own;
    if (!is_table(env, bytes, &table)) return 0;
    error = h3w_getDirectedEdgeDestination(&table, (H3Index)edge, &out);
    return result(error, (jlong)out);
}

/* ---- Columns and zones */

/* (places, of zones alone: that of each in the list that was given) */
typedef struct {
    size_t count;
    uint32_t *places;
    H3Index cells[];
} Zones;

/* What a column is filled by: a resolution, or zones, with a table where one pays. */
typedef struct {
    int res;
    const Zones *zones;
    uint32_t *table;
    size_t room;
} Over;

typedef H3Error Fill(const Over *over, const H3Index *cells, size_t n, void *out, size_t *at);

#define FILL(name, type)                                                                                               \
    static H3Error name(const Over *over, const H3Index *cells, size_t n, void *out, size_t *at) {                     \
        (void)over;                                                                                                    \
        return h3w_##name(cells, n, (type *)out, n, at);                                                               \
    }
#define FILL_AT(name, type)                                                                                            \
    static H3Error name(const Over *over, const H3Index *cells, size_t n, void *out, size_t *at) {                     \
        return h3w_##name(cells, n, over->res, (type *)out, n, at);                                                    \
    }
#define FILL_OVER(name, type)                                                                                          \
    static H3Error name(const Over *over, const H3Index *cells, size_t n, void *out, size_t *at) {                     \
        const Zones *zones = over->zones;                                                                              \
        if (!over->table) return h3w_##name(zones->cells, zones->count, cells, n, (type *)out, n, at);                 \
        return h3w_##name##ByTable(zones->cells, zones->count, cells, n, over->table, over->room, (type *)out, n, at); \
    }
FILL(areValidCells, int)
FILL(getResolutions, int)
FILL(getBaseCellNumbers, int)
FILL(arePentagons, int)
FILL(areResClassIII, int)
FILL(areValidDirectedEdges, int)
FILL(getDirectedEdgeOrigins, H3Index)
FILL_AT(cellsToParents, H3Index)
FILL_AT(cellsToCenterChildren, H3Index)
FILL_AT(cellsToLastChildren, H3Index)
FILL_AT(cellsToChildrenSizes, int64_t)
FILL_AT(cellsToChildPositions, int64_t)
FILL_OVER(cellsToZones, H3Index)
FILL_OVER(areCoveredCells, int)
static H3Error cellsToZonesPlaces(const Over *over, const H3Index *cells, size_t n, void *out, size_t *at) {
    const Zones *zones = over->zones;
    if (!over->table)
        return h3w_cellsToZonesPlaces(zones->cells, zones->count, zones->places, zones->count, cells, n, (int64_t *)out,
                                      n, at);
    return h3w_cellsToZonesPlacesByTable(zones->cells, zones->count, zones->places, zones->count, cells, n, over->table,
                                         over->room, (int64_t *)out, n, at);
}

/* The functions over columns, by the numbers of Native, and of how many bytes their results are. */
static const struct {
    Fill *fill;
    size_t width;
    int is_at_resolution;
} columns[] = {
    {areValidCells, sizeof(jboolean), 0},       {arePentagons, sizeof(jboolean), 0},
    {areResClassIII, sizeof(jboolean), 0},      {areValidDirectedEdges, sizeof(jboolean), 0},
    {getResolutions, sizeof(jint), 0},          {getBaseCellNumbers, sizeof(jint), 0},
    {getDirectedEdgeOrigins, sizeof(jlong), 0}, {cellsToParents, sizeof(jlong), 1},
    {cellsToCenterChildren, sizeof(jlong), 1},  {cellsToChildrenSizes, sizeof(jlong), 1},
    {cellsToChildPositions, sizeof(jlong), 1},  {cellsToZones, sizeof(jlong), 0},
    {areCoveredCells, sizeof(jboolean), 0},     {cellsToLastChildren, sizeof(jlong), 1},
    {cellsToZonesPlaces, sizeof(jint), 0},
};

/* (-1, at the place of an error, is false) */
static void put_truths(jboolean *out, const int *found, size_t n) {
    size_t i;
    for (i = 0; i < n; i++) out[i] = found[i] == 1;
}

/* How many cells are done while the arrays are lent, how many of them are copied at a time, and how many lie between
 * these and those that are fetched meanwhile. */
#define SPAN  65536
#define PART  64
#define AHEAD 256

/* Copies a part of the cells, of which there are n, and asks the memory for a later one: it comes while the library
 * works on those before. */
static size_t copy_part(H3Index *to, const H3Index *cells, size_t n) {
    size_t count = n < PART ? n : PART, i;
    memcpy(to, cells, count * sizeof *to);
    for (i = AHEAD; i < n && i < AHEAD + PART; i += 8) __builtin_prefetch(&cells[i]);
    return count;
}

/* Fills a span of results. Returns the first error, and puts its place at *at. */
static H3Error fill_span(jint function, const Over *over, const H3Index *cells, size_t n, void *out, size_t *at) {
    H3Index given[PART];
    int truths[PART];
    size_t width = columns[function].width, start, count, place = 0;
    H3Error first = E_SUCCESS, error;
    for (start = 0; start < n; start += count) {
        void *found = width == sizeof(jboolean) ? (void *)truths : (char *)out + start * width;
        count = copy_part(given, cells + start, n - start);
        error = columns[function].fill(over, given, count, found, &place);
        if (found == truths) put_truths((jboolean *)out + start, truths, count);
        if (error && !first) first = error, *at = start + place;
    }
    return first;
}

/* Fills the span that starts at a place, with both arrays lent, and moves that place to its end. Where the JVM lends
 * no array but a copy of it, which no collection waits for, the span is all that is left. */
static H3Error fill_lent(JNIEnv *env, jint function, jint res, jlongArray cells, jarray out, size_t *start,
                         size_t *at) {
    const Over over = {res, NULL, NULL, 0};
    size_t n = (size_t)(*env)->GetArrayLength(env, cells) - *start;
    jboolean is_copy = JNI_FALSE, is_copied = JNI_FALSE;
    H3Error error = E_SUCCESS;
    char *to = (*env)->GetPrimitiveArrayCritical(env, out, &is_copy);
    H3Index *from = to ? (*env)->GetPrimitiveArrayCritical(env, cells, &is_copied) : NULL;
    if (!is_copy && !is_copied && n > SPAN) n = SPAN;
    *at = NOWHERE;
    if (from) {
        error = fill_span(function, &over, from + *start, n, to + *start * columns[function].width, at);
        if (error) *at += *start;
        (*env)->ReleasePrimitiveArrayCritical(env, cells, from, JNI_ABORT);
    }
    if (to) (*env)->ReleasePrimitiveArrayCritical(env, out, to, from ? 0 : JNI_ABORT);
    *start += n;
    return from ? error : E_MEMORY_ALLOC;
}

METHOD(jlong, fillColumn)(JNIEnv *env, jclass own, jint function, jlongArray cells, jint res, jarray out) {
    size_t n = (size_t)(*env)->GetArrayLength(env, cells), start = 0, place = n, at;
    int64_t ignored;
    H3Error first = columns[function].is_at_resolution ? h3w_getNumCells(res, &ignored) : E_SUCCESS, error;
    (void)own;
    if (first) return at_place(first, NOWHERE);
    while (start < n && place != NOWHERE) {
        error = fill_lent(env, function, res, cells, out, &start, &at);
        if (error && (!first || at == NOWHERE)) first = error, place = at;
    }
    return at_place(first, place);
}

/* Prepares cells, with the place of each. */
static H3Error prepare_places(const List *given, Zones *zones) {
    uint32_t *numbers = places(given->n, sizeof *numbers);
    size_t i;
    H3Error error;
    if (!numbers) return E_MEMORY_ALLOC;
    for (i = 0; i < given->n; i++) numbers[i] = (uint32_t)i;
    zones->places = (uint32_t *)(zones->cells + given->n);
    error = h3w_areas(given->cells, given->n, numbers, given->n, zones->cells, given->n, zones->places, given->n,
                      &zones->count);
    free(numbers);
    return error;
}

/* The address of the cells as zones, with the place of each or without, or 0, with the error in status[0]. It is for
 * freeZones. */
METHOD(jlong, zones)(JNIEnv *env, jclass own, jlongArray cells, jboolean has_places, jlongArray status) {
    List given;
    Zones *zones = NULL;
    H3Error error = copy(env, cells, &given);
    size_t width = sizeof *zones->cells + (has_places ? sizeof *zones->places : 0);
    (void)own;
    if (!error) zones = malloc(sizeof *zones + (given.n + 1) * width);
    if (!error && !zones) error = E_MEMORY_ALLOC;
    if (!error && has_places) error = prepare_places(&given, zones);
    else if (!error) {
        zones->count = given.n;
        error = h3w_zones(given.cells, given.n, zones->cells, given.n);
    }
    free(given.cells);
    if (!error) return (jlong)(intptr_t)zones;
    free(zones);
    refused(env, status, error);
    return 0;
}

static const Zones *zones_at(jlong address) { return (const Zones *)(intptr_t)address; }

METHOD(void, freeZones)(JNIEnv *env, jclass own, jlong address) {
    (void)env, (void)own;
    free((void *)(intptr_t)address);
}

/* The zones in the order in which others are looked up. */
METHOD(jlongArray, zonesInOrder)(JNIEnv *env, jclass own, jlong address, jlongArray status) {
    (void)own;
    return array_of(env, zones_at(address)->cells, zones_at(address)->count, status);
}

METHOD(jlong, zoneOf)(JNIEnv *env, jclass own, jlong address, jlong cell) {
    const Zones *zones = zones_at(address);
    H3Index given = (H3Index)cell, zone = H3_NULL;
    size_t at;
    H3Error error = h3w_cellsToZones(zones->cells, zones->count, &given, 1, &zone, 1, &at);
    (void)env, (void)own;
    return result(error, (jlong)zone);
}

/* How many cells a piece of a column has by zones without a table, and at most where a table pays. */
#define PIECE      1024
#define LONG_PIECE 1048576

/* Memory through which a column goes by zones, a piece at a time. */
typedef struct {
    H3Index *cells;
    void *out;
    size_t length;
} Pieces;

/* How long pieces by a table are, which each of them writes anew: so many cells that this takes little of the time,
 * but for very many zones, where the memory counts. */
static size_t length_by_table(size_t zones) {
    size_t length = 16 * zones;
    if (length < PIECE) return PIECE;
    if (length < LONG_PIECE) return length;
    return 4 * zones < LONG_PIECE ? LONG_PIECE : 4 * zones;
}

/* Memory for n cells by a table of the zones, where they are enough for it to pay. It is to be freed. Where there is
 * none, all stays as it was. */
static void *take_table(size_t n, size_t out_size, Over *over, Pieces *pieces) {
    size_t count = over->zones->count, length = length_by_table(count), cells_size;
    char *memory;
    if (count < 2 || n < 2 || n < count / 4) return NULL;
    if (length > n) length = n;
    cells_size = length * sizeof *pieces->cells;
    memory = malloc(cells_size + (out_size ? length * out_size : 0) + 2 * count * sizeof *over->table);
    if (!memory) return NULL;
    pieces->cells = (H3Index *)(void *)memory;
    pieces->length = length;
    if (out_size) pieces->out = memory + cells_size;
    over->table = (uint32_t *)(void *)(memory + cells_size + length * out_size);
    over->room = 2 * count;
    return memory;
}

static void store_longs(JNIEnv *env, jarray out, jsize start, jsize count, void *found) {
    (*env)->SetLongArrayRegion(env, out, start, count, found);
}

static void store_truths(JNIEnv *env, jarray out, jsize start, jsize count, void *found) {
    jboolean truths[PIECE];
    jsize done, part;
    for (done = 0; done < count && !is_pending(env); done += part) {
        part = count - done < PIECE ? count - done : PIECE;
        put_truths(truths, (const int *)found + done, (size_t)part);
        (*env)->SetBooleanArrayRegion(env, out, start + done, part, truths);
    }
}

/* (a place is below 2^31, as Java's arrays are no longer) */
static void store_ints(JNIEnv *env, jarray out, jsize start, jsize count, void *found) {
    jint ints[PIECE];
    jsize done, part, i;
    for (done = 0; done < count && !is_pending(env); done += part) {
        part = count - done < PIECE ? count - done : PIECE;
        for (i = 0; i < part; i++) ints[i] = (jint)((const int64_t *)found)[done + i];
        (*env)->SetIntArrayRegion(env, out, start + done, part, ints);
    }
}

static jlong fill_pieces(JNIEnv *env, jint function, const Over *over, jlongArray cells, jarray out,
                         const Pieces *pieces) {
    jsize n = (*env)->GetArrayLength(env, cells), start, count;
    H3Error first = E_SUCCESS, error;
    size_t place = (size_t)n, at = 0;
    for (start = 0; start < n; start += count) {
        count = (size_t)(n - start) < pieces->length ? n - start : (jsize)pieces->length;
        (*env)->GetLongArrayRegion(env, cells, start, count, (jlong *)pieces->cells);
        if (is_pending(env)) break;
        error = columns[function].fill(over, pieces->cells, (size_t)count, pieces->out, &at);
        if (error && !first) first = error, place = (size_t)start + at;
        if (columns[function].width == sizeof(jlong)) store_longs(env, out, start, count, pieces->out);
        else if (columns[function].width == sizeof(jint)) store_ints(env, out, start, count, pieces->out);
        else store_truths(env, out, start, count, pieces->out);
        if (is_pending(env)) break;
    }
    return at_place(first, place);
}

METHOD(jlong, fillByZones)
(JNIEnv *env, jclass own, jint function, jlong address, jlongArray cells, jarray out) {
    H3Index given[PIECE], found[PIECE];
    Pieces pieces = {given, found, PIECE};
    Over over = {0, zones_at(address), NULL, 0};
    size_t n = (size_t)(*env)->GetArrayLength(env, cells);
    void *memory = take_table(n, sizeof(H3Index), &over, &pieces);
    jlong first = fill_pieces(env, function, &over, cells, out, &pieces);
    (void)own;
    free(memory);
    return first;
}

/* Counts a piece into counts[0..count), in which all are written anew. */
static H3Error count_piece(const Over *over, const H3Index *cells, size_t n, int64_t *counts, int64_t *others,
                           size_t *at) {
    const Zones *zones = over->zones;
    if (!over->table)
        return h3w_countCellsInZones(zones->cells, zones->count, cells, n, counts, zones->count, others, at);
    return h3w_countCellsInZonesByTable(zones->cells, zones->count, cells, n, over->table, over->room, counts,
                                        zones->count, others, at);
}

/* Adds up the counts of pieces: all[0..count) of the zones, and all[count] of the cells without one. `counts` has as
 * many places. */
static jlong count_pieces(JNIEnv *env, const Over *over, jlongArray cells, const Pieces *pieces, int64_t *all,
                          int64_t *counts) {
    jsize n = (*env)->GetArrayLength(env, cells), start, part;
    size_t count = over->zones->count, at = 0, i;
    H3Error error;
    for (start = 0; start < n; start += part) {
        part = (size_t)(n - start) < pieces->length ? n - start : (jsize)pieces->length;
        (*env)->GetLongArrayRegion(env, cells, start, part, (jlong *)pieces->cells);
        if (is_pending(env)) return 0;
        error = count_piece(over, pieces->cells, (size_t)part, counts, &counts[count], &at);
        if (error) return at_place(error, (size_t)start + at);
        for (i = 0; i <= count; i++) all[i] += counts[i];
    }
    return at_place(E_SUCCESS, (size_t)n);
}

/* The counts of the zones in their order, and after them how many cells have none; written where there is no error. */
METHOD(jlong, countByZones)(JNIEnv *env, jclass own, jlong address, jlongArray cells, jlongArray out) {
    H3Index given[PIECE];
    Pieces pieces = {given, NULL, PIECE};
    Over over = {0, zones_at(address), NULL, 0};
    size_t room = over.zones->count + 1, n = (size_t)(*env)->GetArrayLength(env, cells);
    int64_t *all = calloc(2 * room, sizeof *all);
    void *memory;
    jlong first;
    (void)own;
    if (!all) return at_place(E_MEMORY_ALLOC, NOWHERE);
    memory = take_table(n, 0, &over, &pieces);
    first = count_pieces(env, &over, cells, &pieces, all, all + room);
    if (first >> 32 == 0 && !is_pending(env)) (*env)->SetLongArrayRegion(env, out, 0, (jsize)room, (const jlong *)all);
    free(memory), free(all);
    return first;
}

/* ---- Areas that may overlap: their cells are kept as zones are, and `places` has the number of the area of each */

/* (numbers of Java have a sign: with the upper bit turned, the library puts them in Java's order) */
static void turn_signs(uint32_t *numbers, size_t n) {
    size_t i;
    for (i = 0; i < n; i++) numbers[i] ^= 0x80000000U;
}

/* Copies the cells of areas and their numbers, which are as many. An error of the JVM is pending. */
static H3Error copy_areas(JNIEnv *env, jlongArray cells, jintArray numbers, Zones *areas) {
    jsize n = (jsize)areas->count;
    size_t i;
    areas->places = (uint32_t *)(areas->cells + n);
    (*env)->GetLongArrayRegion(env, cells, 0, n, (jlong *)areas->cells);
    if (!is_pending(env)) (*env)->GetIntArrayRegion(env, numbers, 0, n, (jint *)areas->places);
    if (is_pending(env)) return E_FAILED;
    turn_signs(areas->places, areas->count);
    for (i = 0; i < areas->count; i++)
        if (!h3w_isValidCell(areas->cells[i])) return E_CELL_INVALID;
    return E_SUCCESS;
}

/* The address of the areas, or 0, with the error in status[0]. It is for freeZones. */
METHOD(jlong, areas)(JNIEnv *env, jclass own, jlongArray cells, jintArray numbers, jlongArray status) {
    size_t n = (size_t)(*env)->GetArrayLength(env, cells);
    Zones *areas = malloc(sizeof *areas + (n + 1) * (sizeof *areas->cells + sizeof *areas->places));
    H3Error error = E_MEMORY_ALLOC;
    (void)own;
    if (areas) areas->count = n, error = copy_areas(env, cells, numbers, areas);
    if (!error) return (jlong)(intptr_t)areas;
    free(areas);
    refused(env, status, error);
    return 0;
}

/* What the library returns for a column: the memory is to be freed, also where there is an error. */
typedef struct {
    List cells;
    int64_t *starts;
    uint32_t *numbers;
    size_t at;
} Found;

/* There is room for two areas of each cell at first, and then for as many as there are. */
static H3Error find_areas(const Zones *areas, Found *found) {
    size_t n = found->cells.n, room = n < INT32_MAX / 2 ? 2 * n : INT32_MAX;
    H3Error error = E_MEMORY_BOUNDS;
    found->starts = places(n + 1, sizeof *found->starts);
    if (!found->starts) return E_MEMORY_ALLOC;
    while (error == E_MEMORY_BOUNDS) {
        free(found->numbers);
        found->numbers = room > INT32_MAX ? NULL : places(room, sizeof *found->numbers);
        if (!found->numbers) return E_MEMORY_ALLOC;
        error = h3w_cellsToAreas(areas->cells, areas->count, areas->places, areas->count, found->cells.cells, n,
                                 found->starts, n + 1, found->numbers, room, &found->at);
        if (error == E_MEMORY_BOUNDS) room = (size_t)found->starts[n];
    }
    return error;
}

/* The numbers as a new array, and the starts in one that is there. */
static jintArray store_areas(JNIEnv *env, const Found *found, jintArray starts) {
    size_t n = found->cells.n;
    jsize all = (jsize)found->starts[n];
    jintArray array;
    store_ints(env, starts, 0, (jsize)(n + 1), found->starts);
    array = is_pending(env) ? NULL : (*env)->NewIntArray(env, all);
    if (!array) return NULL;
    turn_signs(found->numbers, (size_t)all);
    (*env)->SetIntArrayRegion(env, array, 0, all, (const jint *)found->numbers);
    return is_pending(env) ? NULL : array;
}

/* The numbers of the areas of each cell, one cell's after another's; written is where those of each begin. The first
 * error, times 2^32, plus its place is in status[0]; of want of memory alone there are no numbers. */
METHOD(jintArray, cellsToAreas)
(JNIEnv *env, jclass own, jlong address, jlongArray cells, jintArray starts, jlongArray status) {
    Found found = {{NULL, 0}, NULL, NULL, NOWHERE};
    jintArray array = NULL;
    H3Error error = copy(env, cells, &found.cells);
    jlong first;
    (void)own;
    if (!error) error = find_areas(zones_at(address), &found);
    first = at_place(error, error == E_MEMORY_ALLOC ? NOWHERE : found.at);
    if (!is_pending(env)) (*env)->SetLongArrayRegion(env, status, 0, 1, &first);
    if (!is_pending(env) && error != E_MEMORY_ALLOC) array = store_areas(env, &found, starts);
    free(found.numbers), free(found.starts), free(found.cells.cells);
    return array;
}
