/* How much stack the calls take that the header names: no more than it says. Each runs on a stack that was painted, and
 * where the paint begins again tells how much of it was used. */
#define _POSIX_C_SOURCE 200809L
#include "h3whole.h"
#include "check.h"
#include "tables.h"
#include <pthread.h>
#include <stdlib.h>
#include <string.h>

#define STACK (1 << 20)
#define PAINT 0xa5
#define CELLS 2401
#define ZONES 343

static H3Index cells[CELLS], zones[ZONES], out[CELLS];
static char file[FILE_ROOM];
static size_t file_size;
static int truths[CELLS];
static int64_t counts_of[ZONES];

/* The most bytes that a call takes of a thread's stack, with what a thread takes by itself. */
static size_t used(void *(*call)(void *)) {
    unsigned char *stack;
    pthread_attr_t attributes;
    pthread_t thread;
    size_t free_bytes = 0;
    void *memory;
    if (posix_memalign(&memory, 4096, STACK)) exit(2);
    stack = (unsigned char *)memory;
    memset(stack, PAINT, STACK);
    if (pthread_attr_init(&attributes) || pthread_attr_setstack(&attributes, stack, STACK) ||
        pthread_create(&thread, &attributes, call, NULL) || pthread_join(thread, NULL))
        exit(2);
    pthread_attr_destroy(&attributes);
    while (free_bytes < STACK && stack[free_bytes] == PAINT) free_bytes++;
    free(stack);
    return STACK - free_bytes;
}

static void *nothing(void *none) { return none; }

static void *zones_of(void *none) {
    size_t at;
    h3w_cellsToZones(zones, ZONES, cells, CELLS, out, CELLS, &at);
    return none;
}

static void *placed(void *none) {
    static uint32_t places[ZONES];
    static int64_t found[CELLS];
    size_t at;
    h3w_cellsToZonesPlaces(zones, ZONES, places, ZONES, cells, CELLS, found, CELLS, &at);
    return none;
}

static void *covered(void *none) {
    size_t at;
    h3w_areCoveredCells(zones, ZONES, cells, CELLS, truths, CELLS, &at);
    return none;
}

static void *counted(void *none) {
    size_t at;
    int64_t others;
    h3w_countCellsInZones(zones, ZONES, cells, CELLS, counts_of, ZONES, &others, &at);
    return none;
}

static void *read_table(void *none) {
    H3wTableFault fault;
    h3w_readTable(file, file_size, &fault);
    return none;
}

int main(void) {
    static const struct {
        void *(*call)(void *);
        size_t most;
    } calls[] = {
        {zones_of, 18 << 10}, {placed, 19 << 10}, {covered, 18 << 10}, {counted, 18 << 10}, {read_table, 64 << 10}};
    size_t own = used(nothing), i;
    H3Index chosen[ZONES];
    file_size = write_table(file, PLAIN, 1);
    CHECK(h3w_cellToChildren(0x85283473fffffffU, 9, cells, CELLS) == E_SUCCESS);
    for (i = 0; i < ZONES; i++) chosen[i] = cells[7 * i];
    CHECK(h3w_zones(chosen, ZONES, zones, ZONES) == E_SUCCESS);
    /* in no order: 1000 and 2401 have no common divisor, so each cell is there once */
    for (i = 0; i < CELLS; i++) out[i] = cells[i * 1000 % CELLS];
    memcpy(cells, out, sizeof cells);
    for (i = 0; i < sizeof calls / sizeof *calls; i++) {
        size_t took = used(calls[i].call) - own;
        if (took > calls[i].most) printf("call %zu took %zu bytes of stack\n", i, took);
        CHECK(took <= calls[i].most);
    }
    return counts();
}
