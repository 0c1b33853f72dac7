/* The same rows as Speed.java, from C: of each the best time of some rounds, which take a second together or are one,
 * in nanoseconds a cell; and the sum of what it returns. */
#define _POSIX_C_SOURCE 200809L
#include "h3whole.h"
#include <stdio.h>
#include <time.h>

#define N      10000000
#define ROUNDS 10
#define ZONES  100000

static H3Index cells[N], out[N], list[ZONES], zones[ZONES];
static uint32_t table[2 * ZONES];
static int64_t counts[ZONES];

static double seconds(void) {
    struct timespec now;
    clock_gettime(CLOCK_MONOTONIC, &now);
    return (double)now.tv_sec + (double)now.tv_nsec / 1e9;
}

static void row(const char *name, uint64_t (*call)(void)) {
    double best = 1e9, all = 0;
    uint64_t sum = 0;
    int round;
    for (round = 0; round < ROUNDS && all < 1; round++) {
        double start = seconds(), time;
        sum = call();
        time = seconds() - start;
        if (time < best) best = time;
        all += time;
    }
    printf("%s\t%.3f\t%llx\n", name, best * 1e9 / N, (unsigned long long)sum);
}

/* The descendant at a position of a hexagon base cell. */
static H3Index cell(uint64_t position, uint64_t base, int res) {
    H3Index found =
        (H3Index)1 << 59 | (H3Index)res << 52 | (base == 4 ? 5 : base) << 45 | (((H3Index)1 << 3 * (15 - res)) - 1);
    int r;
    for (r = res; r > 0; r--, position /= 7) found |= position % 7 << 3 * (15 - r);
    return found;
}

static void make_cells(void) {
    uint64_t state = 1;
    int i;
    for (i = 0; i < N; i++) {
        state = state * 6364136223846793005U + 1442695040888963407U;
        cells[i] = cell((state >> 33) % 40353607, (state >> 20 & 3) * 2, 9);
    }
    for (i = 0; i < ZONES; i++) list[i] = cell((uint64_t)i, i % 2 == 0 ? 0 : 2, 6);
}

static uint64_t valid(void) {
    uint64_t sum = 0;
    int i;
    for (i = 0; i < N; i++) sum += (uint64_t)h3w_isValidCell(cells[i]);
    return sum;
}

static uint64_t parent(void) {
    uint64_t sum = 0;
    H3Index found = 0;
    int i;
    for (i = 0; i < N; i++) {
        if (h3w_cellToParent(cells[i], 4, &found)) return 0;
        sum += found;
    }
    return sum;
}

static uint64_t parents(void) {
    size_t at;
    h3w_cellsToParents(cells, N, 4, out, N, &at);
    return out[0] + out[N - 1];
}

static uint64_t zoned(void) {
    size_t at;
    h3w_cellsToZonesByTable(zones, ZONES, cells, N, table, 2 * ZONES, out, N, &at);
    return out[0] + out[N - 1];
}

static uint64_t counted(void) {
    size_t at;
    int64_t others = 0;
    h3w_countCellsInZonesByTable(zones, ZONES, cells, N, table, 2 * ZONES, counts, ZONES, &others, &at);
    return (uint64_t)others;
}

int main(void) {
    make_cells();
    if (h3w_zones(list, ZONES, zones, ZONES)) return 1;
    row("isValidCell", valid);
    row("cellToParent", parent);
    row("cellsToParents", parents);
    row("cellsToZones", zoned);
    row("countCellsInZones", counted);
    return 0;
}
