/* Calls from many threads at once, over the same cells. For a sanitizer of threads. */
#include "h3whole.h"
#include "check.h"
#include <pthread.h>
#include <stdlib.h>

#define THREADS 8
#define N       2401

static H3Index cells[N];

/* every seventh cell, as zones that all threads look cells up in, with one table */
static H3Index zones[N / 7];
static uint32_t table[2 * (N / 7)];

static int are_looked_up(H3Index *out) {
    int64_t counts[N / 7], others = 0;
    size_t at = 0, count = 0, i;
    int holds = !h3w_cellsToZones(zones, N / 7, cells, N, out, N, &at) && at == N;
    for (i = 0; holds && i < N; i++) holds = out[i] == (i % 7 ? H3_NULL : cells[i]);
    holds = holds && !h3w_cellsToZonesInTable(zones, N / 7, cells, N, table, 2 * (N / 7), out, N, &at) && at == N;
    for (i = 0; holds && i < N; i++) holds = out[i] == (i % 7 ? H3_NULL : cells[i]);
    holds = holds && !h3w_countCellsInZones(zones, N / 7, cells, N, counts, N / 7, &others, &at) &&
            others == N - N / 7 && counts[0] == 1 && counts[N / 7 - 1] == 1;
    return holds && !h3w_uniteCells(cells, N, out, N, &count) && count == 1 &&
           !h3w_subtractCells(cells, N, zones, N / 7, out, N, &count) && count == N - N / 7;
}

/* Returns NULL where a result is wrong. */
static void *calls(void *own) {
    H3Index *out = (H3Index *)malloc(N * sizeof *out), index;
    size_t count = 0, at = 0, i;
    char text[17];
    int64_t position;
    int holds = out != NULL;
    for (i = 0; holds && i < N; i++)
        holds = !h3w_cellToParent(cells[i], 5, &index) && index == 0x85283473fffffffU &&
                !h3w_cellToChildPos(cells[i], 5, &position) && position == (int64_t)i &&
                !h3w_h3ToString(cells[i], text, 17) && !h3w_stringToH3(text, 15, &index) && index == cells[i];
    holds = holds && !h3w_cellsToParents(cells, N, 9, out, N, &at) && at == N && memcmp(cells, out, sizeof cells) == 0;
    holds = holds && !h3w_compactCells(cells, N, out, N, &count) && count == 1;
    holds = holds && !h3w_uncompactCells(out, 1, out + 1, N - 1, 8) && out[343] != 0;
    holds = holds && are_looked_up(out);
    free(out);
    return holds ? own : NULL;
}

int main(void) {
    pthread_t threads[THREADS];
    H3Index chosen[N / 7];
    int i;
    CHECK(h3w_cellToChildren(0x85283473fffffffU, 9, cells, N) == E_SUCCESS);
    for (i = 0; i < N / 7; i++) chosen[i] = cells[7 * i];
    CHECK(h3w_zones(chosen, N / 7, zones, N / 7) == E_SUCCESS);
    h3w_zonesTable(zones, N / 7, table, 2 * (N / 7));
    for (i = 0; i < THREADS; i++) CHECK(pthread_create(&threads[i], NULL, calls, cells) == 0);
    for (i = 0; i < THREADS; i++) {
        void *own = NULL;
        CHECK(pthread_join(threads[i], &own) == 0 && own == (void *)cells);
    }
    return counts();
}
