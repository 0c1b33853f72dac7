/* The table of a program with H3's bare names: its files see `plain_table`, which is read before main runs. */
#include "h3whole.h"
#include "tables.h"
#include <stdlib.h>

extern const H3wTable *plain_table;
const H3wTable *plain_table;

__attribute__((constructor)) static void read_plain_table(void) {
    static H3wTable table;
    static char file[FILE_ROOM];
    H3wTableFault fault;
    size_t n = write_table(file, PLAIN, 1);
    table = h3w_readTable(file, n, &fault);
    if (fault.code) abort();
    plain_table = &table;
}
