/* The files of tables whose links are known. None is H3's. */
#ifndef TABLES_H
#define TABLES_H
#include <stdio.h>

#define FILE_ROOM 8192

enum { PLAIN, TWISTED, SKEW };

static int is_pentagon_base(int base) {
    static const int bases[] = {4, 14, 24, 38, 49, 58, 63, 72, 83, 97, 107, 117};
    size_t i = 0;
    while (i < 12 && bases[i] != base) i++;
    return i < 12;
}

/* A digit turned counter-clockwise so many times. */
static int turned(int digit, int times) {
    static const int once[] = {0, 5, 3, 1, 6, 4, 2};
    while (times-- > 0) digit = once[digit];
    return digit;
}

/* The base cell in the direction of a digit, and how often digits are turned on crossing: a fixed step for each
 * direction along the ring of the base cells; the same with the frame of each turned base % 6 times; and steps of which
 * the corners do not close. */
static int neighbor(int table, int base, int digit, int *turns) {
    static const int steps[2][7] = {{0, 110, 11, 121, 1, 111, 12}, {0, 109, 11, 121, 1, 111, 13}};
    int back = table == TWISTED ? turned(digit, (6 - base % 6) % 6) : digit;
    int to = (base + steps[table == SKEW][back]) % 122;
    *turns = table == TWISTED ? (to % 6 + 6 - base % 6) % 6 : 0;
    return to;
}

/* Writes the file of a table, in format 1 or 2, and returns its length. */
static size_t write_table(char *file, int table, int format) {
    size_t n = (size_t)sprintf(file, format == 1 ? "base,dir,to,rot\n" : "base,k,j,jk,i,ik,ij,rk,rj,rjk,ri,rik,rij\n");
    int base, digit, turns;
    for (base = 0; base < 122; base++) {
        if (is_pentagon_base(base)) continue;
        if (format == 2) n += (size_t)sprintf(file + n, "%d", base);
        for (digit = 1; digit < 7; digit++) {
            int to = neighbor(table, base, digit, &turns);
            if (format == 1) n += (size_t)sprintf(file + n, "%d,%d,%d,%d\n", base, digit, to, turns);
            if (format == 2) n += (size_t)sprintf(file + n, ",%d", to);
        }
        for (digit = 1; format == 2 && digit < 7; digit++) {
            neighbor(table, base, digit, &turns);
            n += (size_t)sprintf(file + n, digit < 6 ? ",%d" : ",%d\n", turns);
        }
    }
    return n;
}
#endif
