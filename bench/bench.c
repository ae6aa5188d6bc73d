/* Runs every case for the proved library and for plain C in turn, many short
 * rounds, and then the library's boards beside its own calls. It prints one
 * line for each: its name, the unit, the best processor time of each side in
 * nanoseconds for a unit, and what the sides are, between tabs.
 *
 * usage: bench [rounds]
 */
#define _POSIX_C_SOURCE 199309L
#include "cases.h"

#include <stdio.h>
#include <stdlib.h>
#include <time.h>

static const struct {
    const char *name, *unit;
    uint32_t times;
} cases[CASES] = {
    {"busy host, 16 bits", "edge", 2000},
    {"busy host, 16 bits, depth 16", "edge", 2000},
    {"tick and levels at every edge", "edge", 2000},
    {"clock steps, all levels looked at", "edge", 2000},
    {"words of 16 bits, read and written", "edge", 2000},
    {"words of 16 bits, the clock alone", "edge", 250},
    {"frame host, 16 bits", "edge", 2000},
    {"SSEN client, 8 bits", "edge", 4000},
    {"SSEN client, 16 bits, CKE 1", "edge", 2000},
    {"linked pair, 8 words of 16 bits", "edge", 150},
    {"register calls", "call", 1000},
    {"trace, sections played", "call", 6},
    {"trace of 16,000 records", "call", 4},
    {"trace of 16,000 records salvaged", "record", 20},
};

/* Two ways to do the same. */
struct ways {
    const char *name, *unit, *side[2];
    struct outcome (*run[2])(uint32_t times);
    uint32_t times;
};

static const struct ways tis[] = {
    {"TI master, 16 bits",
     "edge",
     {"library", "plain C"},
     {library_ti_master, plain_ti_master},
     2000},
    {"TI master, 5 bits, phase 1",
     "edge",
     {"library", "plain C"},
     {library_ti_short, plain_ti_short},
     6000},
    {"TI slave, 8 bits, phase 1",
     "edge",
     {"library", "plain C"},
     {library_ti_slave, plain_ti_slave},
     4000},
};

static const struct ways boards[] = {
    {"busy host, module 3 of 4",
     "edge",
     {"board", "own call"},
     {tick_on_board, tick_alone},
     2000},
    {"words owed by four modules",
     "call",
     {"asked", "walk"},
     {ask_board, walk_board},
     60},
};

static int rounds;

static double seconds(void)
{
    struct timespec t;

    clock_gettime(CLOCK_PROCESS_CPUTIME_ID, &t);
    return (double)t.tv_sec + (double)t.tv_nsec / 1e9;
}

/* Runs both in turn and prints their line: do they differ? */
static int run(const struct ways *w)
{
    struct outcome o[2] = {{0, 0}, {0, 0}};
    double best[2] = {0, 0};
    int r, s;

    for (r = 0; r < rounds; r++) {
        for (s = 0; s < 2; s++) {
            double took = seconds();
            o[s] = w->run[s](w->times);
            took = seconds() - took;
            if (r == 0 || took < best[s])
                best[s] = took;
        }
        if (o[0].units != o[1].units || o[0].sum != o[1].sum) {
            fprintf(stderr, "%s: FAILED: %s and %s answer differently\n",
                    w->name, w->side[0], w->side[1]);
            return 1;
        }
    }
    printf("%s\t%s\t%.4f\t%.4f\t%s\t%s\n", w->name, w->unit,
           best[0] * 1e9 / o[0].units, best[1] * 1e9 / o[1].units, w->side[0],
           w->side[1]);
    return 0;
}

int main(int argc, char **argv)
{
    int failed = 0, i;

    rounds = argc > 1 ? atoi(argv[1]) : 50;
    if (rounds < 1)
        rounds = 1;
    for (i = 0; i < CASES; i++) {
        struct ways w = {0};

        w.name = cases[i].name;
        w.unit = cases[i].unit;
        w.side[0] = library_side.name;
        w.side[1] = plain_side.name;
        w.run[0] = library_side.run[i];
        w.run[1] = plain_side.run[i];
        w.times = cases[i].times;
        failed |= run(&w);
    }
    for (i = 0; i < (int)(sizeof tis / sizeof tis[0]); i++)
        failed |= run(&tis[i]);
    for (i = 0; i < (int)(sizeof boards / sizeof boards[0]); i++)
        failed |= run(&boards[i]);
    return failed;
}
