/* Random trace files to the second model's player (trace.c), each held against
 * a second player below, which takes the request's words one by one, looks at
 * all records again for every rule and walks every record that is played. A file
 * lies right before or right behind a page that cannot be read, so a byte too
 * many ends the program.
 *
 * usage: trace_fuzz [seed] [files]
 *
 * Exit 0: both agree, everything that can be wrong with a file was met, and the
 * costly files were played quickly. Exit 1: not so. */
#define _DEFAULT_SOURCE
#include "some_trace.h"
#include "trace.h"

#include <stdio.h>
#include <stdlib.h>
#include <string.h>
#include <sys/mman.h>
#include <time.h>

static unsigned long number, files;

static void fail(const char *what)
{
    printf("FAIL file %lu: %s\n", number, what);
    exit(1);
}

/* ---- the request word by word --------------------------------------------- */

/* A number of some bytes, the lowest first. */
static uint64_t of(const uint8_t *at, int bytes)
{
    return bytes == 0 ? 0 : at[0] + 256 * of(at + 1, bytes - 1);
}

static uint64_t start_of(const uint8_t *f, uint64_t s) { return of(f + 2 + 8 * s, 4); }
static uint64_t length_of(const uint8_t *f, uint64_t s) { return of(f + 6 + 8 * s, 4); }

static int contents_wrong(const uint8_t *f, uint64_t n)
{
    uint64_t sections, s;

    if (n > 65535 || n < 2)
        return 1;
    sections = of(f, 2);
    if (sections < 1 || sections > 64 || n < 2 + 8 * sections)
        return 1;
    if (start_of(f, 0) != 2 + 8 * sections)
        return 1;
    for (s = 0; s < sections; s++) {
        uint64_t end = start_of(f, s) + length_of(f, s);

        if (length_of(f, s) % 4 != 0)
            return 1;
        if (end != (s + 1 < sections ? start_of(f, s + 1) : n))
            return 1;
    }
    return 0;
}

/* Does section a have a play record of section b? */
static int plays(const uint8_t *f, uint64_t a, uint64_t b)
{
    uint64_t at;

    for (at = start_of(f, a); at < start_of(f, a) + length_of(f, a); at += 4)
        if (f[at] == 5 && f[at + 1] == b)
            return 1;
    return 0;
}

static int record_wrong(const uint8_t *r, uint64_t s, uint64_t sections,
                        int level)
{
    static const uint8_t most[] = {3, 3, 5, 7, 0};

    if (r[0] > 5)
        return 1;
    if (r[0] == 5)
        return r[1] <= s || r[1] >= sections || level >= 8;
    if (r[1] > most[r[0]] || (r[0] == 2 && (r[1] & 2)))
        return 1;
    return r[0] != 0 && (r[2] != 0 || r[3] != 0);
}

static int records_wrong(const uint8_t *f)
{
    uint64_t sections = of(f, 2), s, lower, at;
    int level[64];

    for (s = 0; s < sections; s++) {
        level[s] = 1;
        for (lower = 0; lower < s; lower++)
            if (plays(f, lower, s) && level[s] < level[lower] + 1)
                level[s] = level[lower] + 1;
        for (at = start_of(f, s); at < start_of(f, s) + length_of(f, s);
             at += 4)
            if (record_wrong(f + at, s, sections, level[s]))
                return 1;
    }
    return 0;
}

/* The calls are numbered as they are made; the walk stops at 65,536, or when it
 * has passed more records than is worth while. */
static unsigned called;
static unsigned long passed;
#define PATIENCE 3000000ul

static int walk(struct ref_spi *m, const uint8_t *f, uint64_t s)
{
    uint64_t at;
    unsigned value;

    for (at = start_of(f, s); at < start_of(f, s) + length_of(f, s); at += 4) {
        const uint8_t *r = f + at;
        int sdi = r[1] & 1, sck = (r[1] & 2) != 0, ss = (r[1] & 4) != 0;
        uint64_t times;

        if (++passed > PATIENCE)
            return 0;
        if (r[0] == 5) {
            for (times = of(r + 2, 2); times > 0; times--)
                if (++called > 65535 || !walk(m, f, r[1]))
                    return 0;
            continue;
        }
        if (++called > 65535)
            return 0;
        switch (r[0]) {
        case 0: ref_write(m, r[1], (unsigned)of(r + 2, 2)); break;
        case 1: ref_read(m, r[1], &value); break;
        case 2: ref_tick(m, sdi, ss); break;
        case 3: ref_pins(m, sck, sdi, ss); break;
        default: ref_clear(m); break;
        }
    }
    return 1;
}

/* ---- a place between pages that cannot be read ------------------------------ */

static uint8_t *area;

static void make_area(void)
{
    size_t page = 65536;
    uint8_t *p = mmap(0, SOME_TRACE_BYTES + 4 * page, PROT_NONE,
                      MAP_PRIVATE | MAP_ANONYMOUS, -1, 0);

    if (p == MAP_FAILED)
        exit(1);
    area = p + (2 * page - (uintptr_t)p % page);
    if (mprotect(area, SOME_TRACE_BYTES, PROT_READ | PROT_WRITE) != 0)
        exit(1);
}

static uint8_t *placed(const uint8_t *file, size_t n, int behind)
{
    uint8_t *at = behind ? area : area + SOME_TRACE_BYTES - n;

    memcpy(at, file, n);
    return at;
}

/* ---- both ------------------------------------------------------------------ */

static unsigned long met[TRACE_FAULTS], left;

static void try_file(const uint8_t *f, size_t n)
{
    static struct trace t;
    enum trace_fault fault = trace_open(&t, f, n);
    struct ref_spi m, other, before;
    unsigned calls = 77777;
    int answer, whole;

    memset(&m, 0x5A, sizeof m);
    before = m;
    met[fault]++;
    answer = trace_play(&m, f, n, &calls);
    if (answer != trace_number(fault))
        fail("played against the check");
    if (answer != 0 &&
        (memcmp(&m, &before, sizeof m) != 0 || calls != 77777))
        fail("a refused play changed something");
    if ((answer == 17) != contents_wrong(f, n))
        fail("17");
    if (answer == 17)
        return;
    if ((answer == 18) != records_wrong(f))
        fail("18");
    if (answer == 18)
        return;
    ref_power_up(&other);
    called = 0;
    passed = 0;
    whole = walk(&other, f, 0);
    if (!whole && called <= 65535) {
        left++;
        return;
    }
    if ((answer == 19) != !whole)
        fail("19");
    if (answer == 19)
        return;
    if (called != calls || memcmp(&m, &other, sizeof m) != 0)
        fail("the module or the number of calls");
}

static void costly(uint8_t *file)
{
    int i;

    for (i = 0; i < COSTLY_TRACES; i++) {
        unsigned want, calls = 0;
        size_t n = costly_trace(i, file, &want);
        struct ref_spi m;
        clock_t began = clock();
        int answer = trace_play(&m, placed(file, n, 0), n, &calls);
        double took = (double)(clock() - began) / CLOCKS_PER_SEC;

        number = (unsigned long)i;
        if (answer != (want > 65535 ? 19 : 0) || (answer == 0 && calls != want))
            fail("a costly file is answered wrongly");
        if (took > 1)
            fail("a costly file takes more than a second");
    }
}

int main(int argc, char **argv)
{
    static uint8_t file[SOME_TRACE_BYTES];
    unsigned long seed = argc > 1 ? strtoul(argv[1], 0, 10) : 1;
    int i, missing = 0;

    files = argc > 2 ? strtoul(argv[2], 0, 10) : 100000;
    make_area();
    for (number = 1; number <= files; number++) {
        size_t n = some_trace(seed * 1000003u + number, file);

        try_file(placed(file, n, (int)(number & 1)), n);
    }
    costly(file);
    for (i = 0; i < TRACE_FAULTS; i++) {
        printf("%s: %lu\n", trace_fault_text[i], met[i]);
        missing += met[i] == 0;
    }
    printf("%lu files, %lu of them too long to walk%s\n", files, left,
           missing ? ", but not everything was met" : "");
    return missing != 0;
}
