/* Random files to the second model's salvage (salvage.c). What it makes of each
 * is held to the request's words, one by one:
 * - 17 is given exactly where the section count, the table or its starts are
 *   wrong, or the file or its last stated end passes 65,535; 20 exactly where
 *   the new file is longer than the buffer, and not for a file that gets 17;
 * - the new file has as many sections, and the model's trace player refuses it
 *   neither with 17 nor with 18;
 * - each section is a beginning of the old one's bytes; what stood behind it is
 *   nothing, or less than a record in the section or in the file, or a record
 *   that is wrong at the level which the section has in the new file;
 * - the sections cut and the bytes lost are those by which lengths fell;
 * - a file that the player refuses neither with 17 nor 18 is its own salvage,
 *   and so is every new file;
 * - every byte of the buffer is as before a refusal, as are otherwise the bytes
 *   behind the new file.
 * The file lies right before or right behind a page that cannot be touched, and
 * so does the buffer.
 *
 * usage: salvage_fuzz [seed] [files]
 *
 * Exit 0: all held, and every case was met. Exit 1: not so. */
#define _DEFAULT_SOURCE
#include "salvage.h"
#include "some_cut.h"

#include <stdio.h>
#include <stdlib.h>
#include <string.h>
#include <sys/mman.h>

static unsigned long number;

static void fail(const char *what)
{
    printf("FAIL file %lu: %s\n", number, what);
    exit(1);
}

/* ---- places between pages that cannot be touched --------------------------- */

static uint8_t *new_area(size_t bytes)
{
    size_t page = 65536;
    uint8_t *p = mmap(0, bytes + 4 * page, PROT_NONE,
                      MAP_PRIVATE | MAP_ANONYMOUS, -1, 0);

    if (p == MAP_FAILED)
        exit(1);
    p += 2 * page - (uintptr_t)p % page;
    if (mprotect(p, bytes, PROT_READ | PROT_WRITE) != 0)
        exit(1);
    return p;
}

/* ---- what was met ------------------------------------------------------------ */

enum met {
    LONG_FILE, NO_COUNT, BAD_COUNT, CUT_TABLE, GAP, PAST_END, NO_ROOM,
    ONE_SHORT, NO_BYTE, BOTH, SALVAGED, UNCUT, RIGHT_ONE, BEHIND, EXACT, WIDE,
    WRONG, PAST_SECTION, PAST_FILE, ALL_OUTSIDE, TO_NOTHING, PLAYED_NOTHING,
    AT_LEVEL_8, LOWER_LEVEL, EVERY_SECTION, NEAR_END, METS
};
static const char *const met_name[METS] = {
    "longer than 65,535 bytes", "no section count", "a count of 0 or above 64",
    "a table that is cut", "a gap or an overlap",
    "a last end above 65,535", "no room", "one byte short", "no byte lent",
    "wrong contents and no room", "salvaged", "with nothing cut",
    "a right file", "bytes behind the last section", "a buffer of that length",
    "a buffer of more than 65,535 bytes", "cut before a wrong record",
    "cut before one that runs past the section",
    "cut before one that runs past the file",
    "a section that lies behind the file", "a section cut to nothing",
    "which is played", "cut before a play at level 8",
    "a level below that of the whole file", "several sections cut",
    "a last end of 65,535"};
static unsigned long met[METS];

/* ---- the request word by word --------------------------------------------- */

/* A number of some bytes, the lowest first. */
static uint64_t of(const uint8_t *at, int bytes)
{
    return bytes == 0 ? 0 : at[0] + 256 * of(at + 1, bytes - 1);
}

static uint64_t start_of(const uint8_t *f, uint64_t s) { return of(f + 2 + 8 * s, 4); }
static uint64_t length_of(const uint8_t *f, uint64_t s) { return of(f + 6 + 8 * s, 4); }
static uint64_t end_of(const uint8_t *f, uint64_t s) { return start_of(f, s) + length_of(f, s); }

static int is_17(const uint8_t *f, size_t n)
{
    uint64_t sections, s;
    enum met why = METS;

    if (n > 65535)
        why = LONG_FILE;
    else if (n < 2)
        why = NO_COUNT;
    if (why != METS) {
        met[why]++;
        return 1;
    }
    sections = of(f, 2);
    if (sections < 1 || sections > 64)
        why = BAD_COUNT;
    else if (n < 2 + 8 * sections)
        why = CUT_TABLE;
    if (why == METS) {
        for (s = 0; s < sections; s++)
            if (start_of(f, s) != (s == 0 ? 2 + 8 * sections : end_of(f, s - 1)))
                why = GAP;
        if (why == METS && end_of(f, sections - 1) > 65535)
            why = PAST_END;
    }
    if (why == METS)
        return 0;
    met[why]++;
    return 1;
}

static int level_in(const uint8_t *f, uint64_t s)
{
    int level = 1;
    uint64_t lower, at;

    for (lower = 0; lower < s; lower++) {
        int its = 0;

        for (at = start_of(f, lower); at < end_of(f, lower); at += 4)
            if (f[at] == 5 && f[at + 1] == s) {
                if (its == 0)
                    its = level_in(f, lower);
                if (level < its + 1)
                    level = its + 1;
            }
    }
    return level;
}

/* How one section was cut: its beginning, and what stood behind it. */
static void hold_section(const uint8_t *old, size_t n, const uint8_t *new,
                         const struct trace *t, uint64_t s)
{
    uint64_t start = start_of(old, s), length = length_of(old, s);
    uint64_t kept = length_of(new, s), at = start + kept;
    int level = t->section[s].level;

    if (kept > length || kept % 4 != 0)
        fail("a new length");
    if (kept > 0 && (at > n || memcmp(old + start, new + start_of(new, s), kept) != 0))
        fail("a section is no beginning of the old one");
    if (kept == length)
        return;
    met[TO_NOTHING] += kept == 0;
    met[ALL_OUTSIDE] += start >= n;
    if (kept + 4 > length) {
        met[PAST_SECTION]++;
    } else if (at + 4 > n) {
        met[PAST_FILE]++;
    } else {
        enum trace_fault fault =
            trace_record_fault(old + at, (int)s, t->sections, level);

        if (fault == TRACE_RIGHT)
            fail("a right record is cut");
        met[WRONG]++;
        met[AT_LEVEL_8] += fault == TRACE_TOO_DEEP;
    }
}

static int plays(const uint8_t *f, uint64_t s)
{
    uint64_t at;

    for (at = start_of(f, 0); at < start_of(f, s); at += 4)
        if (f[at] == 5 && f[at + 1] == s)
            return 1;
    return 0;
}

static void hold_file(const uint8_t *old, size_t n, const uint8_t *new,
                      const struct salvaged *a)
{
    static struct trace t;
    uint64_t s, sections = of(old, 2), lost = 0;
    unsigned cut = 0;
    int number17 = trace_number(trace_open(&t, new, a->length));

    if (number17 == 17 || number17 == 18)
        fail("the new file is refused");
    if (of(new, 2) != sections)
        fail("the number of sections");
    for (s = 0; s < sections; s++) {
        if (sections <= 12 && level_in(new, s) != t.section[s].level)
            fail("a level");
        hold_section(old, n, new, &t, s);
        cut += length_of(new, s) < length_of(old, s);
        lost += length_of(old, s) - length_of(new, s);
        met[PLAYED_NOTHING] += length_of(new, s) == 0 && length_of(old, s) > 0 && plays(new, s);
    }
    if (a->cut != cut || a->lost != lost)
        fail("the sections cut or the bytes lost");
    met[UNCUT] += cut == 0;
    met[EVERY_SECTION] += cut > 1;
    met[BEHIND] += end_of(old, sections - 1) < n;
    met[NEAR_END] += end_of(old, sections - 1) == 65535;
    if (sections <= 12 && end_of(old, sections - 1) <= n && cut > 0)
        for (s = 0; s < sections; s++)
            if (level_in(old, s) > t.section[s].level) {
                met[LOWER_LEVEL]++;
                break;
            }
}

/* A file that needs no salvage: it is its own. */
static void hold_own(const uint8_t *f, size_t n)
{
    static uint8_t again[65535];
    struct salvaged a = {9, 9, 9};

    if (salvage_file(f, n, again, n, &a) != 0 || a.cut != 0 || a.lost != 0 ||
        a.length != n || memcmp(again, f, n) != 0)
        fail("a right file is not its own salvage");
}

static void try_room(const uint8_t *f, size_t n, uint8_t *buffer, size_t room,
                     size_t whole, int wrong)
{
    static uint8_t before[SOME_CUT_ROOM];
    struct salvaged a = {77, 77777, 77777};
    size_t i;
    int answer;

    for (i = 0; i < room; i++)
        buffer[i] = before[i] = (uint8_t)((i * 2654435761u + number) >> 5);
    answer = salvage_file(f, n, buffer, room, &a);
    if (answer != (wrong ? 17 : whole > room ? 20 : 0))
        fail("17 or 20");
    if (answer != 0 && (a.cut != 77 || a.lost != 77777 || a.length != 77777))
        fail("a refusal tells more");
    if (answer == 0 && a.length != whole)
        fail("the length told");
    i = answer == 0 ? whole : 0;
    if (memcmp(buffer + i, before + i, room - i) != 0)
        fail("a byte changed that should have stayed");
    met[NO_ROOM] += answer == 20;
    met[ONE_SHORT] += answer == 20 && room + 1 == whole;
    met[NO_BYTE] += answer == 20 && room == 0;
    met[BOTH] += answer == 17 && room < 10;
    if (answer != 0)
        return;
    met[SALVAGED]++;
    met[EXACT] += room == whole;
    met[WIDE] += room > 65535;
    hold_file(f, n, buffer, &a);
    hold_own(buffer, whole);
}

int main(int argc, char **argv)
{
    unsigned long seed = argc > 1 ? strtoul(argv[1], 0, 10) : 1;
    unsigned long files = argc > 2 ? strtoul(argv[2], 0, 10) : 100000;
    uint8_t *files_area = new_area(SOME_TRACE_BYTES);
    uint8_t *buffers_area = new_area(SOME_CUT_ROOM);
    static uint8_t made[SOME_TRACE_BYTES], whole_new[65535];
    static struct trace t;
    int i, missing = 0;

    for (number = 1; number <= files; number++) {
        uint64_t from = seed * UINT64_C(1000003) + number;
        size_t n = some_cut(from, made), room, whole = 0;
        uint8_t *file = files_area, *buffer = buffers_area;
        int wrong, first;

        if (number & 1)
            file += SOME_TRACE_BYTES - n;
        memcpy(file, made, n);
        wrong = is_17(file, n);
        if (!wrong) {
            struct salvaged a;

            if (salvage_file(file, n, whole_new, sizeof whole_new, &a) != 0)
                fail("no salvage in the most that a file may have");
            whole = a.length;
        }
        first = trace_number(trace_open(&t, file, n));
        if (first != 17 && first != 18) {
            met[RIGHT_ONE]++;
            hold_own(file, n);
        }
        room = wrong && (number & 2) ? 0 : some_cut_room(from, wrong ? 10 : whole);
        if (number & 4)
            buffer += SOME_CUT_ROOM - room;
        try_room(file, n, buffer, room, whole, wrong);
    }
    for (i = 0; i < METS; i++) {
        printf("%s: %lu\n", met_name[i], met[i]);
        missing += met[i] == 0;
    }
    printf("%lu files%s\n", files,
           missing ? ", but not everything was met" : "");
    return missing != 0;
}
