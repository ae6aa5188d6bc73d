/* The library's salvage beside the second one of tests/model: the same file and
 * the same room to both, and then all that is told and every byte lent.
 *
 *   salvage_compare CALLS SEED
 *
 * Files are those of tests/model/some_cut.c, and for a hostile caller any bytes
 * and any room. The file and what is lent lie right before or right behind a
 * page that cannot be touched, and the file must stay as it is. What is salvaged
 * is played by the library, which may refuse it with 19 alone, and is salvaged
 * once more, which must change nothing. Every refusal and event is counted, and
 * none may be missing. Exit 0: no difference. */
#define _DEFAULT_SOURCE
#include "salvage.h"
#include "some_cut.h"
#include "thurafeqa.h"

#include <stdio.h>
#include <stdlib.h>
#include <string.h>
#include <sys/mman.h>

enum event {
    BAD_CONTENTS, NO_ROOM, BOTH, SALVAGED, NOTHING_CUT, CUT_WRONG, CUT_SECTION,
    CUT_FILE, TO_NOTHING, SEVERAL, LEFT_OFF, EXACT, ONE_SHORT, WIDE, MOST_LOST,
    MANY_CALLS, PLAYED, EVENTS
};
static const char *const event_name[EVENTS] = {
    "refusal 17", "refusal 20", "17 where 20 stands behind it", "salvaged",
    "nothing cut", "cut before a wrong record", "before the section's end",
    "before the file's end", "a section cut to nothing",
    "several sections cut", "bytes left off", "a buffer of that length",
    "one byte short", "more than 65,535 lent", "more than 60,000 bytes lost",
    "played, refusal 19", "played"};
static unsigned long met[EVENTS];

static uint8_t *new_area(size_t bytes)
{
    size_t page = 65536;
    uint8_t *p = mmap(0, bytes + 4 * page, PROT_NONE,
                      MAP_PRIVATE | MAP_ANONYMOUS, -1, 0);

    if (p == MAP_FAILED)
        exit(1);
    p += 2 * page - (uintptr_t)p % page;
    if (mprotect(p, bytes, PROT_READ | PROT_WRITE) != 0)
        exit(1);
    return p;
}

static uint64_t state;

static uint32_t some(void)
{
    state ^= state << 13;
    state ^= state >> 7;
    state ^= state << 17;
    return (uint32_t)(state >> 32);
}

static uint32_t number_at(const uint8_t *at)
{
    return at[0] + 256u * at[1] + 65536u * at[2] + 16777216u * at[3];
}

/* What the model did with a file that was salvaged. */
static void count(const uint8_t *file, size_t size, size_t room,
                  const struct salvaged *a)
{
    enum salvage_cut cause[TRACE_SECTIONS];
    int s, sections = file[0];
    uint32_t end = 2 + 8 * (uint32_t)sections;

    salvage_causes(file, size, cause);
    for (s = 0; s < sections; s++) {
        met[CUT_WRONG] += cause[s] == SALVAGE_WRONG;
        met[CUT_SECTION] += cause[s] == SALVAGE_PAST_SECTION;
        met[CUT_FILE] += cause[s] == SALVAGE_PAST_FILE;
        end += number_at(file + 6 + 8 * s);
    }
    met[SALVAGED]++;
    met[NOTHING_CUT] += a->cut == 0;
    met[SEVERAL] += a->cut > 1;
    met[LEFT_OFF] += end < size;
    met[EXACT] += a->length == room;
    met[WIDE] += room > TRACE_BYTES;
    met[MOST_LOST] += a->lost > 60000;
}

/* What was salvaged, by the library: it plays, and is its own salvage. */
static int holds(const uint8_t *new_file, size_t length)
{
    static uint8_t again[65535];
    thurafeqa m;
    uint32_t refusal;
    uint64_t told;

    thurafeqa_power_up(&m);
    refusal = thurafeqa_refusal(thurafeqa_play(&m, new_file, length));
    met[MANY_CALLS] += refusal == THURAFEQA_TOO_MANY_CALLS;
    met[PLAYED] += refusal == 0;
    told = thurafeqa_salvage(new_file, length, again, length);
    return (refusal == 0 || refusal == THURAFEQA_TOO_MANY_CALLS) &&
           told == length && memcmp(again, new_file, length) == 0;
}

static int same(const uint8_t *file, size_t size, uint8_t *lent, size_t room,
                const uint8_t *made)
{
    static uint8_t model[SOME_CUT_ROOM];
    struct salvaged a = {0, 0, 0};
    uint64_t told, want;
    size_t i;
    int number;

    for (i = 0; i < room; i++)
        model[i] = lent[i] = (uint8_t)(some() >> 8);
    number = salvage_file(file, size, model, room, &a);
    told = thurafeqa_salvage(file, size, lent, room);
    want = (uint64_t)a.cut << 48 | (uint64_t)a.lost << 32 |
           (uint64_t)number << 16 | a.length;
    if (told != want || memcmp(lent, model, room) != 0 ||
        memcmp(file, made, size) != 0)
        return 0;
    if (thurafeqa_refusal(thurafeqa_salvage_answer(told)) != number ||
        thurafeqa_value(thurafeqa_salvage_answer(told)) != a.length ||
        thurafeqa_salvage_lost(told) != a.lost ||
        thurafeqa_salvage_cut(told) != a.cut)
        return 0;
    met[BAD_CONTENTS] += number == (int)THURAFEQA_BAD_CONTENTS;
    met[NO_ROOM] += number == (int)THURAFEQA_NO_ROOM;
    met[BOTH] += number == (int)THURAFEQA_BAD_CONTENTS && room < 10;
    if (number != 0)
        return 1;
    count(file, size, room, &a);
    for (i = 0; i < file[0]; i++)
        met[TO_NOTHING] += number_at(lent + 6 + 8 * i) == 0 &&
                           number_at(file + 6 + 8 * i) > 0;
    return holds(lent, a.length);
}

int main(int argc, char **argv)
{
    unsigned long calls = argc > 1 ? strtoul(argv[1], 0, 10) : 1000000, n;
    uint64_t seed = argc > 2 ? strtoull(argv[2], 0, 10) : 1;
    static uint8_t made[SOME_TRACE_BYTES], whole[TRACE_BYTES];
    uint8_t *files = new_area(SOME_TRACE_BYTES);
    uint8_t *rooms = new_area(SOME_CUT_ROOM);
    int i, bad = 0;

    state = seed * UINT64_C(0x9E3779B97F4A7C15) + 1;
    for (n = 1; n <= calls; n++) {
        uint64_t from = seed * UINT64_C(1000003) + n;
        size_t size = some_cut(from, made), room, j;
        uint8_t *file = files, *lent = rooms;
        struct salvaged a = {0, 0, 10};

        if (n % 16 == 0) { /* any bytes, with a small count now and then */
            size = some() % 1200;
            for (j = 0; j < size; j++)
                made[j] = (uint8_t)(some() >> 16 & (n % 32 ? 0xFF : 0x07));
            if (size > 1 && n % 48 == 0)
                made[1] = 0;
        }
        if (n & 1)
            file += SOME_TRACE_BYTES - size;
        memcpy(file, made, size);
        (void)salvage_file(file, size, whole, sizeof whole, &a);
        room = some_cut_room(from, a.length);
        if (salvage_refused(file, size) && n % 4 == 0)
            room = some() % 12;
        met[ONE_SHORT] += !salvage_refused(file, size) && room + 1 == a.length;
        if (n & 2)
            lent += SOME_CUT_ROOM - room;
        if (!same(file, size, lent, room, made)) {
            printf("salvage_compare: file %lu of seed %lu: a difference\n", n,
                   (unsigned long)seed);
            return 1;
        }
    }
    printf("salvage_compare: %lu files, 0 differences\n", calls);
    for (i = 0; i < EVENTS; i++) {
        printf("  %-30s %lu\n", event_name[i], met[i]);
        bad |= met[i] == 0;
    }
    if (bad) {
        puts("salvage_compare: FAILED: a case was not reached");
        return 1;
    }
    return 0;
}
